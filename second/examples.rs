//! The example files, each a small story. docs/FORMAT.md tells them.

use std::io;
use std::path::Path;

use crate::files::Draft;
use crate::listings::{list, text};
use crate::models::{Base, Model, Set};
use crate::runs::Place;
use crate::values::{Kind, Value};
use crate::votes::Stage;

/// Writes each example as NAME.run, with its listing as NAME.txt.
pub fn write_all(folder: &Path) -> io::Result<()> {
    std::fs::create_dir_all(folder)?;
    for (name, draft) in all() {
        let bytes = draft.bytes();
        std::fs::write(folder.join(name).with_extension("run"), &bytes)?;
        std::fs::write(folder.join(name).with_extension("txt"), text(&list(&bytes)))?;
    }
    Ok(())
}

pub fn all() -> [(&'static str, Draft); 8] {
    [
        ("two-setpoints", two_setpoints()),
        ("equivocation", equivocation()),
        ("sheet-vote", sheet_vote()),
        ("stamps", stamps()),
        ("seated-at-the-end", seated_at_the_end()),
        ("no-decision-yet", no_decision_yet()),
        ("forbidden-move", forbidden_move()),
        ("share-too-large", share_too_large()),
    ]
}

fn without_stamps(base: Base) -> Model {
    Model {
        base,
        stamps: false,
    }
}

fn setpoints(tenths: &[u16]) -> Vec<Value> {
    tenths.iter().copied().map(Value::Setpoint).collect()
}

fn only(controller: usize) -> Set {
    [controller].into_iter().collect()
}

/// The file worked through in docs/FORMAT.md.
fn two_setpoints() -> Draft {
    let mut draft = Draft::new(
        Kind::Setpoint,
        without_stamps(Base::Aware),
        0,
        &setpoints(&[500, 600]),
        Set::EMPTY,
    );
    (0..6).for_each(|_| draft.add_round(Set::EMPTY));
    draft
}

/// An upset wanders round the block and tells the lower half 480 and the upper
/// half 520 in every round, also after the decision.
fn equivocation() -> Draft {
    let n = 4;
    let proposals = setpoints(&[480, 480, 520, 520]);
    let mut draft = Draft::new(
        Kind::Setpoint,
        without_stamps(Base::Carried),
        1,
        &proposals,
        only(3),
    );
    let mut before = 3;
    for round in 0..3 * n + 3 {
        for receiver in 0..n {
            let told = if receiver < 2 { 480 } else { 520 };
            tell(
                &mut draft,
                round,
                n,
                before,
                receiver,
                Value::Setpoint(told),
            );
        }
        before = round % n;
        draft.add_round(only(before));
    }
    draft
}

/// Four of five controllers agree how to share the warm water; the fifth has an
/// upset throughout, which urges each of them to another zone.
fn sheet_vote() -> Draft {
    let n = 5;
    let shares = Value::Sheet([400, 300, 200, 100]);
    let urged = [
        [1000, 0, 0, 0],
        [0, 1000, 0, 0],
        [0, 0, 1000, 0],
        [0, 0, 0, 1000],
        [0, 0, 500, 500],
    ];
    let mut draft = Draft::new(
        Kind::Sheet,
        without_stamps(Base::Aware),
        1,
        &[shares; 5],
        only(4),
    );
    for round in 0..3 * n {
        for (receiver, &urged) in urged.iter().enumerate() {
            tell(&mut draft, round, n, 4, receiver, Value::Sheet(urged));
        }
        draft.add_round(only(4));
    }
    draft
}

/// Three controllers bear a wandering upset, since it must tell all the same.
fn stamps() -> Draft {
    let n = 3;
    let model = Model {
        base: Base::Carried,
        stamps: true,
    };
    let mut draft = Draft::new(
        Kind::Setpoint,
        model,
        1,
        &setpoints(&[455, 455, 455]),
        only(2),
    );
    let mut before = 2;
    for round in 0..3 * n + 2 {
        tell(&mut draft, round, n, before, 0, Value::Setpoint(900));
        before = round % n;
        draft.add_round(only(before));
    }
    draft
}

/// The upset comes to controller 5 in the last round.
fn seated_at_the_end() -> Draft {
    let n = 6;
    let proposals = setpoints(&[610, 610, 610, 610, 610, 350]);
    let mut draft = Draft::new(
        Kind::Setpoint,
        without_stamps(Base::Unaware),
        1,
        &proposals,
        Set::EMPTY,
    );
    (0..3 * n).for_each(|_| draft.add_round(Set::EMPTY));
    draft.add_round(only(2));
    // In round 19 controller 2 was just left, and controller 5 is seated.
    tell(&mut draft, 3 * n + 1, n, 2, 0, Value::Setpoint(200));
    tell(&mut draft, 3 * n + 1, n, 5, 0, Value::Setpoint(900));
    tell(&mut draft, 3 * n + 1, n, 5, 1, Value::Setpoint(200));
    draft.add_round(only(5));
    draft
}

/// One round short of the last of the fourth phase.
fn no_decision_yet() -> Draft {
    let n = 4;
    let proposals = setpoints(&[530, 530, 530, 530]);
    let mut draft = Draft::new(
        Kind::Setpoint,
        without_stamps(Base::Fixed),
        1,
        &proposals,
        only(1),
    );
    (0..3 * n - 1).for_each(|_| draft.add_round(only(1)));
    draft
}

/// An upset that ought to stay at controller 2 turns up at controller 3.
fn forbidden_move() -> Draft {
    let proposals = setpoints(&[500, 500, 500, 500]);
    let mut draft = Draft::new(
        Kind::Setpoint,
        without_stamps(Base::Fixed),
        1,
        &proposals,
        only(2),
    );
    for round in 0..12 {
        draft.add_round(only(if round < 3 { 2 } else { 3 }));
    }
    draft
}

/// The last zone of controller 1's sheet has one part in a thousand too much.
fn share_too_large() -> Draft {
    let shares = Value::Sheet([400, 300, 200, 100]);
    let mut draft = Draft::new(
        Kind::Sheet,
        without_stamps(Base::Aware),
        0,
        &[shares; 2],
        Set::EMPTY,
    );
    draft.proposals[1] = [400u16, 300, 200, 101]
        .iter()
        .flat_map(|share| share.to_le_bytes())
        .collect();
    (0..6).for_each(|_| draft.add_round(Set::EMPTY));
    draft
}

/// Lines by which `sender` tells `receiver` this value in every column.
fn tell(draft: &mut Draft, round: usize, n: usize, sender: usize, receiver: usize, value: Value) {
    for column in 0..Stage::of(round, n).columns(n) {
        let place = Place {
            sender,
            receiver,
            column,
        };
        draft.add_line(value.kind(), round, place, Some(value));
    }
}
