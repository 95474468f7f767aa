//! The votes of docs/VOTES.md. Built and run by
//! `rustc --test --edition 2024 second/main.rs -o second-tests`.

use crate::examples;
use crate::files::RunFile;
use crate::listings::{list, text};
use crate::makers;
use crate::models::{Base, Counts, Model, Set};
use crate::refusals::Refusal;
use crate::runs::{MOST_CELLS, NotSeated, Opening, Place, Round, Run};
use crate::values::{Cell, Kind, Value};
use crate::votes::Quorums;

const AWARE: Model = Model {
    base: Base::Aware,
    stamps: false,
};
const UNAWARE: Model = Model {
    base: Base::Unaware,
    stamps: false,
};
const CARRIED: Model = Model {
    base: Base::Carried,
    stamps: false,
};
const FIXED: Model = Model {
    base: Base::Fixed,
    stamps: false,
};

/// Setpoints, where 0 stands for an empty cell.
fn cells(tenths: &[u16]) -> Vec<Cell> {
    tenths
        .iter()
        .map(|&tenths| Value::setpoint(tenths))
        .collect()
}

fn some(tenths: u16) -> Cell {
    Value::setpoint(tenths)
}

fn quorums(n: usize, model: Model) -> Quorums {
    Quorums {
        n,
        counts: model.counts(1),
        fallback: Kind::Setpoint.fallback(),
    }
}

fn set(controllers: &[usize]) -> Set {
    controllers.iter().copied().collect()
}

fn open(model: Model, t: usize, tenths: &[u16], initial: &[usize]) -> Result<Run, Refusal> {
    let proposals: Vec<Value> = cells(tenths).into_iter().flatten().collect();
    let opening = Opening::of(t, &proposals, set(initial));
    Run::open(model, Kind::Setpoint, MOST_CELLS, &opening)
}

fn seat(run: Run, seated: &[usize]) -> Result<Round, NotSeated> {
    run.seat(set(seated))
}

/// Seats, forges sender, receiver, column and figure, and closes.
fn round(run: Run, seated: &[usize], forged: &[(usize, usize, usize, u16)]) -> Run {
    let mut round = seat(run, seated).ok().unwrap();
    for &(sender, receiver, column, tenths) in forged {
        round
            .forge(
                Place {
                    sender,
                    receiver,
                    column,
                },
                some(tenths),
            )
            .unwrap();
    }
    round.close()
}

#[test]
fn smallest_blocks() {
    let stamped = |base| Model { base, stamps: true };
    for (model, n) in [
        (UNAWARE, 5),
        (stamped(Base::Aware), 3),
        (stamped(Base::Carried), 2),
    ] {
        assert_eq!(
            open(model, 1, &vec![500; n], &[]).err(),
            Some(Refusal::Resilience)
        );
        assert!(open(model, 1, &vec![500; n + 1], &[]).is_ok());
    }
    assert_eq!(stamped(Base::Aware).counts(1), Counts { b: 2, e: 0, l: 1 });
}

#[test]
fn proposing() {
    let quorums = quorums(5, AWARE);
    assert_eq!(quorums.propose(&cells(&[500, 500, 500, 0, 610])), some(500));
    assert_eq!(quorums.propose(&cells(&[500, 500, 500, 610, 610])), None);
    assert_eq!(quorums.propose(&cells(&[500, 500, 0, 0, 0])), None);
}

#[test]
fn deciding() {
    let rows = |lengths: [usize; 6]| {
        lengths.map(|length| cells(&[&vec![500; length][..], &vec![0; 6 - length]].concat()))
    };
    let quorums = quorums(6, UNAWARE);
    assert_eq!(
        quorums.decide(0, &rows([2, 4, 4, 4, 4, 4])),
        Value::Setpoint(500)
    );
    assert_eq!(
        quorums.decide(2, &rows([4, 2, 3, 2, 2, 4])),
        Value::Setpoint(500)
    );
    assert_eq!(
        quorums.decide(2, &rows([4, 4, 2, 3, 3, 0])),
        Value::Setpoint(400)
    );
}

#[test]
fn several_values_qualify() {
    let quorums = quorums(6, UNAWARE);
    assert_eq!(
        quorums.candidate(&cells(&[610, 610, 500, 500, 610, 500])),
        some(610)
    );
    let mut rows = [610, 610, 500, 500, 610]
        .map(|first| cells(&[first, 0, 0, 0, 0, 0]))
        .to_vec();
    rows.push(cells(&[500, 610, 610, 500, 500, 610]));
    assert_eq!(quorums.decide(5, &rows), Value::Setpoint(500));
}

#[test]
fn maintaining() {
    let quorums = quorums(6, UNAWARE);
    assert_eq!(
        quorums.maintain(&cells(&[500, 500, 500, 500, 610, 610])),
        some(500)
    );
    assert_eq!(
        quorums.maintain(&cells(&[500, 500, 500, 610, 610, 610])),
        None
    );
}

#[test]
fn a_block_of_one() {
    for base in Base::ALL {
        let mut run = open(
            Model {
                base,
                stamps: false,
            },
            0,
            &[500],
            &[],
        )
        .unwrap();
        for _ in 0..3 {
            run = round(run, &[], &[]);
        }
        assert_eq!(run.decision(0), Ok(some(500)));
    }
}

#[test]
fn an_upset_that_never_moves() {
    let run = open(FIXED, 1, &[500; 4], &[2]).unwrap();
    let Err(NotSeated { run, refusal }) = seat(run, &[3]) else {
        panic!("the move is forbidden");
    };
    assert_eq!(refusal, Refusal::ForbiddenMove);
    assert!(seat(run, &[2]).is_ok());
}

#[test]
fn values_at_the_edge() {
    assert!(
        Value::sheet([400, 300, 200, 100]).is_some()
            && Value::sheet([300, 300, 200, 100]).is_some()
    );
    assert!(
        Value::sheet([400, 300, 200, 101]).is_none() && Value::sheet([65535, 1, 0, 0]).is_none()
    );
    assert_eq!(
        [199, 200, 900, 901].map(|tenths| Value::setpoint(tenths).is_some()),
        [false, true, true, false]
    );
}

#[test]
fn refused_forgeries() {
    let run = open(UNAWARE, 1, &[500; 6], &[1]).unwrap();
    let mut round = seat(run, &[2]).ok().unwrap();
    let mut forge = |sender, receiver, column| {
        round.forge(
            Place {
                sender,
                receiver,
                column,
            },
            None,
        )
    };
    for (sender, receiver, column) in [(6, 0, 0), (0, 6, 0), (0, 0, 1)] {
        assert_eq!(forge(sender, receiver, column), Err(Refusal::NoSuchPlace));
    }
    assert_eq!(forge(0, 0, 0), Err(Refusal::NotForgeable));
    assert_eq!(forge(1, 1, 0), Err(Refusal::NotForgeable));
    assert_eq!(forge(1, 0, 0), Ok(()));
    assert_eq!(forge(2, 5, 0), Ok(()));
}

#[test]
fn a_phase_round_by_round() {
    let mut run = open(CARRIED, 1, &[500, 500, 500, 610], &[1]).unwrap();
    run = round(run, &[3], &[(1, 0, 0, 500), (1, 2, 0, 610), (1, 2, 0, 500)]);
    assert_eq!(run.values(), cells(&[500, 0, 500, 0]));
    run = round(run, &[3], &[(3, 0, 0, 610)]);
    assert_eq!(run.values(), cells(&[500, 0, 500, 0]));
    run = round(run, &[1], &[]);
    assert_eq!(run.values(), cells(&[500, 0, 500, 500]));
}

#[test]
fn a_free_coordinator_and_a_stamped_one() {
    let free = open(CARRIED, 1, &[500, 610, 500, 610], &[]).unwrap();
    let stamped = open(
        Model {
            stamps: true,
            ..CARRIED
        },
        1,
        &[500, 610, 500, 610],
        &[],
    )
    .unwrap();
    let [free, stamped] = [free, stamped].map(|run| round(round(run, &[], &[]), &[0], &[]));
    let free = round(free, &[], &[(0, 1, 0, 610), (0, 1, 1, 610), (0, 1, 2, 500)]);
    assert_eq!(free.values(), cells(&[400, 610, 400, 400]));
    let stamped = round(
        stamped,
        &[],
        &[(0, 0, 0, 500), (0, 0, 1, 610), (0, 0, 2, 610)],
    );
    assert_eq!(stamped.values(), cells(&[610; 4]));
}

#[test]
fn the_file_worked_through() {
    let (_, draft) = &examples::all()[0];
    let start = [
        0, 0, 0, 2, 0, 0, 6, 0, 0, 0, 0x10, 0, 0x14, 0, 0x22, 0, 0xF4, 1, 0x58, 2,
    ];
    assert_eq!(draft.bytes(), [&start[..], &[0; 14]].concat());
    assert_eq!(text(&list(&draft.bytes())), "run 2 0 6\n0 400\n1 400\n");
}

#[test]
fn heaviest_files_are_sound_and_full() {
    for kind in Kind::ALL {
        let bytes = makers::heaviest(kind);
        assert!(bytes.len() > 65_520 && bytes.len() <= 65_535);
        assert!(RunFile::read(&bytes).is_ok_and(|file| file.sets.len() == 1000));
        assert!(list(&bytes).is_ok());
    }
}
