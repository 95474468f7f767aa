//! Files made from a seed, to show every difference between two programs.

use crate::adversaries::{self, Forging, Frame, Proposals, Seating, Style};
use crate::files::{Draft, LONGEST, line_width};
use crate::flaws::Flaw;
use crate::models::{Base, Class, Model, Set};
use crate::rng::Rng;
use crate::runs::{MOST_CONTROLLERS, MOST_ROUNDS, Place};
use crate::values::Kind;
use crate::votes::Stage;

/// How a file is made.
#[derive(Clone, Copy, PartialEq, Eq, Debug)]
pub enum Recipe {
    Sound,
    Long,
    Full,
    OneFlaw(Flaw),
    TwoFlaws(Flaw, Flaw),
    Cut,
    ChangedByte,
    Noise,
}

pub struct Made {
    pub recipe: Recipe,
    pub bytes: Vec<u8>,
}

/// Made file number `index` of `seed`.
pub fn make(seed: u64, index: u64) -> Made {
    let rng = Rng::new(seed, index);
    let recipe = recipe(index, &rng);
    let kind_and_model = kind_and_model(index);
    let bytes = match recipe {
        Recipe::Sound => sound(kind_and_model, &rng).bytes(),
        Recipe::Long => long(kind_and_model, &rng).bytes(),
        Recipe::Full => full(kind_and_model, &rng),
        Recipe::OneFlaw(flaw) => flawed(kind_and_model, &[flaw], &rng),
        Recipe::TwoFlaws(first, second) => flawed(kind_and_model, &[first, second], &rng),
        Recipe::Cut => cut(kind_and_model, &rng),
        Recipe::ChangedByte => changed(kind_and_model, &rng),
        Recipe::Noise => noise(kind_and_model, &rng),
    };
    Made { recipe, bytes }
}

/// Goes by the index, not by chance, so that a few hundred files have them all.
fn recipe(index: u64, rng: &Rng) -> Recipe {
    let flaws = Flaw::ALL.len() as u64;
    let (hundred, slot) = (index / 100, index % 100);
    match slot {
        0..50 => Recipe::Sound,
        50..52 => Recipe::Long,
        52 => Recipe::Full,
        53..80 => Recipe::OneFlaw(Flaw::ALL[((hundred * 27 + slot) % flaws) as usize]),
        80..92 => {
            let first = rng.pick(&Flaw::ALL);
            let second = if rng.percent(60) {
                first.near(rng)
            } else {
                rng.pick(&Flaw::ALL)
            };
            Recipe::TwoFlaws(first, second)
        }
        92..95 => Recipe::Cut,
        95..98 => Recipe::ChangedByte,
        _ => Recipe::Noise,
    }
}

/// The kind, the base and the stamps also go round by the index.
fn kind_and_model(index: u64) -> (Kind, Model) {
    // The hundreds turn it on, so that every recipe meets every kind and model.
    let turn = (index + index / 100) as usize;
    let (bases, kinds) = (Base::ALL.len(), Kind::ALL.len());
    (
        Kind::ALL[turn / bases % kinds],
        Model {
            base: Base::ALL[turn % bases],
            stamps: turn / (bases * kinds) % 2 == 1,
        },
    )
}

/// The fewest controllers that bear `t` upsets.
fn fewest(model: Model, t: usize) -> usize {
    let counts = model.counts(t);
    counts.b + counts.e + counts.l + 1
}

/// Mostly the smallest block for its t: there every count is at its threshold.
pub fn frame((kind, model): (Kind, Model), rng: &Rng) -> Frame {
    let most = (0..MOST_CONTROLLERS)
        .take_while(|&t| fewest(model, t) <= MOST_CONTROLLERS)
        .count()
        - 1;
    let t = rng
        .weighted(&[(8, 0), (57, 1), (20, 2), (15, rng.between(1, most))])
        .min(most);
    let least = fewest(model, t);
    let above = rng.between(least, MOST_CONTROLLERS);
    let n = rng
        .weighted(&[
            (55, least),
            (20, least + 1),
            (20, above),
            (5, MOST_CONTROLLERS),
        ])
        .min(MOST_CONTROLLERS);
    let whole = 3 * n;
    let rounds = rng.weighted(&[
        (35, whole),
        (20, whole + 1),
        (18, rng.between(whole + 2, whole + 6)),
        (6, whole - 1),
        (3, 0),
        (8, rng.below(whole)),
        (10, rng.between(whole, whole + 40)),
    ]);
    Frame {
        kind,
        model,
        n,
        t,
        rounds,
    }
}

fn style(frame: Frame, rng: &Rng) -> Style {
    // Without stamps, an upset that moves can split a block.
    let splits = !frame.model.stamps && frame.model.base != Base::Fixed;
    if rng.percent(if splits { 40 } else { 5 }) {
        return splitting_style(rng);
    }
    let proposals = rng.weighted(&[
        (12, Proposals::Agreed),
        (45, Proposals::Edge),
        (20, Proposals::Halves),
        (18, Proposals::Mixed),
        (5, Proposals::Wild),
    ]);
    let seating = rng.weighted(&[
        (4, Seating::Nobody),
        (14, Seating::Staying),
        (22, Seating::Wandering),
        (20, Seating::Marching),
        (40, Seating::Hunting),
    ]);
    let forging = rng.weighted(&[
        (4, Forging::Nothing),
        (8, Forging::Noise),
        (8, Forging::Equivocation),
        (80, Forging::Thresholds),
    ]);
    let lines = rng.weighted(&[(20, 60), (40, 400), (40, 1500)]);
    let last_phase = 3 * (frame.n - 1);
    let from = rng.weighted(&[(75, 0), (15, last_phase), (10, rng.below(frame.rounds + 1))]);
    Style {
        proposals,
        seating,
        forging,
        lines,
        from,
    }
}

fn splitting_style(rng: &Rng) -> Style {
    Style {
        proposals: rng.weighted(&[(80, Proposals::Halves), (20, Proposals::Edge)]),
        seating: Seating::Hunting,
        forging: Forging::Splitting,
        lines: 2000,
        from: 0,
    }
}

pub fn sound(kind_and_model: (Kind, Model), rng: &Rng) -> Draft {
    let frame = frame(kind_and_model, rng);
    let style = style(frame, rng);
    adversaries::sound(frame, style, rng)
}

/// A whole vote in which the adversary keeps the block split, if it can.
pub fn splitting(kind_and_model: (Kind, Model), rng: &Rng) -> Draft {
    let frame = frame(kind_and_model, rng);
    let frame = Frame {
        rounds: frame.rounds.max(3 * frame.n),
        ..frame
    };
    adversaries::sound(frame, splitting_style(rng), rng)
}

fn long(kind_and_model: (Kind, Model), rng: &Rng) -> Draft {
    let rounds = rng.pick(&[MOST_ROUNDS, MOST_ROUNDS - 1, rng.between(100, MOST_ROUNDS)]);
    let frame = Frame {
        rounds,
        ..frame(kind_and_model, rng)
    };
    let style = style(frame, rng);
    adversaries::sound(frame, style, rng)
}

/// As large a file as can be, or a little larger.
fn full(kind_and_model: (Kind, Model), rng: &Rng) -> Vec<u8> {
    let frame = Frame {
        rounds: 3 * MOST_CONTROLLERS,
        n: MOST_CONTROLLERS,
        ..frame(kind_and_model, rng)
    };
    let mut draft = adversaries::sound(
        frame,
        Style {
            lines: LONGEST,
            ..style(frame, rng)
        },
        rng,
    );
    let length = rng.pick(&[LONGEST, LONGEST, LONGEST + 1]);
    fill(&mut draft, length, rng);
    if rng.percent(50) {
        // A sound file's length is even, so only a flawed one has 65,535 bytes.
        draft.surplus = vec![0; length.saturating_sub(draft.bytes().len())];
    }
    draft.bytes()
}

/// Repeats the last line, or adds rounds, until the file has about this length.
fn fill(draft: &mut Draft, length: usize, rng: &Rng) {
    let missing = length.saturating_sub(draft.bytes().len());
    match draft.lines.last().cloned() {
        Some(line) => {
            let count = missing / (6 + line.value.len());
            draft.lines.extend(std::iter::repeat_n(line, count));
        }
        None => {
            let last = Set(draft.sets.last().copied().unwrap_or_default());
            (0..rng.between(0, missing / 2)).for_each(|_| draft.add_round(last));
        }
    }
}

/// A small sound file, in which things can go wrong.
fn modest(kind_and_model: (Kind, Model), rng: &Rng) -> Draft {
    let frame = frame(kind_and_model, rng);
    let frame = Frame {
        rounds: frame.rounds.min(3 * frame.n + 3),
        ..frame
    };
    let seating = rng.pick(&[Seating::Wandering, Seating::Marching, Seating::Marching]);
    let lines = rng.pick(&[0, 5, 40, 200]);
    adversaries::sound(
        frame,
        Style {
            seating,
            lines,
            ..style(frame, rng)
        },
        rng,
    )
}

fn flawed((kind, model): (Kind, Model), flaws: &[Flaw], rng: &Rng) -> Vec<u8> {
    let base = flaws
        .iter()
        .find_map(|flaw| flaw.base())
        .unwrap_or(model.base);
    let mut draft = modest((kind, Model { base, ..model }), rng);
    for flaw in flaws {
        flaw.lay_into(&mut draft, rng);
    }
    draft.bytes()
}

/// Any beginning of a sound file, mostly near one of its borders.
fn cut(kind_and_model: (Kind, Model), rng: &Rng) -> Vec<u8> {
    let draft = modest(kind_and_model, rng);
    let mut bytes = draft.bytes();
    let sets = 16 + draft.proposals.concat().len();
    let lines = sets + 2 * draft.sets.len();
    let border = rng.pick(&[0, 16, sets, lines, bytes.len()]);
    let length = if rng.percent(50) {
        rng.below(bytes.len())
    } else {
        (border + rng.below(3)).saturating_sub(1)
    };
    bytes.truncate(length);
    bytes
}

fn changed(kind_and_model: (Kind, Model), rng: &Rng) -> Vec<u8> {
    let mut bytes = modest(kind_and_model, rng).bytes();
    let at = if rng.percent(30) {
        rng.below(16)
    } else {
        rng.below(bytes.len())
    };
    bytes[at] = rng.pick(&[
        bytes[at] ^ 1 << rng.below(8),
        bytes[at].wrapping_add(1),
        bytes[at].wrapping_sub(1),
        rng.byte(),
    ]);
    bytes
}

/// Noise, or noise after the header of a sound file of that length.
fn noise(kind_and_model: (Kind, Model), rng: &Rng) -> Vec<u8> {
    if rng.percent(40) {
        let length = rng.pick(&[0, 15, 16, 17, rng.below(200)]);
        return rng.bytes(length);
    }
    let mut bytes = modest(kind_and_model, rng).bytes();
    let length = bytes.len();
    let sound = rng.pick(&[10, 16, 16 + rng.below(length - 15)]);
    bytes.truncate(sound);
    let rest = rng.bytes(length - sound);
    bytes.extend(rest);
    bytes
}

/// A sound file that takes much work: the largest block, the most rounds, sets
/// that move, and as many lines as fit, spread over the rounds.
pub fn heaviest(kind: Kind) -> Vec<u8> {
    let rng = Rng::new(1, 1);
    let model = Model {
        base: Base::Carried,
        stamps: false,
    };
    let frame = Frame {
        kind,
        model,
        n: MOST_CONTROLLERS,
        t: 5,
        rounds: MOST_ROUNDS,
    };
    let style = Style {
        proposals: Proposals::Wild,
        seating: Seating::Marching,
        forging: Forging::Nothing,
        lines: 0,
        from: 0,
    };
    let mut draft = adversaries::sound(frame, style, &rng);
    let senders = draft.senders(model, Class::Free);
    let count = (LONGEST - draft.bytes().len()) / line_width(kind);
    for i in 0..count {
        let (round, sender) = senders[i * senders.len() / count];
        let columns = Stage::of(round, frame.n).columns(frame.n);
        let place = Place {
            sender,
            receiver: rng.below(frame.n),
            column: rng.below(columns),
        };
        let cell = Some(adversaries::any_value(kind, &rng));
        draft.add_line(kind, round, place, cell);
    }
    draft.bytes()
}
