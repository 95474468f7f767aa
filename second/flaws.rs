//! What can be wrong with a run file. Each flaw is laid into a sound draft, as
//! near to being allowed as it can be.

use crate::adversaries::any_value;
use crate::files::{Draft, DraftLine, HEADER, LONGEST, Line};
use crate::models::{Base, Class, Model, Set};
use crate::rng::Rng;
use crate::runs::Place;
use crate::values::{Kind, Value};

/// They stand about in the order in which they are checked.
#[derive(Clone, Copy, PartialEq, Eq, Debug)]
pub enum Flaw {
    TooShort,
    TooLong,
    KindCode,
    BaseCode,
    StampsCode,
    SpareByte,
    WrongOffset,
    WrongLength,
    WrongCount,
    WrappedCount,
    UnlawfulProposal,
    UnlawfulLine,
    LateLine,
    EarlyLine,
    UnknownTag,
    FilledEmpty,
    NoControllers,
    TooManyControllers,
    AllSeated,
    NotResilient,
    InitialBeyondBlock,
    InitialCrowd,
    TooManyRounds,
    RoundBeyondBlock,
    RoundCrowd,
    ForbiddenMove,
    NoSuchSender,
    NoSuchReceiver,
    NoSuchColumn,
    HonestSender,
    SilentSender,
    UniformReceiver,
}

impl Flaw {
    pub const ALL: [Flaw; 32] = [
        Flaw::TooShort,
        Flaw::TooLong,
        Flaw::KindCode,
        Flaw::BaseCode,
        Flaw::StampsCode,
        Flaw::SpareByte,
        Flaw::WrongOffset,
        Flaw::WrongLength,
        Flaw::WrongCount,
        Flaw::WrappedCount,
        Flaw::UnlawfulProposal,
        Flaw::UnlawfulLine,
        Flaw::LateLine,
        Flaw::EarlyLine,
        Flaw::UnknownTag,
        Flaw::FilledEmpty,
        Flaw::NoControllers,
        Flaw::TooManyControllers,
        Flaw::AllSeated,
        Flaw::NotResilient,
        Flaw::InitialBeyondBlock,
        Flaw::InitialCrowd,
        Flaw::TooManyRounds,
        Flaw::RoundBeyondBlock,
        Flaw::RoundCrowd,
        Flaw::ForbiddenMove,
        Flaw::NoSuchSender,
        Flaw::NoSuchReceiver,
        Flaw::NoSuchColumn,
        Flaw::HonestSender,
        Flaw::SilentSender,
        Flaw::UniformReceiver,
    ];

    /// Another flaw that is checked at about the same time.
    pub fn near(self, rng: &Rng) -> Flaw {
        let at = self as usize;
        Flaw::ALL[rng.between(at.saturating_sub(6), (at + 6).min(Flaw::ALL.len() - 1))]
    }

    /// The base under which the flaw can come about, where not every one will do.
    pub fn base(self) -> Option<Base> {
        match self {
            Flaw::ForbiddenMove => Some(Base::Fixed),
            Flaw::SilentSender => Some(Base::Aware),
            Flaw::UniformReceiver => Some(Base::Unaware),
            _ => None,
        }
    }

    pub fn lay_into(self, draft: &mut Draft, rng: &Rng) {
        use Flaw::*;
        match self {
            NoControllers | TooManyControllers | AllSeated | NotResilient => {
                self.spoil_block(draft, rng)
            }
            InitialBeyondBlock | InitialCrowd | RoundBeyondBlock | RoundCrowd | ForbiddenMove => {
                self.spoil_set(draft, rng)
            }
            NoSuchSender | NoSuchReceiver | NoSuchColumn => self.misplace(draft, rng),
            HonestSender | SilentSender | UniformReceiver => self.forge_unforgeable(draft, rng),
            TooManyRounds => too_many_rounds(draft, rng),
            TooShort => draft.missing = draft.bytes().len().saturating_sub(rng.below(HEADER)),
            TooLong => {
                draft.surplus =
                    vec![0; LONGEST + rng.pick(&[1, 1, 2, 5000]) - draft.bytes().len().min(LONGEST)]
            }
            KindCode | BaseCode | StampsCode | SpareByte => self.spoil_codes(draft, rng),
            WrongOffset | WrongLength | WrongCount | WrappedCount => self.spoil_layout(draft, rng),
            UnlawfulProposal if draft.proposals.is_empty() => {}
            UnlawfulProposal => {
                let at = rng.below(draft.proposals.len());
                draft.proposals[at] = unlawful(kind_of(draft), rng);
            }
            UnlawfulLine | LateLine | EarlyLine | UnknownTag | FilledEmpty => {
                self.spoil_line(draft, rng)
            }
        }
    }

    fn spoil_block(self, draft: &mut Draft, rng: &Rng) {
        match self {
            Flaw::NoControllers => resize(draft, 0, rng),
            Flaw::TooManyControllers => resize(draft, rng.pick(&[17, 17, 17, 18, 32, 255]), rng),
            Flaw::AllSeated => draft.t = rng.pick(&[draft.n, draft.n, draft.n.max(16), 255]),
            _ => {
                // Exactly b + e + l controllers.
                let t = usize::from(draft.t).max(1);
                let counts = model_of(draft).counts(t);
                draft.t = t as u8;
                resize(draft, counts.b + counts.e + counts.l, rng);
            }
        }
    }

    fn spoil_set(self, draft: &mut Draft, rng: &Rng) {
        if draft.rounds == 0 {
            draft.add_round(Set(draft.sets[0]));
        }
        let n = usize::from(draft.n);
        let t = usize::from(draft.t);
        let at = match self {
            Flaw::InitialBeyondBlock | Flaw::InitialCrowd => 0,
            _ => rng.between(1, draft.sets.len() - 1),
        };
        let crowd: Set = rng.some_below(n.min(16), t + 1).into_iter().collect();
        draft.sets[at] = match self {
            Flaw::ForbiddenMove => another_set(draft, at, rng).0,
            // Sixteen controllers fill the set, so there it takes a crowd.
            Flaw::InitialBeyondBlock | Flaw::RoundBeyondBlock if n < 16 => {
                1 << rng.pick(&[n, n, 15])
            }
            _ => crowd.0,
        };
    }

    /// A line whose sender, receiver or column there is not.
    fn misplace(self, draft: &mut Draft, rng: &Rng) {
        let n = usize::from(draft.n);
        let round = some_round(draft, rng);
        let mut place = some_place(draft, round, rng);
        let number = rng.pick(&[n, n, 255]);
        match self {
            Flaw::NoSuchSender => place.sender = number,
            Flaw::NoSuchReceiver => place.receiver = number,
            _ => place.column = rng.pick(&[columns(draft, round), columns(draft, round), 255]),
        }
        insert(draft, round, place, rng);
    }

    /// A line for a sender for whom nothing can be forged, or not there.
    fn forge_unforgeable(self, draft: &mut Draft, rng: &Rng) {
        let class = match self {
            Flaw::HonestSender => Class::Honest,
            Flaw::SilentSender => Class::Silent,
            _ => Class::Uniform,
        };
        let n = usize::from(draft.n);
        some_round(draft, rng);
        let senders = draft.senders(model_of(draft), class);
        if senders.is_empty() {
            return;
        }
        let (round, sender) = rng.pick(&senders);
        let mut place = Place {
            sender,
            ..some_place(draft, round, rng)
        };
        if class == Class::Uniform {
            place.receiver = rng.pick(&[1, n - 1]);
        }
        insert(draft, round, place, rng);
    }

    fn spoil_codes(self, draft: &mut Draft, rng: &Rng) {
        match self {
            Flaw::KindCode => draft.kind = rng.pick(&[2, 2, 255]),
            Flaw::BaseCode => draft.base = rng.pick(&[Base::ALL.len() as u8, 255]),
            Flaw::StampsCode => draft.stamps = rng.pick(&[2, 2, 255]),
            _ => draft.spare = rng.pick(&[1, 1, 255]),
        }
    }

    fn spoil_layout(self, draft: &mut Draft, rng: &Rng) {
        let one_off = rng.pick(&[1, u16::MAX, 256]);
        match self {
            Flaw::WrongOffset => draft.header_errors[rng.between(2, 4)] = one_off,
            Flaw::WrongCount => draft.header_errors[rng.below(2)] = one_off,
            Flaw::WrongLength if rng.percent(50) => {
                draft.surplus = vec![0; rng.pick(&[1, 1, 2, 8])]
            }
            Flaw::WrongLength => draft.missing = rng.pick(&[1, 1, 2, 8]),
            // These would be right if a length were taken as a 16-bit number.
            _ => draft.header_errors[rng.below(2)] = 1 << rng.pick(&[13, 15]),
        }
    }

    fn spoil_line(self, draft: &mut Draft, rng: &Rng) {
        let kind = kind_of(draft);
        let round = some_round(draft, rng);
        let place = some_place(draft, round, rng);
        let at = insert(draft, round, place, rng);
        let before = draft.lines[..at].last().map_or(0, |line| line.round);
        let rounds = draft.rounds;
        let line = &mut draft.lines[at];
        if rng.percent(30) {
            // Then a line that is flawed otherwise has an unlawful value too.
            line.value = unlawful(kind, rng);
        }
        match self {
            Flaw::UnlawfulLine => line.value = unlawful(kind, rng),
            Flaw::LateLine => line.round = rng.pick(&[rounds, rounds, u16::MAX]),
            Flaw::EarlyLine if before > 0 => line.round = rng.pick(&[before - 1, before - 1, 0]),
            Flaw::EarlyLine => line.round = rounds,
            Flaw::UnknownTag => line.tag = rng.pick(&[2, 2, 255]),
            _ => {
                line.tag = 0;
                line.value = vec![0; kind.width()];
                line.value[rng.below(kind.width())] = rng.pick(&[1, 128]);
            }
        }
    }
}

/// The draft's kind; setpoints where its code means nothing.
fn kind_of(draft: &Draft) -> Kind {
    Kind::from_code(draft.kind).unwrap_or(Kind::Setpoint)
}

fn model_of(draft: &Draft) -> Model {
    Model {
        base: Base::from_code(draft.base).unwrap_or(Base::Aware),
        stamps: draft.stamps == 1,
    }
}

fn resize(draft: &mut Draft, n: usize, rng: &Rng) {
    let kind = kind_of(draft);
    draft
        .proposals
        .resize_with(n, || any_value(kind, rng).bytes());
    draft.n = n as u8;
}

fn unlawful(kind: Kind, rng: &Rng) -> Vec<u8> {
    let numbers: Vec<u16> = match kind {
        Kind::Setpoint => vec![rng.pick(&[199, 199, 901, 901, 0, u16::MAX])],
        Kind::Sheet => match any_value(kind, rng) {
            // One part in a thousand too much, or a total that is small only modulo 65,536.
            Value::Sheet([a, b, c, _]) if rng.percent(70) => vec![a, b, c, 1001 - a - b - c],
            _ => rng.pick(&[
                vec![u16::MAX, 1, 0, 0],
                vec![0, 0, 0, 1001],
                vec![1 << 15, 0, 1 << 15, 250],
                vec![251, 250, 250, 250],
            ]),
        },
    };
    numbers
        .iter()
        .flat_map(|number| number.to_le_bytes())
        .collect()
}

fn too_many_rounds(draft: &mut Draft, rng: &Rng) {
    let rounds = rng.pick(&[1001, 1001, 1001, 1002, 1500]);
    let last = draft.sets.last().copied().unwrap_or_default();
    while usize::from(draft.rounds) < rounds {
        draft.add_round(Set(last));
    }
    if rng.percent(30) {
        // Set 1,001 is that of round 1,000, whose members then do not matter.
        draft.sets[1001] = u16::MAX;
    }
}

/// A set that may be seated, but is not the one of the round before set `at`.
fn another_set(draft: &Draft, at: usize, rng: &Rng) -> Set {
    let before = Set(draft.sets[at - 1]);
    let size = if before == Set::EMPTY {
        1
    } else {
        rng.between(0, usize::from(draft.t))
    };
    let set: Set = rng
        .some_below(usize::from(draft.n).min(16), size)
        .into_iter()
        .collect();
    if set == before { Set::EMPTY } else { set }
}

/// A round of the draft, which gets one if it had none.
fn some_round(draft: &mut Draft, rng: &Rng) -> usize {
    if draft.rounds == 0 {
        draft.add_round(Set(draft.sets[0]));
    }
    rng.below(usize::from(draft.rounds))
}

fn columns(draft: &Draft, round: usize) -> usize {
    let n = usize::from(draft.n);
    if round < 3 * n && round % 3 == 2 {
        n
    } else {
        1
    }
}

fn some_place(draft: &Draft, round: usize, rng: &Rng) -> Place {
    let n = usize::from(draft.n).max(1);
    Place {
        sender: rng.below(n),
        receiver: rng.below(n),
        column: rng.below(columns(draft, round).max(1)),
    }
}

/// Puts a line at `place` somewhere among those of its round; tells where.
fn insert(draft: &mut Draft, round: usize, place: Place, rng: &Rng) -> usize {
    let kind = kind_of(draft);
    let start = draft
        .lines
        .partition_point(|line| usize::from(line.round) < round);
    let end = draft
        .lines
        .partition_point(|line| usize::from(line.round) <= round);
    let at = rng.between(start, end.max(start));
    let cell = Some(any_value(kind, rng));
    draft
        .lines
        .insert(at, DraftLine::new(kind, Line { round, place, cell }));
    at
}
