//! What can come up when a script is performed and packed.

use std::collections::{BTreeMap, HashSet};
use std::fmt;

use crate::benches::{Answer, Call, CallName};
use crate::models::Base;
use crate::packing::{PackFlaw, pack};
use crate::refusals::Refusal;
use crate::scripts::{Flaws, LineFlaw, MOST_TOLD, Script};
use crate::transcripts::{Filled, Transcript};
use crate::values::Kind;
use crate::votes::Stage;

#[derive(Clone, Copy, PartialEq, Eq, PartialOrd, Ord, Debug)]
pub enum Feature {
    Faulty(LineFlaw),
    MoreFaultyLines,
    Performed(Kind),
    Accepted(CallName, Base, Layers),
    Refused(CallName, Refusal),
    Decided(Decided),
    Filled(FilledForm),
    CleanCoordinators(bool),
    Maintaining,
    ReplacedCell,
    SecondOpen,
    NoCells,
    Packed(Kind),
    NotPacked(PackFlaw),
    /// What its decisions are answered can be held against the listing.
    Listed,
}

/// Layers of stamps.
#[derive(Clone, Copy, PartialEq, Eq, PartialOrd, Ord, Debug)]
pub enum Layers {
    None,
    One,
    Several,
}

/// How a decision is answered.
#[derive(Clone, Copy, PartialEq, Eq, PartialOrd, Ord, Debug)]
pub enum Decided {
    Empty,
    Fallback,
    Other,
}

#[derive(Clone, Copy, PartialEq, Eq, PartialOrd, Ord, Debug)]
pub enum FilledForm {
    Nothing,
    All,
    Apart,
}

impl Feature {
    /// All that ought to come up among made scripts.
    pub fn all() -> Vec<Feature> {
        let mut all = vec![
            Feature::MoreFaultyLines,
            Feature::CleanCoordinators(false),
            Feature::CleanCoordinators(true),
            Feature::Maintaining,
            Feature::ReplacedCell,
            Feature::SecondOpen,
            Feature::NoCells,
            Feature::Listed,
        ];
        all.extend(LineFlaw::ALL.map(Feature::Faulty));
        all.extend(PackFlaw::ALL.map(Feature::NotPacked));
        all.extend(Kind::ALL.map(Feature::Performed));
        all.extend(Kind::ALL.map(Feature::Packed));
        all.extend([Decided::Empty, Decided::Fallback, Decided::Other].map(Feature::Decided));
        all.extend([FilledForm::Nothing, FilledForm::All, FilledForm::Apart].map(Feature::Filled));
        all.extend(accepted());
        all.extend(refused());
        all.sort();
        all
    }
}

fn accepted() -> Vec<Feature> {
    let mut all = Vec::new();
    for name in CallName::ALL {
        for base in Base::ALL {
            all.extend(
                [Layers::None, Layers::One, Layers::Several]
                    .map(|layers| Feature::Accepted(name, base, layers)),
            );
        }
    }
    all
}

/// Each call with the refusals for which it is checked.
fn refused() -> Vec<Feature> {
    use Refusal::*;
    let checks: [(CallName, &[Refusal]); 5] = [
        (
            CallName::Open,
            &[
                OutOfTurn,
                BlockSize,
                FaultCount,
                Resilience,
                StoreSize,
                ProposalCount,
                SetMembers,
            ],
        ),
        (
            CallName::Seat,
            &[OutOfTurn, RoundLimit, SetMembers, ForbiddenMove],
        ),
        (CallName::Forge, &[OutOfTurn, NoSuchPlace, NotForgeable]),
        (CallName::Close, &[OutOfTurn]),
        (CallName::Decision, &[OutOfTurn, NoSuchPlace, WasSeated]),
    ];
    checks
        .iter()
        .flat_map(|&(name, refusals)| {
            refusals
                .iter()
                .map(move |&refusal| Feature::Refused(name, refusal))
        })
        .collect()
}

/// What came up with one script.
pub fn features(text: &[u8]) -> Vec<Feature> {
    match Script::read(text) {
        Err(flaws) => of_flaws(&flaws),
        Ok(script) => {
            let transcript = Transcript::of(&script);
            let mut features = of_transcript(&transcript);
            match pack(&script) {
                Ok(_) => features.push(Feature::Packed(script.head.kind)),
                Err(flaw) => features.push(Feature::NotPacked(flaw.what)),
            }
            let decided = transcript.decided_lines().unwrap_or_default();
            if pack(&script).is_ok() && !decided.is_empty() {
                features.push(Feature::Listed);
            }
            features
        }
    }
}

/// Only what is told.
fn of_flaws(Flaws(flaws): &Flaws) -> Vec<Feature> {
    let told = flaws.iter().take(MOST_TOLD);
    let more = (flaws.len() > MOST_TOLD).then_some(Feature::MoreFaultyLines);
    told.map(|flaw| Feature::Faulty(flaw.what))
        .chain(more)
        .collect()
}

fn of_transcript(transcript: &Transcript) -> Vec<Feature> {
    let mut features = vec![
        Feature::Performed(transcript.head.kind),
        Feature::CleanCoordinators(transcript.clean.len() > 0),
        Feature::Filled(match transcript.filled {
            Filled::Nothing => FilledForm::Nothing,
            Filled::All(_) => FilledForm::All,
            Filled::Apart => FilledForm::Apart,
        }),
    ];
    if transcript.cells == 0 {
        features.push(Feature::NoCells);
    }
    features.extend(of_answers(transcript));
    features.extend(of_order(transcript));
    features
}

fn of_answers(transcript: &Transcript) -> Vec<Feature> {
    let head = transcript.head;
    let layers = match head.layers {
        0 => Layers::None,
        1 => Layers::One,
        _ => Layers::Several,
    };
    let mut features = Vec::new();
    for entry in &transcript.entries {
        let name = entry.call.name();
        match entry.answered {
            Err(refusal) => features.push(Feature::Refused(name, refusal)),
            Ok(answer) => {
                features.push(Feature::Accepted(name, head.base, layers));
                if let Answer::Decision(decision) = answer {
                    features.push(Feature::Decided(match decision {
                        None => Decided::Empty,
                        Some(value) if value == head.kind.fallback() => Decided::Fallback,
                        Some(_) => Decided::Other,
                    }));
                }
            }
        }
        if entry
            .begins
            .is_some_and(|round| round.stage == Stage::Maintaining)
        {
            features.push(Feature::Maintaining);
        }
    }
    features
}

/// What goes by the calls that came before.
fn of_order(transcript: &Transcript) -> Vec<Feature> {
    let mut features = Vec::new();
    let mut opened = false;
    let mut forged = HashSet::new();
    for entry in &transcript.entries {
        let accepted = entry.answered.is_ok();
        match entry.call {
            Call::Open(_) if opened => features.push(Feature::SecondOpen),
            Call::Open(_) => opened = accepted,
            Call::Seat(_) if accepted => forged.clear(),
            Call::Forge(place, _) if accepted && !forged.insert(place) => {
                features.push(Feature::ReplacedCell)
            }
            _ => {}
        }
    }
    features
}

/// In how many scripts each thing came up.
#[derive(Default)]
pub struct Tally(BTreeMap<Feature, usize>);

impl Tally {
    pub fn count(&mut self, mut features: Vec<Feature>) {
        features.sort();
        features.dedup();
        for feature in features {
            *self.0.entry(feature).or_default() += 1;
        }
    }

    pub fn missing(&self) -> Vec<Feature> {
        let mut all = Feature::all();
        all.retain(|feature| !self.0.contains_key(feature));
        all
    }
}

impl fmt::Display for Tally {
    fn fmt(&self, f: &mut fmt::Formatter) -> fmt::Result {
        self.0
            .iter()
            .try_for_each(|(feature, count)| writeln!(f, "  {count:6} {feature}"))
    }
}

impl fmt::Display for Feature {
    fn fmt(&self, f: &mut fmt::Formatter) -> fmt::Result {
        match self {
            Feature::Faulty(flaw) => write!(f, "with a line of which is said: {flaw}"),
            Feature::MoreFaultyLines => f.write_str("with more faulty lines than are told"),
            Feature::Performed(kind) => write!(f, "performed, of {kind}"),
            Feature::Accepted(name, base, layers) => {
                let layers = match layers {
                    Layers::None => "",
                    Layers::One => ", stamped",
                    Layers::Several => ", stamped more than once",
                };
                write!(f, "with {} accepted, {}{layers}", name.word(), base.word())
            }
            Feature::Refused(name, refusal) => {
                write!(
                    f,
                    "with {} refused {} ({refusal:?})",
                    name.word(),
                    refusal.number()
                )
            }
            Feature::Decided(Decided::Empty) => f.write_str("with a decision that is empty"),
            Feature::Decided(Decided::Fallback) => f.write_str("with a decision for the fallback"),
            Feature::Decided(Decided::Other) => f.write_str("with a decision for another value"),
            Feature::Filled(FilledForm::Nothing) => f.write_str("with filled decisions: none"),
            Feature::Filled(FilledForm::All) => f.write_str("with filled decisions: all the same"),
            Feature::Filled(FilledForm::Apart) => {
                f.write_str("with filled decisions: not all equal")
            }
            Feature::CleanCoordinators(true) => f.write_str("with a clean coordinator"),
            Feature::CleanCoordinators(false) => f.write_str("without a clean coordinator"),
            Feature::Maintaining => f.write_str("with a maintaining round"),
            Feature::ReplacedCell => f.write_str("with a forged cell that is replaced"),
            Feature::SecondOpen => f.write_str("with an open after one that was accepted"),
            Feature::NoCells => f.write_str("with a store of 0 cells"),
            Feature::Packed(kind) => write!(f, "packed, of {kind}"),
            Feature::NotPacked(flaw) => write!(f, "not packed: {flaw}"),
            Feature::Listed => f.write_str("packed, with all calls accepted but decisions"),
        }
    }
}
