//! Why a run file, or a call, is refused.

use std::fmt;

/// One cause for each thing that can be wrong; several share a number.
#[derive(Clone, Copy, PartialEq, Eq, PartialOrd, Ord, Debug)]
pub enum Refusal {
    BlockSize,
    FaultCount,
    Resilience,
    StoreSize,
    ProposalCount,
    SetMembers,
    ForbiddenMove,
    OutOfTurn,
    NoSuchPlace,
    NotForgeable,
    RoundLimit,
    WasSeated,
    TooShort,
    TooLong,
    HeaderCode,
    Layout,
    ProposalValue,
    LineValue,
    FlawedLine,
}

impl Refusal {
    pub fn number(self) -> u8 {
        match self {
            Refusal::BlockSize => 1,
            Refusal::FaultCount => 2,
            Refusal::Resilience => 3,
            Refusal::StoreSize => 4,
            Refusal::ProposalCount => 5,
            Refusal::SetMembers => 6,
            Refusal::ForbiddenMove => 7,
            Refusal::OutOfTurn => 8,
            Refusal::NoSuchPlace => 9,
            Refusal::NotForgeable => 10,
            Refusal::RoundLimit => 11,
            Refusal::WasSeated => 12,
            Refusal::TooShort | Refusal::TooLong => 21,
            Refusal::HeaderCode => 22,
            Refusal::Layout => 23,
            Refusal::ProposalValue | Refusal::LineValue => 24,
            Refusal::FlawedLine => 25,
        }
    }

    /// What it means, in the words of docs/RULES.md.
    pub fn meaning(self) -> &'static str {
        match self.number() {
            1 => "the block must have from 1 to 16 controllers",
            2 => "the upsets could grip the whole block at once: t must be below n",
            3 => "the block is too small for this model and t: n must be above b + e + l",
            4 => "the store is too small for a block of this size",
            5 => "there must be exactly one proposal for each controller",
            6 => "a set names a controller that the block lacks, or more than t controllers",
            7 => "the model does not allow the move",
            8 => "this call is out of turn: the run takes only others at this point",
            9 => "there is no such controller, or the message has no such column",
            10 => {
                "this sender forges nothing, or one message for all, which is given as its message to receiver 0"
            }
            11 => "a run ends after 1,000 rounds, and this one has had them",
            12 => {
                "an upset gripped this controller in the last closed round, or before round 0 if no round is closed"
            }
            21 => "the file is shorter than 16 bytes or longer than 65,535",
            22 => {
                "the header has an unknown code for the kind, the model or stamps, or its byte 5 is not 0"
            }
            23 => {
                "the header gives a part of the file a wrong start, or the file is too long or too short for its header"
            }
            24 => "a value breaks its kind's rule, or has too few or too many bytes",
            _ => {
                "a forgery line is for a round that the file lacks, is out of order, has a tag above 1, or has tag 0 and yet a value"
            }
        }
    }

    /// Refused by a seat or a forge of round `round`.
    pub fn in_round(self, round: usize) -> Refused {
        Refused {
            refusal: self,
            round: Some(round),
        }
    }
}

/// A refusal as the listing tells it.
#[derive(Clone, Copy, PartialEq, Eq, Debug)]
pub struct Refused {
    pub refusal: Refusal,
    pub round: Option<usize>,
}

impl From<Refusal> for Refused {
    fn from(refusal: Refusal) -> Refused {
        Refused {
            refusal,
            round: None,
        }
    }
}

impl fmt::Display for Refused {
    fn fmt(&self, f: &mut fmt::Formatter) -> fmt::Result {
        write!(f, "refused {}", self.refusal.number())?;
        if let Some(round) = self.round {
            write!(f, " round {round}")?;
        }
        writeln!(f)
    }
}
