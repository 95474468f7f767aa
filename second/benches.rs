//! A run to which any call may be made at any time.

use std::fmt;

use crate::models::{Model, Set};
use crate::refusals::Refusal;
use crate::runs::{NotSeated, Opening, Place, Round, Run};
use crate::values::{Cell, Kind};

#[derive(Clone, PartialEq, Eq, Debug)]
pub enum Call {
    Open(Opening),
    Seat(Set),
    Forge(Place, Cell),
    Close,
    Decision(usize),
}

/// A call without what it takes.
#[derive(Clone, Copy, PartialEq, Eq, PartialOrd, Ord, Debug)]
pub enum CallName {
    Open,
    Seat,
    Forge,
    Close,
    Decision,
}

/// What a call that is not refused answers.
#[derive(Clone, Copy, PartialEq, Eq, Debug)]
pub enum Answer {
    Accepted,
    Decision(Cell),
}

pub type Answered = Result<Answer, Refusal>;

/// Where a run stands.
#[derive(Clone, Default)]
pub enum Turn {
    #[default]
    Idle,
    Waiting(Run),
    Seated(Round),
}

/// A run over a store of so many cells. Open and seat name the one model.
#[derive(Clone)]
pub struct Bench {
    kind: Kind,
    model: Model,
    cells: usize,
    turn: Turn,
}

impl Bench {
    pub fn new(kind: Kind, model: Model, cells: usize) -> Bench {
        Bench {
            kind,
            model,
            cells,
            turn: Turn::Idle,
        }
    }

    pub fn turn(&self) -> &Turn {
        &self.turn
    }

    pub fn perform(&mut self, call: &Call) -> Answered {
        let turn = std::mem::take(&mut self.turn);
        let (turn, answered) = self.step(turn, call);
        self.turn = turn;
        answered
    }

    fn step(&self, turn: Turn, call: &Call) -> (Turn, Answered) {
        match (turn, call) {
            (Turn::Idle, Call::Open(opening)) => {
                match Run::open(self.model, self.kind, self.cells, opening) {
                    Ok(run) => (Turn::Waiting(run), Ok(Answer::Accepted)),
                    Err(refusal) => (Turn::Idle, Err(refusal)),
                }
            }
            (Turn::Waiting(run), Call::Seat(set)) => match run.seat(*set) {
                Ok(round) => (Turn::Seated(round), Ok(Answer::Accepted)),
                Err(NotSeated { run, refusal }) => (Turn::Waiting(run), Err(refusal)),
            },
            (Turn::Seated(mut round), Call::Forge(place, cell)) => {
                let forged = round.forge(*place, *cell);
                (Turn::Seated(round), forged.map(|()| Answer::Accepted))
            }
            (Turn::Seated(round), Call::Close) => {
                (Turn::Waiting(round.close()), Ok(Answer::Accepted))
            }
            (Turn::Waiting(run), Call::Decision(controller)) => {
                let decision = run.decision(*controller);
                (Turn::Waiting(run), decision.map(Answer::Decision))
            }
            (Turn::Seated(round), Call::Decision(controller)) => {
                let decision = round.run().decision(*controller);
                (Turn::Seated(round), decision.map(Answer::Decision))
            }
            (turn, _) => (turn, Err(Refusal::OutOfTurn)),
        }
    }
}

impl Call {
    pub fn name(&self) -> CallName {
        match self {
            Call::Open(_) => CallName::Open,
            Call::Seat(_) => CallName::Seat,
            Call::Forge(..) => CallName::Forge,
            Call::Close => CallName::Close,
            Call::Decision(_) => CallName::Decision,
        }
    }
}

impl CallName {
    pub const ALL: [CallName; 5] = [
        CallName::Open,
        CallName::Seat,
        CallName::Forge,
        CallName::Close,
        CallName::Decision,
    ];

    pub fn word(self) -> &'static str {
        match self {
            CallName::Open => "open",
            CallName::Seat => "seat",
            CallName::Forge => "forge",
            CallName::Close => "close",
            CallName::Decision => "decision",
        }
    }
}

/// As a line of a script.
impl fmt::Display for Call {
    fn fmt(&self, f: &mut fmt::Formatter) -> fmt::Result {
        f.write_str(self.name().word())?;
        match self {
            Call::Open(opening) => {
                write!(f, " {} {} {}", opening.n, opening.t, opening.initial)?;
                opening
                    .proposals
                    .iter()
                    .try_for_each(|proposal| write!(f, " {}", proposal.word()))
            }
            Call::Seat(set) => write!(f, " {set}"),
            Call::Forge(place, cell) => {
                let Place {
                    sender,
                    receiver,
                    column,
                } = place;
                let cell = cell.map_or("empty".to_string(), |value| value.word());
                write!(f, " {sender} {receiver} {column} {cell}")
            }
            Call::Close => Ok(()),
            Call::Decision(controller) => write!(f, " {controller}"),
        }
    }
}
