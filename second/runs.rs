//! A block that votes: who is seated, what is forged, who hears what.
//!
//! The order of calls is in the types: only a seat makes a `Round`, only a
//! `Round` can be forged in, and its close gives the `Run` back. Where any call
//! may come at any time, as in a script, a `Bench` stands over them.

use std::collections::HashMap;

use crate::models::{Class, Model, Set};
use crate::refusals::Refusal;
use crate::values::{Cell, Kind, Value};
use crate::votes::{Process, Quorums, Stage};

pub const MOST_CONTROLLERS: usize = 16;
pub const MOST_ROUNDS: usize = 1000;
/// Enough for every block.
pub const MOST_CELLS: usize = needed(MOST_CONTROLLERS);

/// How many cells of a store a block of `n` takes. This program keeps none; it
/// only refuses where the first would have too few.
pub const fn needed(n: usize) -> usize {
    n * n * n + 2 * n * n + 5 * n
}

/// What the call open takes.
#[derive(Clone, PartialEq, Eq, Debug)]
pub struct Opening {
    pub n: usize,
    pub t: usize,
    pub initial: Set,
    pub proposals: Vec<Value>,
}

impl Opening {
    /// With as many controllers as there are proposals.
    pub fn of(t: usize, proposals: &[Value], initial: Set) -> Opening {
        Opening {
            n: proposals.len(),
            t,
            initial,
            proposals: proposals.to_vec(),
        }
    }

    fn check(&self, model: Model, cells: usize) -> Result<(), Refusal> {
        let Opening { n, t, .. } = *self;
        let counts = model.counts(t);
        if n == 0 || n > MOST_CONTROLLERS {
            return Err(Refusal::BlockSize);
        }
        if t >= n {
            return Err(Refusal::FaultCount);
        }
        if n <= counts.b + counts.e + counts.l {
            return Err(Refusal::Resilience);
        }
        if cells < needed(n) {
            return Err(Refusal::StoreSize);
        }
        if self.proposals.len() != n {
            return Err(Refusal::ProposalCount);
        }
        check_members(self.initial, n, t)
    }
}

/// A run between two rounds.
#[derive(Clone)]
pub struct Run {
    pub model: Model,
    pub quorums: Quorums,
    t: usize,
    round: usize,
    /// Who was seated in the last closed round; at first the initial set.
    before: Set,
    processes: Vec<Process>,
}

impl Run {
    /// Opened over a store of `cells`.
    pub fn open(model: Model, kind: Kind, cells: usize, opening: &Opening) -> Result<Run, Refusal> {
        opening.check(model, cells)?;
        let Opening {
            n,
            t,
            initial,
            ref proposals,
        } = *opening;
        let processes = proposals
            .iter()
            .enumerate()
            .map(|(i, &proposal)| Process::new(n, (!initial.has(i)).then_some(proposal)))
            .collect();
        let quorums = Quorums {
            n,
            counts: model.counts(t),
            fallback: kind.fallback(),
        };
        Ok(Run {
            model,
            quorums,
            t,
            round: 0,
            before: initial,
            processes,
        })
    }

    pub fn n(&self) -> usize {
        self.quorums.n
    }

    pub fn t(&self) -> usize {
        self.t
    }

    /// Who was seated in the last closed round.
    pub fn before(&self) -> Set {
        self.before
    }

    fn check_seat(&self, after: Set) -> Result<(), Refusal> {
        if self.round >= MOST_ROUNDS {
            return Err(Refusal::RoundLimit);
        }
        check_members(after, self.n(), self.t)?;
        if !self.model.allows(self.before, after) {
            return Err(Refusal::ForbiddenMove);
        }
        Ok(())
    }

    pub fn seat(self, after: Set) -> Result<Round, NotSeated> {
        if let Err(refusal) = self.check_seat(after) {
            return Err(NotSeated { run: self, refusal });
        }
        let n = self.n();
        let classes = (0..n)
            .map(|i| self.model.class(self.before, after, i))
            .collect();
        Ok(Round {
            number: self.round,
            stage: Stage::of(self.round, n),
            run: self,
            after,
            classes,
            forged: HashMap::new(),
        })
    }

    /// The decision of a controller, if it can be asked. At first the initial
    /// set counts as that of the last closed round.
    pub fn decision(&self, controller: usize) -> Result<Cell, Refusal> {
        match self.processes.get(controller) {
            None => Err(Refusal::NoSuchPlace),
            Some(_) if self.before.has(controller) => Err(Refusal::WasSeated),
            Some(process) => Ok(process.decision),
        }
    }

    /// The v of each controller.
    #[cfg(test)]
    pub fn values(&self) -> Vec<Cell> {
        self.processes.iter().map(|process| process.v).collect()
    }
}

fn check_members(set: Set, n: usize, t: usize) -> Result<(), Refusal> {
    if set.members().any(|member| member >= n) || set.len() > t {
        return Err(Refusal::SetMembers);
    }
    Ok(())
}

/// A seat that was refused gives the run back as it stood.
pub struct NotSeated {
    pub run: Run,
    pub refusal: Refusal,
}

/// Where a forged cell goes.
#[derive(Clone, Copy, PartialEq, Eq, Hash, Debug)]
pub struct Place {
    pub sender: usize,
    pub receiver: usize,
    pub column: usize,
}

impl Place {
    pub fn new(sender: usize, receiver: usize, column: usize) -> Place {
        Place {
            sender,
            receiver,
            column,
        }
    }
}

/// A round under way.
#[derive(Clone)]
pub struct Round {
    run: Run,
    pub number: usize,
    /// Who is seated in this round: the set after its move.
    pub after: Set,
    pub stage: Stage,
    pub classes: Vec<Class>,
    forged: HashMap<Place, Cell>,
}

impl Round {
    pub fn quorums(&self) -> Quorums {
        self.run.quorums
    }

    /// The run as it stood before the round.
    pub fn run(&self) -> &Run {
        &self.run
    }

    pub fn forge(&mut self, place: Place, cell: Cell) -> Result<(), Refusal> {
        let n = self.run.quorums.n;
        if place.sender >= n || place.receiver >= n || place.column >= self.stage.columns(n) {
            return Err(Refusal::NoSuchPlace);
        }
        match self.classes[place.sender] {
            Class::Honest | Class::Silent => return Err(Refusal::NotForgeable),
            Class::Uniform if place.receiver != 0 => return Err(Refusal::NotForgeable),
            Class::Uniform | Class::Free => {}
        }
        self.forged.insert(place, cell);
        Ok(())
    }

    /// The message that `receiver` hears from `sender`.
    pub fn heard(&self, sender: usize, receiver: usize) -> Vec<Cell> {
        let columns = self.stage.columns(self.run.quorums.n);
        let forged_for = |receiver| -> Vec<Cell> {
            (0..columns)
                .map(|column| {
                    self.forged
                        .get(&Place {
                            sender,
                            receiver,
                            column,
                        })
                        .copied()
                        .flatten()
                })
                .collect()
        };
        match self.classes[sender] {
            Class::Honest => self.run.processes[sender].message(self.stage),
            Class::Silent => vec![None; columns],
            Class::Uniform => forged_for(0),
            Class::Free => forged_for(receiver),
        }
    }

    /// All messages that `receiver` hears, by sender.
    pub fn all_heard(&self, receiver: usize) -> Vec<Vec<Cell>> {
        (0..self.run.quorums.n)
            .map(|sender| self.heard(sender, receiver))
            .collect()
    }

    pub fn close(mut self) -> Run {
        let n = self.run.quorums.n;
        // Every message is from before the round, so all are taken down first.
        let heard: Vec<_> = (0..n).map(|receiver| self.all_heard(receiver)).collect();
        for (i, process) in self.run.processes.iter_mut().enumerate() {
            if self.after.has(i) {
                *process = Process::new(n, None);
            } else {
                process.receive(self.stage, &self.run.quorums, &heard[i]);
            }
        }
        self.run.before = self.after;
        self.run.round += 1;
        self.run
    }
}
