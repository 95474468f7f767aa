//! The vote, as the publications have it for one process.
//!
//! Written from Algorithm 1 of IS-RR-2014-004 and Algorithms 2 and 3 of
//! LIPIcs.OPODIS.2025.7. The three differ in their thresholds only, and these
//! come from the counts b, e and l of the model:
//!
//! | algorithm | b, e, l | propose | candidate | decide | maintain |
//! |---|---|---|---|---|---|
//! | 1 | 2t, t, 2t | n - 2t | > 2t | > 3t | n - 2t |
//! | 2 | 2t, 0, t | n - 2t, and n - t with the empty ones | > t | > t | n - 2t |
//! | 3 | t, 0, t | n - t | > t | > t | n - t |
//!
//! "Some w with ..." is the one in the lowest-numbered cell, and the
//! publications' 0 is the fallback.

use crate::models::Counts;
use crate::values::{Cell, Value};

/// What a round is for.
#[derive(Clone, Copy, PartialEq, Eq, Debug)]
pub enum Stage {
    Proposing,
    Collecting,
    Deciding { phase: usize },
    Maintaining,
}

impl Stage {
    pub fn of(round: usize, n: usize) -> Stage {
        match (round / 3, round % 3) {
            (phase, _) if phase >= n => Stage::Maintaining,
            (_, 0) => Stage::Proposing,
            (_, 1) => Stage::Collecting,
            (phase, _) => Stage::Deciding { phase },
        }
    }

    /// How many cells a message has.
    pub fn columns(self, n: usize) -> usize {
        match self {
            Stage::Deciding { .. } => n,
            _ => 1,
        }
    }
}

/// The publications' #w(X).
pub fn holders(cells: &[Cell], w: Value) -> usize {
    cells.iter().filter(|&&cell| cell == Some(w)).count()
}

/// The publications' #⊥(X).
fn empties(cells: &[Cell]) -> usize {
    cells.iter().filter(|cell| cell.is_none()).count()
}

/// "If there is a w other than ⊥ such that ...": the first that passes.
fn first_such(cells: &[Cell], passes: impl Fn(Value) -> bool) -> Cell {
    cells.iter().copied().flatten().find(|&w| passes(w))
}

/// The thresholds of one vote.
#[derive(Clone, Copy, Debug)]
pub struct Quorums {
    pub n: usize,
    pub counts: Counts,
    pub fallback: Value,
}

impl Quorums {
    /// Algorithm 1, lines 29 and 30; Algorithms 2 and 3, lines 7 and 8.
    pub fn propose(&self, heard: &[Cell]) -> Cell {
        let Counts { b, l, .. } = self.counts;
        first_such(heard, |w| {
            let with_w = holders(heard, w);
            with_w + b >= self.n && with_w + empties(heard) + l >= self.n
        })
    }

    /// Algorithm 1, lines 42 to 49; Algorithms 2 and 3, lines 15 to 23.
    /// `echo[j]` is the row received from process j.
    pub fn decide(&self, phase: usize, echo: &[Vec<Cell>]) -> Value {
        let Counts { e, l, .. } = self.counts;
        let candidates: Vec<Cell> = (0..self.n)
            .map(|column| self.candidate(&column_of(echo, column)))
            .collect();
        let coordinator = &echo[phase];
        first_such(&candidates, |w| holders(&candidates, w) > l + e)
            .or_else(|| first_such(coordinator, |w| holders(coordinator, w) > l))
            .unwrap_or(self.fallback)
    }

    /// Algorithm 1, line 44; Algorithms 2 and 3, line 17.
    pub fn candidate(&self, column: &[Cell]) -> Cell {
        first_such(column, |w| holders(column, w) > self.counts.l)
    }

    /// Algorithm 1, lines 18 to 23; Algorithms 2 and 3, line 27.
    pub fn maintain(&self, heard: &[Cell]) -> Cell {
        first_such(heard, |w| holders(heard, w) + self.counts.b >= self.n)
    }
}

/// One column of what was heard, by sender.
pub fn column_of(heard: &[Vec<Cell>], column: usize) -> Vec<Cell> {
    heard.iter().map(|message| message[column]).collect()
}

/// What a controller keeps from round to round.
#[derive(Clone, Debug)]
pub struct Process {
    pub v: Cell,
    pub row: Vec<Cell>,
    pub decision: Cell,
}

impl Process {
    pub fn new(n: usize, v: Cell) -> Process {
        Process {
            v,
            row: vec![None; n],
            decision: None,
        }
    }

    /// What it sends to all if it is honest.
    pub fn message(&self, stage: Stage) -> Vec<Cell> {
        match stage {
            Stage::Proposing | Stage::Collecting => vec![self.v],
            Stage::Deciding { .. } => self.row.clone(),
            Stage::Maintaining => vec![self.decision],
        }
    }

    /// What it makes of the messages heard, one from each sender.
    pub fn receive(&mut self, stage: Stage, quorums: &Quorums, heard: &[Vec<Cell>]) {
        match stage {
            Stage::Proposing => self.v = quorums.propose(&column_of(heard, 0)),
            Stage::Collecting => self.row = column_of(heard, 0),
            Stage::Deciding { phase } => self.v = Some(quorums.decide(phase, heard)),
            Stage::Maintaining => {
                self.decision = quorums.maintain(&column_of(heard, 0));
                return;
            }
        }
        // Only the last deciding round decides.
        let last = stage
            == Stage::Deciding {
                phase: quorums.n - 1,
            };
        self.decision = if last { self.v } else { None };
    }
}
