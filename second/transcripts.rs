//! Performing a script, call by call, and the transcript of it.

use std::fmt;

use crate::benches::{Answer, Answered, Bench, Call, CallName, Turn};
use crate::models::Set;
use crate::refusals::Refusal;
use crate::replies::Reply;
use crate::runs::Round;
use crate::scripts::{Head, Script};
use crate::values::Value;
use crate::votes::Stage;

pub struct Transcript {
    pub head: Head,
    pub cells: usize,
    pub entries: Vec<Entry>,
    /// The set of each closed round.
    pub closed: Vec<Set>,
    pub clean: Set,
    pub filled: Filled,
}

/// A call with its answer.
pub struct Entry {
    pub call: Call,
    pub answered: Answered,
    /// The round that it begins, if it is a seat that was accepted.
    pub begins: Option<Begun>,
}

/// A round that a seat begins.
#[derive(Clone, Copy, PartialEq, Eq, Debug)]
pub struct Begun {
    pub number: usize,
    pub stage: Stage,
    pub seated: Set,
}

/// All filled decisions that were answered, together.
#[derive(Clone, Copy, PartialEq, Eq, Debug)]
pub enum Filled {
    Nothing,
    All(Value),
    Apart,
}

/// The transcript of a script that is given as a text.
pub fn replay(text: &[u8]) -> Reply {
    match Script::read(text) {
        Ok(script) => Reply::with(Transcript::of(&script).to_string().into_bytes()),
        Err(flaws) => Reply::without(&flaws),
    }
}

impl Transcript {
    pub fn of(script: &Script) -> Transcript {
        let mut bench = Bench::new(script.head.kind, script.head.model(), script.store());
        let mut closed = Vec::new();
        let entries: Vec<Entry> = script
            .calls
            .iter()
            .map(|call| perform(&mut bench, &call.what, &mut closed))
            .collect();
        let n = match bench.turn() {
            Turn::Idle => 0,
            Turn::Waiting(run) => run.n(),
            Turn::Seated(round) => round.run().n(),
        };
        Transcript {
            head: script.head,
            cells: script.store(),
            clean: clean(n, &closed),
            filled: Filled::among(&entries),
            entries,
            closed,
        }
    }

    /// The lines that a listing has for whoever was asked behind the last close;
    /// nothing where another call was refused, or no block was opened.
    pub fn decided_lines(&self) -> Option<Vec<String>> {
        let asks = |call: &Call| call.name() == CallName::Decision;
        let mut entries = self.entries.iter();
        let accepted = entries.all(|entry| entry.answered.is_ok() || asks(&entry.call));
        let asked = self
            .entries
            .iter()
            .rev()
            .map_while(|entry| match entry.call {
                Call::Decision(controller) => Some((controller, entry.answered)),
                _ => None,
            });
        let lines = asked.filter_map(|(controller, answered)| match answered {
            Ok(Answer::Decision(Some(value))) => Some(format!("{controller} {value}")),
            Ok(Answer::Decision(None)) => Some(format!("{controller} none")),
            Err(Refusal::WasSeated) => Some(format!("{controller} upset")),
            _ => None,
        });
        accepted.then(|| lines.collect())
    }
}

fn perform(bench: &mut Bench, call: &Call, closed: &mut Vec<Set>) -> Entry {
    let under_way = seated(bench.turn());
    let answered = bench.perform(call);
    let accepted = answered.is_ok();
    if accepted && *call == Call::Close {
        closed.extend(under_way.map(|round| round.seated));
    }
    let begins = match call {
        Call::Seat(_) if accepted => seated(bench.turn()),
        _ => None,
    };
    Entry {
        call: call.clone(),
        answered,
        begins,
    }
}

/// The round under way.
fn seated(turn: &Turn) -> Option<Begun> {
    match turn {
        Turn::Seated(round) => Some(Begun::of(round)),
        _ => None,
    }
}

/// The controllers that were unseated when their rows were made and heard.
fn clean(n: usize, closed: &[Set]) -> Set {
    let phases = closed.chunks_exact(3).take(n).enumerate();
    phases
        .filter(|&(phase, sets)| !sets[1].has(phase) && !sets[2].has(phase))
        .map(|(phase, _)| phase)
        .collect()
}

impl Begun {
    fn of(round: &Round) -> Begun {
        Begun {
            number: round.number,
            stage: round.stage,
            seated: round.after,
        }
    }
}

impl Filled {
    fn among(entries: &[Entry]) -> Filled {
        let mut values = entries.iter().filter_map(|entry| match entry.answered {
            Ok(Answer::Decision(decision)) => decision,
            _ => None,
        });
        match values.next() {
            None => Filled::Nothing,
            Some(first) if values.all(|value| value == first) => Filled::All(first),
            Some(_) => Filled::Apart,
        }
    }
}

impl fmt::Display for Transcript {
    fn fmt(&self, f: &mut fmt::Formatter) -> fmt::Result {
        writeln!(f, "{}\ncells {}", self.head, self.cells)?;
        self.entries
            .iter()
            .try_for_each(|entry| write!(f, "{entry}"))?;
        writeln!(f, "# rounds closed: {}", self.closed.len())?;
        writeln!(f, "# clean coordinators: {}", self.clean)?;
        writeln!(f, "# filled decisions: {}", self.filled)
    }
}

impl fmt::Display for Entry {
    fn fmt(&self, f: &mut fmt::Formatter) -> fmt::Result {
        if let Some(round) = self.begins {
            writeln!(f, "# {round}")?;
        }
        write!(f, "{}  # ", self.call)?;
        match self.answered {
            Ok(Answer::Accepted) => writeln!(f, "accepted"),
            Ok(Answer::Decision(None)) => writeln!(f, "none"),
            Ok(Answer::Decision(Some(value))) => writeln!(f, "{}", value.word()),
            Err(refusal) => writeln!(f, "refused {}: {}", refusal.number(), refusal.meaning()),
        }
    }
}

impl fmt::Display for Begun {
    fn fmt(&self, f: &mut fmt::Formatter) -> fmt::Result {
        let stage = match self.stage {
            Stage::Proposing => "proposing",
            Stage::Collecting => "collecting",
            Stage::Deciding { .. } => "deciding",
            Stage::Maintaining => "maintaining",
        };
        write!(f, "round {}: {stage}, ", self.number)?;
        if self.stage != Stage::Maintaining {
            // A phase has the number of its coordinator.
            let phase = self.number / 3;
            write!(f, "phase {phase}, coordinator {phase}, ")?;
        }
        write!(f, "seated {}", self.seated)
    }
}

impl fmt::Display for Filled {
    fn fmt(&self, f: &mut fmt::Formatter) -> fmt::Result {
        match self {
            Filled::Nothing => f.write_str("none"),
            Filled::All(value) => write!(f, "all {}", value.word()),
            Filled::Apart => f.write_str("not all equal"),
        }
    }
}
