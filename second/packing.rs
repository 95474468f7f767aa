//! Run files from scripts.

use std::fmt;

use crate::benches::Call;
use crate::files::{Draft, LONGEST, length};
use crate::replies::Reply;
use crate::runs::{MOST_CELLS, Opening, Place};
use crate::scripts::{Numbered, Script};
use crate::values::Kind;

/// Why a line of a script does not fit into a run file. Of several the one that
/// stands first here is told.
#[derive(Clone, Copy, PartialEq, Eq, PartialOrd, Ord, Debug)]
pub enum PackFlaw {
    FewCells,
    NoOpen,
    ProposalCount,
    LargeNumber,
    SecondOpen,
    NoRound,
    RoundNotClosed,
    AfterDecision,
    NoRoom,
}

impl PackFlaw {
    pub const ALL: [PackFlaw; 9] = [
        PackFlaw::FewCells,
        PackFlaw::NoOpen,
        PackFlaw::ProposalCount,
        PackFlaw::LargeNumber,
        PackFlaw::SecondOpen,
        PackFlaw::NoRound,
        PackFlaw::RoundNotClosed,
        PackFlaw::AfterDecision,
        PackFlaw::NoRoom,
    ];
}

impl fmt::Display for PackFlaw {
    fn fmt(&self, f: &mut fmt::Formatter) -> fmt::Result {
        f.write_str(match self {
            PackFlaw::FewCells => "a run file is played over 4688 cells",
            PackFlaw::NoOpen => "a run file begins with an open",
            PackFlaw::ProposalCount => "a run file has one proposal for each controller",
            PackFlaw::LargeNumber => "a run file has no number above 255 here",
            PackFlaw::SecondOpen => "a run file has no second open",
            PackFlaw::NoRound => "a round must be seated here",
            PackFlaw::RoundNotClosed => "the round must be closed first",
            PackFlaw::AfterDecision => "only decisions can follow a decision",
            PackFlaw::NoRoom => "a run file has no room for more",
        })
    }
}

/// As it is told.
impl fmt::Display for Numbered<PackFlaw> {
    fn fmt(&self, f: &mut fmt::Formatter) -> fmt::Result {
        writeln!(f, "line {}: {}", self.line, self.what)
    }
}

/// The run file of a script that is given as a text.
pub fn pack_text(text: &[u8]) -> Reply {
    match Script::read(text) {
        Ok(script) => match pack(&script) {
            Ok(draft) => Reply::with(draft.bytes()),
            Err(flaw) => Reply::without(&flaw),
        },
        Err(flaws) => Reply::without(&flaws),
    }
}

/// The run file of a script, or its first line that does not fit into one.
pub fn pack(script: &Script) -> Result<Draft, Numbered<PackFlaw>> {
    if let Some(cells) = script.cells.filter(|cells| cells.what < MOST_CELLS) {
        return Err(PackFlaw::FewCells.at(cells.line));
    }
    let Some((first, others)) = script.calls.split_first() else {
        return Err(PackFlaw::NoOpen.at(script.last_line));
    };
    let mut packer = Packer::open(script, &first.what).map_err(|flaw| flaw.at(first.line))?;
    for call in others {
        packer.add(&call.what).map_err(|flaw| flaw.at(call.line))?;
    }
    match (packer.at, script.calls.last()) {
        (At::Round, Some(last)) => Err(PackFlaw::RoundNotClosed.at(last.line)),
        _ => Ok(packer.draft),
    }
}

impl PackFlaw {
    fn at(self, line: usize) -> Numbered<PackFlaw> {
        Numbered { line, what: self }
    }
}

/// What the calls so far have come to.
#[derive(Clone, Copy, PartialEq, Eq)]
enum At {
    Rounds,
    /// In a round that is seated.
    Round,
    Decisions,
}

struct Packer {
    kind: Kind,
    draft: Draft,
    at: At,
}

fn is_large(number: usize) -> bool {
    number > usize::from(u8::MAX)
}

impl Packer {
    fn open(script: &Script, call: &Call) -> Result<Packer, PackFlaw> {
        let Call::Open(opening) = call else {
            return Err(PackFlaw::NoOpen);
        };
        let Opening {
            n,
            t,
            initial,
            ref proposals,
        } = *opening;
        if proposals.len() != n {
            return Err(PackFlaw::ProposalCount);
        }
        if is_large(n) || is_large(t) {
            return Err(PackFlaw::LargeNumber);
        }
        // So few proposals always have room.
        let kind = script.head.kind;
        Ok(Packer {
            kind,
            draft: Draft::new(kind, script.head.model(), t, proposals, initial),
            at: At::Rounds,
        })
    }

    fn add(&mut self, call: &Call) -> Result<(), PackFlaw> {
        self.check_place(call)?;
        self.check_turn(call)?;
        match call {
            Call::Seat(set) => {
                self.check_room(1, 0)?;
                self.draft.add_round(*set);
                self.at = At::Round;
            }
            Call::Forge(place, cell) => {
                self.check_room(0, 1)?;
                // The round under way is the last.
                let round = self.rounds() - 1;
                self.draft.add_line(self.kind, round, *place, *cell);
            }
            Call::Close => self.at = At::Rounds,
            Call::Open(_) | Call::Decision(_) => self.at = At::Decisions,
        }
        Ok(())
    }

    fn check_place(&self, call: &Call) -> Result<(), PackFlaw> {
        match *call {
            Call::Forge(
                Place {
                    sender,
                    receiver,
                    column,
                },
                _,
            ) if [sender, receiver, column].into_iter().any(is_large) => Err(PackFlaw::LargeNumber),
            _ => Ok(()),
        }
    }

    fn check_turn(&self, call: &Call) -> Result<(), PackFlaw> {
        match (call, self.at) {
            (Call::Open(_), _) => Err(PackFlaw::SecondOpen),
            (Call::Forge(..) | Call::Close, At::Rounds | At::Decisions) => Err(PackFlaw::NoRound),
            (Call::Seat(_) | Call::Decision(_), At::Round) => Err(PackFlaw::RoundNotClosed),
            (Call::Seat(_), At::Decisions) => Err(PackFlaw::AfterDecision),
            _ => Ok(()),
        }
    }

    /// Whether so many rounds and lines more have room.
    fn check_room(&self, rounds: usize, lines: usize) -> Result<(), PackFlaw> {
        let rounds = self.rounds() + rounds;
        let lines = self.draft.lines.len() + lines;
        match length(self.kind, self.draft.proposals.len(), rounds, lines) <= LONGEST {
            true => Ok(()),
            false => Err(PackFlaw::NoRoom),
        }
    }

    fn rounds(&self) -> usize {
        self.draft.rounds.into()
    }
}
