//! Run files: reading one, and writing one from a draft.

use crate::models::{Base, Class, Model, Set};
use crate::refusals::Refusal;
use crate::runs::{Opening, Place};
use crate::values::{Cell, Kind, Value};

pub const HEADER: usize = 16;
pub const LONGEST: usize = 65_535;

/// A run file whose bytes are in order. Whether the block can be opened and
/// its calls are accepted is another matter.
pub struct RunFile {
    pub kind: Kind,
    pub model: Model,
    pub t: usize,
    pub proposals: Vec<Value>,
    pub initial: Set,
    /// The set of each round.
    pub sets: Vec<Set>,
    pub lines: Vec<Line>,
}

/// A forgery line.
#[derive(Clone, Copy, PartialEq, Eq, Debug)]
pub struct Line {
    pub round: usize,
    pub place: Place,
    pub cell: Cell,
}

impl RunFile {
    pub fn read(bytes: &[u8]) -> Result<RunFile, Refusal> {
        if bytes.len() < HEADER {
            return Err(Refusal::TooShort);
        }
        if bytes.len() > LONGEST {
            return Err(Refusal::TooLong);
        }
        let kind = Kind::from_code(bytes[0]).ok_or(Refusal::HeaderCode)?;
        let model = read_model(bytes)?;
        let t = usize::from(bytes[4]);
        let layout = Layout::read(kind, bytes);
        if !layout.fits(bytes) {
            return Err(Refusal::Layout);
        }
        let proposals = bytes[HEADER..layout.sets]
            .chunks_exact(kind.width())
            .map(|value| kind.read(value).ok_or(Refusal::ProposalValue))
            .collect::<Result<_, _>>()?;
        let mut all_sets = bytes[layout.sets..layout.lines]
            .chunks_exact(2)
            .map(|pair| Set(number_at(pair, 0)));
        // Layout gives R + 1 sets, so there is a first.
        let initial = all_sets.next().unwrap_or_default();
        let sets: Vec<Set> = all_sets.collect();
        let lines = read_lines(kind, sets.len(), &bytes[layout.lines..])?;
        Ok(RunFile {
            kind,
            model,
            t,
            proposals,
            initial,
            sets,
            lines,
        })
    }
}

impl RunFile {
    pub fn opening(&self) -> Opening {
        Opening::of(self.t, &self.proposals, self.initial)
    }
}

/// The 16-bit number at `at`, low byte first.
fn number_at(bytes: &[u8], at: usize) -> u16 {
    u16::from_le_bytes([bytes[at], bytes[at + 1]])
}

fn read_model(bytes: &[u8]) -> Result<Model, Refusal> {
    let base = Base::from_code(bytes[1]).ok_or(Refusal::HeaderCode)?;
    let stamps = match bytes[2] {
        0 => false,
        1 => true,
        _ => return Err(Refusal::HeaderCode),
    };
    match bytes[5] {
        0 => Ok(Model { base, stamps }),
        _ => Err(Refusal::HeaderCode),
    }
}

/// Where the parts start and the file ends, by the header's counts.
struct Layout {
    sets: usize,
    lines: usize,
    end: usize,
}

impl Layout {
    fn read(kind: Kind, bytes: &[u8]) -> Layout {
        let [n, rounds, lines] = [
            bytes[3].into(),
            number_at(bytes, 6).into(),
            number_at(bytes, 8).into(),
        ];
        Layout::of(kind, n, rounds, lines)
    }

    fn of(kind: Kind, n: usize, rounds: usize, line_count: usize) -> Layout {
        let sets = HEADER + n * kind.width();
        let lines = sets + 2 * (rounds + 1);
        Layout {
            sets,
            lines,
            end: lines + line_count * line_width(kind),
        }
    }

    fn fits(&self, bytes: &[u8]) -> bool {
        let named = [10, 12, 14].map(|at| usize::from(number_at(bytes, at)));
        named == [HEADER, self.sets, self.lines] && bytes.len() == self.end
    }
}

/// How many bytes a file with so many controllers, rounds and lines has.
pub fn length(kind: Kind, n: usize, rounds: usize, lines: usize) -> usize {
    Layout::of(kind, n, rounds, lines).end
}

pub fn line_width(kind: Kind) -> usize {
    6 + kind.width()
}

fn read_lines(kind: Kind, rounds: usize, bytes: &[u8]) -> Result<Vec<Line>, Refusal> {
    let mut lines: Vec<Line> = Vec::new();
    for bytes in bytes.chunks_exact(line_width(kind)) {
        let earliest = lines.last().map_or(0, |line| line.round);
        lines.push(read_line(kind, earliest..rounds, bytes)?);
    }
    Ok(lines)
}

fn read_line(kind: Kind, rounds: std::ops::Range<usize>, bytes: &[u8]) -> Result<Line, Refusal> {
    let round = usize::from(number_at(bytes, 0));
    let [sender, receiver, column] = [bytes[2], bytes[3], bytes[4]].map(usize::from);
    let value = &bytes[6..];
    if !rounds.contains(&round) {
        return Err(Refusal::FlawedLine);
    }
    let cell = match bytes[5] {
        0 if value.iter().all(|&byte| byte == 0) => None,
        1 => Some(kind.read(value).ok_or(Refusal::LineValue)?),
        _ => return Err(Refusal::FlawedLine),
    };
    Ok(Line {
        round,
        place: Place {
            sender,
            receiver,
            column,
        },
        cell,
    })
}

/// A file before it has become bytes. It may have any flaw: its numbers are as
/// they will stand in the file, and nothing is checked.
#[derive(Clone, Debug)]
pub struct Draft {
    pub kind: u8,
    pub base: u8,
    pub stamps: u8,
    pub n: u8,
    pub t: u8,
    pub spare: u8,
    pub rounds: u16,
    pub proposals: Vec<Vec<u8>>,
    /// The initial set first.
    pub sets: Vec<u16>,
    pub lines: Vec<DraftLine>,
    /// Added to R, to G and to each of the three offsets in the header alone.
    pub header_errors: [u16; 5],
    /// Put at the end.
    pub surplus: Vec<u8>,
    /// How many bytes are cut from the end.
    pub missing: usize,
}

#[derive(Clone, PartialEq, Eq, Debug)]
pub struct DraftLine {
    pub round: u16,
    pub sender: u8,
    pub receiver: u8,
    pub column: u8,
    pub tag: u8,
    pub value: Vec<u8>,
}

impl DraftLine {
    pub fn new(kind: Kind, line: Line) -> DraftLine {
        let Place {
            sender,
            receiver,
            column,
        } = line.place;
        let [sender, receiver, column] = [sender, receiver, column].map(|number| number as u8);
        let value = line
            .cell
            .map_or(vec![0; kind.width()], |value| value.bytes());
        DraftLine {
            round: line.round as u16,
            sender,
            receiver,
            column,
            tag: line.cell.is_some().into(),
            value,
        }
    }

    fn bytes(&self) -> Vec<u8> {
        let [low, high] = self.round.to_le_bytes();
        let mut bytes = vec![low, high, self.sender, self.receiver, self.column, self.tag];
        bytes.extend(&self.value);
        bytes
    }
}

impl Draft {
    /// A sound file with an initial set, no rounds and no lines.
    pub fn new(kind: Kind, model: Model, t: usize, proposals: &[Value], initial: Set) -> Draft {
        Draft {
            kind: kind.code(),
            base: model.base.code(),
            stamps: model.stamps.into(),
            n: proposals.len() as u8,
            t: t as u8,
            spare: 0,
            rounds: 0,
            proposals: proposals.iter().map(Value::bytes).collect(),
            sets: vec![initial.0],
            lines: Vec::new(),
            header_errors: [0; 5],
            surplus: Vec::new(),
            missing: 0,
        }
    }

    pub fn add_round(&mut self, set: Set) {
        self.sets.push(set.0);
        self.rounds = self.rounds.wrapping_add(1);
    }

    pub fn add_line(&mut self, kind: Kind, round: usize, place: Place, cell: Cell) {
        self.lines
            .push(DraftLine::new(kind, Line { round, place, cell }));
    }

    /// All controllers of a class, each with the round in which it is so.
    pub fn senders(&self, model: Model, class: Class) -> Vec<(usize, usize)> {
        let moves = self
            .sets
            .windows(2)
            .map(|pair| (Set(pair[0]), Set(pair[1])));
        let all = moves.enumerate().flat_map(|(round, (before, after))| {
            let of_class = move |&i: &usize| model.class(before, after, i) == class;
            (0..usize::from(self.n))
                .filter(of_class)
                .map(move |sender| (round, sender))
        });
        all.collect()
    }

    pub fn bytes(&self) -> Vec<u8> {
        let proposals = self.proposals.concat();
        let sets: Vec<u8> = self.sets.iter().flat_map(|set| set.to_le_bytes()).collect();
        let lines: Vec<u8> = self.lines.iter().flat_map(DraftLine::bytes).collect();
        let sets_start = HEADER + proposals.len();
        let lines_start = sets_start + sets.len();
        let mut bytes = vec![
            self.kind,
            self.base,
            self.stamps,
            self.n,
            self.t,
            self.spare,
        ];
        let numbers = [
            usize::from(self.rounds),
            self.lines.len(),
            HEADER,
            sets_start,
            lines_start,
        ];
        for (number, error) in numbers.into_iter().zip(self.header_errors) {
            bytes.extend((number as u16).wrapping_add(error).to_le_bytes());
        }
        bytes.extend([proposals, sets, lines, self.surplus.clone()].concat());
        bytes.truncate(bytes.len().saturating_sub(self.missing));
        bytes
    }
}
