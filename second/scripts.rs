//! Scripts: reading one, and writing its lines.

use std::fmt;
use std::str::FromStr;

use crate::benches::{Call, CallName};
use crate::files::RunFile;
use crate::models::{Base, Model, Set};
use crate::runs::{MOST_CELLS, MOST_CONTROLLERS, Opening, Place};
use crate::values::Kind;

// A script's numbers are those of the calls, and these have 64 bits.
const _: () = assert!(usize::BITS == 64);

/// How many faulty lines are told; of the others only how many they are.
pub const MOST_TOLD: usize = 20;

/// What the first line says.
#[derive(Clone, Copy, PartialEq, Eq, Debug)]
pub struct Head {
    pub kind: Kind,
    pub base: Base,
    /// How many layers of stamps. All that there are make one model.
    pub layers: usize,
}

/// Something with the number of its line.
#[derive(Clone, Copy, PartialEq, Eq, Debug)]
pub struct Numbered<T> {
    pub line: usize,
    pub what: T,
}

#[derive(Clone, PartialEq, Eq, Debug)]
pub struct Script {
    pub head: Head,
    /// How many the store has, where the script says it.
    pub cells: Option<Numbered<usize>>,
    pub calls: Vec<Numbered<Call>>,
    /// The line behind the last line feed.
    pub last_line: usize,
}

impl Head {
    pub fn model(&self) -> Model {
        Model {
            base: self.base,
            stamps: self.layers > 0,
        }
    }
}

impl fmt::Display for Head {
    fn fmt(&self, f: &mut fmt::Formatter) -> fmt::Result {
        write!(f, "{} {}", self.kind.word(), self.base.word())?;
        f.write_str(&" stamped".repeat(self.layers))
    }
}

/// What is wrong with a line.
#[derive(Clone, Copy, PartialEq, Eq, PartialOrd, Ord, Debug)]
pub enum LineFlaw {
    Kind,
    Model,
    Stamped,
    Call,
    Number,
    Set,
    Proposal,
    Cell,
    Surplus,
    Unlawful,
}

impl LineFlaw {
    pub const ALL: [LineFlaw; 10] = [
        LineFlaw::Kind,
        LineFlaw::Model,
        LineFlaw::Stamped,
        LineFlaw::Call,
        LineFlaw::Number,
        LineFlaw::Set,
        LineFlaw::Proposal,
        LineFlaw::Cell,
        LineFlaw::Surplus,
        LineFlaw::Unlawful,
    ];
}

impl fmt::Display for LineFlaw {
    fn fmt(&self, f: &mut fmt::Formatter) -> fmt::Result {
        f.write_str(match self {
            LineFlaw::Kind => "expected a kind of values: setpoint or sheet",
            LineFlaw::Model => "expected a model: aware, unaware, buffered, carried or fixed",
            LineFlaw::Stamped => "expected nothing more, or the word stamped",
            LineFlaw::Call => "expected a call: open, seat, forge, close or decision",
            LineFlaw::Number => "expected a number from 0 to 18446744073709551615",
            LineFlaw::Set => {
                "expected a set of controllers from 0 to 15, as {0,3} or {}, with no blank in it"
            }
            LineFlaw::Proposal => {
                "expected a value, as 500 or 400/300/200/100, each number up to 65535"
            }
            LineFlaw::Cell => {
                "expected a value, as 500 or 400/300/200/100, each number up to 65535, or the word empty"
            }
            LineFlaw::Surplus => "expected nothing more",
            LineFlaw::Unlawful => {
                "refused 24: a value breaks its kind's rule, or has too few or too many bytes"
            }
        })
    }
}

/// The faulty lines of a script, one at least.
#[derive(PartialEq, Eq, Debug)]
pub struct Flaws(pub Vec<Numbered<LineFlaw>>);

impl fmt::Display for Flaws {
    fn fmt(&self, f: &mut fmt::Formatter) -> fmt::Result {
        for flaw in self.0.iter().take(MOST_TOLD) {
            writeln!(f, "line {}: {}", flaw.line, flaw.what)?;
        }
        match self.0.len().saturating_sub(MOST_TOLD) {
            0 => Ok(()),
            more => writeln!(f, "more faulty lines: {more}"),
        }
    }
}

impl Script {
    /// A script of these calls, with the lines that they have when it is
    /// written.
    pub fn new(head: Head, cells: Option<usize>, calls: Vec<Call>) -> Script {
        let first = if cells.is_some() { 3 } else { 2 };
        let calls: Vec<_> = (first..)
            .zip(calls)
            .map(|(line, what)| Numbered { line, what })
            .collect();
        Script {
            head,
            cells: cells.map(|what| Numbered { line: 2, what }),
            last_line: first + calls.len(),
            calls,
        }
    }

    pub fn read(text: &[u8]) -> Result<Script, Flaws> {
        let last_line = 1 + text.iter().filter(|&&byte| byte == b'\n').count();
        let mut lines = (1..)
            .zip(text.split(|&byte| byte == b'\n'))
            .map(|(line, text)| (line, Words::of(text)))
            .filter(|(_, words)| !words.rest().is_empty());
        let Some((line, mut words)) = lines.next() else {
            let what = LineFlaw::Kind;
            return Err(Flaws(vec![Numbered {
                line: last_line,
                what,
            }]));
        };
        let mut reader = Reader::default();
        let head = reader.keep(line, words.head());
        let kind = head.map(|head| head.what.kind);
        let mut lines = lines.peekable();
        let cells = lines
            .next_if(|(_, words)| words.rest().first() == Some(&&b"cells"[..]))
            .and_then(|(line, mut words)| reader.keep(line, words.cells()));
        let calls = lines
            .filter_map(|(line, mut words)| {
                let what = reader.keep(line, words.call(kind))?.what?;
                Some(Numbered { line, what })
            })
            .collect();
        // A flawed first line is among the flaws.
        match head {
            Some(head) if reader.flaws.is_empty() => Ok(Script {
                head: head.what,
                cells,
                calls,
                last_line,
            }),
            _ => Err(Flaws(reader.flaws)),
        }
    }

    /// How many cells the store has.
    pub fn store(&self) -> usize {
        self.cells.map_or(MOST_CELLS, |cells| cells.what)
    }
}

impl fmt::Display for Script {
    fn fmt(&self, f: &mut fmt::Formatter) -> fmt::Result {
        writeln!(f, "{}", self.head)?;
        if let Some(cells) = self.cells {
            writeln!(f, "cells {}", cells.what)?;
        }
        self.calls
            .iter()
            .try_for_each(|call| writeln!(f, "{}", call.what))
    }
}

/// The calls that a run file stands for, without decisions.
pub fn calls_of(file: &RunFile) -> Vec<Call> {
    let mut calls = vec![Call::Open(file.opening())];
    let mut lines = file.lines.iter().peekable();
    for (number, &set) in file.sets.iter().enumerate() {
        calls.push(Call::Seat(set));
        while let Some(line) = lines.next_if(|line| line.round == number) {
            calls.push(Call::Forge(line.place, line.cell));
        }
        calls.push(Call::Close);
    }
    calls
}

/// Puts the flaws aside while it reads on.
#[derive(Default)]
struct Reader {
    flaws: Vec<Numbered<LineFlaw>>,
}

impl Reader {
    fn keep<T>(&mut self, line: usize, read: Result<T, LineFlaw>) -> Option<Numbered<T>> {
        match read {
            Ok(what) => Some(Numbered { line, what }),
            Err(what) => {
                self.flaws.push(Numbered { line, what });
                None
            }
        }
    }
}

/// The words of a line that are still to be read.
struct Words<'a>(std::vec::IntoIter<&'a [u8]>);

/// A value as it is written: one number or four, under no rule.
type Numbers = Vec<u16>;

/// A call whose values nobody has judged.
enum Written {
    Open(Opening, Vec<Numbers>),
    Forge(Place, Option<Numbers>),
    WithoutValue(Call),
}

impl<'a> Words<'a> {
    fn of(line: &'a [u8]) -> Words<'a> {
        let said = line.split(|&byte| byte == b'#').next().unwrap_or_default();
        let words = said.split(|byte| b" \t\r".contains(byte));
        let words: Vec<_> = words.filter(|word| !word.is_empty()).collect();
        Words(words.into_iter())
    }

    /// Those that are left.
    fn rest(&self) -> &[&'a [u8]] {
        self.0.as_slice()
    }

    /// The next word, as `read` takes it.
    fn take<T>(
        &mut self,
        read: impl FnOnce(&'a [u8]) -> Option<T>,
        flaw: LineFlaw,
    ) -> Result<T, LineFlaw> {
        self.0.next().and_then(read).ok_or(flaw)
    }

    fn number(&mut self) -> Result<usize, LineFlaw> {
        self.take(number, LineFlaw::Number)
    }

    fn set(&mut self) -> Result<Set, LineFlaw> {
        self.take(set, LineFlaw::Set)
    }

    fn end(&self) -> Result<(), LineFlaw> {
        match self.rest() {
            [] => Ok(()),
            _ => Err(LineFlaw::Surplus),
        }
    }

    fn head(&mut self) -> Result<Head, LineFlaw> {
        let named = |name: &str, word: &[u8]| name.as_bytes() == word;
        let kind = |word| Kind::ALL.into_iter().find(|kind| named(kind.word(), word));
        let base = |word| Base::ALL.into_iter().find(|base| named(base.word(), word));
        let head = Head {
            kind: self.take(kind, LineFlaw::Kind)?,
            base: self.take(base, LineFlaw::Model)?,
            layers: self.rest().len(),
        };
        match self.rest().iter().all(|&word| word == b"stamped") {
            true => Ok(head),
            false => Err(LineFlaw::Stamped),
        }
    }

    fn cells(&mut self) -> Result<usize, LineFlaw> {
        self.0.next();
        let cells = self.number()?;
        self.end()?;
        Ok(cells)
    }

    /// A call, or nothing where the kind of its values is not known.
    fn call(&mut self, kind: Option<Kind>) -> Result<Option<Call>, LineFlaw> {
        let written = self.written()?;
        kind.map(|kind| written.judged(kind)).transpose()
    }

    fn written(&mut self) -> Result<Written, LineFlaw> {
        let name = |word| {
            let named = |name: &CallName| name.word().as_bytes() == word;
            CallName::ALL.into_iter().find(named)
        };
        let written = match self.take(name, LineFlaw::Call)? {
            CallName::Open => self.open()?,
            CallName::Seat => Written::WithoutValue(Call::Seat(self.set()?)),
            CallName::Forge => self.forge()?,
            CallName::Close => Written::WithoutValue(Call::Close),
            CallName::Decision => Written::WithoutValue(Call::Decision(self.number()?)),
        };
        self.end()?;
        Ok(written)
    }

    fn open(&mut self) -> Result<Written, LineFlaw> {
        let opening = Opening {
            n: self.number()?,
            t: self.number()?,
            initial: self.set()?,
            proposals: Vec::new(),
        };
        let proposals = (&mut self.0)
            .map(|word| numbers(word).ok_or(LineFlaw::Proposal))
            .collect::<Result<_, _>>()?;
        Ok(Written::Open(opening, proposals))
    }

    fn forge(&mut self) -> Result<Written, LineFlaw> {
        let place = Place::new(self.number()?, self.number()?, self.number()?);
        let cell = |word: &[u8]| match word {
            b"empty" => Some(None),
            _ => numbers(word).map(Some),
        };
        Ok(Written::Forge(place, self.take(cell, LineFlaw::Cell)?))
    }
}

impl Written {
    fn judged(self, kind: Kind) -> Result<Call, LineFlaw> {
        let value = |numbers: Numbers| kind.value(&numbers).ok_or(LineFlaw::Unlawful);
        match self {
            Written::Open(opening, proposals) => {
                let proposals = proposals.into_iter().map(value);
                Ok(Call::Open(Opening {
                    proposals: proposals.collect::<Result<_, _>>()?,
                    ..opening
                }))
            }
            Written::Forge(place, numbers) => {
                Ok(Call::Forge(place, numbers.map(value).transpose()?))
            }
            Written::WithoutValue(call) => Ok(call),
        }
    }
}

/// Digits alone; the number's type says how large it may be.
fn number<T: FromStr>(word: &[u8]) -> Option<T> {
    // Parsing itself would take a sign too.
    let digits = word.iter().all(u8::is_ascii_digit).then_some(word)?;
    std::str::from_utf8(digits).ok()?.parse().ok()
}

fn set(word: &[u8]) -> Option<Set> {
    let inner = word.strip_prefix(b"{")?.strip_suffix(b"}")?;
    if inner.is_empty() {
        return Some(Set::EMPTY);
    }
    inner
        .split(|&byte| byte == b',')
        .map(|member| number(member).filter(|&member| member < MOST_CONTROLLERS))
        .collect()
}

fn numbers(word: &[u8]) -> Option<Numbers> {
    let numbers: Numbers = word
        .split(|&byte| byte == b'/')
        .map(number)
        .collect::<Option<_>>()?;
    matches!(numbers.len(), 1 | 4).then_some(numbers)
}
