//! Runs another program beside this one, file by file.

use std::collections::BTreeMap;
use std::fmt;
use std::io;
use std::path::{Path, PathBuf};

use crate::listings::{Held, Listing, Report, list, text};
use crate::makers::make;
use crate::models::{Base, Model};
use crate::refusals::{Refusal, Refused};
use crate::replies::{Reply, ask};
use crate::values::Kind;

const MOST_SHOWN: usize = 10;
/// No listing is longer than 512 bytes; what comes after this many is not read.
const MOST_READ: u64 = 65_536;

pub struct Comparison {
    pub program: PathBuf,
    pub seed: u64,
    pub count: u64,
    pub files: Vec<PathBuf>,
}

impl Comparison {
    /// Whether all was alike and all that can come up came up.
    pub fn run(&self) -> io::Result<bool> {
        let mut given = Tally::default();
        let mut made = Tally::default();
        let mut differing = 0;
        for path in &self.files {
            let bytes = std::fs::read(path)?;
            let listing = list(&bytes);
            given.count(&listing);
            let same_text = neighbour(path)?.is_none_or(|kept| kept == text(&listing).as_bytes());
            if !same_text {
                println!("{}: the text beside it is not its listing", path.display());
            }
            let same = self.alike(&path.display().to_string(), &bytes, &listing, differing)?;
            differing += usize::from(!(same && same_text));
        }
        for index in 0..self.count {
            let file = make(self.seed, index);
            let listing = list(&file.bytes);
            made.count(&listing);
            let name = format!("seed {} index {index}, {:?}", self.seed, file.recipe);
            differing += usize::from(!self.alike(&name, &file.bytes, &listing, differing)?);
        }
        let complete = self.report(&given, &made);
        println!(
            "{} files alike, {differing} differ",
            self.files.len() + self.count as usize - differing
        );
        Ok(differing == 0 && complete)
    }

    /// Whether the program writes what we do. A difference is printed, unless
    /// enough of them were.
    fn alike(&self, name: &str, bytes: &[u8], listing: &Listing, shown: usize) -> io::Result<bool> {
        let theirs = ask(&self.program, bytes, MOST_READ)?;
        let ours = Reply {
            status: Some(i32::from(listing.is_err())),
            ..Reply::with(text(listing).into_bytes())
        };
        let alike = (&theirs.output, theirs.status) == (&ours.output, ours.status);
        if !alike && shown < MOST_SHOWN {
            let start: Vec<String> = bytes
                .iter()
                .take(40)
                .map(|byte| format!("{byte:02X}"))
                .collect();
            println!("DIFFERENCE: {name}, {} bytes", bytes.len());
            println!("  it starts {}", start.join(" "));
            println!("  the program says {}", said(&theirs));
            println!("  this one says    {}", said(&ours));
        }
        Ok(alike)
    }

    /// Prints what came up; tells whether nothing is missing.
    fn report(&self, given: &Tally, made: &Tally) -> bool {
        if !self.files.is_empty() {
            println!("In the {} files given:\n{given}", self.files.len());
        }
        if self.count == 0 {
            return true;
        }
        println!(
            "In the {} files made from seed {}:\n{made}",
            self.count, self.seed
        );
        let missing = made.missing();
        for what in &missing {
            println!("NOT COVERED: {what}");
        }
        missing.is_empty()
    }
}

/// The text kept beside a file, if there is one.
fn neighbour(path: &Path) -> io::Result<Option<Vec<u8>>> {
    match std::fs::read(path.with_extension("txt")) {
        Ok(text) => Ok(Some(text)),
        Err(error) if error.kind() == io::ErrorKind::NotFound => Ok(None),
        Err(error) => Err(error),
    }
}

/// A listing's text with its status; what a program says besides is not compared.
fn said(reply: &Reply) -> String {
    let text = String::from_utf8_lossy(&reply.output[..reply.output.len().min(600)]);
    match reply.status {
        Some(status) => format!("{text:?} with status {status}"),
        None => format!("{text:?} and was ended by a signal"),
    }
}

/// What came up among some files.
#[derive(Default)]
struct Tally {
    refusals: BTreeMap<(Refusal, bool), usize>,
    listings: BTreeMap<(Kind, Model), usize>,
    with_seated: usize,
    with_none: usize,
    with_decision: usize,
    beyond_fallback: usize,
    apart: usize,
}

impl Tally {
    fn count(&mut self, listing: &Listing) {
        match listing {
            Ok(report) => self.count_report(report),
            Err(Refused { refusal, round }) => {
                *self
                    .refusals
                    .entry((*refusal, round.is_some()))
                    .or_default() += 1;
            }
        }
    }

    fn count_report(&mut self, report: &Report) {
        *self
            .listings
            .entry((report.kind, report.model))
            .or_default() += 1;
        let decisions: Vec<_> = report
            .held
            .iter()
            .filter_map(|held| match held {
                Held::Decision(value) => Some(*value),
                _ => None,
            })
            .collect();
        let fallback = report.kind.fallback();
        self.with_seated += usize::from(report.held.contains(&Held::Seated));
        self.with_none += usize::from(report.held.contains(&Held::Nothing));
        self.with_decision += usize::from(!decisions.is_empty());
        self.beyond_fallback += usize::from(decisions.iter().any(|&value| value != fallback));
        self.apart += usize::from(decisions.windows(2).any(|pair| pair[0] != pair[1]));
    }

    /// What ought to come up among made files, and did not.
    fn missing(&self) -> Vec<String> {
        let refusals = reachable()
            .into_iter()
            .filter(|reached| !self.refusals.contains_key(reached));
        let listings = kinds_and_models()
            .into_iter()
            .filter(|pair| !self.listings.contains_key(pair));
        let lines = [
            ("upset", self.with_seated),
            ("none", self.with_none),
            ("a value but the fallback", self.beyond_fallback),
        ];
        let lines = lines.into_iter().filter(|&(_, count)| count == 0);
        refusals
            .map(|(refusal, round)| format!("refusal {}", named(refusal, round)))
            .chain(listings.map(|(kind, model)| format!("a listing of {kind}, {model}")))
            .chain(lines.map(|(line, _)| format!("a listing with {line}")))
            .collect()
    }
}

/// Every refusal that a file can bring about, and whether it tells a round.
fn reachable() -> Vec<(Refusal, bool)> {
    use Refusal::*;
    let without = [
        BlockSize,
        FaultCount,
        Resilience,
        SetMembers,
        TooShort,
        TooLong,
        HeaderCode,
        Layout,
        ProposalValue,
        LineValue,
        FlawedLine,
    ];
    let with = [
        SetMembers,
        ForbiddenMove,
        NoSuchPlace,
        NotForgeable,
        RoundLimit,
    ];
    without
        .into_iter()
        .map(|refusal| (refusal, false))
        .chain(with.into_iter().map(|refusal| (refusal, true)))
        .collect()
}

fn kinds_and_models() -> Vec<(Kind, Model)> {
    let all = Kind::ALL
        .into_iter()
        .flat_map(|kind| Base::ALL.map(|base| (kind, base)));
    all.flat_map(|(kind, base)| [false, true].map(|stamps| (kind, Model { base, stamps })))
        .collect()
}

fn named(refusal: Refusal, round: bool) -> String {
    let ending = if round { ", with its round" } else { "" };
    format!("{:>2} ({refusal:?}{ending})", refusal.number())
}

impl fmt::Display for Tally {
    fn fmt(&self, f: &mut fmt::Formatter) -> fmt::Result {
        for ((refusal, round), count) in &self.refusals {
            writeln!(f, "  {count:6} refused {}", named(*refusal, *round))?;
        }
        for ((kind, model), count) in &self.listings {
            writeln!(f, "  {count:6} listings of {kind}, {model}")?;
        }
        writeln!(f, "  {:6} listings with a decision", self.with_decision)?;
        writeln!(
            f,
            "  {:6} listings with a decision that is not the fallback",
            self.beyond_fallback
        )?;
        writeln!(
            f,
            "  {:6} listings with decisions that are not all the same",
            self.apart
        )?;
        writeln!(f, "  {:6} listings with the line none", self.with_none)?;
        write!(f, "  {:6} listings with the line upset", self.with_seated)
    }
}
