//! Runs other programs beside this one, script by script.

use std::io;
use std::path::{Path, PathBuf};

use crate::features::{Tally, features};
use crate::listings::{list, text};
use crate::packing::pack_text;
use crate::replies::{Reply, ask};
use crate::script_makers::make;
use crate::scripts::Script;
use crate::transcripts::{Transcript, replay};

const MOST_SHOWN: usize = 10;
/// The longest transcript of a made script has some 2,000,000 bytes.
const MOST_READ: u64 = 1 << 26;

pub struct ScriptComparison {
    pub replay: PathBuf,
    pub pack: PathBuf,
    pub listing: PathBuf,
    pub seed: u64,
    pub count: u64,
    pub files: Vec<PathBuf>,
}

impl ScriptComparison {
    /// Whether all was alike and all that can come up came up.
    pub fn run(&self) -> io::Result<bool> {
        let mut given = Tally::default();
        let mut made = Tally::default();
        let mut differing = 0;
        for path in &self.files {
            let script = std::fs::read(path)?;
            given.count(features(&script));
            let mut differences = self.differences(&script)?;
            differences.extend(self.kept_differences(path, &script)?);
            differing += show(&path.display().to_string(), &differences, differing);
        }
        for index in 0..self.count {
            let script = make(self.seed, index);
            made.count(features(&script.text));
            let differences = self.differences(&script.text)?;
            let name = format!("seed {} index {index}, {:?}", self.seed, script.recipe);
            differing += show(&name, &differences, differing);
        }
        let complete = self.report(&given, &made);
        let all = self.files.len() + self.count as usize;
        println!("{} scripts alike, {differing} differ", all - differing);
        Ok(differing == 0 && complete)
    }

    /// What differs between the other programs and this one.
    fn differences(&self, script: &[u8]) -> io::Result<Vec<String>> {
        let replayed = replay(script);
        let mut differences = between("replay", &ask(&self.replay, script, MOST_READ)?, &replayed);
        if replayed.status == Some(0) {
            let again = ask(&self.replay, &replayed.output, MOST_READ)?;
            differences.extend(between("replay of the transcript", &again, &replayed));
        }
        let packed = pack_text(script);
        differences.extend(between(
            "pack",
            &ask(&self.pack, script, MOST_READ)?,
            &packed,
        ));
        if packed.status == Some(0) {
            differences.extend(self.listing_differences(script, &packed.output)?);
        }
        Ok(differences)
    }

    /// The same with the transcript that is kept beside a script, if one is.
    fn kept_differences(&self, path: &Path, script: &[u8]) -> io::Result<Vec<String>> {
        let kept = match std::fs::read(path.with_extension("transcript")) {
            Ok(kept) => kept,
            Err(error) if error.kind() == io::ErrorKind::NotFound => return Ok(Vec::new()),
            Err(error) => return Err(error),
        };
        let again = ask(&self.replay, &kept, MOST_READ)?;
        let mut differences = between("replay of the transcript kept", &again, &replay(&kept));
        differences.extend(first_difference(
            "the transcript kept",
            &kept,
            &replay(script).output,
        ));
        differences.extend(first_difference(
            "the transcript kept, replayed",
            &again.output,
            &kept,
        ));
        Ok(differences)
    }

    fn listing_differences(&self, script: &[u8], packed: &[u8]) -> io::Result<Vec<String>> {
        let theirs = ask(&self.listing, packed, MOST_READ)?.output;
        let listing = text(&list(packed));
        let difference = first_difference("listing", &theirs, listing.as_bytes());
        let decided = Script::read(script)
            .ok()
            .and_then(|script| Transcript::of(&script).decided_lines());
        let missing = decided.unwrap_or_default().into_iter().filter_map(|line| {
            let listed = String::from_utf8_lossy(&theirs)
                .lines()
                .any(|other| other == line);
            (!listed).then(|| format!("the listing lacks the line that the transcript has: {line}"))
        });
        Ok(difference.into_iter().chain(missing).collect())
    }

    /// Prints what came up; tells whether nothing is missing.
    fn report(&self, given: &Tally, made: &Tally) -> bool {
        if !self.files.is_empty() {
            println!("Of the {} scripts given:\n{given}", self.files.len());
        }
        if self.count == 0 {
            return true;
        }
        println!(
            "Of the {} scripts made from seed {}:\n{made}",
            self.count, self.seed
        );
        let missing = made.missing();
        for what in &missing {
            println!("NOT COVERED: {what}");
        }
        missing.is_empty()
    }
}

/// Prints what differs, unless enough was printed; counts 1 where anything does.
fn show(name: &str, differences: &[String], shown: usize) -> usize {
    if !differences.is_empty() && shown < MOST_SHOWN {
        println!("DIFFERENCE: {name}");
        for difference in differences {
            println!("  {difference}");
        }
    }
    usize::from(!differences.is_empty())
}

fn between(what: &str, theirs: &Reply, ours: &Reply) -> Vec<String> {
    let output = first_difference(what, &theirs.output, &ours.output);
    let messages = first_difference(
        &format!("{what}, standard error"),
        &theirs.messages,
        &ours.messages,
    );
    let status = (theirs.status != ours.status).then(|| {
        format!(
            "{what}: its status is {:?}, ours is {:?}",
            theirs.status, ours.status
        )
    });
    output.into_iter().chain(messages).chain(status).collect()
}

/// The first line that is not the same on both sides.
fn first_difference(what: &str, theirs: &[u8], ours: &[u8]) -> Option<String> {
    let same = theirs.iter().zip(ours).take_while(|(a, b)| a == b).count();
    if same == theirs.len() && same == ours.len() {
        return None;
    }
    let before = &ours[..same];
    let line = 1 + before.iter().filter(|&&byte| byte == b'\n').count();
    let start = before
        .iter()
        .rposition(|&byte| byte == b'\n')
        .map_or(0, |at| at + 1);
    Some(format!(
        "{what}, line {line}, byte {same}:\n    its line  {}\n    our line  {}",
        line_at(theirs, start),
        line_at(ours, start)
    ))
}

/// The line that starts there, or as much of it as can be looked at.
fn line_at(text: &[u8], start: usize) -> String {
    let line = text[start..]
        .split(|&byte| byte == b'\n')
        .next()
        .unwrap_or_default();
    match text.len() > start {
        true => format!(
            "{:?}",
            String::from_utf8_lossy(&line[..line.len().min(300)])
        ),
        false => "is missing".to_string(),
    }
}
