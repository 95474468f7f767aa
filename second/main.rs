//! The second program: run files performed by a program of its own, made from
//! the publications and docs/FORMAT.md, and set beside the first.

mod adversaries;
mod benches;
mod call_makers;
mod compare;
mod compare_scripts;
mod example_scripts;
mod examples;
mod features;
mod files;
mod flaws;
mod line_makers;
mod listings;
mod makers;
mod models;
mod packing;
mod refusals;
mod replies;
mod rng;
mod runs;
mod script_makers;
#[cfg(test)]
mod script_tests;
mod scripts;
#[cfg(test)]
mod tests;
mod transcripts;
mod values;
mod votes;

use std::io::{self, Read, Write};
use std::path::Path;
use std::process::ExitCode;

use compare::Comparison;
use compare_scripts::ScriptComparison;
use replies::Reply;
use values::Kind;

/// Enough to tell that a file is too long.
const MOST_READ: u64 = 65_536;

const USAGE: &str =
    "second list                                   lists the run file on standard input
second compare PROGRAM SEED COUNT [FILE..]    sets PROGRAM beside this one
second make SEED INDEX                        writes a made file
second replay                                 performs the script on standard input
second pack                                   writes that script as a run file
second compare-scripts REPLAY PACK LISTING SEED COUNT [FILE..]
                                              sets three programs beside this one
second make-script SEED INDEX                 writes a made script
second examples DIR                           writes the examples
second heaviest [setpoints|sheets]            writes a sound file that takes much work";

fn main() -> ExitCode {
    let arguments: Vec<String> = std::env::args().skip(1).collect();
    let words: Vec<&str> = arguments.iter().map(String::as_str).collect();
    match perform(&words) {
        Ok(true) => ExitCode::SUCCESS,
        Ok(false) => ExitCode::from(1),
        Err(problem) => {
            eprintln!("second: {problem}");
            ExitCode::from(2)
        }
    }
}

/// Whether all went well, or why nothing could be done.
type Done = Result<bool, Box<dyn std::error::Error>>;

/// Whether all went well; an error if the command could not be performed.
fn perform(words: &[&str]) -> Done {
    match *words {
        ["list"] => Ok(list()?),
        ["compare", program, seed, count, ref files @ ..] => compare(program, [seed, count], files),
        ["make", seed, index] => write(&makers::make(seed.parse()?, index.parse()?).bytes),
        [
            "compare-scripts",
            replay,
            pack,
            listing,
            seed,
            count,
            ref files @ ..,
        ] => compare_scripts([replay, pack, listing], [seed, count], files),
        ["make-script", seed, index] => {
            write(&script_makers::make(seed.parse()?, index.parse()?).text)
        }
        ["replay"] => give(transcripts::replay(&standard_input()?)),
        ["pack"] => give(packing::pack_text(&standard_input()?)),
        ["examples", folder] => {
            examples::write_all(Path::new(folder))?;
            example_scripts::write_all(Path::new(folder))?;
            Ok(true)
        }
        ["heaviest"] | ["heaviest", "sheets"] => write(&makers::heaviest(Kind::Sheet)),
        ["heaviest", "setpoints"] => write(&makers::heaviest(Kind::Setpoint)),
        _ => Err(format!("no such command\n{USAGE}").into()),
    }
}

fn compare(program: &str, [seed, count]: [&str; 2], files: &[&str]) -> Done {
    let comparison = Comparison {
        program: program.into(),
        seed: seed.parse()?,
        count: count.parse()?,
        files: files.iter().map(Into::into).collect(),
    };
    Ok(comparison.run()?)
}

fn compare_scripts(programs: [&str; 3], [seed, count]: [&str; 2], files: &[&str]) -> Done {
    let [replay, pack, listing] = programs.map(Into::into);
    let comparison = ScriptComparison {
        replay,
        pack,
        listing,
        seed: seed.parse()?,
        count: count.parse()?,
        files: files.iter().map(Into::into).collect(),
    };
    Ok(comparison.run()?)
}

fn list() -> io::Result<bool> {
    let mut bytes = Vec::new();
    io::stdin().take(MOST_READ).read_to_end(&mut bytes)?;
    let listing = listings::list(&bytes);
    io::stdout().write_all(listings::text(&listing).as_bytes())?;
    Ok(listing.is_ok())
}

/// All of it, however long it is.
fn standard_input() -> io::Result<Vec<u8>> {
    let mut bytes = Vec::new();
    io::stdin().read_to_end(&mut bytes)?;
    Ok(bytes)
}

fn give(reply: Reply) -> Done {
    io::stdout().write_all(&reply.output)?;
    io::stderr().write_all(&reply.messages)?;
    Ok(reply.status == Some(0))
}

fn write(bytes: &[u8]) -> Done {
    io::stdout().write_all(bytes)?;
    Ok(true)
}
