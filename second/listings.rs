//! A run file's listing.

use std::fmt;

use crate::files::RunFile;
use crate::models::Model;
use crate::refusals::Refused;
use crate::runs::{MOST_CELLS, Run};
use crate::values::{Kind, Value};

/// The listing of a file that is not refused.
pub struct Report {
    pub kind: Kind,
    pub model: Model,
    pub t: usize,
    pub rounds: usize,
    /// By controller.
    pub held: Vec<Held>,
}

#[derive(Clone, Copy, PartialEq, Eq, Debug)]
pub enum Held {
    Decision(Value),
    Nothing,
    /// Listed as `upset`.
    Seated,
}

/// What became of a file. Both sides print as the listing's text.
pub type Listing = Result<Report, Refused>;

pub fn list(bytes: &[u8]) -> Listing {
    let file = RunFile::read(bytes)?;
    let run = perform(&file)?;
    let held = (0..file.proposals.len())
        .map(|controller| match run.decision(controller) {
            Ok(Some(value)) => Held::Decision(value),
            Ok(None) => Held::Nothing,
            Err(_) => Held::Seated,
        })
        .collect();
    Ok(Report {
        kind: file.kind,
        model: file.model,
        t: file.t,
        rounds: file.sets.len(),
        held,
    })
}

fn perform(file: &RunFile) -> Result<Run, Refused> {
    let mut run = Run::open(file.model, file.kind, MOST_CELLS, &file.opening())?;
    let mut lines = file.lines.iter().peekable();
    for (number, &set) in file.sets.iter().enumerate() {
        let mut round = run
            .seat(set)
            .map_err(|refused| refused.refusal.in_round(number))?;
        while let Some(line) = lines.next_if(|line| line.round == number) {
            round
                .forge(line.place, line.cell)
                .map_err(|refusal| refusal.in_round(number))?;
        }
        run = round.close();
    }
    Ok(run)
}

pub fn text(listing: &Listing) -> String {
    match listing {
        Ok(report) => report.to_string(),
        Err(refused) => refused.to_string(),
    }
}

impl fmt::Display for Report {
    fn fmt(&self, f: &mut fmt::Formatter) -> fmt::Result {
        writeln!(f, "run {} {} {}", self.held.len(), self.t, self.rounds)?;
        for (controller, held) in self.held.iter().enumerate() {
            match held {
                Held::Decision(value) => writeln!(f, "{controller} {value}")?,
                Held::Nothing => writeln!(f, "{controller} none")?,
                Held::Seated => writeln!(f, "{controller} upset")?,
            }
        }
        Ok(())
    }
}
