//! The example scripts, each a small story that its own comments tell.

use std::fmt::{Display, Write};
use std::io;
use std::path::Path;

use crate::runs::MOST_ROUNDS;
use crate::transcripts::replay;

/// Writes each example as NAME.script, with its transcript as NAME.transcript.
pub fn write_all(folder: &Path) -> io::Result<()> {
    std::fs::create_dir_all(folder)?;
    for (name, script) in all() {
        let transcript = replay(script.as_bytes()).output;
        std::fs::write(folder.join(name).with_extension("script"), script)?;
        std::fs::write(folder.join(name).with_extension("transcript"), transcript)?;
    }
    Ok(())
}

pub fn all() -> [(&'static str, String); 5] {
    [
        ("equivocating-upset", equivocating_upset()),
        ("block-too-small", block_too_small()),
        ("coordinator-upset", coordinator_upset()),
        ("each-refusal", each_refusal()),
        ("two-setpoints", two_setpoints()),
    ]
}

/// A script while it is written.
struct Story(String);

impl Story {
    fn new(beginning: &str) -> Story {
        Story(beginning.to_string())
    }

    /// Lines as they stand.
    fn add(&mut self, lines: &str) {
        self.0.push_str(lines);
    }

    fn round(&mut self, set: &str) {
        self.begin(set);
        self.add("close\n");
    }

    fn begin(&mut self, set: &str) {
        self.add(&format!("seat {set}\n"));
    }

    /// The sender tells these receivers something in one column.
    fn tell(&mut self, sender: usize, receivers: &[usize], column: usize, told: impl Display) {
        for receiver in receivers {
            writeln!(self.0, "forge {sender} {receiver} {column} {told}")
                .expect("a string takes it all");
        }
    }

    fn ask(&mut self, controllers: impl IntoIterator<Item = usize>) {
        for controller in controllers {
            self.add(&format!("decision {controller}\n"));
        }
    }
}

fn equivocating_upset() -> String {
    let mut story = Story::new(
        "\
# Six controllers bear one upset under unaware; five would not.
# Four of them propose 500. The upset tells one half of the block 610 and the
# other half 700, and the block agrees on 500 all the same.
setpoint unaware
open 6 1 {3} 500 500 500 610 500 610

# Phase 0. The upset stays at controller 3 for its three rounds.
",
    );
    for round in 0..3 {
        story.begin("{3}");
        if round == 2 {
            story.add("# A deciding round has a column for each controller. It forges its own, column 3.\n");
        }
        let column = if round == 2 { 3 } else { 0 };
        story.tell(3, &[0, 1, 2], column, 610);
        story.tell(3, &[4, 5], column, 700);
        story.add("close\n");
    }
    story.add(
        "
# The upset goes on to controller 5. Controller 3, just left, still says what
# was put into it, but the same to all: that is forged for receiver 0, and only so.
seat {5}
forge 3 0 0 610
forge 3 1 0 700
",
    );
    story.tell(5, &[0, 1, 2], 0, 610);
    story.tell(5, &[3, 4], 0, 700);
    story.add("close\n\n# Nobody has decided yet.\ndecision 0\n\n# It stays at controller 5 to the end of phase 4.\n");
    for round in 4..15 {
        story.begin("{5}");
        if round % 3 == 0 {
            story.tell(5, &[0, 1, 2], 0, 610);
            story.tell(5, &[3, 4], 0, 700);
        }
        story.add("close\n");
    }
    story.add("\n# The last phase. In its last round the upset is at controller 2.\n");
    ["{5}", "{5}", "{2}"]
        .iter()
        .for_each(|set| story.round(set));
    story.add("\n# The vote is over. Controller 2 was seated last, and cannot be asked.\n");
    story.ask(0..6);
    story.add("\n# After one more round it has heard the decision from the others.\n");
    story.round("{}");
    story.ask([2]);
    story.0
}

fn block_too_small() -> String {
    "\
# Under unaware a block of five bears no upset: it takes six.
setpoint unaware
open 5 1 {3} 500 500 500 610 500

# The block was not opened, and so no other call has its turn.
seat {3}
forge 3 0 0 610
close
decision 0
"
    .to_string()
}

fn coordinator_upset() -> String {
    let mut story = Story::new(
        "\
# Five controllers under aware. The upset grips controller 0, which coordinates
# phase 0, and stays there. Two of the others propose 500, and two 610.
setpoint aware
open 5 1 {0} 500 500 500 610 610

# Round 0: each half hears its own figure three times and the other twice. That
# is too many against it, and nobody holds a figure any more.
seat {0}
",
    );
    story.tell(0, &[1, 2], 0, 500);
    story.tell(0, &[3, 4], 0, 610);
    story.add("close\n\n# Round 1: what they note down is only what the upset says.\nseat {0}\n");
    story.tell(0, &[1, 2], 0, 500);
    story.tell(0, &[3, 4], 0, 610);
    story.add(
        "close

# Round 2: the coordinator's row counts. It tells 1, 2 and 3 one with 500 twice,
# but 4 one with 610 twice. So 1, 2 and 3 hold 500 now, and 4 holds 610:
# phase 0 settles nothing for all.
seat {0}
",
    );
    for (receivers, figure) in [(&[1, 2, 3][..], 500), (&[4], 610)] {
        story.tell(0, receivers, 1, figure);
        story.tell(0, receivers, 2, figure);
    }
    story.add(
        "close
decision 1
decision 4

# Phase 1: 1 and 2 are told 610, and let go of 500; 3 and 4 are told nothing,
# and hold 500. Then all note that 3 and 4 say 500.
",
    );
    for _ in 0..2 {
        story.begin("{0}");
        story.tell(0, &[1, 2], 0, 610);
        story.add("close\n");
    }
    story.add(
        "
# Round 5: controller 1 coordinates, and is not gripped. All hear the same row
# from it, with 500 twice, and hold 500.
",
    );
    story.round("{0}");
    story.add("decision 1\n\n# From here on nothing moves them. They have decided once phase 4 is over.\n");
    (6..15).for_each(|_| story.round("{0}"));
    story.ask(0..5);
    story.0
}

fn each_refusal() -> String {
    let mut story = Story::new(
        "\
# Each refusal of a call, 1 to 12, with as little as it takes.
# A block of four needs 116 cells.
setpoint fixed
cells 116

# 8: nothing is open yet.
close
# 1: a block has from 1 to 16 controllers.
open 17 1 {}
# 2: four upsets could grip all four at once.
open 4 4 {} 500 500 500 500
# 3: three controllers do not bear an upset; it takes four.
open 3 1 {} 500 500 500
# 4: the store has too few cells for five.
open 5 1 {} 500 500 500 500 500
# 5: one proposal is missing.
open 4 1 {} 500 500 500
# 6: there is no controller 4.
open 4 1 {4} 500 500 500 500

# None of these changed anything. This one opens the block.
open 4 1 {2} 500 500 500 500
# 8: only once.
open 4 1 {2} 500 500 500 500
# 6: t is 1, and these are two.
seat {1,2}
# 7: under fixed an upset stays where it is.
seat {1}
# 12: controller 2 is in the initial set.
decision 2
# 9: there is no controller 4.
decision 4
seat {2}
# 9: a proposing round has column 0 alone.
forge 2 0 1 610
# 10: nothing is forged for controller 0, which says what it should.
forge 0 1 0 610
# That can be done for controller 2.
forge 2 1 0 610
close

# A thousand rounds, for 11. This was the first of them.
",
    );
    (1..MOST_ROUNDS).for_each(|_| story.round("{2}"));
    story.add("# 11: they are over.\n");
    story.begin("{2}");
    story.add("# The decisions can still be asked for.\n");
    story.ask(0..4);
    story.0
}

fn two_setpoints() -> String {
    let mut story = Story::new(
        "\
# Two controllers, no upsets, six rounds: the run file two-setpoints.run.
# Neither figure has enough, and the fallback 400 is what they agree on.
setpoint aware
open 2 0 {} 500 600
",
    );
    for phase in 0..2 {
        story.add(&format!("# phase {phase}\n"));
        (0..3).for_each(|_| story.round("{}"));
    }
    story.ask(0..2);
    story.0
}
