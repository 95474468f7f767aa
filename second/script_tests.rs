//! Scripts, transcripts and run files, as docs/BENCH.md has them.

use crate::benches::{Bench, Call, CallName, Turn};
use crate::example_scripts;
use crate::examples;
use crate::files::RunFile;
use crate::listings::{list, text};
use crate::models::{Base, Set};
use crate::packing::pack_text;
use crate::replies::Reply;
use crate::runs::MOST_CELLS;
use crate::script_makers::make;
use crate::scripts::{Head, Script, calls_of};
use crate::transcripts::{Transcript, replay};
use crate::values::{Cell, Kind, Value};

fn refused(messages: &str) -> Reply {
    Reply::without(&messages)
}

fn example(name: &str) -> String {
    let mut all = example_scripts::all().into_iter();
    let found = all.find(|(other, _)| *other == name);
    found.expect("there is such an example").1
}

/// The lines of an example's transcript.
fn transcript_of(name: &str) -> Vec<String> {
    let text = String::from_utf8(replay(example(name).as_bytes()).output).unwrap();
    text.lines().map(str::to_string).collect()
}

#[test]
fn a_script_loosely_written() {
    let script = "# \u{e9}\r\n\n \tsheet buffered stamped  stamped# x\r\ncells\t007\n\
        open 02 0 {15,0,00} 0/0/0/01000 250/250/250/250 # 1\nforge 18446744073709551615 20 9 empty";
    let script = Script::read(script.as_bytes()).unwrap();
    assert_eq!(
        (script.head.kind, script.head.base, script.head.layers),
        (Kind::Sheet, Base::Buffered, 2)
    );
    assert_eq!((script.store(), script.last_line), (7, 6));
    assert_eq!(script.calls[1].line, 6);
    assert_eq!(
        script.to_string(),
        "sheet buffered stamped stamped\ncells 7\nopen 2 0 {0,15} 0/0/0/1000 250/250/250/250\n\
         forge 18446744073709551615 20 9 empty\n"
    );
}

#[test]
fn words_that_are_none() {
    let flaw = |line: &str| {
        let text = format!("setpoint aware\n{line}\n");
        String::from_utf8(replay(text.as_bytes()).messages).unwrap()
    };
    for word in [
        "+1",
        "-1",
        "1.0",
        "0x1",
        "",
        "18446744073709551616",
        "\u{663}",
    ] {
        assert!(
            flaw(&format!("decision {word}")).contains("expected a number from 0"),
            "{word}"
        );
    }
    for word in [
        "{16}", "{0,}", "{,}", "{0", "0}", "{}{}", "{ }", "{+1}", "{0,,1}", "",
    ] {
        assert!(
            flaw(&format!("seat {word}")).contains("expected a set"),
            "{word}"
        );
    }
    for word in [
        "65536",
        "1/2",
        "1/2/3",
        "1/2/3/4/5",
        "500/",
        "//1/2",
        "Empty",
        "",
    ] {
        assert!(
            flaw(&format!("forge 0 0 0 {word}")).ends_with("or the word empty\n"),
            "{word}"
        );
    }
    assert!(flaw("open 1 0 {} 500 empty").ends_with("each number up to 65535\n"));
    for line in [
        "forge 0 0 0 500 500",
        "close 0",
        "seat {} {}",
        "decision 0 0",
        "cells 5 5",
    ] {
        assert_eq!(flaw(line), "line 2: expected nothing more\n", "{line}");
    }
    for line in [
        "forge 0 0 0 199",
        "forge 0 0 0 250/250/250/250",
        "open 1 0 {} 500 901",
    ] {
        assert!(
            flaw(line).starts_with("line 2: refused 24: a value breaks"),
            "{line}"
        );
    }
}

#[test]
fn first_lines() {
    let kind = "expected a kind of values: setpoint or sheet\n";
    let model = "expected a model: aware, unaware, buffered, carried or fixed\n";
    for (script, message) in [
        ("", format!("line 1: {kind}")),
        ("# x\n\n", format!("line 3: {kind}")),
        ("# x\n \t\r", format!("line 2: {kind}")),
        ("\ncells 5\n", format!("line 2: {kind}")),
        ("sheet", format!("line 1: {model}")),
        ("sheet stamped", format!("line 1: {model}")),
        (
            "sheet aware stamped aware",
            "line 1: expected nothing more, or the word stamped\n".to_string(),
        ),
        // Nobody knows the kind, and so no value can break its rule.
        (
            "sheet\nforge 0 0 0 5\nseat",
            format!(
                "line 1: {model}line 3: expected a set of controllers from 0 to 15, as {{0,3}} or {{}}, with no blank in it\n"
            ),
        ),
    ] {
        assert_eq!(replay(script.as_bytes()), refused(&message), "{script:?}");
        assert_eq!(
            pack_text(script.as_bytes()),
            refused(&message),
            "{script:?}"
        );
    }
}

#[test]
fn twenty_faulty_lines_are_told() {
    let with = |count: usize| {
        let text = format!("setpoint aware\n{}", "seal\n".repeat(count));
        String::from_utf8(replay(text.as_bytes()).messages).unwrap()
    };
    let call = "expected a call: open, seat, forge, close or decision";
    assert_eq!(
        with(20).lines().last(),
        Some(&format!("line 21: {call}")[..])
    );
    assert_eq!(with(23).lines().count(), 21);
    assert!(with(23).ends_with(&format!("line 21: {call}\nmore faulty lines: 3\n")));
    // The word cells stands in no other line than the second.
    let cells = replay(b"setpoint aware\ncells 5\ncells 5\n");
    assert_eq!(cells, refused(&format!("line 3: {call}\n")));
}

#[test]
fn a_whole_transcript() {
    let script = "setpoint carried stamped\nopen 1 0 {} 500\nopen 1 0 {} 500\nseat {}\ndecision 0\n\
        close\nseat {}\nclose\nseat {}\nclose\nseat {1}\nseat {}\nforge 0 0 0 empty\nclose\ndecision 0";
    let transcript = "\
setpoint carried stamped
cells 4688
open 1 0 {} 500  # accepted
open 1 0 {} 500  # refused 8: this call is out of turn: the run takes only others at this point
# round 0: proposing, phase 0, coordinator 0, seated {}
seat {}  # accepted
decision 0  # none
close  # accepted
# round 1: collecting, phase 0, coordinator 0, seated {}
seat {}  # accepted
close  # accepted
# round 2: deciding, phase 0, coordinator 0, seated {}
seat {}  # accepted
close  # accepted
seat {1}  # refused 6: a set names a controller that the block lacks, or more than t controllers
# round 3: maintaining, seated {}
seat {}  # accepted
forge 0 0 0 empty  # refused 10: this sender forges nothing, or one message for all, which is given as its message to receiver 0
close  # accepted
decision 0  # 500
# rounds closed: 4
# clean coordinators: {0}
# filled decisions: all 500
";
    assert_eq!(replay(script.as_bytes()), Reply::with(transcript.into()));
    assert_eq!(
        replay(transcript.as_bytes()),
        Reply::with(transcript.into())
    );
}

#[test]
fn what_does_not_pack() {
    for (calls, message) in [
        (
            "cells 4687\n",
            "line 2: a run file is played over 4688 cells",
        ),
        ("", "line 2: a run file begins with an open"),
        ("close\n", "line 2: a run file begins with an open"),
        (
            "open 2 0 {} 500\n",
            "line 2: a run file has one proposal for each controller",
        ),
        (
            "open 1 256 {} 500\n",
            "line 2: a run file has no number above 255 here",
        ),
        (
            "open 1 0 {} 500\nseat {}\nforge 0 0 256 empty\n",
            "line 4: a run file has no number above 255 here",
        ),
        (
            "open 1 0 {} 500\nopen 1 0 {} 500\n",
            "line 3: a run file has no second open",
        ),
        (
            "open 1 0 {} 500\nclose\n",
            "line 3: a round must be seated here",
        ),
        (
            "open 1 0 {} 500\nseat {}\nseat {}\n",
            "line 4: the round must be closed first",
        ),
        (
            "open 1 0 {} 500\nseat {}\n\n# x\n",
            "line 3: the round must be closed first",
        ),
        (
            "open 1 0 {} 500\ndecision 0\nseat {}\n",
            "line 4: only decisions can follow a decision",
        ),
    ] {
        let script = format!("setpoint aware\n{calls}");
        assert_eq!(
            pack_text(script.as_bytes()),
            refused(&format!("{message}\n")),
            "{calls:?}"
        );
    }
}

#[test]
fn a_file_without_room_for_more() {
    let head = "setpoint aware stamped stamped\ncells 4688\nopen 1 0 {} 500\nseat {}\n";
    // With one round 16 + 2 + 4 bytes are taken, and the lines take 8 each.
    let with = |lines: usize| format!("{head}{}close\n", "forge 0 0 0 500\n".repeat(lines));
    let most = (65_535 - 22) / 8;
    let packed = pack_text(with(most).as_bytes());
    assert_eq!(
        (packed.status, packed.output.len()),
        (Some(0), 22 + 8 * most)
    );
    assert_eq!(packed.output[..5], [0, 0, 1, 1, 0]);
    let message = format!("line {}: a run file has no room for more\n", 4 + most + 1);
    assert_eq!(pack_text(with(most + 1).as_bytes()), refused(&message));
}

#[test]
fn example_files_as_scripts() {
    for (name, draft) in examples::all() {
        let Ok(file) = RunFile::read(&draft.bytes()) else {
            continue;
        };
        let head = Head {
            kind: file.kind,
            base: file.model.base,
            layers: file.model.stamps.into(),
        };
        let script = Script::new(head, None, calls_of(&file)).to_string();
        assert_eq!(pack_text(script.as_bytes()).output, draft.bytes(), "{name}");
    }
    let script = example("two-setpoints");
    let (_, draft) = &examples::all()[0];
    assert_eq!(pack_text(script.as_bytes()), Reply::with(draft.bytes()));
}

#[test]
fn each_refusal_comes_up() {
    let lines = transcript_of("each-refusal");
    for number in 1..=12 {
        let refused = format!("  # refused {number}: ");
        assert!(lines.iter().any(|line| line.contains(&refused)), "{number}");
    }
}

#[test]
fn the_coordinator_of_phase_0_settles_nothing() {
    let script = Script::read(example("coordinator-upset").as_bytes()).unwrap();
    let mut bench = Bench::new(Kind::Setpoint, script.head.model(), MOST_CELLS);
    let mut after_each = Vec::new();
    for call in script.calls.iter().map(|call| &call.what) {
        bench.perform(call).ok();
        if let (Turn::Waiting(run), Call::Close) = (bench.turn(), call) {
            after_each.push(run.values());
        }
    }
    let held = |tenths: [u16; 5]| -> Vec<Cell> { tenths.map(Value::setpoint).to_vec() };
    assert_eq!(after_each[0], held([0; 5]));
    assert_eq!(after_each[2], held([0, 500, 500, 500, 610]));
    assert_eq!(after_each[3], held([0, 0, 0, 500, 500]));
    for values in &after_each[5..] {
        assert_eq!(*values, held([0, 500, 500, 500, 500]));
    }
}

#[test]
fn made_transcripts_replay_and_listings_say_the_same() {
    for index in 0..200 {
        let script = make(5, index).text;
        let replayed = replay(&script);
        if replayed.status == Some(0) {
            assert_eq!(replay(&replayed.output), replayed, "{index}");
            // A clean coordinator makes all filled decisions equal.
            let last = String::from_utf8_lossy(&replayed.output);
            let clean = !last.contains("# clean coordinators: {}");
            assert!(!clean || !last.ends_with("not all equal\n"), "{index}");
        }
        let packed = pack_text(&script);
        let transcript = Script::read(&script).map(|script| Transcript::of(&script));
        if let (Some(0), Ok(Some(lines))) = (packed.status, transcript.map(|it| it.decided_lines()))
        {
            let listing = text(&list(&packed.output));
            for line in lines {
                assert!(
                    listing.lines().any(|other| other == line),
                    "{index}: {line}"
                );
            }
        }
    }
}

#[test]
fn names_and_sets_in_words() {
    assert_eq!(Set(0b1001).to_string(), "{0,3}");
    assert_eq!(Set::EMPTY.to_string(), "{}");
    assert_eq!(
        CallName::ALL.map(CallName::word).join(" "),
        "open seat forge close decision"
    );
}
