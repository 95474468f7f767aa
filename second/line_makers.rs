//! Lines of made scripts: faulty ones, and the manners in which lines are
//! written.

use crate::adversaries::any_value;
use crate::rng::Rng;
use crate::scripts::LineFlaw;
use crate::values::Kind;

/// Lays a flaw into the lines of a script, which are one at least before and
/// after.
pub fn lay(flaw: LineFlaw, lines: &mut Vec<String>, kind: Kind, rng: &Rng) {
    match flaw {
        LineFlaw::Kind if lines.len() > 1 && rng.percent(20) => drop(lines.remove(0)),
        LineFlaw::Kind | LineFlaw::Model | LineFlaw::Stamped => {
            lines[0] = flawed_head(flaw, &lines[0], rng)
        }
        LineFlaw::Number if rng.percent(20) => lines.insert(1, format!("cells {}", no_number(rng))),
        LineFlaw::Surplus if rng.percent(20) => lines.insert(1, "cells 4688 stamped".to_string()),
        LineFlaw::Call if rng.percent(20) => {
            // Behind the second line this is no word for a line to begin with.
            let at = rng.between(2, lines.len());
            lines.resize_with(lines.len().max(2), || "close".to_string());
            lines.insert(at, "cells 4688".to_string());
        }
        _ => {
            let at = rng.between(1, lines.len());
            lines.insert(at, flawed_line(flaw, kind, rng));
        }
    }
}

fn flawed_head(flaw: LineFlaw, head: &str, rng: &Rng) -> String {
    let mut words = head.split(' ');
    let (kind, base) = (
        words.next().unwrap_or_default(),
        words.next().unwrap_or_default(),
    );
    match flaw {
        LineFlaw::Kind => {
            let word = rng.pick(&[
                "setpoints",
                "Sheet",
                "cells",
                "open",
                "aware",
                "0",
                "setpoint,",
            ]);
            format!("{word} {base}")
        }
        LineFlaw::Model => {
            let word = rng.pick(&["", "", "stamped", "Aware", "mobile", "awarestamped", "4"]);
            format!("{kind} {word}")
        }
        _ => {
            let word = rng.pick(&[
                "stamp",
                "Stamped",
                "aware",
                "cells 5",
                "1",
                "stamped stampedd",
            ]);
            format!("{head} {word}")
        }
    }
}

fn no_number(rng: &Rng) -> &'static str {
    rng.pick(&[
        "",
        "18446744073709551616",
        "18446744073709551620",
        "28446744073709551615",
        "99999999999999999999999",
        "-1",
        "+1",
        "1.0",
        "0x1",
        "one",
        "1,000",
        "{}",
        "empty",
        "½",
    ])
}

fn no_set(rng: &Rng) -> &'static str {
    rng.pick(&[
        "",
        "{16}",
        "{0,16}",
        "{",
        "}",
        "{0",
        "0}",
        "0",
        "{0,}",
        "{,0}",
        "{,}",
        "{0,,1}",
        "{ 0}",
        "{0, 1}",
        "{ }",
        "{}{}",
        "{0;1}",
        "{-1}",
        "{a}",
        "{{}}",
        "()",
        "{18446744073709551616}",
    ])
}

fn no_value(rng: &Rng) -> &'static str {
    rng.pick(&[
        "65536",
        "500/400",
        "1/2/3",
        "1/2/3/4/5",
        "500/",
        "/500",
        "1/2/3/65536",
        "1//2/3",
        "none",
        "Empty",
        "-500",
        "500,",
        "5e2",
        "/",
        "///",
        "{}",
        "99999999999999999999999",
    ])
}

/// A value that breaks its kind's rule, or is of the other kind.
fn unlawful(kind: Kind, rng: &Rng) -> String {
    let other = match kind {
        Kind::Setpoint => Kind::Sheet,
        Kind::Sheet => Kind::Setpoint,
    };
    if rng.percent(30) {
        return any_value(other, rng).word();
    }
    let words: &[&str] = match kind {
        Kind::Setpoint => &["199", "901", "0", "65535", "00199"],
        Kind::Sheet => &[
            "400/300/200/101",
            "65535/1/0/0",
            "0/0/0/1001",
            "32768/0/32768/250",
            "65535/65535/65535/65535",
        ],
    };
    rng.pick(words).to_string()
}

/// A line with this flaw, and now and then with more to the right of it.
fn flawed_line(flaw: LineFlaw, kind: Kind, rng: &Rng) -> String {
    let later = rng.pick(&["", "", "", " 5", " {}", " x"]);
    match flaw {
        LineFlaw::Number => flawed_number(rng) + later,
        LineFlaw::Set => {
            let call = rng.pick(&["seat", "open 3 0"]);
            format!("{call} {}{later}", no_set(rng))
        }
        LineFlaw::Proposal => flawed_proposal(kind, rng) + later,
        LineFlaw::Cell => {
            let cell = rng.pick(&["", no_value(rng), no_value(rng)]);
            format!("forge 0 0 0 {cell}{later}")
        }
        LineFlaw::Surplus => surplus(kind, rng),
        LineFlaw::Unlawful => {
            let bad = unlawful(kind, rng);
            let good = any_value(kind, rng).word();
            let line = rng.pick(&["open 2 0 {} + -", "open 2 0 {} - +", "forge 0 0 0 -"]);
            line.replace('+', &good).replace('-', &bad)
        }
        _ => no_call(rng).to_string() + later,
    }
}

fn flawed_number(rng: &Rng) -> String {
    let lines = [
        "open @",
        "open 1 @",
        "forge @",
        "forge 1 @",
        "forge 0 1 @",
        "decision @",
    ];
    rng.pick(&lines).replace('@', no_number(rng))
}

/// Behind a value or another that breaks its rule, or behind none.
fn flawed_proposal(kind: Kind, rng: &Rng) -> String {
    let first = rng.pick(&[
        any_value(kind, rng).word(),
        unlawful(kind, rng),
        String::new(),
    ]);
    let bad = rng.pick(&["empty", no_value(rng), no_value(rng)]);
    format!("open 3 0 {{}} {first} {bad}")
}

/// Perhaps with a value that breaks its rule, of which nothing is told then.
fn surplus(kind: Kind, rng: &Rng) -> String {
    let line = rng.pick(&["seat {}", "close", "decision 0", "forge 0 0 0 empty"]);
    let forge = format!("forge 0 0 0 {}", unlawful(kind, rng));
    let more = rng.pick(&["0", "{}", "close", "x", "stamped"]);
    format!("{} {more}", rng.pick(&[line, &forge]))
}

fn no_call(rng: &Rng) -> &'static str {
    rng.pick(&[
        "opens",
        "Close",
        "seated",
        "setpoint",
        "decide",
        "forge,",
        "{}",
        "500",
        "\u{b}close",
        "\u{c}close",
        "stamped",
    ])
}

/// How a script is written.
#[derive(Clone, Copy, Debug)]
pub struct Manners {
    /// Blanks, comments and empty lines in odd places, zeros before numbers, and
    /// sets in any order.
    pub loose: bool,
    pub line_end: &'static str,
    /// Whether the last line has an end too.
    pub ended: bool,
}

impl Manners {
    pub fn some(rng: &Rng) -> Manners {
        Manners {
            loose: rng.percent(25),
            line_end: rng.weighted(&[(90, "\n"), (10, "\r\n")]),
            ended: !rng.percent(25),
        }
    }

    pub fn write(&self, lines: &[String], rng: &Rng) -> String {
        let lines: Vec<String> = match self.loose {
            true => lines.iter().flat_map(|line| loosely(line, rng)).collect(),
            false => lines.to_vec(),
        };
        let mut text = lines.join(self.line_end);
        if self.ended {
            text.push_str(self.line_end);
        }
        text
    }
}

/// A line in other words, and perhaps lines without words before it.
fn loosely(line: &str, rng: &Rng) -> Vec<String> {
    let blank = || rng.pick(&[" ", " ", "  ", "\t", " \t ", "\r", "      "]);
    let mut lines = Vec::new();
    if rng.percent(10) {
        lines.push(
            rng.pick(&["", "   ", "# close", "\t# open 1 0 {} 500 # 600", "#", "\r"])
                .to_string(),
        );
    }
    let words: Vec<String> = line.split(' ').map(|word| loose_word(word, rng)).collect();
    let mut text = rng.pick(&["", "", " ", "\t "]).to_string();
    for (i, word) in words.iter().enumerate() {
        text.push_str(if i == 0 { "" } else { blank() });
        text.push_str(word);
    }
    text.push_str(rng.pick(&[
        "",
        "",
        "",
        " ",
        "\t",
        "#",
        " # accepted",
        "# refused 7 \u{e9}",
        "  # none # x",
    ]));
    lines.push(text);
    lines
}

fn loose_word(word: &str, rng: &Rng) -> String {
    let inner = word
        .strip_prefix('{')
        .and_then(|rest| rest.strip_suffix('}'));
    match inner {
        Some(members) if !members.is_empty() => {
            let mut members: Vec<String> = members
                .split(',')
                .map(|member| zeros_before(member, rng))
                .collect();
            if rng.percent(40) {
                members.push(rng.pick(&members));
            }
            rng.shuffle(&mut members);
            format!("{{{}}}", members.join(","))
        }
        Some(_) => word.to_string(),
        None => {
            let numbers: Vec<String> = word
                .split('/')
                .map(|number| zeros_before(number, rng))
                .collect();
            numbers.join("/")
        }
    }
}

fn zeros_before(word: &str, rng: &Rng) -> String {
    let is_number = !word.is_empty() && word.bytes().all(|byte| byte.is_ascii_digit());
    let zeros = if is_number {
        rng.pick(&[0, 0, 0, 1, 2, 30])
    } else {
        0
    };
    format!("{}{word}", "0".repeat(zeros))
}
