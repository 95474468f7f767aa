//! Scripts made from a seed, to show every difference between two programs.

use crate::adversaries::Frame;
use crate::benches::{Call, CallName};
use crate::call_makers::CallMaker;
use crate::files::{Draft, LONGEST, RunFile, length, line_width};
use crate::line_makers::{Manners, lay};
use crate::makers;
use crate::models::{Base, Model, Set};
use crate::packing::PackFlaw;
use crate::rng::Rng;
use crate::runs::{MOST_CELLS, MOST_ROUNDS, Opening, Place, needed};
use crate::scripts::{Head, LineFlaw, MOST_TOLD, Script, calls_of};
use crate::values::Kind;

/// How a script is made.
#[derive(Clone, Copy, PartialEq, Eq, Debug)]
pub enum Recipe {
    /// Calls in any order.
    Any,
    Sound,
    /// A sound one under a model that lets the block be split.
    Split,
    /// A sound one with questions between the calls.
    Questioned,
    /// A sound one with refused calls between the others.
    Disturbed,
    ThousandRounds,
    /// As long as a run file can be, or a little longer.
    Full,
    Unpackable(PackFlaw),
    OneFlaw(LineFlaw),
    /// The first line is flawed, and others with it.
    FlawedHead,
    SeveralFlaws,
    ManyFlaws,
    Cut,
    ChangedByte,
    Noise,
}

pub struct Made {
    pub recipe: Recipe,
    pub text: Vec<u8>,
}

/// Made script number `index` of `seed`.
pub fn make(seed: u64, index: u64) -> Made {
    let rng = Rng::new(seed, index);
    let recipe = recipe(index);
    let head = match recipe {
        Recipe::Split => splitting_head(index, &rng),
        _ => head(index, &rng),
    };
    let maker = ScriptMaker { head, rng: &rng };
    let text = match recipe {
        Recipe::OneFlaw(flaw) => maker.flawed(&[flaw]),
        Recipe::FlawedHead => maker.flawed(&maker.flaws_of_a_head()),
        Recipe::SeveralFlaws => maker.flawed(&maker.some_flaws(rng.between(2, 6))),
        Recipe::ManyFlaws => {
            let count = rng.pick(&[MOST_TOLD, MOST_TOLD + 1, rng.between(20, 45)]);
            maker.flawed(&maker.flaws_of_lines(count))
        }
        Recipe::Cut => maker.cut(),
        Recipe::ChangedByte => maker.changed(),
        Recipe::Noise => maker.noise(),
        _ => maker.write(&maker.script(recipe)),
    };
    Made { recipe, text }
}

/// Goes by the index, not by chance, so that a few hundred scripts have them all.
fn recipe(index: u64) -> Recipe {
    let (hundred, slot) = (index / 100, (index % 100) as usize);
    let turn = |start: usize, slots: usize| hundred as usize * slots + slot - start;
    match slot {
        0..22 => Recipe::Any,
        22..33 => Recipe::Sound,
        33..36 => Recipe::Split,
        36..44 => Recipe::Questioned,
        44..54 => Recipe::Disturbed,
        54 => Recipe::ThousandRounds,
        55 => Recipe::Full,
        56..71 => Recipe::Unpackable(PackFlaw::ALL[turn(56, 15) % PackFlaw::ALL.len()]),
        71..84 => Recipe::OneFlaw(LineFlaw::ALL[turn(71, 13) % LineFlaw::ALL.len()]),
        84..87 => Recipe::FlawedHead,
        87..90 => Recipe::SeveralFlaws,
        90..92 => Recipe::ManyFlaws,
        92..95 => Recipe::Cut,
        95..98 => Recipe::ChangedByte,
        _ => Recipe::Noise,
    }
}

/// The first line also goes round by the index.
fn head(index: u64, rng: &Rng) -> Head {
    // The hundreds turn it on, so that every recipe meets every kind and model.
    let turn = (index + index / 100) as usize;
    let (bases, kinds) = (Base::ALL.len(), Kind::ALL.len());
    let layers = match turn / (bases * kinds) % 3 {
        2 => rng.pick(&[2, 2, 3, 7]),
        layers => layers,
    };
    Head {
        kind: Kind::ALL[turn / bases % kinds],
        base: Base::ALL[turn % bases],
        layers,
    }
}

/// Without stamps, an upset that moves can split a block.
fn splitting_head(index: u64, rng: &Rng) -> Head {
    let bases = [Base::Aware, Base::Unaware, Base::Buffered, Base::Carried];
    Head {
        base: rng.pick(&bases),
        layers: 0,
        ..head(index, rng)
    }
}

struct ScriptMaker<'a> {
    head: Head,
    rng: &'a Rng,
}

impl ScriptMaker<'_> {
    fn kind_and_model(&self) -> (Kind, Model) {
        (self.head.kind, self.head.model())
    }

    fn frame(&self) -> Frame {
        makers::frame(self.kind_and_model(), self.rng)
    }

    fn write(&self, script: &Script) -> Vec<u8> {
        let lines = lines_of(script);
        Manners::some(self.rng).write(&lines, self.rng).into_bytes()
    }

    fn script(&self, recipe: Recipe) -> Script {
        // Enough for every block.
        let cells = self.rng.weighted(&[
            (6, None),
            (2, Some(MOST_CELLS)),
            (1, Some(MOST_CELLS + 1)),
            (1, Some(usize::MAX)),
        ]);
        match recipe {
            Recipe::Any => self.any(),
            Recipe::Split => Script::new(self.head, cells, self.asked(self.split())),
            Recipe::Questioned => Script::new(self.head, cells, self.questioned()),
            Recipe::Disturbed => Script::new(self.head, cells, self.disturbed()),
            Recipe::ThousandRounds => Script::new(self.head, cells, self.thousand_rounds()),
            Recipe::Full => Script::new(self.head, None, self.full()),
            Recipe::Unpackable(flaw) => self.unpackable(flaw),
            _ => Script::new(self.head, cells, self.asked(self.sound())),
        }
    }

    fn any(&self) -> Script {
        let frame = self.frame();
        let rng = self.rng;
        let enough = needed(frame.n);
        let cells = rng.weighted(&[
            (50, None),
            (10, Some(enough)),
            (10, Some(enough - 1)),
            (5, Some(0)),
            (10, Some(rng.below(MOST_CELLS))),
            (5, Some(usize::MAX)),
        ]);
        let mut maker = CallMaker::new(frame, cells.unwrap_or(MOST_CELLS), rng);
        for _ in 0..rng.pick(&[1, 4, 30, 100, 250]) {
            maker.make_any();
        }
        if rng.percent(70) {
            maker.ask_all();
        }
        Script::new(self.head, cells, maker.into_calls())
    }

    /// The calls of a made run file.
    fn sound(&self) -> Vec<Call> {
        calls_of_draft(&makers::sound(self.kind_and_model(), self.rng))
    }

    fn split(&self) -> Vec<Call> {
        calls_of_draft(&makers::splitting(self.kind_and_model(), self.rng))
    }

    fn maker(&self) -> CallMaker<'_> {
        CallMaker::new(self.frame(), MOST_CELLS, self.rng)
    }

    /// With questions at the end.
    fn asked(&self, calls: Vec<Call>) -> Vec<Call> {
        let mut maker = self.maker();
        calls.into_iter().for_each(|call| maker.make(call));
        match self.rng.below(10) {
            0 => {}
            1..4 => maker.ask_all(),
            _ => maker.ask_unseated(),
        }
        maker.into_calls()
    }

    fn questioned(&self) -> Vec<Call> {
        let mut maker = self.maker();
        let chance = self.rng.pick(&[2, 10, 30]);
        for call in self.sound() {
            maker.make(call);
            if self.rng.percent(chance) {
                maker.make(maker.sound(CallName::Decision));
            }
        }
        maker.ask_all();
        maker.into_calls()
    }

    fn disturbed(&self) -> Vec<Call> {
        let mut maker = self.maker();
        let chance = self.rng.pick(&[5, 20, 50]);
        for call in self.sound() {
            while self.rng.percent(chance) {
                maker.make_refused();
            }
            maker.make(call);
        }
        maker.ask_all();
        maker.into_calls()
    }

    /// A block of one, and one seat more than there are rounds.
    fn thousand_rounds(&self) -> Vec<Call> {
        let mut maker = self.maker();
        maker.make(Call::Open(Opening::of(
            0,
            &[maker.some_value()],
            Set::EMPTY,
        )));
        let rounds = MOST_ROUNDS - self.rng.pick(&[0, 0, 0, 1]);
        for _ in 0..rounds {
            maker.make(Call::Seat(Set::EMPTY));
            maker.make(Call::Close);
        }
        let last = self.rng.pick(&[Set::EMPTY, Set(1), Set(1 << 9)]);
        maker.make(Call::Seat(last));
        maker.make(Call::Decision(0));
        maker.into_calls()
    }

    /// A script whose run file is as long as can be, or one line longer.
    fn full(&self) -> Vec<Call> {
        let rng = self.rng;
        let kind = self.head.kind;
        let mut calls = vec![Call::Open(Opening::of(
            0,
            &[self.maker().some_value()],
            Set::EMPTY,
        ))];
        let rounds = rng.between(1, 300);
        for _ in 0..rounds {
            calls.extend([Call::Seat(Set::EMPTY), Call::Close]);
        }
        let room = LONGEST - length(kind, 1, rounds, 0);
        let at = 2 * rng.between(1, rounds);
        let forge = |column| Call::Forge(Place::new(0, 0, column), None);
        let lines = room / line_width(kind);
        // The one too many may have a number that is too large as well.
        let over = rng.percent(40).then(|| forge(rng.pick(&[0, 0, 256])));
        let forges = std::iter::repeat_n(forge(0), lines).chain(over);
        calls.splice(at..at, forges);
        // What is left is less than a line, but may be enough for some rounds.
        let left = (room - lines * line_width(kind)) / 2;
        for _ in 0..left + usize::from(rng.percent(50)) {
            calls.extend([Call::Seat(Set::EMPTY), Call::Close]);
        }
        calls
    }

    /// A script that packs but for this flaw, and now and then for another.
    fn unpackable(&self, flaw: PackFlaw) -> Script {
        let rng = self.rng;
        let mut calls = self.asked(self.sound());
        let mut cells = None;
        let other = rng.percent(30).then(|| rng.pick(&PackFlaw::ALL));
        for flaw in [Some(flaw), other].into_iter().flatten() {
            match flaw {
                PackFlaw::FewCells => {
                    cells = rng.pick(&[Some(MOST_CELLS - 1), Some(0), Some(needed(6))])
                }
                _ => self.lay_into_calls(flaw, &mut calls),
            }
        }
        Script::new(self.head, cells, calls)
    }

    fn lay_into_calls(&self, flaw: PackFlaw, calls: &mut Vec<Call>) {
        let rng = self.rng;
        let anywhere = rng.between(calls.len().min(1), calls.len());
        match flaw {
            PackFlaw::NoOpen if rng.percent(30) => calls.clear(),
            PackFlaw::NoOpen if rng.percent(40) => calls.insert(
                0,
                rng.pick(&[Call::Close, Call::Decision(0), Call::Seat(Set::EMPTY)]),
            ),
            PackFlaw::NoOpen => drop(calls.drain(..calls.len().min(1))),
            PackFlaw::ProposalCount | PackFlaw::LargeNumber => self.spoil_a_number(flaw, calls),
            PackFlaw::SecondOpen => {
                let again = Call::Open(Opening::of(0, &[], Set::EMPTY));
                calls.insert(anywhere, calls.first().cloned().unwrap_or(again));
            }
            PackFlaw::NoRound => {
                let closes = positions(calls, CallName::Close);
                let at = closes.last().map_or(anywhere, |_| rng.pick(&closes) + 1);
                let stray = Call::Forge(Place::new(0, 0, 256), None);
                calls.insert(
                    rng.pick(&[at, calls.len()]),
                    rng.pick(&[Call::Close, Call::Close, stray]),
                );
            }
            PackFlaw::RoundNotClosed => match rng.below(3) {
                0 => calls.insert(anywhere, Call::Decision(0)),
                1 => calls.push(Call::Seat(Set::EMPTY)),
                _ => remove_one(calls, CallName::Close, rng),
            },
            PackFlaw::AfterDecision => {
                let decision = Call::Decision(rng.pick(&[0, 300]));
                calls.extend([decision, Call::Seat(Set::EMPTY)]);
            }
            PackFlaw::FewCells | PackFlaw::NoRoom => *calls = self.full(),
        }
    }

    fn spoil_a_number(&self, flaw: PackFlaw, calls: &mut Vec<Call>) {
        let rng = self.rng;
        // 255 is not too large for a run file.
        let large = rng.pick(&[255, 255, 256, 256, 65_536, usize::MAX]);
        let seats = positions(calls, CallName::Seat);
        if flaw == PackFlaw::LargeNumber && !seats.is_empty() && rng.percent(60) {
            let place = rng.pick(&[
                Place::new(large, 0, 0),
                Place::new(0, large, 0),
                Place::new(0, 0, large),
            ]);
            calls.insert(rng.pick(&seats) + 1, Call::Forge(place, None));
            return;
        }
        let Some(Call::Open(opening)) = calls.first_mut() else {
            return;
        };
        let value = self.maker().some_value();
        match (flaw, rng.below(3)) {
            (PackFlaw::LargeNumber, 0) => opening.t = large,
            (PackFlaw::LargeNumber, _) => {
                opening.n = large;
                opening.proposals.resize(large.min(300), value);
            }
            (_, 0) => opening.n = large,
            (_, 1) => opening.proposals.push(value),
            _ => drop(opening.proposals.pop()),
        }
    }

    fn some_flaws(&self, count: usize) -> Vec<LineFlaw> {
        (0..count).map(|_| self.rng.pick(&LineFlaw::ALL)).collect()
    }

    /// Each makes one line faulty, so that it can be told how many there are.
    fn flaws_of_lines(&self, count: usize) -> Vec<LineFlaw> {
        let head = [LineFlaw::Kind, LineFlaw::Model, LineFlaw::Stamped];
        let mut flaws = LineFlaw::ALL.to_vec();
        flaws.retain(|flaw| !head.contains(flaw));
        (0..count).map(|_| self.rng.pick(&flaws)).collect()
    }

    fn flaws_of_a_head(&self) -> Vec<LineFlaw> {
        let first = self
            .rng
            .pick(&[LineFlaw::Kind, LineFlaw::Model, LineFlaw::Stamped]);
        // Without a kind no value can break its rule.
        let others = [LineFlaw::Unlawful, LineFlaw::Surplus, LineFlaw::Unlawful];
        let count = self.rng.below(4);
        [first].into_iter().chain(others).take(1 + count).collect()
    }

    fn flawed(&self, flaws: &[LineFlaw]) -> Vec<u8> {
        let mut lines = lines_of(&self.any());
        for &flaw in flaws {
            lay(flaw, &mut lines, self.head.kind, self.rng);
        }
        Manners::some(self.rng).write(&lines, self.rng).into_bytes()
    }

    /// Any beginning of a script.
    fn cut(&self) -> Vec<u8> {
        let mut text = self.write(&self.any());
        text.truncate(self.rng.below(text.len()));
        text
    }

    /// A script with some bytes changed.
    fn changed(&self) -> Vec<u8> {
        let rng = self.rng;
        let mut text = self.write(&self.any());
        for _ in 0..rng.pick(&[1, 1, 3, 20]) {
            let at = rng.below(text.len());
            text[at] = match rng.percent(70) {
                true => rng.pick(b" \n\r\t#{},/0915eo\0\x0b\x0c\xa0\xff"),
                false => rng.byte(),
            };
        }
        text
    }

    fn noise(&self) -> Vec<u8> {
        let rng = self.rng;
        match rng.below(6) {
            0 => Vec::new(),
            1 => {
                let texts = [
                    "\n",
                    " ",
                    "# close",
                    "# close\n",
                    "\r\n\r\n",
                    "\n\n#",
                    "\t\n \n\n",
                ];
                rng.pick(&texts).as_bytes().to_vec()
            }
            2 => rng.bytes(rng.below(200)),
            3 => {
                let mut text = format!("{}\n", self.head).into_bytes();
                text.extend(rng.bytes(rng.below(200)));
                text
            }
            _ => self.shuffled_words(),
        }
    }

    /// Words of scripts in any order.
    fn shuffled_words(&self) -> Vec<u8> {
        let rng = self.rng;
        let words = [
            "open", "seat", "forge", "close", "decision", "cells", "setpoint", "sheet", "aware",
            "fixed", "stamped", "empty", "0", "1", "2", "500", "{}", "{0}", "{1,0}", "1/2/3/4",
            "#",
        ];
        let mut text = match rng.percent(60) {
            true => format!("{}\n", self.head),
            false => String::new(),
        };
        for _ in 0..rng.below(60) {
            text.push_str(rng.pick(&words));
            text.push_str(rng.pick(&[" ", " ", "\n"]));
        }
        text.into_bytes()
    }
}

/// The calls of a sound draft.
fn calls_of_draft(draft: &Draft) -> Vec<Call> {
    let file = RunFile::read(&draft.bytes()).expect("the draft is sound");
    calls_of(&file)
}

fn lines_of(script: &Script) -> Vec<String> {
    script.to_string().lines().map(str::to_string).collect()
}

/// Where calls of this name stand.
fn positions(calls: &[Call], name: CallName) -> Vec<usize> {
    let all = calls.iter().enumerate();
    all.filter(|(_, call)| call.name() == name)
        .map(|(at, _)| at)
        .collect()
}

fn remove_one(calls: &mut Vec<Call>, name: CallName, rng: &Rng) {
    let all = positions(calls, name);
    if !all.is_empty() {
        calls.remove(rng.pick(&all));
    }
}
