//! Models of upsets: which set may be seated after which, and how each
//! controller then sends.

use std::fmt;

/// A set of controllers; bit i stands for controller i.
#[derive(Clone, Copy, PartialEq, Eq, Debug, Default)]
pub struct Set(pub u16);

impl Set {
    pub const EMPTY: Set = Set(0);

    pub fn has(self, controller: usize) -> bool {
        controller < 16 && self.0 >> controller & 1 == 1
    }

    pub fn len(self) -> usize {
        self.0.count_ones() as usize
    }

    pub fn members(self) -> impl Iterator<Item = usize> {
        (0..16).filter(move |&controller| self.has(controller))
    }
}

impl fmt::Display for Set {
    fn fmt(&self, f: &mut fmt::Formatter) -> fmt::Result {
        let members: Vec<String> = self.members().map(|member| member.to_string()).collect();
        write!(f, "{{{}}}", members.join(","))
    }
}

impl FromIterator<usize> for Set {
    fn from_iter<I: IntoIterator<Item = usize>>(controllers: I) -> Set {
        Set(controllers
            .into_iter()
            .fold(0, |bits, controller| bits | 1 << controller))
    }
}

/// What a controller is like as a sender in one round.
#[derive(Clone, Copy, PartialEq, Eq, Debug)]
pub enum Class {
    Honest,
    Silent,
    /// One forged message, the same to all.
    Uniform,
    /// A forged message for each receiver.
    Free,
}

/// How many controllers of a class one round has at most: `b` bounds all that
/// are not honest, `l` the free and uniform ones together, `e` the free ones.
///
/// Under buffered with t = 1 an upset that moves makes two controllers free, the
/// one that it leaves and the one that it comes to, so all three bounds are 2.
#[derive(Clone, Copy, PartialEq, Eq, Debug)]
pub struct Counts {
    pub b: usize,
    pub e: usize,
    pub l: usize,
}

/// One of the five models without the stamp layer.
#[derive(Clone, Copy, PartialEq, Eq, PartialOrd, Ord, Debug)]
pub enum Base {
    Aware,
    Unaware,
    Buffered,
    Carried,
    Fixed,
}

impl Base {
    pub const ALL: [Base; 5] = [
        Base::Aware,
        Base::Unaware,
        Base::Buffered,
        Base::Carried,
        Base::Fixed,
    ];

    pub fn from_code(code: u8) -> Option<Base> {
        Base::ALL.into_iter().find(|base| base.code() == code)
    }

    pub fn code(self) -> u8 {
        match self {
            Base::Aware => 0,
            Base::Unaware => 1,
            Base::Buffered => 2,
            Base::Carried => 3,
            Base::Fixed => 4,
        }
    }

    pub fn word(self) -> &'static str {
        match self {
            Base::Aware => "aware",
            Base::Unaware => "unaware",
            Base::Buffered => "buffered",
            Base::Carried => "carried",
            Base::Fixed => "fixed",
        }
    }

    /// The class of a controller, by whether it is in the set before the move
    /// and in the set after it.
    fn class(self, before: bool, after: bool) -> Class {
        match (self, before, after) {
            (_, false, false) => Class::Honest,
            (_, true, true) => Class::Free,
            // The upset arrives after its new host has sent.
            (Base::Carried, false, true) => Class::Honest,
            (_, false, true) => Class::Free,
            (Base::Aware, true, false) => Class::Silent,
            (Base::Unaware, true, false) => Class::Uniform,
            (_, true, false) => Class::Free,
        }
    }

    fn counts(self, t: usize) -> Counts {
        let (b, e, l) = match self {
            Base::Aware => (2, 1, 1),
            Base::Unaware => (2, 1, 2),
            Base::Buffered => (2, 2, 2),
            Base::Carried | Base::Fixed => (1, 1, 1),
        };
        Counts {
            b: b * t,
            e: e * t,
            l: l * t,
        }
    }
}

/// A model as a run file's header names it: the base, and whether the stamp
/// layer stands over it.
#[derive(Clone, Copy, PartialEq, Eq, PartialOrd, Ord, Debug)]
pub struct Model {
    pub base: Base,
    pub stamps: bool,
}

impl Model {
    pub fn allows(self, before: Set, after: Set) -> bool {
        self.base != Base::Fixed || before == after
    }

    pub fn class(self, before: Set, after: Set, controller: usize) -> Class {
        match self
            .base
            .class(before.has(controller), after.has(controller))
        {
            // A stamped message reaches all alike.
            Class::Free if self.stamps => Class::Uniform,
            class => class,
        }
    }

    /// The counts for at most `t` seated controllers; a `t` above 15 is read as 15.
    pub fn counts(self, t: usize) -> Counts {
        let counts = self.base.counts(t.min(15));
        Counts {
            e: if self.stamps { 0 } else { counts.e },
            ..counts
        }
    }
}

impl fmt::Display for Model {
    fn fmt(&self, f: &mut fmt::Formatter) -> fmt::Result {
        let stamps = if self.stamps { ", stamped" } else { "" };
        f.pad(&format!("{}{stamps}", self.base.word()))
    }
}
