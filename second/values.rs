//! What the controllers vote on: setpoints and sheets.

use std::fmt;

/// The kind of all values of one vote.
#[derive(Clone, Copy, PartialEq, Eq, PartialOrd, Ord, Debug)]
pub enum Kind {
    Setpoint,
    Sheet,
}

/// A lawful value. Two values are the same exactly if they are equal.
#[derive(Clone, Copy, PartialEq, Eq, Debug)]
pub enum Value {
    Setpoint(u16),
    Sheet([u16; 4]),
}

/// The publications' "bottom" is `None`.
pub type Cell = Option<Value>;

impl Kind {
    pub const ALL: [Kind; 2] = [Kind::Setpoint, Kind::Sheet];

    pub fn from_code(code: u8) -> Option<Kind> {
        Kind::ALL.into_iter().find(|kind| kind.code() == code)
    }

    pub fn code(self) -> u8 {
        match self {
            Kind::Setpoint => 0,
            Kind::Sheet => 1,
        }
    }

    /// How many bytes a value takes.
    pub fn width(self) -> usize {
        match self {
            Kind::Setpoint => 2,
            Kind::Sheet => 8,
        }
    }

    /// What serves where nothing was agreed.
    pub fn fallback(self) -> Value {
        match self {
            Kind::Setpoint => Value::Setpoint(400),
            Kind::Sheet => Value::Sheet([250; 4]),
        }
    }

    /// Reads a lawful value from exactly as many bytes as its width.
    pub fn read(self, bytes: &[u8]) -> Option<Value> {
        if bytes.len() != self.width() {
            return None;
        }
        let numbers: Vec<u16> = bytes
            .chunks_exact(2)
            .map(|pair| u16::from_le_bytes([pair[0], pair[1]]))
            .collect();
        self.value(&numbers)
    }

    /// The value with these numbers, if they keep the rule.
    pub fn value(self, numbers: &[u16]) -> Option<Value> {
        match (self, numbers) {
            (Kind::Setpoint, &[tenths]) => Value::setpoint(tenths),
            (Kind::Sheet, &[a, b, c, d]) => Value::sheet([a, b, c, d]),
            _ => None,
        }
    }

    /// Its word in a script.
    pub fn word(self) -> &'static str {
        match self {
            Kind::Setpoint => "setpoint",
            Kind::Sheet => "sheet",
        }
    }
}

impl Value {
    pub fn setpoint(tenths: u16) -> Option<Value> {
        (200..=900)
            .contains(&tenths)
            .then_some(Value::Setpoint(tenths))
    }

    pub fn sheet(shares: [u16; 4]) -> Option<Value> {
        // Summed wide: four shares can exceed 65,535.
        let total: u32 = shares.iter().copied().map(u32::from).sum();
        (total <= 1000).then_some(Value::Sheet(shares))
    }

    pub fn kind(&self) -> Kind {
        match self {
            Value::Setpoint(_) => Kind::Setpoint,
            Value::Sheet(_) => Kind::Sheet,
        }
    }

    pub fn numbers(&self) -> &[u16] {
        match self {
            Value::Setpoint(tenths) => std::slice::from_ref(tenths),
            Value::Sheet(shares) => shares,
        }
    }

    pub fn bytes(&self) -> Vec<u8> {
        self.numbers()
            .iter()
            .flat_map(|number| number.to_le_bytes())
            .collect()
    }
}

impl fmt::Display for Kind {
    fn fmt(&self, f: &mut fmt::Formatter) -> fmt::Result {
        f.pad(match self {
            Kind::Setpoint => "setpoints",
            Kind::Sheet => "sheets",
        })
    }
}

impl Value {
    fn joined(&self, between: &str) -> String {
        let words: Vec<String> = self.numbers().iter().map(u16::to_string).collect();
        words.join(between)
    }

    /// As a script has it, in one word.
    pub fn word(&self) -> String {
        self.joined("/")
    }
}

impl fmt::Display for Value {
    fn fmt(&self, f: &mut fmt::Formatter) -> fmt::Result {
        f.write_str(&self.joined(" "))
    }
}
