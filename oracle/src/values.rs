//! Values, definitions, answers, and their one-line text forms.
use std::fmt;

pub const BOOL: u8 = 0;
pub const INT: u8 = 1;
pub const FLOAT: u8 = 2;
pub const LIST: u8 = 3;
pub const VOID: u8 = 4;
pub const KIND_NAMES: [&str; 5] = ["Bool", "Int", "Float", "List", "Void"];
pub const OP_NAMES: [&str; 32] = [
    "Add",
    "Subtract",
    "Divide",
    "Multiply",
    "Mod",
    "Negate",
    "Equal",
    "Greater",
    "Less",
    "GreaterThanOrEquals",
    "LessThanOrEquals",
    "NotEquals",
    "Not",
    "And",
    "Or",
    "Min",
    "Max",
    "Pow",
    "Floor",
    "Ceiling",
    "Int",
    "Float",
    "Has",
    "Hasnt",
    "Intersect",
    "ListMin",
    "ListMax",
    "All",
    "Count",
    "ValueOfList",
    "Invert",
    "Range",
];
/// The operators that are carried: all but POW, and range.
pub const CARRIED: [u8; 31] =
    [0, 1, 2, 3, 4, 5, 6, 7, 8, 9, 10, 11, 12, 13, 14, 15, 16, 18, 19, 20, 21, 22, 23, 24, 25, 26, 27, 28, 29, 30, 31];
pub const SUBTRACT: u8 = 1;
pub const EQUAL: u8 = 6;
pub const NOT_EQUALS: u8 = 11;
pub const POW: u8 = 17;
pub const FLOOR: u8 = 18;
pub const CEILING: u8 = 19;
/// Float as an operator
pub const TO_FLOAT: u8 = 21;
pub const INTERSECT: u8 = 24;
pub const ALL: u8 = 27;
pub const INVERT: u8 = 30;
pub const RANGE: u8 = 31;

/// How many operands an operator takes.
pub fn arity(op: u8) -> usize {
    match op {
        5 | 12 | FLOOR | CEILING | 20 | 21 | 25..=30 => 1,
        RANGE => 3,
        _ => 2,
    }
}

/// A list: origin set (bit d is definition d) and entries rising by item number.
#[derive(Clone, Debug, PartialEq)]
pub struct List {
    pub origins: u64,
    pub entries: Vec<(u16, i32)>,
}

/// A float is held by its bits, so that values have a plain equality.
#[derive(Clone, Debug, PartialEq)]
pub enum Val {
    Bool(bool),
    Int(i32),
    Float(u32),
    List(List),
    Void,
}

impl Val {
    pub fn kind(&self) -> u8 {
        match self {
            Val::Bool(_) => BOOL,
            Val::Int(_) => INT,
            Val::Float(_) => FLOAT,
            Val::List(_) => LIST,
            Val::Void => VOID,
        }
    }
}

/// Definitions: for each origin the values of its items; items are numbered on
/// from 0 across origins.
#[derive(Clone, Debug, PartialEq, Default)]
pub struct Defs {
    pub values: Vec<Vec<i32>>,
}

impl Defs {
    pub fn items(&self) -> usize {
        self.values.iter().map(Vec::len).sum()
    }
    pub fn first(&self, d: usize) -> usize {
        self.values[..d].iter().map(Vec::len).sum()
    }
    pub fn origin_of(&self, item: u16) -> usize {
        let mut end = 0;
        for (d, v) in self.values.iter().enumerate() {
            end += v.len();
            if (item as usize) < end {
                return d;
            }
        }
        panic!("item {item} is in no definition")
    }
    /// (item number, defined value) of every item of definition d.
    pub fn of(&self, d: usize) -> impl Iterator<Item = (u16, i32)> + '_ {
        let first = self.first(d);
        self.values[d].iter().enumerate().map(move |(i, v)| ((first + i) as u16, *v))
    }
    pub fn origins_of(&self, entries: &[(u16, i32)]) -> u64 {
        entries.iter().fold(0, |s, e| s | 1 << self.origin_of(e.0))
    }
}

#[derive(Clone, Debug, PartialEq)]
pub enum Answer {
    Val(Val),
    /// The original's Err, with document 01's number for its message.
    Refused(u8),
    /// The original panicked.
    Panic,
    /// A String came out (`cast` to 4): outside the domain.
    Foreign,
}

impl fmt::Display for Val {
    /// The operand form: one token.
    fn fmt(&self, f: &mut fmt::Formatter<'_>) -> fmt::Result {
        match self {
            Val::Bool(b) => write!(f, "B{}", *b as u8),
            Val::Int(i) => write!(f, "I{i}"),
            Val::Float(b) => write!(f, "F{b:08x}"),
            Val::Void => write!(f, "V"),
            Val::List(l) => {
                write!(f, "L{:x}:", l.origins)?;
                for (n, (k, v)) in l.entries.iter().enumerate() {
                    write!(f, "{}{k}={v}", if n > 0 { "," } else { "" })?;
                }
                Ok(())
            }
        }
    }
}

impl fmt::Display for Answer {
    /// Document 01's line form for results (as `sheetrun` prints them).
    fn fmt(&self, f: &mut fmt::Formatter<'_>) -> fmt::Result {
        match self {
            Answer::Val(Val::Bool(b)) => write!(f, "B {}", *b as u8),
            Answer::Val(Val::Int(i)) => write!(f, "I {i}"),
            // there is one NaN
            Answer::Val(Val::Float(b)) if f32::from_bits(*b).is_nan() => write!(f, "F 7fc00000"),
            Answer::Val(Val::Float(b)) => write!(f, "F {b:08x}"),
            Answer::Val(Val::Void) => write!(f, "V"),
            Answer::Val(Val::List(l)) => {
                write!(f, "L {}", l.entries.len())?;
                for (k, v) in &l.entries {
                    write!(f, " {k}={v}")?;
                }
                Ok(())
            }
            Answer::Refused(n) => write!(f, "R {n}"),
            Answer::Panic => write!(f, "P"),
            Answer::Foreign => write!(f, "S"),
        }
    }
}
