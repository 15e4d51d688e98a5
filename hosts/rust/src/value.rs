//! Values, and their words at the boundary. `hosts/include/ink_operators.h` says how values stand in words.

/// The kind of a value, by its code.
#[derive(Clone, Copy, Debug, PartialEq, Eq, Hash)]
#[repr(u8)]
pub enum Kind {
    Bool = 0,
    Int = 1,
    Float = 2,
    List = 3,
    Void = 4,
}

impl Kind {
    /// The kind that a code stands for.
    pub fn from_code(code: u8) -> Option<Kind> {
        match code {
            0 => Some(Kind::Bool),
            1 => Some(Kind::Int),
            2 => Some(Kind::Float),
            3 => Some(Kind::List),
            4 => Some(Kind::Void),
            _ => None,
        }
    }
}

/// A list: its origin set (bit i is definition i) and its entries, each an item's number and its value. Any list can be made; one that is
/// not formed as a literal of the pack (items rising and in the pack, origin bits below the definitions) is refused with 7 where it is used.
#[derive(Clone, Debug, Default, PartialEq, Eq)]
pub struct List {
    /// In an operator's result: the origins of its items; where Subtract of two lists leaves nothing, those of the left one.
    pub origins: u64,
    pub entries: Vec<(u16, i32)>,
}

/// A value. Every NaN is the same value to the operators.
#[derive(Clone, Debug, PartialEq)]
pub enum Value {
    Bool(bool),
    Int(i32),
    Float(f32),
    List(List),
    Void,
}

impl Value {
    /// A list of these entries.
    pub fn list(origins: u64, entries: &[(u16, i32)]) -> Value {
        Value::List(List { origins, entries: entries.to_vec() })
    }

    /// The value's kind.
    pub fn kind(&self) -> Kind {
        match self {
            Value::Bool(_) => Kind::Bool,
            Value::Int(_) => Kind::Int,
            Value::Float(_) => Kind::Float,
            Value::List(_) => Kind::List,
            Value::Void => Kind::Void,
        }
    }
}

/// Words that are no value's: question 7 says no to them.
const NO_VALUE: [u64; 3] = [u64::MAX, 0, 0];

/// The entries of the lists of some values, one list after another.
#[derive(Default)]
pub(crate) struct Entries {
    pub items: Vec<u16>,
    pub values: Vec<i32>,
}

impl Entries {
    pub fn clear(&mut self) {
        self.items.clear();
        self.values.clear();
    }

    /// The words of a value, its list's entries taken in.
    pub fn words(&mut self, value: &Value) -> [u64; 3] {
        match value {
            Value::Bool(b) => [0, *b as u64, 0],
            Value::Int(z) => [1, *z as u32 as u64, 0],
            Value::Float(x) => [2, x.to_bits() as u64, 0],
            Value::List(list) => {
                let (Ok(start), Ok(len)) = (u32::try_from(self.items.len()), u32::try_from(list.entries.len())) else {
                    return NO_VALUE;
                };
                for &(item, value) in &list.entries {
                    self.items.push(item);
                    self.values.push(value);
                }
                [3, list.origins, start as u64 | (len as u64) << 32]
            }
            Value::Void => [4, 0, 0],
        }
    }
}

/// The value of an answer's words, a list's entries in the result slices.
pub(crate) fn read(words: [u64; 3], items: &[u16], values: &[i32]) -> Value {
    match words[0] {
        0 => Value::Bool(words[1] == 1),
        1 => Value::Int(words[1] as u32 as i32),
        2 => Value::Float(f32::from_bits(words[1] as u32)),
        3 => {
            let len = (words[2] >> 32) as usize;
            let entries = items.iter().copied().zip(values.iter().copied()).take(len).collect();
            Value::List(List { origins: words[1], entries })
        }
        _ => Value::Void,
    }
}
