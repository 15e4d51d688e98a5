//! The native operators of Ink, proved, behind a safe interface: a [`Pack`] is checked once, when it is made, and then vets and runs its
//! sheets, calls operators and converts values. Nothing that safe code can pass breaks what the archive's functions ask of their caller,
//! and every call has the floating-point environment that its answers are proved for, whatever the thread's own is ([`environment`]).
//!
//! ```
//! use ink_operators::{op, Pack, Value, Workspace};
//! // one sheet: Int 2, Int 3, Add
//! let pack = Pack::new([1, 0, 0, 1, 8, 0, 11, 0, 33, 2, 0, 0, 0, 33, 3, 0, 0, 0, 0])?;
//! let mut workspace = Workspace::new();
//! let slots = [const { Value::Void }; 16];
//! assert_eq!(pack.run(&mut workspace, 0, &slots)?, Value::Int(5));
//! assert_eq!(pack.call(op::ADD, &[Value::Bool(true), Value::Bool(true)])?, Value::Int(2));
//! # Ok::<(), ink_operators::Refusal>(())
//! ```

pub mod environment;
pub mod op;
pub mod sys;
mod value;

use std::fmt;

use environment::guarded;
use value::Entries;
pub use value::{Kind, List, Value};

/// The entries that a result may have.
const RESULT_PLACES: usize = 256;
/// The entries of the lists on the stack of a run.
const WORK_PLACES: usize = 16384;
/// Two bytes for each instruction.
const FORECAST_BYTES: usize = 2048;
/// The definitions, and the items, that a pack may have.
const END_PLACES: usize = 64;
const DEFINED_PLACES: usize = 256;

/// The number of the first question that was answered no (1 to 13, 15, 17 or 18; README.md has them), and the index of the instruction
/// (0 for questions 1 to 7 and 18, and for direct calls and conversions).
#[derive(Clone, Copy, Debug, PartialEq, Eq, Hash)]
pub struct Refusal {
    pub number: u32,
    pub index: u64,
}

impl fmt::Display for Refusal {
    fn fmt(&self, f: &mut fmt::Formatter<'_>) -> fmt::Result {
        write!(f, "question {} said no at instruction {}", self.number, self.index)
    }
}

impl std::error::Error for Refusal {}

/// What vetting foretells after an instruction: how many values are stacked, and the kind of the topmost.
#[derive(Clone, Copy, Debug, PartialEq, Eq)]
pub struct Forecast {
    pub count: u8,
    pub top: Kind,
}

/// The scratch memory of runs. It can be used again after every run, whatever the run answered, and with any pack.
pub struct Workspace {
    // zero between runs: `Pack::run` alone hands them out, and leaves them so
    items: Box<[u16]>,
    values: Box<[i32]>,
    slots: Entries,
}

impl Workspace {
    pub fn new() -> Workspace {
        Workspace {
            items: vec![0; WORK_PLACES].into_boxed_slice(),
            values: vec![0; WORK_PLACES].into_boxed_slice(),
            slots: Entries::default(),
        }
    }
}

impl Default for Workspace {
    fn default() -> Workspace {
        Workspace::new()
    }
}

/// Result slices, and the words of an answer.
struct Answer {
    items: [u16; RESULT_PLACES],
    values: [i32; RESULT_PLACES],
    words: [u64; 3],
}

impl Answer {
    fn new() -> Answer {
        Answer { items: [0; RESULT_PLACES], values: [0; RESULT_PLACES], words: [0; 3] }
    }

    fn read(&self, number: u32) -> Result<Value, Refusal> {
        match number {
            0 => Ok(value::read(self.words, &self.items, &self.values)),
            _ => Err(Refusal { number, index: self.words[0] }),
        }
    }
}

/// A pack that has passed questions 1 to 5, with its definitions read.
#[derive(Clone)]
pub struct Pack {
    // what `new` was given and `ink_check` passed; never changed
    bytes: Box<[u8]>,
    // what `ink_definitions` wrote of those bytes; never changed
    ends: Box<[u16]>,
    defined: Box<[i32]>,
}

impl fmt::Debug for Pack {
    fn fmt(&self, f: &mut fmt::Formatter<'_>) -> fmt::Result {
        f.debug_struct("Pack")
            .field("bytes", &self.bytes.len())
            .field("definitions", &self.ends.len())
            .field("items", &self.defined.len())
            .field("sheets", &self.sheets())
            .finish()
    }
}

impl Pack {
    /// Asks questions 1 to 5 of any bytes, once and for all.
    pub fn new(bytes: impl Into<Box<[u8]>>) -> Result<Pack, Refusal> {
        let bytes = bytes.into();
        // SAFETY: the pointer and the length are those of one slice.
        let number = unsafe { sys::ink_check(bytes.as_ptr(), bytes.len()) };
        if number != 0 {
            return Err(Refusal { number, index: 0 });
        }
        let (mut ends, mut defined, mut counts) = ([0; END_PLACES], [0; DEFINED_PLACES], [0; 2]);
        // SAFETY: `ink_check` returned 0 for these bytes; each pointer and length are those of one array, lent to the function alone.
        let number = unsafe {
            sys::ink_definitions(
                bytes.as_ptr(),
                bytes.len(),
                ends.as_mut_ptr(),
                ends.len(),
                defined.as_mut_ptr(),
                defined.len(),
                &mut counts,
            )
        };
        if number != 0 {
            return Err(Refusal { number, index: 0 });
        }
        let [definitions, items] = counts;
        Ok(Pack { bytes, ends: ends[..definitions as usize].into(), defined: defined[..items as usize].into() })
    }

    /// The bytes of the pack.
    pub fn bytes(&self) -> &[u8] {
        &self.bytes
    }

    /// How many sheets the pack has.
    pub fn sheets(&self) -> usize {
        self.bytes[3] as usize
    }

    /// How many definitions the pack has.
    pub fn definitions(&self) -> usize {
        self.ends.len()
    }

    /// How many items the definitions have together.
    pub fn items(&self) -> usize {
        self.defined.len()
    }

    /// Vets a sheet for slots of these kinds: questions 6 to 13 and 17, and what every run on slots of those kinds has on its stack after
    /// each instruction. Passed, each such run ends in a value of the kind forecast last, or stops with 15; refused at an instruction, each
    /// stops there with that number, or before it with 15.
    pub fn vet(&self, sheet: usize, kinds: &[Kind; 16]) -> Result<Vec<Forecast>, Refusal> {
        let codes = kinds.map(|kind| kind as u8);
        let mut forecast = [0; FORECAST_BYTES];
        let mut index = 0;
        // SAFETY: each pointer and length are those of one slice or array; `forecast` and `index` are lent to the call alone.
        let number = unsafe {
            sys::ink_vet(self.bytes.as_ptr(), self.bytes.len(), sheet, &codes, forecast.as_mut_ptr(), forecast.len(), &mut index)
        };
        if number != 0 {
            return Err(Refusal { number, index });
        }
        let told = forecast.chunks_exact(2).take(index as usize);
        Ok(told.map(|two| Forecast { count: two[0], top: Kind::from_code(two[1]).expect("a forecast has kind codes") }).collect())
    }

    /// Runs a sheet: questions 6 to 13, 15 and 17.
    pub fn run(&self, workspace: &mut Workspace, sheet: usize, slots: &[Value; 16]) -> Result<Value, Refusal> {
        let Workspace { items, values, slots: lists } = workspace;
        lists.clear();
        let mut words = [0; 48];
        for (three, slot) in words.chunks_exact_mut(3).zip(slots) {
            three.copy_from_slice(&lists.words(slot));
        }
        let mut answer = Answer::new();
        // SAFETY: each pointer and length are those of one slice or array; the work and result slices and the answer's words are lent to
        // the call alone. `ink_check` passed the bytes, `ends` and `defined` are what `ink_definitions` wrote of them, cut to its counts,
        // and the work slices are zero: they were made so, and each call leaves them so.
        let number = guarded(|| unsafe {
            sys::ink_run_checked(
                self.bytes.as_ptr(),
                self.bytes.len(),
                self.ends.as_ptr(),
                self.ends.len(),
                self.defined.as_ptr(),
                self.defined.len(),
                sheet,
                &words,
                lists.items.as_ptr(),
                lists.items.len(),
                lists.values.as_ptr(),
                lists.values.len(),
                items.as_mut_ptr(),
                items.len(),
                values.as_mut_ptr(),
                values.len(),
                answer.items.as_mut_ptr(),
                RESULT_PLACES,
                answer.values.as_mut_ptr(),
                RESULT_PLACES,
                &mut answer.words,
            )
        });
        answer.read(number)
    }

    /// Calls an operator by its number in [`op`]: questions 7, 8, 10 to 13 and 15.
    pub fn call(&self, op: u8, operands: &[Value]) -> Result<Value, Refusal> {
        let mut lists = Entries::default();
        let mut words = [0; 9];
        for (three, operand) in words.chunks_exact_mut(3).zip(operands) {
            three.copy_from_slice(&lists.words(operand));
        }
        for three in words.chunks_exact_mut(3).skip(operands.len()) {
            three.copy_from_slice(&lists.words(&Value::Void));
        }
        let mut answer = Answer::new();
        // SAFETY: each pointer and length are those of one slice or array; the result slices and the answer's words are lent to the call
        // alone. `ends` and `defined` are what `ink_definitions` wrote of a pack that `ink_check` passed, cut to its counts.
        let number = guarded(|| unsafe {
            sys::ink_call_checked(
                self.ends.as_ptr(),
                self.ends.len(),
                self.defined.as_ptr(),
                self.defined.len(),
                op,
                operands.len(),
                &words,
                lists.items.as_ptr(),
                lists.items.len(),
                lists.values.as_ptr(),
                lists.values.len(),
                answer.items.as_mut_ptr(),
                RESULT_PLACES,
                answer.values.as_mut_ptr(),
                RESULT_PLACES,
                &mut answer.words,
            )
        });
        answer.read(number)
    }

    /// `cast` to the kind of a code: questions 7 and 18. (The archive's function takes the pack's bytes and asks 1 to 5 again.)
    pub fn cast(&self, code: u8, operand: &Value) -> Result<Value, Refusal> {
        let mut lists = Entries::default();
        let words = lists.words(operand);
        let mut answer = Answer::new();
        // SAFETY: each pointer and length are those of one slice or array; the result slices and the answer's words are lent to the call
        // alone.
        let number = guarded(|| unsafe {
            sys::ink_cast(
                self.bytes.as_ptr(),
                self.bytes.len(),
                code,
                &words,
                lists.items.as_ptr(),
                lists.items.len(),
                lists.values.as_ptr(),
                lists.values.len(),
                answer.items.as_mut_ptr(),
                RESULT_PLACES,
                answer.values.as_mut_ptr(),
                RESULT_PLACES,
                &mut answer.words,
            )
        });
        answer.read(number)
    }

    /// `coerce_to_bool`: Bool and Int only, and only Int 1 is true.
    pub fn coerce_to_bool(&self, operand: &Value) -> Result<bool, Refusal> {
        match self.coerce(sys::ink_coerce_to_bool, operand)? {
            Value::Bool(b) => Ok(b),
            other => unreachable!("coerce_to_bool answered {other:?}"),
        }
    }

    /// `coerce_to_int`: not List or Void.
    pub fn coerce_to_int(&self, operand: &Value) -> Result<i32, Refusal> {
        match self.coerce(sys::ink_coerce_to_int, operand)? {
            Value::Int(z) => Ok(z),
            other => unreachable!("coerce_to_int answered {other:?}"),
        }
    }

    /// `coerce_to_float`: not List or Void.
    pub fn coerce_to_float(&self, operand: &Value) -> Result<f32, Refusal> {
        match self.coerce(sys::ink_coerce_to_float, operand)? {
            Value::Float(x) => Ok(x),
            other => unreachable!("coerce_to_float answered {other:?}"),
        }
    }

    /// One of the three `coerce_to_`.
    fn coerce(&self, to: Coerce, operand: &Value) -> Result<Value, Refusal> {
        let mut lists = Entries::default();
        let words = lists.words(operand);
        let mut answer = [0; 3];
        // SAFETY: `to` is one of the archive's three; each pointer and length are those of one slice or array, and `answer` is lent to the
        // call alone.
        let number = guarded(|| unsafe {
            to(
                self.bytes.as_ptr(),
                self.bytes.len(),
                &words,
                lists.items.as_ptr(),
                lists.items.len(),
                lists.values.as_ptr(),
                lists.values.len(),
                &mut answer,
            )
        });
        match number {
            0 => Ok(value::read(answer, &[], &[])),
            _ => Err(Refusal { number, index: answer[0] }),
        }
    }
}

type Coerce = unsafe extern "C" fn(*const u8, usize, *const [u64; 3], *const u16, usize, *const i32, usize, *mut [u64; 3]) -> u32;
