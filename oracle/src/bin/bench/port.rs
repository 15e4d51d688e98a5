//! The port: this repository's compiled code, called through its C interface (hosts/include/ink_operators.h).
use ink_oracle::values::{LIST, List, Val};
use std::hint::black_box;

use ink_oracle::sys::{Call, ink_apply, ink_call_checked, ink_check, ink_definitions, ink_run, ink_run_checked, ink_vet};

pub const CHECKED: Call = ink_call_checked;
/// The call that does not ask question 7 either.
pub const APPLY: Call = ink_apply;

const RESULT: usize = 256;
const WORK: usize = 16_384;
const FORECAST: usize = 2_048;

/// What a host lends: result slices, which are not cleared between calls, and work slices, which a run leaves clear.
pub struct Lent {
    result_items: Vec<u16>,
    result_values: Vec<i32>,
    work_items: Vec<u16>,
    work_values: Vec<i32>,
    forecast: Vec<u8>,
    answer: [u64; 3],
}

impl Lent {
    pub fn new() -> Self {
        Lent {
            result_items: vec![0x5a5a; RESULT],
            result_values: vec![0x5a5a; RESULT],
            work_items: vec![0; WORK],
            work_values: vec![0; WORK],
            forecast: vec![0x5a; FORECAST],
            answer: [0; 3],
        }
    }
    /// The answer of a call that returned a number.
    pub fn value(&self, number: u32) -> Result<Val, u32> {
        if number != 0 {
            return Err(number);
        }
        Ok(match self.answer {
            [0, b, 0] => Val::Bool(b == 1),
            [1, n, 0] => Val::Int(n as u32 as i32),
            [2, n, 0] => Val::Float(n as u32),
            [3, origins, place] => {
                let (start, length) = (place as u32 as usize, (place >> 32) as usize);
                let entry = |i: usize| (self.result_items[i], self.result_values[i]);
                Val::List(List { origins, entries: (start..start + length).map(entry).collect() })
            }
            _ => Val::Void,
        })
    }
}

/// Operands as words, and the slices with their Lists' entries.
pub struct Operands {
    count: usize,
    words: [u64; 9],
    items: Vec<u16>,
    values: Vec<i32>,
}

impl Operands {
    pub fn new(operands: &[Val]) -> Self {
        let mut all = Operands { count: operands.len(), words: [0; 9], items: Vec::new(), values: Vec::new() };
        for (i, v) in operands.iter().enumerate() {
            let words = all.words_of(v);
            all.words[3 * i..3 * i + 3].copy_from_slice(&words);
        }
        all
    }
    fn words_of(&mut self, v: &Val) -> [u64; 3] {
        match v {
            Val::Bool(b) => [0, *b as u64, 0],
            Val::Int(i) => [1, *i as u32 as u64, 0],
            Val::Float(b) => [2, *b as u64, 0],
            Val::Void => [4, 0, 0],
            Val::List(l) => {
                let start = self.items.len() as u64;
                self.items.extend(l.entries.iter().map(|e| e.0));
                self.values.extend(l.entries.iter().map(|e| e.1));
                [LIST as u64, l.origins, start + ((l.entries.len() as u64) << 32)]
            }
        }
    }
}

pub fn check(pack: &[u8]) -> u32 {
    unsafe { ink_check(pack.as_ptr(), pack.len()) }
}

/// A pack that has passed, with its definitions read.
pub struct Checked {
    pack: Vec<u8>,
    ends: [u16; 64],
    defined: [i32; 256],
    counts: [u64; 2],
    slots: [u64; 48],
}

impl Checked {
    pub fn new(pack: Vec<u8>) -> Self {
        assert_eq!(check(&pack), 0, "the pack passes");
        let (mut ends, mut defined, mut counts, mut slots) = ([0; 64], [0; 256], [0; 2], [0; 48]);
        let (e, d) = (ends.as_mut_ptr(), defined.as_mut_ptr());
        assert_eq!(unsafe { ink_definitions(pack.as_ptr(), pack.len(), e, ends.len(), d, defined.len(), &mut counts) }, 0);
        slots.iter_mut().step_by(3).for_each(|code| *code = 4);
        Checked { pack, ends, defined, counts, slots }
    }

    #[inline(always)]
    pub fn call(&self, call: Call, op: u8, operands: &Operands, lent: &mut Lent) -> u32 {
        let o = black_box(operands);
        unsafe {
            call(
                self.ends.as_ptr(),
                self.counts[0] as usize,
                self.defined.as_ptr(),
                self.counts[1] as usize,
                black_box(op),
                o.count,
                o.words.as_ptr().cast(),
                o.items.as_ptr(),
                o.items.len(),
                o.values.as_ptr(),
                o.values.len(),
                lent.result_items.as_mut_ptr(),
                RESULT,
                lent.result_values.as_mut_ptr(),
                RESULT,
                lent.answer.as_mut_ptr().cast(),
            )
        }
    }

    /// Sheet 0, all slots Void; `public` is the call for any bytes.
    #[inline(always)]
    pub fn run(&self, public: bool, lent: &mut Lent) -> u32 {
        let p = black_box(self);
        let (pack, len, slots, work) = (p.pack.as_ptr(), p.pack.len(), &raw const p.slots, lent.work_items.as_mut_ptr());
        let (no_items, no_values) = ([0u16; 1], [0i32; 1]);
        unsafe {
            if public {
                return ink_run(
                    pack,
                    len,
                    0,
                    slots,
                    no_items.as_ptr(),
                    0,
                    no_values.as_ptr(),
                    0,
                    work,
                    WORK,
                    lent.work_values.as_mut_ptr(),
                    WORK,
                    lent.result_items.as_mut_ptr(),
                    RESULT,
                    lent.result_values.as_mut_ptr(),
                    RESULT,
                    lent.answer.as_mut_ptr().cast(),
                );
            }
            ink_run_checked(
                pack,
                len,
                p.ends.as_ptr(),
                p.counts[0] as usize,
                p.defined.as_ptr(),
                p.counts[1] as usize,
                0,
                slots,
                no_items.as_ptr(),
                0,
                no_values.as_ptr(),
                0,
                work,
                WORK,
                lent.work_values.as_mut_ptr(),
                WORK,
                lent.result_items.as_mut_ptr(),
                RESULT,
                lent.result_values.as_mut_ptr(),
                RESULT,
                lent.answer.as_mut_ptr().cast(),
            )
        }
    }

    /// Sheet 0 for slots that are all Void.
    #[inline(always)]
    pub fn vet(&self, lent: &mut Lent) -> u32 {
        let p = black_box(self);
        let kinds = [4u8; 16];
        let (forecast, index) = (lent.forecast.as_mut_ptr(), lent.answer.as_mut_ptr());
        unsafe { ink_vet(p.pack.as_ptr(), p.pack.len(), 0, &kinds, forecast, FORECAST, index) }
    }

    #[inline(always)]
    pub fn check(&self) -> u32 {
        check(black_box(&self.pack))
    }
    pub fn bytes(&self) -> usize {
        self.pack.len()
    }
}
