//! The port: this repository's compiled code, called through its C interface, and held against what it owes.
//! Every slice that is lent is filled with a pattern first, with more of the pattern before and after it.
use crate::asks::{Ask, Owed, RESULT, WORK};
use ink_oracle::sys::*;
use ink_oracle::values::{BOOL, CEILING, Defs, EQUAL, FLOAT, FLOOR, INTERSECT, LIST, NOT_EQUALS, SUBTRACT, Val};

const GUARD: usize = 8;

/// A slice to lend, between two guards.
struct Slice<T> {
    all: Vec<T>,
    len: usize,
}

impl<T: Copy + PartialEq + std::fmt::Debug> Slice<T> {
    fn fill(&mut self, len: usize, pattern: impl Fn(usize) -> T) {
        self.len = len;
        self.all.clear();
        self.all.extend((0..len + 2 * GUARD).map(pattern));
    }
    fn lend(&mut self) -> *mut T {
        self.all[GUARD..].as_mut_ptr()
    }
    fn inside(&mut self) -> &mut [T] {
        &mut self.all[GUARD..GUARD + self.len]
    }
    /// Where it is not as the pattern with the written part laid over it.
    fn differs(&self, pattern: impl Fn(usize) -> T, written: &[T]) -> Option<String> {
        let owed = |i: usize| match i.checked_sub(GUARD) {
            Some(k) if k < written.len() => written[k],
            _ => pattern(i),
        };
        let i = (0..self.all.len()).find(|i| self.all[*i] != owed(*i))?;
        Some(format!("place {} is {:?}, not {:?}", i as isize - GUARD as isize, self.all[i], owed(i)))
    }
}

fn items_pattern(i: usize) -> u16 {
    0x5a00 ^ i as u16
}
fn values_pattern(i: usize) -> i32 {
    0x3c3c_0000 ^ i as i32
}
fn forecast_pattern(i: usize) -> u8 {
    0x80 | i as u8
}
/// Zero in the first places of work slices, the pattern beyond.
fn clear<T: Default>(len: usize, i: usize, pattern: impl Fn(usize) -> T) -> T {
    if i >= GUARD && i - GUARD < WORK.min(len) { T::default() } else { pattern(i) }
}

/// Mistakes made on purpose after the port has answered, to see that each is noticed.
pub const MISTAKES: [&str; 23] = [
    "another number",
    "another index",
    "a word of a value",
    "an entry's item",
    "an entry's value",
    "a place beyond the result",
    "a result on refusal",
    "a place before the slice",
    "a work place left",
    "a work place beyond the 16,384",
    "work before question 8",
    "a forecast byte",
    "a byte beyond the forecast",
    "a forecast on refusal",
    "16 for a List of 256 entries",
    "a 257th entry",
    "an emptied list without its origins",
    "the right operand's origins",
    "the left operand's origins with something left",
    "the left operand's origins after Intersect",
    "14 for Equal or NotEquals of two Lists",
    "+0.0 for a -0.0 of Floor or Ceiling",
    "a Bool for Floor or Ceiling of one",
];

pub struct Port {
    work_items: Slice<u16>,
    work_values: Slice<i32>,
    result_items: Slice<u16>,
    result_values: Slice<i32>,
    forecast: Slice<u8>,
    answer: [u64; 5],
    number: u32,
    pub mistake: Option<usize>,
}

const UNSAID: u64 = 0xdead_beef_dead_beef;

impl Port {
    pub fn new(mistake: Option<usize>) -> Self {
        fn none<T>() -> Slice<T> {
            Slice { all: Vec::new(), len: 0 }
        }
        Port {
            work_items: none(),
            work_values: none(),
            result_items: none(),
            result_values: none(),
            forecast: none(),
            answer: [UNSAID; 5],
            number: 0,
            mistake,
        }
    }

    /// One call of the port; what differs from what it owes, if anything does.
    pub fn differs(&mut self, pack: &[u8], ask: &Ask, owed: &Owed) -> Option<String> {
        self.ask(pack, ask);
        self.err(ask, owed);
        self.compare(ask, owed, false)
    }

    /// The same through the calls for a pack that has passed, where there is one.
    pub fn checked_differs(&mut self, pack: &[u8], defs: &Defs, ask: &Ask, owed: &Owed) -> Option<String> {
        if !matches!(ask, Ask::Run { .. } | Ask::Call { .. }) {
            return None;
        }
        let (mut ends, mut defined, mut counts) = ([1u16; 64], [1i32; 256], [UNSAID; 2]);
        let (e, d) = (ends.as_mut_ptr(), defined.as_mut_ptr());
        let number = unsafe { ink_definitions(pack.as_ptr(), pack.len(), e, ends.len(), d, defined.len(), &mut counts) };
        if number != 0 {
            return Some(format!("definitions: {number}"));
        }
        if let Some(what) = definitions_differ(defs, &ends, &defined, &counts) {
            return Some(what);
        }
        let (d, n) = (defs.values.len(), defs.items());
        self.ask_checked(pack, &ends[..d], &defined[..n], ask, false);
        let differing = self.compare(ask, owed, true).map(|what| format!("checked: {what}"));
        // `ink_apply` is for operands and slices of which question 7 says yes
        if differing.is_some() || owed.number == 7 || !matches!(ask, Ask::Call { .. }) {
            return differing;
        }
        self.ask_checked(pack, &ends[..d], &defined[..n], ask, true);
        self.compare(ask, owed, true).map(|what| format!("applied: {what}"))
    }

    fn prepare(&mut self, ask: &Ask) {
        self.answer = [UNSAID; 5];
        if let Ask::Run { result, .. } | Ask::Call { result, .. } | Ask::Cast { result, .. } = ask {
            self.result_items.fill(result[0], items_pattern);
            self.result_values.fill(result[1], values_pattern);
        }
        if let Ask::Run { work, .. } = ask {
            self.work_items.fill(work[0], items_pattern);
            self.work_values.fill(work[1], values_pattern);
        }
        if let Ask::Vet { forecast, .. } = ask {
            self.forecast.fill(*forecast, forecast_pattern);
        }
    }

    fn ask(&mut self, pack: &[u8], ask: &Ask) {
        self.prepare(ask);
        let (p, n) = (pack.as_ptr(), pack.len());
        let answer = self.answer[1..].as_mut_ptr();
        let (ri, rv) = (&mut self.result_items, &mut self.result_values);
        self.number = unsafe {
            match ask {
                Ask::Check => ink_check(p, n),
                Ask::Vet { sheet, kinds, .. } => {
                    ink_vet(p, n, *sheet, kinds.as_ptr().cast(), self.forecast.lend(), self.forecast.len, answer)
                }
                Ask::Run { sheet, slots, lent, .. } => ink_run(
                    p,
                    n,
                    *sheet,
                    slots.as_flattened().as_ptr().cast(),
                    lent.items.as_ptr(),
                    lent.items.len(),
                    lent.values.as_ptr(),
                    lent.values.len(),
                    self.work_items.lend(),
                    self.work_items.len,
                    self.work_values.lend(),
                    self.work_values.len,
                    ri.lend(),
                    ri.len,
                    rv.lend(),
                    rv.len,
                    answer.cast(),
                ),
                Ask::Call { op, count, operands, lent, .. } => ink_call(
                    p,
                    n,
                    *op,
                    *count,
                    operands.as_flattened().as_ptr().cast(),
                    lent.items.as_ptr(),
                    lent.items.len(),
                    lent.values.as_ptr(),
                    lent.values.len(),
                    ri.lend(),
                    ri.len,
                    rv.lend(),
                    rv.len,
                    answer.cast(),
                ),
                Ask::Cast { code, operand, lent, .. } => ink_cast(
                    p,
                    n,
                    *code,
                    operand.as_ptr().cast(),
                    lent.items.as_ptr(),
                    lent.items.len(),
                    lent.values.as_ptr(),
                    lent.values.len(),
                    ri.lend(),
                    ri.len,
                    rv.lend(),
                    rv.len,
                    answer.cast(),
                ),
                Ask::Coerce { to, operand, lent } => {
                    let f = [ink_coerce_to_bool, ink_coerce_to_int, ink_coerce_to_float][*to as usize];
                    f(
                        p,
                        n,
                        operand.as_ptr().cast(),
                        lent.items.as_ptr(),
                        lent.items.len(),
                        lent.values.as_ptr(),
                        lent.values.len(),
                        answer.cast(),
                    )
                }
            }
        };
    }

    fn ask_checked(&mut self, pack: &[u8], ends: &[u16], defined: &[i32], ask: &Ask, formed: bool) {
        self.prepare(ask);
        let (wi, wv) = (&mut self.work_items, &mut self.work_values);
        let (ri, rv) = (&mut self.result_items, &mut self.result_values);
        let answer = self.answer[1..].as_mut_ptr();
        self.number = match ask {
            Ask::Run { sheet, slots, lent, work, .. } => {
                wi.fill(work[0], |i| clear(work[0], i, items_pattern));
                wv.fill(work[1], |i| clear(work[1], i, values_pattern));
                unsafe {
                    ink_run_checked(
                        pack.as_ptr(),
                        pack.len(),
                        ends.as_ptr(),
                        ends.len(),
                        defined.as_ptr(),
                        defined.len(),
                        *sheet,
                        slots.as_flattened().as_ptr().cast(),
                        lent.items.as_ptr(),
                        lent.items.len(),
                        lent.values.as_ptr(),
                        lent.values.len(),
                        wi.lend(),
                        wi.len,
                        wv.lend(),
                        wv.len,
                        ri.lend(),
                        ri.len,
                        rv.lend(),
                        rv.len,
                        answer.cast(),
                    )
                }
            }
            Ask::Call { op, count, operands, lent, .. } => unsafe {
                let call = if formed { ink_apply } else { ink_call_checked };
                call(
                    ends.as_ptr(),
                    ends.len(),
                    defined.as_ptr(),
                    defined.len(),
                    *op,
                    *count,
                    operands.as_flattened().as_ptr().cast(),
                    lent.items.as_ptr(),
                    lent.items.len(),
                    lent.values.as_ptr(),
                    lent.values.len(),
                    ri.lend(),
                    ri.len,
                    rv.lend(),
                    rv.len,
                    answer.cast(),
                )
            },
            _ => unreachable!(),
        };
    }

    fn compare(&self, ask: &Ask, owed: &Owed, checked: bool) -> Option<String> {
        if self.number != owed.number as u32 {
            return Some(format!("number {}, not {}", self.number, owed.number));
        }
        if self.answer[0] != UNSAID || self.answer[4] != UNSAID {
            return Some("a word beside the answer is changed".to_string());
        }
        self.words_differ(ask, owed).or_else(|| self.slices_differ(ask, owed, checked))
    }

    fn words_differ(&self, ask: &Ask, owed: &Owed) -> Option<String> {
        let said = [self.answer[1], self.answer[2], self.answer[3]];
        let same = match (&owed.value, ask) {
            (_, Ask::Check) => said == [UNSAID; 3],
            (_, Ask::Vet { .. }) => said == [owed.index, UNSAID, UNSAID],
            (None, _) => said == [owed.index, 0, 0],
            (Some(Val::Bool(b)), _) => said == [0, *b as u64, 0],
            (Some(Val::Int(i)), _) => said == [1, *i as u32 as u64, 0],
            (Some(Val::Float(b)), _) => {
                let (x, y) = (f32::from_bits(*b), f32::from_bits(said[1] as u32));
                let bits = said[1] == *b as u64 || (x.is_nan() && y.is_nan()) || (owed.signless && y == 0.0);
                said[0] == 2 && said[1] >> 32 == 0 && said[2] == 0 && bits
            }
            (Some(Val::List(l)), _) => said == [3, l.origins, (l.entries.len() as u64) << 32],
            (Some(Val::Void), _) => said == [4, 0, 0],
        };
        let value = owed.value.as_ref().map_or(String::new(), |v| format!(" for {v}"));
        (!same).then(|| format!("words {said:x?}{value}, index {}", owed.index))
    }

    fn slices_differ(&self, ask: &Ask, owed: &Owed, checked: bool) -> Option<String> {
        let found = |what: &str, d: Option<String>| d.map(|d| format!("{what}: {d}"));
        let mut differing = None;
        if let Ask::Run { .. } | Ask::Call { .. } | Ask::Cast { .. } = ask {
            let entries = match &owed.value {
                Some(Val::List(l)) => &l.entries[..],
                _ => &[],
            };
            let (items, values): (Vec<u16>, Vec<i32>) = entries.iter().copied().unzip();
            differing = found("result items", self.result_items.differs(items_pattern, &items))
                .or_else(|| found("result values", self.result_values.differs(values_pattern, &values)));
        }
        if let Ask::Run { work, .. } = ask {
            let (i, v) = (&self.work_items, &self.work_values);
            let cleared = owed.worked || checked;
            let at = |n: usize, i: usize| cleared && i >= GUARD && i - GUARD < WORK.min(n);
            differing = differing
                .or_else(|| found("work items", i.differs(|k| if at(work[0], k) { 0 } else { items_pattern(k) }, &[])))
                .or_else(|| found("work values", v.differs(|k| if at(work[1], k) { 0 } else { values_pattern(k) }, &[])));
        }
        if let Ask::Vet { .. } = ask {
            differing = found("forecast", self.forecast.differs(forecast_pattern, &owed.forecast));
        }
        differing
    }

    /// Makes the chosen mistake, where the ask has room for it.
    fn err(&mut self, ask: &Ask, owed: &Owed) {
        let Some(mistake) = self.mistake else { return };
        let refused = owed.number != 0;
        let length = match &owed.value {
            Some(Val::List(l)) => l.entries.len(),
            _ => 0,
        };
        let has_result = matches!(ask, Ask::Run { .. } | Ask::Call { .. } | Ask::Cast { .. });
        let (run, vet) = (matches!(ask, Ask::Run { .. }), matches!(ask, Ask::Vet { .. }));
        let n = 2 * owed.index as usize;
        match mistake {
            0 if refused => self.number = if owed.number < 18 { self.number + 1 } else { 1 },
            1 if refused && !matches!(ask, Ask::Check) => self.answer[1] += 1,
            2 if owed.value.is_some() && !owed.signless => self.answer[2] ^= 1,
            3 if length > 0 => self.result_items.inside()[length - 1] ^= 1,
            4 if length > 0 => self.result_values.inside()[length - 1] ^= 1,
            5 if has_result && length < self.result_items.len => self.result_items.inside()[length] = 0,
            6 if has_result && refused && self.result_values.len > 0 => self.result_values.inside()[0] = 0,
            7 if has_result => self.result_items.all[GUARD - 1] = 0,
            8 if run && owed.worked => self.work_values.inside()[WORK - 1] = 1,
            9 if run && self.work_items.len > WORK => self.work_items.inside()[WORK] = 0,
            10 if run && !owed.worked && self.work_items.len > 0 => self.work_items.inside()[0] = 0,
            11 if vet && !refused => self.forecast.inside()[n - 1] ^= 1,
            12 if vet && !refused && n < self.forecast.len => self.forecast.inside()[n] = 0,
            13 if vet && refused && self.forecast.len > 0 => self.forecast.inside()[0] = 0,
            14 if length == RESULT => self.number = 16,
            15 if length == RESULT => self.result_items.all[GUARD + RESULT] = 0,
            16..20 => self.err_in_origins(mistake, ask, owed),
            20 if !refused && compares_lists(ask) => self.number = 14,
            21 if rounds(ask, FLOAT) && owed.value == Some(Val::Float(1 << 31)) => self.answer[2] = 0,
            22 if rounds(ask, BOOL) && !refused => self.answer[1] = BOOL as u64,
            _ => {}
        }
    }

    /// After Subtract or Intersect of two lists.
    fn err_in_origins(&mut self, mistake: usize, ask: &Ask, owed: &Owed) {
        let (Ask::Call { op, operands, .. }, Some(Val::List(result))) = (ask, &owed.value) else { return };
        let [left, right] = [operands[0], operands[1]];
        if right[0] != LIST as u64 {
            return;
        }
        let empty = result.entries.is_empty();
        match mistake {
            16 if *op == SUBTRACT && empty => self.answer[2] = 0,
            17 if *op == SUBTRACT && empty => self.answer[2] = right[1],
            18 if *op == SUBTRACT && !empty => self.answer[2] = left[1],
            19 if *op == INTERSECT && empty => self.answer[2] = left[1],
            _ => {}
        }
    }
}

/// Is Equal or NotEquals asked of two Lists.
fn compares_lists(ask: &Ask) -> bool {
    let Ask::Call { op: EQUAL | NOT_EQUALS, operands, .. } = ask else { return false };
    operands[..2].iter().all(|w| w[0] == LIST as u64)
}

/// Is Floor or Ceiling asked of a value of this kind.
fn rounds(ask: &Ask, kind: u8) -> bool {
    let Ask::Call { op: FLOOR | CEILING, operands, .. } = ask else { return false };
    operands[0][0] == kind as u64
}

fn definitions_differ(defs: &Defs, ends: &[u16], defined: &[i32], counts: &[u64]) -> Option<String> {
    let (d, n) = (defs.values.len(), defs.items());
    let mut owed_ends: Vec<u16> = (0..d).map(|i| (defs.first(i) + defs.values[i].len()) as u16).collect();
    let mut owed_defined: Vec<i32> = defs.values.concat();
    // the places beyond are as they were
    owed_ends.resize(64, 1);
    owed_defined.resize(256, 1);
    let same = owed_ends == ends && owed_defined == defined && counts == [d as u64, n as u64];
    (!same).then(|| format!("definitions: {ends:?} {defined:?} {counts:?}"))
}
