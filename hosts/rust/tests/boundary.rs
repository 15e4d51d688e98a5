//! The archive's functions as they are: words that are no value's, lent slices that are too short, and what is written where.
mod common;

use common::{bytes, int, sheet, SAMPLE};
use ink_operators::sys;

const VOID: [u64; 3] = [4, 0, 0];

fn slots(of: &[(usize, [u64; 3])]) -> [u64; 48] {
    let mut words = [0; 48];
    for k in 0..16 {
        words[3 * k..3 * k + 3].copy_from_slice(&VOID);
    }
    for (k, three) in of {
        words[3 * k..3 * k + 3].copy_from_slice(three);
    }
    words
}

struct Run {
    work_items: Vec<u16>,
    work_values: Vec<i32>,
    result_items: Vec<u16>,
    result_values: Vec<i32>,
    answer: [u64; 3],
}

impl Run {
    /// Every place has a mark of its own.
    fn new(work: usize, result: usize) -> Run {
        Run {
            work_items: (0..work).map(|i| i as u16 | 1).collect(),
            work_values: (0..work).map(|i| -1 - i as i32).collect(),
            result_items: (0..result).map(|i| 40_000 + i as u16).collect(),
            result_values: (0..result).map(|i| -70_000 - i as i32).collect(),
            answer: [77; 3],
        }
    }

    fn run(&mut self, pack: &[u8], sheet: usize, slots: &[u64; 48], items: &[u16], values: &[i32]) -> u32 {
        // SAFETY: each pointer and length are those of one slice or array, and what is written is lent to the call alone.
        unsafe {
            sys::ink_run(
                pack.as_ptr(),
                pack.len(),
                sheet,
                slots,
                items.as_ptr(),
                items.len(),
                values.as_ptr(),
                values.len(),
                self.work_items.as_mut_ptr(),
                self.work_items.len(),
                self.work_values.as_mut_ptr(),
                self.work_values.len(),
                self.result_items.as_mut_ptr(),
                self.result_items.len(),
                self.result_values.as_mut_ptr(),
                self.result_values.len(),
                &mut self.answer,
            )
        }
    }

    fn work_is(&self, other: &Run, zeroed: usize) {
        assert!(self.work_items[..zeroed].iter().all(|&i| i == 0) && self.work_values[..zeroed].iter().all(|&v| v == 0));
        assert!(self.work_items[zeroed..] == other.work_items[zeroed..] && self.work_values[zeroed..] == other.work_values[zeroed..]);
    }

    fn results_are(&self, other: &Run, from: usize) {
        assert!(self.result_items[from..] == other.result_items[from..] && self.result_values[from..] == other.result_values[from..]);
    }
}

#[test]
fn only_what_is_said_is_written() {
    let fresh = || Run::new(16_384 + 50, 300);
    // a List: its entries, and no place beyond
    let mut run = fresh();
    assert_eq!(run.run(&SAMPLE, 0, &slots(&[]), &[], &[]), 0);
    assert_eq!(run.answer, [3, 1, 1 << 32]);
    assert_eq!((run.result_items[0], run.result_values[0]), (2, 3));
    run.results_are(&fresh(), 1);
    run.work_is(&fresh(), 16_384);
    // a refusal while running: the work slices are cleared, the results as they were
    let mut run = fresh();
    assert_eq!(run.run(&SAMPLE, 1, &slots(&[]), &[], &[]), 15);
    assert_eq!(run.answer, [2, 0, 0]);
    run.results_are(&fresh(), 0);
    run.work_is(&fresh(), 16_384);
    // questions 1 to 7: nothing is touched but the answer
    let mut bad = SAMPLE;
    bad[0] = 9;
    for (pack, s, words, number) in [(&bad, 0, slots(&[]), 1), (&SAMPLE, 2, slots(&[]), 6), (&SAMPLE, 0, slots(&[(3, [5, 0, 0])]), 7)] {
        let mut run = fresh();
        assert_eq!(run.run(pack, s, &words, &[], &[]), number);
        assert_eq!(run.answer, [0, 0, 0]);
        run.results_are(&fresh(), 0);
        run.work_is(&fresh(), 0);
    }
    // a number: no place of the results
    let pack = bytes(&[], &[], &[sheet(&[&int(-5)])]);
    let mut run = fresh();
    assert_eq!(run.run(&pack, 0, &slots(&[]), &[], &[]), 0);
    assert_eq!(run.answer, [1, 0xffff_fffb, 0]);
    run.results_are(&fresh(), 0);
}

#[test]
fn short_slices() {
    for (work, result, number) in [(16_384, 256, 0), (16_383, 256, 7), (16_384, 255, 7), (0, 256, 7), (16_384, 0, 7)] {
        let mut run = Run::new(work, result);
        assert_eq!(run.run(&SAMPLE, 0, &slots(&[]), &[], &[]), number, "{work} {result}");
        if number == 7 {
            run.work_is(&Run::new(work, result), 0);
            run.results_are(&Run::new(work, result), 0);
        }
    }
    // the slots' two slices are not equally long
    let mut run = Run::new(16_384, 256);
    assert_eq!(run.run(&SAMPLE, 0, &slots(&[]), &[0], &[]), 7);
}

#[test]
fn words_that_are_no_value() {
    let pack = bytes(&[vec![1, 2, 3]], &[], &[sheet(&[&[36, 5]])]);
    let (items, values) = ([0u16, 1, 2], [1i32, 2, 3]);
    let half = 1u64 << 32;
    let ill: &[[u64; 3]] = &[
        [0, 2, 0],
        [0, 1, 1],
        [1, half, 0],
        [1, u64::MAX, 0],
        [1, 0, 1],
        [2, half, 0],
        [2, 0, half],
        [3, 2, 0],
        [3, 0, 3 + half],
        [3, 0, 2 + 2 * half],
        [3, 0, u64::MAX],
        [3, 0, 4],
        [4, 1, 0],
        [4, 0, 1],
        [5, 0, 0],
        [half, 0, 0],
        [u64::MAX, u64::MAX, u64::MAX],
    ];
    for &three in ill {
        for slot in [5, 6] {
            let mut run = Run::new(16_384, 256);
            assert_eq!(run.run(&pack, 0, &slots(&[(slot, three)]), &items, &values), 7, "{three:?}");
            assert_eq!(run.answer, [0, 0, 0]);
        }
    }
    let well: &[([u64; 3], [u64; 3])] = &[
        ([0, 0, 0], [0, 0, 0]),
        ([0, 1, 0], [0, 1, 0]),
        ([1, 0xffff_ffff, 0], [1, 0xffff_ffff, 0]),
        ([1, 0x8000_0000, 0], [1, 0x8000_0000, 0]),
        ([2, 0x8000_0000, 0], [2, 0x8000_0000, 0]),
        ([2, 0x7f80_0001, 0], [2, 0x7fc0_0000, 0]),
        ([2, 0xffc0_0000, 0], [2, 0x7fc0_0000, 0]),
        ([3, 1, 1 + 2 * half], [3, 1, 2 * half]),
        ([3, 0, 3], [3, 0, 0]),
        ([4, 0, 0], [4, 0, 0]),
    ];
    for &(three, answer) in well {
        let mut run = Run::new(16_384, 256);
        assert_eq!(run.run(&pack, 0, &slots(&[(5, three)]), &items, &values), 0, "{three:?}");
        assert_eq!(run.answer, answer);
        if three[0] == 3 && three[2] != 3 {
            assert_eq!((&run.result_items[..2], &run.result_values[..2]), (&[1, 2][..], &[2, 3][..]));
        }
    }
}

fn call(pack: &[u8], op: u8, count: usize, operands: &[u64; 9], run: &mut Run) -> u32 {
    // SAFETY: each pointer and length are those of one slice or array, and what is written is lent to the call alone.
    unsafe {
        sys::ink_call(
            pack.as_ptr(),
            pack.len(),
            op,
            count,
            operands,
            [].as_ptr(),
            0,
            [].as_ptr(),
            0,
            run.result_items.as_mut_ptr(),
            run.result_items.len(),
            run.result_values.as_mut_ptr(),
            run.result_values.len(),
            &mut run.answer,
        )
    }
}

#[test]
fn operands_beyond_the_count() {
    let mut run = Run::new(0, 256);
    let rubbish = [9u64, 9, 9];
    let words = |a: [u64; 3], b: [u64; 3], c: [u64; 3]| -> [u64; 9] { [a, b, c].concat().try_into().unwrap() };
    // not looked at
    assert_eq!(call(&SAMPLE, 0, 2, &words([1, 2, 0], [1, 3, 0], rubbish), &mut run), 0);
    assert_eq!(run.answer, [1, 5, 0]);
    // looked at, before the count is
    assert_eq!(call(&SAMPLE, 0, 3, &words([1, 2, 0], [1, 3, 0], rubbish), &mut run), 7);
    assert_eq!(call(&SAMPLE, 0, 3, &words([1, 2, 0], [1, 3, 0], [4, 0, 0]), &mut run), 10);
    assert_eq!(call(&SAMPLE, 0, usize::MAX, &words([1, 2, 0], [1, 3, 0], [4, 0, 0]), &mut run), 10);
    assert_eq!(call(&SAMPLE[..9], 0, 3, &words(rubbish, rubbish, rubbish), &mut run), 1);
    let mut short = Run::new(0, 255);
    assert_eq!(call(&SAMPLE, 0, 2, &words([1, 2, 0], [1, 3, 0], rubbish), &mut short), 7);
}

#[test]
fn vetting_writes_no_byte_beyond() {
    let kinds = [4u8; 16];
    let vet = |pack: &[u8], sheet: usize, kinds: &[u8; 16], forecast: &mut [u8]| {
        let mut index = 77u64;
        // SAFETY: each pointer and length are those of one slice or array, and what is written is lent to the call alone.
        let number = unsafe { sys::ink_vet(pack.as_ptr(), pack.len(), sheet, kinds, forecast.as_mut_ptr(), forecast.len(), &mut index) };
        (number, index)
    };
    let mut forecast = vec![0xaa; 2100];
    assert_eq!(vet(&SAMPLE, 0, &kinds, &mut forecast), (0, 3));
    assert_eq!(forecast[..6], [1, 3, 2, 1, 1, 3]);
    assert!(forecast[6..].iter().all(|&b| b == 0xaa));
    let mut forecast = vec![0xaa; 2047];
    assert_eq!(vet(&SAMPLE, 0, &kinds, &mut forecast), (7, 0));
    let mut codes = kinds;
    codes[15] = 5;
    let mut forecast = vec![0xaa; 2048];
    assert_eq!(vet(&SAMPLE, 0, &codes, &mut forecast), (7, 0));
    assert_eq!(vet(&SAMPLE, 2, &codes, &mut forecast), (6, 0));
    assert_eq!(vet(&[], 2, &codes, &mut forecast), (1, 0));
    assert!(forecast.iter().all(|&b| b == 0xaa));
}

/// `ink_definitions` of a pack that passes.
fn definitions(pack: &[u8], ends: &mut [u16], defined: &mut [i32], counts: &mut [u64; 2]) -> u32 {
    // SAFETY: the pack passes, and each pointer and length are those of one slice, lent to the call alone.
    unsafe {
        assert_eq!(sys::ink_check(pack.as_ptr(), pack.len()), 0);
        sys::ink_definitions(pack.as_ptr(), pack.len(), ends.as_mut_ptr(), ends.len(), defined.as_mut_ptr(), defined.len(), counts)
    }
}

#[test]
fn definitions_and_the_checked_calls() {
    let pack = bytes(&[vec![5, -6], vec![7]], &[(3, vec![(0, 5), (2, 7)])], &[sheet(&[&[35, 0]]), sheet(&[&[35, 0], &[0]])]);
    let (mut ends, mut defined, mut counts) = ([9u16; 64], [9i32; 256], [9u64; 2]);
    // slices that are one place too short: 7, and nothing is written
    assert_eq!(definitions(&pack, &mut ends[..63], &mut defined, &mut counts), 7);
    assert_eq!(definitions(&pack, &mut ends, &mut defined[..255], &mut counts), 7);
    assert!(ends == [9; 64] && defined == [9; 256] && counts == [9; 2]);
    // long enough: the tables from the start, and the places beyond as they were
    assert_eq!(definitions(&pack, &mut ends, &mut defined, &mut counts), 0);
    assert_eq!(counts, [2, 3]);
    assert_eq!(ends[..3], [2, 3, 9]);
    assert_eq!(defined[..4], [5, -6, 7, 9]);
    assert!(ends[2..].iter().all(|&e| e == 9) && defined[3..].iter().all(|&v| v == 9));
    // as ink_run, and the work slices as they were: zero, with a mark beyond
    for (s, words) in [(0, slots(&[])), (1, slots(&[])), (2, slots(&[])), (0, slots(&[(0, [5, 0, 0])]))] {
        let mut run = Run::new(16_400, 300);
        let number = run.run(&pack, s, &words, &[], &[]);
        let mut checked = Run::new(16_400, 300);
        checked.work_items[..16_384].fill(0);
        checked.work_values[..16_384].fill(0);
        let before = (checked.work_items.clone(), checked.work_values.clone());
        // SAFETY: as for `Run::run`; the pack passed, its definitions were read, and the work slices are zero.
        let again = unsafe {
            sys::ink_run_checked(
                pack.as_ptr(),
                pack.len(),
                ends.as_ptr(),
                2,
                defined.as_ptr(),
                3,
                s,
                &words,
                [].as_ptr(),
                0,
                [].as_ptr(),
                0,
                checked.work_items.as_mut_ptr(),
                checked.work_items.len(),
                checked.work_values.as_mut_ptr(),
                checked.work_values.len(),
                checked.result_items.as_mut_ptr(),
                checked.result_items.len(),
                checked.result_values.as_mut_ptr(),
                checked.result_values.len(),
                &mut checked.answer,
            )
        };
        assert_eq!((number, run.answer), (again, checked.answer));
        assert!(run.result_items == checked.result_items && run.result_values == checked.result_values);
        assert!((checked.work_items, checked.work_values) == before);
    }
}

#[test]
fn the_checked_call_answers_what_the_call_answers() {
    let pack = bytes(&[vec![1, 2, 3], vec![1, 5]], &[], &[]);
    let (mut ends, mut defined, mut counts) = ([0u16; 64], [0i32; 256], [0u64; 2]);
    assert_eq!(definitions(&pack, &mut ends, &mut defined, &mut counts), 0);
    let (items, values) = ([0u16, 2, 3, 4, 9], [1i32, 3, -1, 5, 0]);
    let half = 1u64 << 32;
    let operands: [[u64; 3]; 12] = [
        [0, 1, 0],
        [1, 0, 0],
        [1, 0xffff_ffff, 0],
        [1, 0x8000_0000, 0],
        [2, 0x3fc0_0000, 0],
        [2, 0x7fc0_0000, 0],
        [3, 3, 4 * half],
        [3, 2, 2 + 2 * half],
        [3, 0, 0],
        [3, 0, 4 + half],
        [4, 0, 0],
        [6, 0, 0],
    ];
    let mut answered = [0; 19];
    for op in 0..=33u8 {
        for (a, b) in operands.iter().flat_map(|a| operands.iter().map(move |b| (a, b))) {
            for count in 0..=4 {
                let words: [u64; 9] = [*a, *b, [1, 2, 0]].concat().try_into().unwrap();
                let (mut one, mut two) = (Run::new(0, 260), Run::new(0, 260));
                // SAFETY: each pointer and length are those of one slice or array, and what is written is lent to the calls alone; the pack
                // passed, and its definitions were read.
                let (whole, checked) = unsafe {
                    let whole = sys::ink_call(
                        pack.as_ptr(),
                        pack.len(),
                        op,
                        count,
                        &words,
                        items.as_ptr(),
                        5,
                        values.as_ptr(),
                        5,
                        one.result_items.as_mut_ptr(),
                        260,
                        one.result_values.as_mut_ptr(),
                        260,
                        &mut one.answer,
                    );
                    let checked = sys::ink_call_checked(
                        ends.as_ptr(),
                        counts[0] as usize,
                        defined.as_ptr(),
                        counts[1] as usize,
                        op,
                        count,
                        &words,
                        items.as_ptr(),
                        5,
                        values.as_ptr(),
                        5,
                        two.result_items.as_mut_ptr(),
                        260,
                        two.result_values.as_mut_ptr(),
                        260,
                        &mut two.answer,
                    );
                    (whole, checked)
                };
                assert_eq!((whole, one.answer), (checked, two.answer), "{op} of {count}: {words:?}");
                assert!(one.result_items == two.result_items && one.result_values == two.result_values);
                let written = if whole == 0 && one.answer[0] == 3 { (one.answer[2] >> 32) as usize } else { 0 };
                one.results_are(&Run::new(0, 260), written);
                answered[whole as usize] += 1;
            }
        }
    }
    // every number that a direct call on a sound pack can answer was met, and no other
    let met: Vec<usize> = (0..19).filter(|&n| answered[n] > 0).collect();
    assert_eq!(met, [0, 7, 8, 10, 11, 12, 13, 15]);
}
