//! The cases: edges, all of them, and random ones by seed.
use crate::{
    Tally,
    asks::{Ask, FORECAST, Lent, RESULT, Room, WORK, Words},
};
use ink_oracle::{
    generate::{self, Rng},
    pack::{self, Builder},
    values::{CARRIED, Defs, EQUAL, LIST, List, NOT_EQUALS, RANGE, Val, arity},
};

const VOID: Words = [4, 0, 0];
const JUST: Room = [RESULT; 2];

fn call(op: u8, operands: &[Val]) -> Ask {
    let mut lent = Lent::default();
    let mut words = [VOID; 3];
    operands.iter().take(3).enumerate().for_each(|(i, v)| words[i] = lent.words(v));
    Ask::Call { op, count: operands.len(), operands: words, lent, result: JUST }
}

fn cast(code: u8, v: &Val) -> Ask {
    let mut lent = Lent::default();
    let operand = lent.words(v);
    Ask::Cast { code, operand, lent, result: JUST }
}

fn coerce(to: u8, v: &Val) -> Ask {
    let mut lent = Lent::default();
    let operand = lent.words(v);
    Ask::Coerce { to, operand, lent }
}

fn run(sheet: usize, slots: &[Val]) -> Ask {
    let mut lent = Lent::default();
    let mut words = [VOID; 16];
    slots.iter().enumerate().for_each(|(i, v)| words[i] = lent.words(v));
    Ask::Run { sheet, slots: words, lent, work: [WORK; 2], result: JUST }
}

fn vet(sheet: usize, kinds: &[u8]) -> Ask {
    let mut all = [4; 16];
    all[..kinds.len()].copy_from_slice(kinds);
    Ask::Vet { sheet, kinds: all, forecast: FORECAST }
}

/// Edge operands under every operator and conversion.
fn operators(t: &mut Tally) {
    t.pack(&Builder::new(&generate::edge_defs()).bytes());
    generate::edge_calls(|op, v| t.ask(&call(op, v)));
    for v in generate::edge_values() {
        [0, 1, 2, 3, 4, 5, 255].iter().for_each(|code| t.ask(&cast(*code, &v)));
        (0..3).for_each(|to| t.ask(&coerce(to, &v)));
    }
    for op in 0..=255 {
        for count in [0, 1, 2, 3, 4, 5, usize::MAX] {
            let Ask::Call { operands, lent, result, .. } = call(op, &[Val::Int(6), Val::Int(3), Val::Int(1)]) else {
                unreachable!()
            };
            t.ask(&Ask::Call { op, count, operands, lent, result });
        }
    }
}

/// Lists of up to 256 entries, every pair of them.
fn sizes(t: &mut Tally) {
    for defs in generate::full_defs() {
        t.pack(&Builder::new(&defs).bytes());
        let lists: Vec<Val> = generate::sized_lists(&defs).into_iter().map(Val::List).collect();
        for a in &lists {
            for op in [12, 25, 26, 27, 28, 29, 30] {
                t.ask(&call(op, std::slice::from_ref(a)));
            }
            for b in &lists {
                for op in [0, 1, 6, 7, 8, 9, 10, 11, 13, 14, 22, 23, 24] {
                    t.ask(&call(op, &[a.clone(), b.clone()]));
                }
                t.ask(&call(RANGE, &[a.clone(), b.clone(), b.clone()]));
            }
            for by in [0, 1, -1, 3, 255, i32::MAX, i32::MIN] {
                t.ask(&call(0, &[a.clone(), Val::Int(by)]));
                t.ask(&call(1, &[a.clone(), Val::Int(by)]));
            }
            (0..4).for_each(|code| t.ask(&cast(code, a)));
        }
    }
}

/// Lists of every length, beside one with the same items and other values and origins, and beside lists that differ in one
/// place: in each but the last, in the last, and by one item more.
fn nearly_equal(t: &mut Tally) {
    let defs = &generate::full_defs()[1];
    t.pack(&Builder::new(defs).bytes());
    let of = |items: &mut dyn Iterator<Item = u16>, by: i32, origins: u64| {
        Val::List(List { origins, entries: items.map(|k| (k, k as i32 * by)).collect() })
    };
    let but = |k: u16| of(&mut (0..256).filter(|i| *i != k), 1, 15);
    let mut ask = |a: &Val, b: &Val| {
        for op in [EQUAL, NOT_EQUALS] {
            t.ask(&call(op, &[a.clone(), b.clone()]));
            t.ask(&call(op, &[b.clone(), a.clone()]));
        }
    };
    for n in 0..256 {
        let first = of(&mut (0..n), 1, 15);
        ask(&first, &of(&mut (0..n), -7, 1));
        ask(&first, &of(&mut (0..=n), 1, 15));
        ask(&of(&mut (0..=n), 1, 15), &of(&mut (0..n).chain([255]), 1, 15));
        ask(&but(n), &but(n.max(1) - 1));
    }
}

/// A sheet for every operator, of slots alone: vetted for all kinds and run with a value of each.
fn kinds(t: &mut Tally) {
    let mut b = Builder::new(&generate::edge_defs());
    (0..=RANGE).for_each(|op| b.sheets.push([(0..arity(op) as u8).flat_map(|s| [36, s]).collect(), vec![op]].concat()));
    t.pack(&b.bytes());
    let list = Val::List(List { origins: 1, entries: vec![(0, 1), (1, 2)] });
    let of = [Val::Bool(true), Val::Int(3), Val::Float(0x3fc0_0000), list, Val::Void];
    for op in 0..=RANGE {
        for n in 0..125 {
            let k = [n / 25, n / 5 % 5, n % 5];
            t.ask(&vet(op as usize, &k.map(|k| k as u8)));
            t.ask(&run(op as usize, &k.map(|k| of[k].clone())));
        }
    }
    for place in 0..16 {
        for code in [4, 5, 6, 127, 255] {
            let mut kinds = [1; 16];
            kinds[place] = code;
            t.ask(&vet(0, &kinds));
        }
    }
}

/// Packs at their limits, and the longest.
fn limits(t: &mut Tally) {
    let mut packs: Vec<Vec<u8>> = pack::at_limits().into_iter().map(|p| p.1).collect();
    // 65,535 bytes: pushes of an Int and of Void
    let mut b = Builder::default();
    b.sheets = vec![[33, 1, 0, 0, 0].repeat(1024); 12];
    let rest = 65_535 - b.size() - 4;
    b.sheets.push([[33, 1, 0, 0, 0].repeat(rest / 5), vec![37; rest % 5]].concat());
    let longest = b.bytes();
    assert_eq!(longest.len(), 65_535);
    packs.extend([[&longest[..], &[37]].concat(), vec![1; 65_536], vec![1; 65_535], vec![0; 100_000], vec![], longest]);
    for p in &packs {
        t.pack(p);
        sheets(t);
    }
}

/// The check of a pack, and each of its sheets vetted and run with all slots Void; of one that is turned back, every call.
fn sheets(t: &mut Tally) {
    t.ask(&Ask::Check);
    for s in 0..t.sheets() {
        t.ask(&vet(s, &[]));
        t.ask(&run(s, &[]));
    }
    if t.turned_back() {
        t.ask(&vet(0, &[]));
        t.ask(&run(0, &[]));
        t.ask(&call(0, &[Val::Int(1), Val::Int(2)]));
        t.ask(&cast(0, &Val::Int(1)));
        (0..3).for_each(|to| t.ask(&coerce(to, &Val::Int(1))));
    }
}

/// Two small packs: document 01's sample, and one with a sheet for each instruction.
fn small_packs() -> [Vec<u8>; 2] {
    const SAMPLE: &str = "0101010214000d0021000d002e00080036000b000301000000020000000300000001000000000000000102000000\
        23002101000000002107000000210000000002";
    let sample = (0..SAMPLE.len() / 2).map(|i| u8::from_str_radix(&SAMPLE[2 * i..2 * i + 2], 16).unwrap()).collect();
    let mut b = Builder::new(&Defs { values: vec![vec![1, 2], vec![-1]] });
    let list = Val::List(List { origins: 3, entries: vec![(0, 1), (2, 5)] });
    for v in [Val::Bool(true), Val::Int(-2), Val::Float(0x3fc0_0000), list, Val::Void] {
        let mut code = Vec::new();
        b.push(&mut code, &v).unwrap();
        b.sheets.push(code);
    }
    b.sheets.push(vec![36, 3]);
    b.sheets.push(vec![35, 0, 36, 15, 14]);
    [sample, b.bytes()]
}

/// Every byte of small packs changed to every other, every truncation, and bytes added.
fn damage(t: &mut Tally) {
    for whole in small_packs() {
        for i in 0..whole.len() {
            for byte in 0..=255 {
                let mut p = whole.clone();
                p[i] = byte;
                t.pack(&p);
                sheets(t);
            }
        }
        let shorter = (0..whole.len()).map(|n| whole[..n].to_vec());
        let longer = (0..3).map(|byte| [&whole[..], &[byte]].concat());
        for p in shorter.chain(longer) {
            t.pack(&p);
            sheets(t);
        }
    }
}

/// Slices of every length near the least, sheet numbers, and words that are no value's.
fn memory(t: &mut Tally) {
    t.pack(&small_packs()[1]);
    let list = Val::List(List { origins: 3, entries: vec![(0, 1), (2, 5)] });
    for a in [0, 1, 255, 256, 257, 300] {
        for b in [0, 1, 255, 256, 257, 300] {
            for v in [Val::Int(1), list.clone(), Val::Void] {
                let mut with = |mut ask: Ask| {
                    if let Ask::Call { result, .. } | Ask::Cast { result, .. } | Ask::Run { result, .. } = &mut ask {
                        *result = [a, b];
                    }
                    t.ask(&ask);
                };
                with(call(0, &[v.clone(), v.clone()]));
                with(call(99, &[v.clone()]));
                with(cast(3, &v));
                with(run(3, &[v.clone(), v]));
            }
        }
    }
    for a in [0, 1, WORK - 1, WORK, WORK + 1, WORK + 100] {
        for b in [0, 1, WORK - 1, WORK, WORK + 1, WORK + 100] {
            for s in [0, 3, 6, 7] {
                let mut ask = run(s, &[]);
                let Ask::Run { work, .. } = &mut ask else { unreachable!() };
                *work = [a, b];
                t.ask(&ask);
            }
        }
    }
    for sheet in [0, 3, 6, 7, 8, 255, usize::MAX] {
        for forecast in [0, 1, 2, FORECAST - 1, FORECAST, FORECAST + 1, FORECAST + 100] {
            t.ask(&Ask::Vet { sheet, kinds: [3; 16], forecast });
        }
        t.ask(&run(sheet, &[]));
    }
    words(t, &list);
}

/// Words that are no value's, or a List's that the slices do not hold well formed, at each place.
fn words(t: &mut Tally, list: &Val) {
    let mut lent = Lent::default();
    let good = lent.words(list);
    let mut some: Vec<(Words, Lent)> = vec![
        [0, 0, 0],
        [0, 1, 0],
        [0, 2, 0],
        [0, 1, 1],
        [0, u64::MAX, 0],
        [1, 5, 0],
        [1, 1 << 32, 0],
        [1, u64::MAX, 0],
        [1, 5, 1 << 32],
        [2, 0x7fc0_0001, 0],
        [2, 1 << 32, 0],
        [2, 0, 1],
        [4, 0, 0],
        [4, 1, 0],
        [4, 0, 1],
        [5, 0, 0],
        [u64::MAX, 0, 0],
        [6, 1, 1 << 32],
        good,
        [3, 0, 0],
        [3, 0, 2],
        [3, 0, 3],
        [3, 3, 1 + (1 << 32)],
        [3, 3, 1 + (2 << 32)],
        [3, 3, 3 << 32],
        [3, 4, 2 << 32],
        [3, u64::MAX, 2 << 32],
        [3, 1 << 63, 0],
        [3, 3, u64::MAX],
        [3, 3, u32::MAX as u64],
        [3, 3, u64::MAX << 32],
    ]
    .into_iter()
    .map(|w| (w, lent.clone()))
    .collect();
    let bad: [&[u16]; 6] = [&[2, 0], &[0, 0], &[0, 3], &[0, 65_535], &[0, 2, 1], &[0]];
    some.extend(bad.map(|items| (good, Lent { items: items.to_vec(), values: vec![7; 2] })));
    for (w, lent) in some {
        for op in [0, 12, 28, 31] {
            for place in 0..3 {
                for count in 0..=4 {
                    let mut operands = [good, [1, 1, 0], [1, 2, 0]];
                    operands[place] = w;
                    t.ask(&Ask::Call { op, count, operands, lent: lent.clone(), result: JUST });
                }
            }
        }
        (0..5).for_each(|code| t.ask(&Ask::Cast { code, operand: w, lent: lent.clone(), result: JUST }));
        (0..3).for_each(|to| t.ask(&Ask::Coerce { to, operand: w, lent: lent.clone() }));
        for place in [0, 3, 15] {
            for sheet in [3, 5, 6] {
                let mut slots = [VOID; 16];
                slots[place] = w;
                t.ask(&Ask::Run { sheet, slots, lent: lent.clone(), work: [WORK; 2], result: JUST });
            }
        }
    }
}

pub fn edges(t: &mut Tally) {
    for (name, some) in [
        ("operators", operators as fn(&mut Tally)),
        ("sizes", sizes),
        ("equality", nearly_equal),
        ("kinds", kinds),
        ("limits", limits),
        ("damage", damage),
        ("memory", memory),
    ] {
        some(t);
        t.progress(name);
    }
}

/// Words for values, lists at random places of the slices, now and then a part of one that is there already.
fn lend(r: &mut Rng, values: &[Val]) -> (Vec<Words>, Lent) {
    let mut lent = Lent::default();
    let mut words: Vec<Words> = Vec::new();
    for v in values {
        let before = words.iter().rev().find(|w| w[0] == LIST as u64);
        if let (Some([kind, origins, place]), true) = (before, v.kind() == LIST && r.chance(15)) {
            let (start, len) = (*place as u32 as u64, place >> 32);
            let skip = r.below(len as usize + 1) as u64;
            let take = r.below((len - skip) as usize + 1) as u64;
            words.push([*kind, *origins, start + skip + (take << 32)]);
            continue;
        }
        for _ in 0..r.below(3) {
            lent.items.push(r.next() as u16);
            lent.values.push(r.next() as i32);
        }
        words.push(lent.words(v));
    }
    (words, lent)
}

/// Now and then one thing that question 7 asks about is changed.
fn upset(r: &mut Rng, words: &mut [Words], lent: &mut Lent) {
    if words.is_empty() || !r.chance(3) {
        return;
    }
    let n = r.below(words.len());
    let w = &mut words[n];
    match r.below(8) {
        0 => w[0] = *r.pick(&[3, 5, 6, 1 << 32, u64::MAX]),
        1 => w[1] = r.next() >> r.below(64),
        2 => w[2] = r.next() >> r.below(64),
        3 => w[2] = w[2].wrapping_add(1),
        4 => w[2] = w[2].wrapping_add(1 << 32),
        5 => lent.items.push(0),
        6 if !lent.items.is_empty() => {
            let i = r.below(lent.items.len());
            lent.items[i] = if r.chance(50) { r.next() as u16 } else { lent.items[r.below(i + 1)] };
        }
        _ => w[1] |= 1 << r.below(64),
    }
}

fn room(r: &mut Rng, least: usize) -> Room {
    [0; 2].map(|_| match r.below(200) {
        0 => r.below(least),
        1 => least - 1,
        n => least + n % 4,
    })
}

fn random_call(r: &mut Rng, defs: &Defs, edges: &[u32]) -> Ask {
    let op = if r.chance(1) { r.next() as u8 } else { *r.pick(&CARRIED) };
    let v = generate::random_operands(r, defs, edges, op.min(RANGE));
    let (mut words, mut lent) = lend(r, &v);
    upset(r, &mut words, &mut lent);
    let mut operands = [0; 3].map(|_| [r.next() % 7, r.next(), r.next()]);
    operands[..words.len()].copy_from_slice(&words);
    let count = if r.chance(1) { *r.pick(&[4, 5, 255, usize::MAX]) } else { words.len() };
    Ask::Call { op, count, operands, lent, result: room(r, RESULT) }
}

fn random_conversion(r: &mut Rng, defs: &Defs, edges: &[u32]) -> Ask {
    let kind = r.below(5) as u8;
    let v = generate::random_val(r, defs, edges, kind);
    let (mut words, mut lent) = lend(r, &[v]);
    upset(r, &mut words, &mut lent);
    match r.below(2) {
        0 => Ask::Coerce { to: r.below(3) as u8, operand: words[0], lent },
        _ => Ask::Cast {
            code: if r.chance(95) { r.below(5) as u8 } else { r.next() as u8 },
            operand: words[0],
            lent,
            result: room(r, RESULT),
        },
    }
}

fn random_run(r: &mut Rng, defs: &Defs, edges: &[u32], kinds: &[u8; 16], sheet: usize) -> Ask {
    let v: Vec<Val> = kinds.iter().map(|k| generate::random_val(r, defs, edges, *k)).collect();
    let (mut words, mut lent) = lend(r, &v);
    upset(r, &mut words, &mut lent);
    Ask::Run { sheet, slots: words.try_into().unwrap(), lent, work: room(r, WORK), result: room(r, RESULT) }
}

fn random_vet(r: &mut Rng, kinds: &[u8; 16], sheet: usize) -> Ask {
    let mut kinds = *kinds;
    if r.chance(20) {
        kinds[r.below(16)] = if r.chance(90) { r.below(5) as u8 } else { r.next() as u8 };
    }
    Ask::Vet { sheet, kinds, forecast: room(r, FORECAST)[0] }
}

/// A pack at a time: calls and conversions with it, its sheets vetted and run, and the same asked of it damaged.
pub fn random(t: &mut Tally, seed: u64, count: u64) {
    let mut r = Rng::new(seed);
    let edges = generate::floats();
    let end = t.cases + count;
    while t.cases < end {
        let kinds = [0; 16].map(|_| *r.pick(&[0, 1, 1, 2, 2, LIST, LIST, LIST, 4]));
        let mut b = Builder::new(&generate::random_defs(&mut r));
        for _ in 0..8 {
            let code = pack::random_sheet(&mut r, &mut b, &kinds, &edges);
            b.sheets.push(code);
        }
        let (whole, defs) = (b.bytes(), b.defs);
        t.pack(&whole);
        let mut asks: Vec<Ask> = Vec::new();
        asks.extend((0..40).map(|_| random_call(&mut r, &defs, &edges)));
        asks.extend((0..4).map(|_| random_conversion(&mut r, &defs, &edges)));
        for s in 0..8 {
            let sheet = if r.chance(1) { *r.pick(&[8, 9, 255, usize::MAX]) } else { s };
            asks.push(random_run(&mut r, &defs, &edges, &kinds, sheet));
            asks.push(random_vet(&mut r, &kinds, sheet));
        }
        let left = (end - t.cases) as usize;
        asks.iter().take(left).for_each(|a| t.ask(a));
        for _ in 0..4 {
            t.pack(&pack::damaged(&mut r, &whole));
            let asks = [
                Ask::Check,
                random_call(&mut r, &defs, &edges),
                random_conversion(&mut r, &defs, &edges),
                random_run(&mut r, &defs, &edges, &kinds, 0),
                random_vet(&mut r, &kinds, 0),
            ];
            let left = (end - t.cases) as usize;
            asks.iter().take(left).for_each(|a| t.ask(a));
        }
    }
    t.progress("random");
}
