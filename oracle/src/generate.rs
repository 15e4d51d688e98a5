//! Operands: all edge scalars and lists under every operator, and random ones by seed.
use crate::values::{CARRIED, Defs, EQUAL, LIST, List, NOT_EQUALS, POW, RANGE, Val, arity};

pub struct Rng(u64);

impl Rng {
    pub fn new(seed: u64) -> Self {
        Rng(seed)
    }
    /// splitmix64
    pub fn next(&mut self) -> u64 {
        self.0 = self.0.wrapping_add(0x9e37_79b9_7f4a_7c15);
        let mut z = self.0;
        z = (z ^ (z >> 30)).wrapping_mul(0xbf58_476d_1ce4_e5b9);
        z = (z ^ (z >> 27)).wrapping_mul(0x94d0_49bb_1331_11eb);
        z ^ (z >> 31)
    }
    pub fn below(&mut self, n: usize) -> usize {
        (self.next() % n as u64) as usize
    }
    pub fn chance(&mut self, percent: usize) -> bool {
        self.below(100) < percent
    }
    pub fn pick<'a, T>(&mut self, from: &'a [T]) -> &'a T {
        &from[self.below(from.len())]
    }
}

pub const INTS: [i32; 38] = [
    0,
    1,
    -1,
    2,
    -2,
    3,
    -3,
    7,
    -7,
    10,
    100,
    -100,
    255,
    256,
    65_535,
    65_536,
    46_340,
    46_341,
    8_388_607,
    8_388_608,
    16_777_215,
    16_777_216,
    16_777_217,
    16_777_218,
    16_777_219,
    -16_777_217,
    -16_777_219,
    33_554_433,
    33_554_434,
    33_554_435,
    33_554_438,
    1_073_741_824,
    2_147_483_583,
    2_147_483_584,
    i32::MAX - 1,
    i32::MAX,
    i32::MIN + 1,
    i32::MIN,
];

/// Bits of edge floats; the negatives are added by `floats`.
const SIZES: [u32; 39] = [
    0x0000_0000, // 0
    0x0000_0001, // least subnormal
    0x0000_0002,
    0x0000_0003,
    0x0040_0000,
    0x007f_ffff, // greatest subnormal
    0x0080_0000, // least normal
    0x0080_0001,
    0x00ff_ffff,
    0x0100_0000,
    0x3300_0000, // 2^-25
    0x3380_0000, // 2^-24, half an ulp of 1
    0x3380_0001,
    0x3400_0000, // 2^-23
    0x3eaa_aaab, // 1/3
    0x3dcc_cccd, // 0.1
    0x3f00_0000, // 0.5
    0x3f7f_ffff,
    0x3f80_0000, // 1
    0x3f80_0001,
    0x3fc0_0000, // 1.5
    0x4000_0000, // 2
    0x4020_0000, // 2.5
    0x4040_0000, // 3
    0x40e0_0000, // 7
    0x4a7f_ffff, // 4194303.75
    0x4aff_ffff, // 8388607.5, the greatest with a fraction
    0x4b00_0000, // 8388608
    0x4b7f_ffff,
    0x4b80_0000, // 16777216
    0x4b80_0001,
    0x4eff_ffff, // 2147483520
    0x4f00_0000, // 2147483648
    0x4f00_0001,
    0x5f00_0000,
    0x7f00_0000,
    0x7f7f_ffff, // greatest
    0x7f80_0000, // infinity
    0x7fc0_0000, // NaN
];

pub fn floats() -> Vec<u32> {
    let mut all: Vec<u32> = SIZES.iter().flat_map(|b| [*b, b | 1 << 31]).collect();
    all.extend([0x7f80_0001, 0x7fff_ffff]); // a signalling and another quiet NaN
    all
}

pub fn scalars() -> Vec<Val> {
    let mut all = vec![Val::Bool(false), Val::Bool(true)];
    all.extend(INTS.map(Val::Int));
    all.extend(floats().into_iter().map(Val::Float));
    all
}

pub fn edge_defs() -> Defs {
    Defs { values: vec![vec![1, 2, 3, 4], vec![1, 1, 2, 2, -1], vec![i32::MAX, i32::MIN, 0], vec![10, 20, 30], vec![5]] }
}

/// Lists over `edge_defs`: empty, single, tied, off their defined value, several
/// origins, wrap-around values, origin sets wider and narrower than the items.
pub fn edge_lists() -> Vec<Val> {
    let list = |origins, entries: &[(u16, i32)]| Val::List(List { origins, entries: entries.to_vec() });
    vec![
        list(0, &[]),
        list(1, &[]),
        list(0x1f, &[]),
        list(1, &[(0, 1)]),
        list(1, &[(3, 4)]),
        list(0, &[(0, 1)]),
        list(2, &[(0, 1)]),
        list(1, &[(0, 1), (1, 2)]),
        list(1, &[(0, 1), (1, 2), (2, 3), (3, 4)]),
        list(1, &[(0, 2), (1, 2)]),
        list(1, &[(0, 3), (1, 1), (2, 1), (3, 3)]),
        list(2, &[(4, 1), (5, 1)]),
        list(2, &[(5, 1), (6, 2), (7, 2)]),
        list(3, &[(1, 2), (6, 2)]),
        list(3, &[(0, 1), (4, 1), (8, -1)]),
        list(4, &[(9, i32::MAX)]),
        list(4, &[(10, i32::MIN)]),
        list(4, &[(9, i32::MAX), (10, i32::MIN), (11, 0)]),
        list(4, &[(9, 0), (10, 0), (11, -1)]),
        list(0x1f, &[(0, 1), (4, 1), (9, i32::MAX), (12, 10), (15, 5)]),
        list(0x10, &[(0, 1), (4, 1), (9, i32::MAX), (12, 10), (15, 5)]),
        list(0x1f, &[(0, -5), (1, 7), (13, 16_777_217)]),
        list(8, &[(12, 10), (13, 20), (14, 30)]),
        list(8, &[(12, 30), (14, 10)]),
        list(1, &[(15, 5)]),
        list(0x11, &[(15, 4)]),
    ]
}

/// What is cast and coerced: every edge scalar and list, and Void.
pub fn edge_values() -> Vec<Val> {
    scalars().into_iter().chain(edge_lists()).chain([Val::Void]).collect()
}

/// A few scalars of each kind, every edge list, and Void.
pub fn few_values() -> Vec<Val> {
    [false, true]
        .map(Val::Bool)
        .into_iter()
        .chain([0, 1, -1, 2, 7, i32::MAX, i32::MIN].map(Val::Int))
        .chain([0x0000_0000, 0x8000_0000, 0x3fc0_0000, 0xbfc0_0000, 0x7f80_0000, 0x7fc0_0000].map(Val::Float))
        .chain(edge_lists())
        .chain([Val::Void])
        .collect()
}

/// Every scalar pair under every two-operand operator, every value under every one-operand one, every list pair,
/// list against a few scalars, Void anywhere, wrong operand counts, and POW, which is left out.
pub fn edge_calls(mut put: impl FnMut(u8, &[Val])) {
    let (scalars, lists, few) = (scalars(), edge_lists(), few_values());
    for op in CARRIED {
        match arity(op) {
            1 => edge_values().into_iter().for_each(|v| put(op, &[v])),
            2 => {
                for a in &scalars {
                    for b in &scalars {
                        put(op, &[a.clone(), b.clone()]);
                    }
                }
                for a in &few {
                    for b in &few {
                        if a.kind() >= LIST || b.kind() >= LIST {
                            put(op, &[a.clone(), b.clone()]);
                        }
                    }
                }
            }
            _ => {
                for a in &lists {
                    for b in &few {
                        for c in &few {
                            put(op, &[a.clone(), b.clone(), c.clone()]);
                        }
                    }
                }
                few.iter().for_each(|v| put(op, &[v.clone(), v.clone(), Val::Int(3)]));
            }
        }
    }
    for op in 0..=RANGE {
        for n in 0..=4 {
            if n != arity(op) || op == POW {
                put(op, &vec![Val::Int(1); n]);
                put(op, &vec![Val::Void; n]);
            }
        }
    }
}

/// Definitions with 256 items in all: two, four and 64 of them, one with every value tied.
pub fn full_defs() -> [Defs; 4] {
    let ruled = |sizes: &[usize], f: fn(usize, usize) -> i32| Defs {
        values: sizes.iter().enumerate().map(|(d, n)| (0..*n).map(|i| f(d, i)).collect()).collect(),
    };
    [
        ruled(&[255, 1], |_, i| i as i32 + 1),
        ruled(&[64; 4], |d, i| i as i32 - 20 * d as i32),
        ruled(&[4; 64], |d, i| (d + i) as i32),
        ruled(&[100, 156], |_, i| i as i32 % 3),
    ]
}

/// Lists of the sizes 0, 1, 2, 5, 50, 255 and 256, from the first items on, to the last, and every so many apart, with
/// the origin set of their items, all origins, or none.
pub fn sized_lists(defs: &Defs) -> Vec<List> {
    let items: Vec<(u16, i32)> = (0..defs.values.len()).flat_map(|d| defs.of(d)).collect();
    let full = if defs.values.len() == 64 { !0 } else { (1u64 << defs.values.len()) - 1 };
    let mut lists = Vec::new();
    for size in [0, 1, 2, 5, 50, 255, 256] {
        let apart = (256 / size.max(1)).max(1);
        let first = items[..size].to_vec();
        lists.push(List { origins: defs.origins_of(&first), entries: first });
        lists.push(List { origins: full, entries: items[256 - size..].to_vec() });
        lists.push(List { origins: 0, entries: items.iter().step_by(apart).take(size).copied().collect() });
    }
    lists
}

fn random_int(r: &mut Rng) -> i32 {
    match r.below(6) {
        0 => *r.pick(&INTS),
        1 => r.pick(&INTS).wrapping_add(r.below(9) as i32 - 4),
        2 => r.next() as i32,
        3 => (r.next() as i32) >> r.below(31),
        _ => r.below(21) as i32 - 10,
    }
}

fn random_float(r: &mut Rng, edges: &[u32]) -> u32 {
    match r.below(8) {
        0 | 1 => *r.pick(edges),
        2 => r.pick(edges).wrapping_add(r.below(9) as u32).wrapping_sub(4),
        3 => r.next() as u32,
        // few significant bits: ties and exact results are likely
        4 => (r.next() as u32) & 0xffff_0000,
        // near 1, so that sums and remainders meet
        5 | 6 => (r.next() as u32 & 0x807f_ffff) | (115 + r.below(40) as u32) << 23,
        _ => (random_int(r) as f32).to_bits(),
    }
}

fn random_value(r: &mut Rng) -> i32 {
    match r.below(12) {
        0 => random_int(r),
        1 => *r.pick(&[i32::MAX, i32::MIN, i32::MAX - 1, i32::MIN + 1]),
        _ => r.below(13) as i32 - 3,
    }
}

pub fn random_defs(r: &mut Rng) -> Defs {
    let d = match r.below(10) {
        0 => 0,
        1 => 64,
        2 => 1,
        _ => 1 + r.below(6),
    };
    let mut values: Vec<Vec<i32>> = Vec::new();
    let mut left = 256usize;
    for i in 0..d {
        let rest = d - i - 1;
        let n = match r.below(8) {
            0 => 1 + r.below(200),
            1 => 1,
            _ => 1 + r.below(12),
        };
        let n = n.min(left - rest).min(255).max(1);
        left -= n;
        let regular = r.chance(50);
        let start = random_value(r);
        values.push((0..n).map(|j| if regular { start.wrapping_add(j as i32) } else { random_value(r) }).collect());
    }
    Defs { values }
}

pub fn random_list(r: &mut Rng, defs: &Defs) -> List {
    let items = defs.items();
    let percent = *r.pick(&[0, 2, 10, 30, 60, 100]);
    let off = *r.pick(&[0, 0, 20, 100]);
    let only = if r.chance(40) && items > 0 { Some(r.below(defs.values.len())) } else { None };
    let most = *r.pick(&[2, 5, 40, 256]);
    let mut entries = Vec::new();
    for d in 0..defs.values.len() {
        for (k, v) in defs.of(d) {
            if (only.is_none() || only == Some(d)) && r.chance(percent) && entries.len() < most {
                entries.push((k, if r.chance(off) { random_value(r) } else { v }));
            }
        }
    }
    let natural = defs.origins_of(&entries);
    let full = if defs.values.len() == 64 { !0 } else { (1u64 << defs.values.len()) - 1 };
    let origins = match r.below(6) {
        0 => natural & r.next(),
        1 => (natural | r.next()) & full,
        2 => r.next() & r.next() & r.next() & full,
        _ => natural,
    };
    List { origins, entries }
}

pub fn random_val(r: &mut Rng, defs: &Defs, edges: &[u32], kind: u8) -> Val {
    match kind {
        0 => Val::Bool(r.chance(50)),
        1 => Val::Int(random_int(r)),
        2 => Val::Float(random_float(r, edges)),
        3 => Val::List(random_list(r, defs)),
        _ => Val::Void,
    }
}

/// Right operands are often made from the left one, so that items meet.
fn related(r: &mut Rng, defs: &Defs, a: &List) -> List {
    let mut l = a.clone();
    l.entries.retain(|_| r.chance(60));
    for e in l.entries.iter_mut() {
        if r.chance(20) {
            e.1 = random_value(r);
        }
    }
    if r.chance(30) {
        l.origins = defs.origins_of(&l.entries);
    }
    l
}

/// The same items with other values and another origin set; often with an entry less, or with another item for one.
fn of_same_items(r: &mut Rng, defs: &Defs, a: &List) -> List {
    let mut l = a.clone();
    if r.chance(50) {
        l.entries.iter_mut().for_each(|e| e.1 = random_value(r));
    }
    if r.chance(50) {
        l.origins = random_list(r, defs).origins;
    }
    if !l.entries.is_empty() && r.chance(50) {
        let (k, _) = l.entries.remove(r.below(l.entries.len()));
        let other = (k + 1) % defs.items() as u16;
        if r.chance(50) && l.entries.iter().all(|e| e.0 != other) {
            l.entries.push((other, random_value(r)));
            l.entries.sort();
        }
    }
    l
}

pub fn random_operands(r: &mut Rng, defs: &Defs, edges: &[u32], op: u8) -> Vec<Val> {
    let n = if r.chance(1) { r.below(4) } else { arity(op) };
    let kinds: [u8; 3] = match r.below(10) {
        _ if op >= 22 && r.chance(85) => {
            let bound = *r.pick(&[1, 1, 3, 3, 2, 0]);
            if op == RANGE { [3, bound, *r.pick(&[1, 1, 3, 3, 2, 0])] } else { [3, 3, 3] }
        }
        0 | 1 => [1, 1, 1],
        2 | 3 => [2, 2, 2],
        4 if op <= 1 => [3, 1, 1],
        4 | 5 => [3, 3, 3],
        _ => [0u8; 3].map(|_| *r.pick(&[0, 1, 1, 2, 2, 3, 3, 4])),
    };
    let mut v: Vec<Val> = (0..n).map(|i| random_val(r, defs, edges, *kinds.get(i).unwrap_or(&1))).collect();
    if n >= 2 && r.chance(50) {
        if let (Val::List(a), Val::List(_)) = (&v[0], &v[1]) {
            let a = a.clone();
            let alike = [EQUAL, NOT_EQUALS].contains(&op) && r.chance(80);
            v[1] = Val::List(if alike { of_same_items(r, defs, &a) } else { related(r, defs, &a) });
        }
    }
    if n == 2 && op <= 1 && r.chance(90) {
        if let (Val::List(_), Val::Int(_)) = (&v[0], &v[1]) {
            v[1] = Val::Int(if r.chance(90) { r.below(9) as i32 - 4 } else { random_int(r) });
        }
    }
    v
}
