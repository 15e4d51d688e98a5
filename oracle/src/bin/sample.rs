//! `sample SEED DIR`: writes DIR/stdin (named packs), DIR/stdout (what the original answers for each of their sheets, as
//! `sheetrun` prints it) and DIR/coverage.txt (how often each operator ended a sheet with a value or a refusal).
use ink_oracle::{
    generate::{self, Rng},
    pack::{self, Builder, Ins},
    values::{ALL, CEILING, Defs, EQUAL, FLOOR, INVERT, KIND_NAMES, LIST, NOT_EQUALS, OP_NAMES, RANGE, SUBTRACT, Val, arity},
};
use std::{fmt::Write, fs};

const PUSH: usize = 32;
const END: usize = 33;

struct Sample {
    packs: Vec<u8>,
    answers: String,
    sheets: usize,
    /// by the instruction at which a sheet ended: an operator, a push, or the end; column 0 counts values
    ended: [[usize; 18]; 34],
    /// packs turned back, by number
    turned: [usize; 6],
    kinds: [[usize; 25]; 32],
}

impl Sample {
    fn put(&mut self, name: &str, bytes: &[u8]) {
        self.packs.push(name.len() as u8);
        self.packs.extend(name.bytes());
        self.packs.extend(&(bytes.len() as u32).to_le_bytes()[..3]);
        self.packs.extend(bytes);
        write!(self.answers, "{name}:\n{}", pack::sheetrun(bytes)).unwrap();
        match pack::parse(bytes) {
            Err(n) => self.turned[n as usize] += 1,
            Ok(p) => (0..p.sheets.len()).for_each(|s| self.count(&p, s)),
        }
    }
    fn count(&mut self, p: &pack::Pack, s: usize) {
        let row = |ins: Option<&Ins>| match ins {
            Some(Ins::Op(op)) => *op as usize,
            Some(_) => PUSH,
            None => END,
        };
        self.sheets += 1;
        match p.run(s, &[const { Val::Void }; 16]) {
            Ok(_) => self.ended[row(p.sheets[s].last())][0] += 1,
            Err((n, i)) => self.ended[row(p.sheets[s].get(i))][n as usize] += 1,
        }
    }
    /// Calls, one to a sheet, in as few packs as they need.
    fn calls(&mut self, name: &str, defs: &Defs, calls: &[(u8, Vec<Val>)]) {
        let mut b = Builder::new(defs);
        let mut n = 1;
        for (op, operands) in calls {
            if !b.call(*op, operands) {
                self.put(&format!("{name} {n}"), &b.bytes());
                (b, n) = (Builder::new(defs), n + 1);
                assert!(b.call(*op, operands));
            }
            if operands.len() == arity(*op) {
                let right = operands.get(1).map_or(0, |v| v.kind());
                self.kinds[*op as usize][(operands[0].kind() * 5 + right) as usize] += 1;
            }
        }
        self.put(&if n == 1 { name.to_string() } else { format!("{name} {n}") }, &b.bytes());
    }
    fn table(&self) -> String {
        let mut t =
            format!("{} sheets. How they ended, by the instruction: with a value, or with which refusal.\n\n", self.sheets);
        write!(t, "{:22}{:>6}", "", "value").unwrap();
        let shown = [8, 9, 10, 11, 12, 13, 15, 17];
        shown.iter().for_each(|n| write!(t, "{n:>6}").unwrap());
        for (row, n) in self.ended.iter().enumerate() {
            let name = OP_NAMES.get(row).copied().unwrap_or(if row == PUSH { "a push" } else { "the sheet's end" });
            let number = if row < 32 { row.to_string() } else { String::new() };
            write!(t, "\n{number:>2} {name:19}{:>6}", n[0]).unwrap();
            shown.iter().for_each(|k| write!(t, "{:>6}", n[*k]).unwrap());
        }
        write!(t, "\n\nPacks turned back, by number:").unwrap();
        (1..6).for_each(|n| write!(t, " {n}: {}", self.turned[n]).unwrap());
        writeln!(
            t,
            "\n\nSheets of one operator, by the kinds of its left and right operand (of a one-operand one, by the left kind).\n"
        )
        .unwrap();
        write!(t, "{:22}", "").unwrap();
        for left in KIND_NAMES {
            for right in KIND_NAMES {
                write!(t, "{:>4}", format!("{}{}", &left[..1], &right[..1])).unwrap();
            }
        }
        for (op, n) in self.kinds.iter().enumerate() {
            write!(t, "\n{op:>2} {:19}", OP_NAMES[op]).unwrap();
            n.iter().for_each(|k| write!(t, "{:>4}", if *k > 0 { k.to_string() } else { ".".into() }).unwrap());
        }
        t + "\n"
    }
}

/// Every operator on every combination of kinds, with edge values of the kinds.
fn on_kinds(s: &mut Sample, r: &mut Rng) {
    let mut of: [Vec<Val>; 5] = Default::default();
    generate::edge_values().into_iter().for_each(|v| of[v.kind() as usize].push(v));
    for op in 0..=RANGE {
        let mut calls = Vec::new();
        match arity(op) {
            1 => of.iter().flatten().for_each(|v| calls.push((op, vec![v.clone()]))),
            n => {
                let times = if n == 2 { 6 } else { 3 };
                for kinds in 0..5usize.pow(n as u32) {
                    for _ in 0..times {
                        let kind = |i: usize| kinds / 5usize.pow((n - 1 - i) as u32) % 5;
                        calls.push((op, (0..n).map(|i| r.pick(&of[kind(i)]).clone()).collect()));
                    }
                }
                calls.dedup();
            }
        }
        (0..arity(op)).for_each(|n| calls.push((op, vec![Val::Int(1); n])));
        s.calls(OP_NAMES[op as usize], &generate::edge_defs(), &calls);
    }
}

/// Wrapping, division and Float edges, and every pair of edge lists under one operator after another.
fn on_edges(s: &mut Sample) {
    const INTS: [i32; 11] = [0, 1, -1, 2, -7, 46_341, 65_536, i32::MAX, i32::MAX - 1, i32::MIN, i32::MIN + 1];
    const FLOATS: [u32; 14] = [
        0x0000_0000,
        0x8000_0000,
        0x0000_0001,
        0x007f_ffff,
        0x0080_0000,
        0x3380_0000,
        0x3f80_0000,
        0x3f80_0001,
        0xbfc0_0000,
        0x4b80_0000,
        0x7f7f_ffff,
        0x7f80_0000,
        0xff80_0000,
        0x7fc0_0000,
    ];
    let pairs = |values: &[Val], ops: &[u8]| -> Vec<(u8, Vec<Val>)> {
        let with = |op: u8, a: &Val| values.iter().map(move |b| (op, vec![a.clone(), b.clone()])).collect::<Vec<_>>();
        ops.iter().flat_map(|op| values.iter().flat_map(move |a| with(*op, a))).collect()
    };
    let defs = generate::edge_defs();
    s.calls("Int edges", &defs, &pairs(&INTS.map(Val::Int), &[0, 1, 2, 3, 4]));
    s.calls("Float edges", &defs, &pairs(&FLOATS.map(Val::Float), &[0, 1, 2, 3, 4, 15, 16]));
    s.calls("Float comparisons", &defs, &pairs(&[0, 1, 3, 6, 11, 13].map(|i| Val::Float(FLOATS[i])), &[6, 7, 8, 9, 10, 11]));
    // by quarters, so that halves and whole numbers of both signs are there
    let quarters: Vec<(u8, Vec<Val>)> =
        [FLOOR, CEILING].iter().flat_map(|op| (-10..=10).map(|n| (*op, vec![Val::Float((n as f32 / 4.0).to_bits())]))).collect();
    s.calls("Float quarters", &defs, &quarters);
    let ops = [0, 1, 7, 8, 9, 10, 13, 14, 22, 23, 24];
    let lists = generate::edge_lists();
    let calls: Vec<(u8, Vec<Val>)> = (0..lists.len() * lists.len())
        .map(|n| (ops[n % ops.len()], vec![lists[n / lists.len()].clone(), lists[n % lists.len()].clone()]))
        .collect();
    s.calls("list pairs", &defs, &calls);
    s.calls("equal lists", &defs, &pairs(&lists, &[EQUAL, NOT_EQUALS]));
    let calls: Vec<(u8, Vec<Val>)> = lists
        .iter()
        .flat_map(|l| [0, 1, -1, i32::MIN].map(|n| [0, 1].map(|op| (op, vec![l.clone(), Val::Int(n)]))).concat())
        .collect();
    s.calls("increments", &defs, &calls);
}

/// Each edge list less itself, and then All or Invert of it.
fn on_emptied(s: &mut Sample) {
    let mut b = Builder::new(&generate::edge_defs());
    for list in generate::edge_lists() {
        for then in [ALL, INVERT] {
            let mut code = Vec::new();
            b.push(&mut code, &list).unwrap();
            code.extend_from_within(..);
            code.extend([SUBTRACT, then]);
            b.sheets.push(code);
        }
    }
    s.put("emptied lists", &b.bytes());
}

/// Lists of up to 256 entries. Few of the answers are long, so that they stay readable.
fn on_sizes(s: &mut Sample, r: &mut Rng) {
    for (n, defs) in generate::full_defs().iter().enumerate() {
        let lists: Vec<Val> = generate::sized_lists(defs).into_iter().map(Val::List).collect();
        let mut calls: Vec<(u8, Vec<Val>)> = Vec::new();
        for op in [12, 25, 26, 28, 29] {
            lists.iter().for_each(|l| calls.push((op, vec![l.clone()])));
        }
        for op in [7, 8, 9, 10, 22, 23] {
            (0..10).for_each(|_| calls.push((op, vec![r.pick(&lists).clone(), r.pick(&lists).clone()])));
        }
        for op in [0, 1, 24, EQUAL, NOT_EQUALS] {
            (0..5).for_each(|_| calls.push((op, vec![r.pick(&lists).clone(), r.pick(&lists).clone()])));
            calls.push((op, vec![lists[18].clone(), lists[19].clone()]));
        }
        for op in [27, 30] {
            [1, 3, 7, 13, 15, 18, 20].iter().for_each(|i| calls.push((op, vec![lists[*i].clone()])));
        }
        for by in [0, 1, 255] {
            [3, 12, 15, 18].iter().for_each(|i| calls.push((0, vec![lists[*i].clone(), Val::Int(by)])));
        }
        for (low, high) in [(0, 3), (-5, 40), (100, 99)] {
            [9, 15, 18].iter().for_each(|i| calls.push((RANGE, vec![lists[*i].clone(), Val::Int(low), Val::Int(high)])));
        }
        s.calls(&format!("256 items {}", n + 1), defs, &calls);
    }
}

fn main() {
    let args: Vec<String> = std::env::args().collect();
    let [_, seed, dir] = &args[..] else {
        eprintln!("sample SEED DIR");
        std::process::exit(2)
    };
    let mut r = Rng::new(seed.parse().expect("a number as seed"));
    let mut s = Sample {
        packs: Vec::new(),
        answers: String::new(),
        sheets: 0,
        ended: [[0; 18]; 34],
        turned: [0; 6],
        kinds: [[0; 25]; 32],
    };
    on_kinds(&mut s, &mut r);
    for op in 0..=RANGE {
        let every = if arity(op) == 1 { 5 } else { 1 };
        assert!(s.kinds[op as usize].iter().step_by(every).all(|n| *n > 0), "operator {op} on every pair of kinds");
    }
    on_edges(&mut s);
    on_emptied(&mut s);
    on_sizes(&mut s, &mut r);
    pack::at_limits().iter().for_each(|(name, bytes)| s.put(name, bytes));
    let edges = generate::floats();
    for n in 1..=4 {
        let mut b = Builder::new(&generate::random_defs(&mut r));
        while b.sheets.len() < 200 && b.size() < 8_000 {
            let code = pack::random_sheet(&mut r, &mut b, &[4; 16], &edges);
            b.sheets.push(code);
        }
        s.put(&format!("expressions {n}"), &b.bytes());
    }
    for n in 1..=300 {
        let mut b = Builder::new(&Defs { values: vec![vec![1, 2, 3], vec![10, 20]] });
        let list = generate::random_val(&mut r, &b.defs, &edges, LIST);
        assert!(b.call(0, &[list, Val::Int(1)]) && b.call(2, &[Val::Int(7), Val::Bool(true)]));
        s.put(&format!("damaged {n}"), &pack::damaged(&mut r, &b.bytes()));
    }
    fs::write(format!("{dir}/stdin"), &s.packs).unwrap();
    fs::write(format!("{dir}/stdout"), &s.answers).unwrap();
    fs::write(format!("{dir}/coverage.txt"), s.table()).unwrap();
    println!("{} sheets, {} bytes of packs, {} bytes of answers", s.sheets, s.packs.len(), s.answers.len());
}
