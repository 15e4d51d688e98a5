//! Times this repository's compiled code beside the Rust that the operators come from: `oracle/bench -h` has the usage.
mod plot;
mod port;
mod report;
mod timing;

use ink_oracle::{
    generate::Rng,
    original::bare::*,
    pack::Builder,
    values::{Answer, CEILING, Defs, EQUAL, FLOOR, List, NOT_EQUALS, RANGE, Val},
};
use port::{APPLY, CHECKED, Checked, Lent, Operands};
use report::{Group, Row};
use std::{
    ffi::{c_int, c_void},
    hint::black_box,
};
use timing::{Side, Times, race, side, side_of};

unsafe extern "C" {
    fn memcmp(a: *const c_void, b: *const c_void, bytes: usize) -> c_int;
    /// of libfloat_of_int.a
    fn float_of_int(n: i32) -> f32;
}

/// The processor's own conversion, which the original's `as f32` is, behind a call as the port's.
#[inline(never)]
extern "C" fn processors(n: i32) -> f32 {
    n as f32
}

/// What is asked for on the command line.
struct Options {
    rounds: usize,
    only: String,
    /// how often each of the port's calls is made, untimed, for a profiler; 0: everything is timed
    spin: usize,
    write: Option<String>,
}

struct Bench {
    options: Options,
    rows: Vec<Row>,
}

/// A number of calls of one side, for a row.
struct Ours<'a> {
    through: &'static str,
    aim: Option<f64>,
    side: Side<'a>,
}

impl Bench {
    /// Times the port's sides beside the original's, in the same rounds.
    fn measure(&mut self, group: Group, name: &str, entries: usize, bytes: usize, ours: Vec<Ours>, rust: Option<Side>) {
        let title = report::title(name, entries);
        let only = &self.options.only;
        if !(only.is_empty() || title == *only || entries == 0 && name.contains(only) || name == only) {
            return;
        }
        if self.options.spin > 0 {
            return ours.into_iter().for_each(|o| o.side.spin(self.options.spin));
        }
        let about: Vec<(&'static str, Option<f64>)> = ours.iter().map(|o| (o.through, o.aim)).collect();
        let sides = ours.into_iter().map(|o| o.side).chain(rust).collect();
        let times = race(self.options.rounds, sides);
        let rust: Option<Times> = times.get(about.len()).copied();
        for ((through, aim), ours) in about.into_iter().zip(times) {
            let row = Row { group, through, name: name.to_string(), entries, bytes, ours, rust, aim };
            eprintln!("{row}");
            self.rows.push(row);
        }
    }

    /// One operator, by the call that leaves question 7 to its caller, and by the call that asks it.
    /// The aim is for the first: the original does not look at its operands either.
    fn operator(&mut self, group: Group, name: &str, entries: usize, world: &World, port: &Checked, op: u8, values: &[Val]) {
        let operands = Operands::new(values);
        let mut aim = aim(group, name, entries);
        let mut lents = [Lent::new(), Lent::new()];
        let mut ours = Vec::new();
        for ((through, call), lent) in [("ink_apply", APPLY), ("ink_call_checked", CHECKED)].into_iter().zip(&mut lents) {
            let number = port.call(call, op, &operands, lent);
            assert_eq!(plain(lent.value(number)), original(world.call(op, values)), "{name} {entries} by {through}");
            let operands = &operands;
            let side = side(move || {
                black_box(port.call(call, op, operands, lent));
                black_box(&mut *lent);
            });
            ours.push(Ours { through, aim: aim.take(), side });
        }
        let objects: Vec<Rc<dyn RTObject>> = values.iter().map(|v| world.object(v)).collect();
        if op == RANGE {
            let bounds = [&values[1], &values[2]].map(|v| world.value_type(v).unwrap());
            let rust = side(|| drop(black_box(range(as_list(black_box(&objects[0])).unwrap(), &bounds[0], &bounds[1]))));
            return self.measure(group, name, entries, 0, ours, Some(rust));
        }
        let f = NativeFunctionCall::new(OPS[op as usize]);
        let rust = side(|| {
            let params: Vec<Rc<dyn RTObject>> = black_box(&objects).to_vec();
            drop(black_box(call(black_box(&f), params)));
        });
        self.measure(group, name, entries, 0, ours, Some(rust));
    }

    /// Int to Float by itself, beside the processor's own conversion.
    fn conversion(&mut self, name: &str, ints: &[i32]) {
        let ours = |n: i32| unsafe { float_of_int(n) };
        ints.iter().for_each(|n| assert_eq!(ours(*n).to_bits(), processors(*n).to_bits(), "Float of {n}"));
        let [mut floats, mut others] = [vec![0.0; ints.len()], vec![0.0; ints.len()]];
        let side = side_of(ints.len(), || convert(ints, &mut floats, ours));
        let rust = side_of(ints.len(), || convert(ints, &mut others, |n| processors(n)));
        let ours = Ours { through: "float_of_int", aim: aim(Group::Conversion, name, 0), side };
        self.measure(Group::Conversion, name, 0, 0, vec![ours], Some(rust));
    }

    /// A sheet by the call for a checked pack and by the call for any bytes, beside the original's operators worked on a
    /// stack: bare, and with the origins that the Rust's runtime sets at each push.
    fn sheet(&mut self, name: &str, entries: usize, defs: &Defs, words: &[Word]) {
        let (world, port) = (World::new(defs), packed(defs, words));
        let code: Vec<Step> = words.iter().map(|w| Step::new(&world, w)).collect();
        for origins in [false, true] {
            if origins && entries == 0 {
                continue;
            }
            let mut stack = Vec::with_capacity(64);
            let answer = original(world.read(&work(&world, &code, &mut stack, origins)));
            let mut lents = [Lent::new(), Lent::new()];
            let mut ours = Vec::new();
            for ((through, public), lent) in [("ink_run_checked", false), ("ink_run", true)].into_iter().zip(&mut lents) {
                let number = port.run(public, lent);
                assert_eq!(plain(lent.value(number)), answer, "{name} {entries} by {through}");
                let port = &port;
                let side = side(move || {
                    black_box(port.run(public, lent));
                    black_box(&mut *lent);
                });
                let aim = if public || origins { None } else { aim(Group::Sheets, name, entries) };
                ours.push(Ours { through, aim, side });
            }
            let rust = side(|| drop(black_box(work(&world, black_box(&code), &mut stack, origins))));
            let name = format!("{name}{}", if origins { ", origins set" } else { "" });
            self.measure(Group::Sheets, &name, entries, 0, ours, Some(rust));
        }
    }

    /// Vetting, which the original does not have.
    fn vet(&mut self, name: &str, entries: usize, port: &Checked) {
        let name = &format!("vetting: {name}");
        let mut lent = Lent::new();
        assert_eq!(port.vet(&mut lent), 0, "{name} passes");
        let side = side(|| {
            black_box(port.vet(&mut lent));
            black_box(&mut lent);
        });
        self.measure(Group::Alone, name, entries, 0, vec![Ours { through: "ink_vet", aim: None, side }], None);
    }

    /// A sheet that pushes an Int: what a run costs beside its instructions.
    fn least_run(&mut self) {
        let port = packed(&Defs::default(), &words("3", &[]));
        for (through, public) in [("ink_run_checked", false), ("ink_run", true)] {
            let mut lent = Lent::new();
            let side = side(|| {
                black_box(port.run(public, &mut lent));
                black_box(&mut lent);
            });
            self.measure(Group::Alone, "1 instruction", 0, 0, vec![Ours { through, aim: None, side }], None);
        }
    }

    /// The items of two equal lists compared by the C library: the limit for Equal.
    fn memcmp(&mut self, entries: usize) {
        let items: Vec<u16> = (0..entries as u16).collect();
        let (a, b) = (items.clone(), items);
        let side = side(|| {
            let [a, b] = [&a, &b].map(|l| black_box(l.as_ptr()).cast());
            black_box(unsafe { memcmp(a, b, black_box(2 * entries)) });
        });
        self.measure(Group::Alone, "equal items", entries, 0, vec![Ours { through: "memcmp", aim: None, side }], None);
    }

    fn check(&mut self, name: &str, pack: Vec<u8>) {
        let port = Checked::new(pack);
        let side = side(|| {
            black_box(port.check());
        });
        let ours = vec![Ours { through: "ink_check", aim: aim(Group::Checks, name, 0), side }];
        self.measure(Group::Checks, name, 0, port.bytes(), ours, None);
    }
}

#[inline(always)]
fn convert(ints: &[i32], floats: &mut [f32], f: impl Fn(i32) -> f32) {
    for (x, n) in floats.iter_mut().zip(black_box(ints)) {
        *x = f(*n);
    }
    black_box(floats);
}

/// The aims: how many times as fast as the original, or megabytes in a second.
fn aim(group: Group, name: &str, entries: usize) -> Option<f64> {
    let by_size = |aims: [f64; 3]| [5, 50, 250].iter().zip(aims).find(|(n, _)| **n == entries).map(|(_, aim)| aim);
    match (group, name) {
        (Group::Numbers, _) => Some(8.0),
        (Group::Conversion, _) => Some(0.5),
        (Group::Lists, "union") => by_size([20.0, 60.0, 80.0]),
        (Group::Lists, "increment by 1") => by_size([10.0, 20.0, 20.0]),
        (Group::Lists, "equal") if entries == 250 => Some(20.0),
        (Group::Lists, "has" | "equal" | "listMin" | "listMax" | "valueOfList" | "greater" | "greaterOrEquals") => Some(4.0),
        (Group::Sheets, "lists") if entries == 5 => Some(3.0),
        (Group::Sheets, "lists") if entries == 250 => Some(40.0),
        (Group::Checks, _) => Some(400.0),
        _ => None,
    }
}

/// A value or a refusal, in text; the origin set is not compared.
fn original(a: Answer) -> String {
    a.to_string()
}
fn plain(v: Result<Val, u32>) -> String {
    v.map_or_else(|n| format!("R {n}"), |v| Answer::Val(v).to_string())
}

/// An instruction of a sheet: an operator, or a value that is pushed.
enum Word {
    Op(u8),
    Push(Val),
}

/// A sheet's text: `@0` is operator 0, `3` an Int, `1.5` a Float, and a letter one of the lists.
fn words(text: &str, lists: &[(&str, &Val)]) -> Vec<Word> {
    let word = |w: &str| {
        if let Some(op) = w.strip_prefix('@') {
            return Word::Op(op.parse().unwrap());
        }
        if let Some((_, list)) = lists.iter().find(|(name, _)| *name == w) {
            return Word::Push((*list).clone());
        }
        Word::Push(match w.parse() {
            Ok(i) => Val::Int(i),
            Err(_) => Val::Float(w.parse::<f32>().unwrap().to_bits()),
        })
    };
    text.split_whitespace().map(word).collect()
}

fn packed(defs: &Defs, words: &[Word]) -> Checked {
    let mut b = Builder::new(defs);
    let mut code = Vec::new();
    for w in words {
        match w {
            Word::Op(op) => code.push(*op),
            Word::Push(v) => b.push(&mut code, v).unwrap(),
        }
    }
    b.sheets.push(code);
    Checked::new(b.bytes())
}

/// The same for the original: values prebuilt, and cloned (an Rc) when they are pushed.
enum Step {
    Op(NativeFunctionCall),
    Push(Rc<dyn RTObject>),
}

impl Step {
    fn new(world: &World, w: &Word) -> Self {
        match w {
            Word::Op(op) => Step::Op(NativeFunctionCall::new(OPS[*op as usize])),
            Word::Push(v) => Step::Push(world.object(v)),
        }
    }
}

fn work(world: &World, code: &[Step], stack: &mut Vec<Rc<dyn RTObject>>, origins: bool) -> Rc<dyn RTObject> {
    for step in code {
        let o = match step {
            Step::Push(o) => o.clone(),
            Step::Op(f) => {
                let at = stack.len() - parameters(f);
                call(f, stack.split_off(at)).ok().expect("no refusal")
            }
        };
        if origins {
            set_origins(world, &o);
        }
        stack.push(o);
    }
    stack.pop().unwrap()
}

fn list(defs: &Defs, entries: &[(u16, i32)]) -> Val {
    Val::List(List { origins: defs.origins_of(entries), entries: entries.to_vec() })
}

/// Definitions of 64 items (one of 10 for the small size), and all their items.
fn definitions(entries: usize) -> (Defs, Vec<(u16, i32)>) {
    let values = match entries {
        5 => vec![(1..=10).collect()],
        50 => vec![(1..=64).collect(), (1..=36).collect()],
        _ => vec![(1..=64).collect(); 4],
    };
    let defs = Defs { values };
    let every = (0..defs.values.len()).flat_map(|d| defs.of(d)).collect();
    (defs, every)
}

fn numbers(bench: &mut Bench) {
    let none = Defs::default();
    let (world, port) = (World::new(&none), Checked::new(Builder::new(&none).bytes()));
    let (i, f, b) = (Val::Int, |x: f32| Val::Float(x.to_bits()), Val::Bool);
    let rows: [(&str, u8, Vec<Val>); 17] = [
        ("Int add", 0, vec![i(3), i(4)]),
        ("Int multiply", 3, vec![i(3), i(4)]),
        ("Int divide", 2, vec![i(1_000_003), i(7)]),
        ("Int less", 8, vec![i(3), i(4)]),
        ("Bool and", 13, vec![b(true), b(true)]),
        ("Int not", 12, vec![i(3)]),
        ("Float add", 0, vec![f(3.1), f(4.7)]),
        ("Float multiply", 3, vec![f(3.1), f(4.7)]),
        ("Float divide", 2, vec![f(3.1), f(4.7)]),
        ("Float remainder", 4, vec![f(30.1), f(4.7)]),
        ("Int + Float", 0, vec![i(3), f(4.7)]),
        ("Float min", 15, vec![f(3.1), f(4.7)]),
        ("Float negate", 5, vec![f(3.7)]),
        ("Float floor", FLOOR, vec![f(-3.7)]),
        ("Float ceiling", CEILING, vec![f(-3.7)]),
        ("Int of Float", 20, vec![f(3.7)]),
        ("Float of Int", 21, vec![i(16_777_219)]),
    ];
    for (name, op, operands) in rows {
        bench.operator(Group::Numbers, name, 0, &world, &port, op, &operands);
    }
}

/// Of each kind so many Ints that the processor does not learn their signs and sizes by heart.
fn conversions(bench: &mut Bench) {
    let mut r = Rng::new(1);
    let mut ints = |of: fn(u32) -> i32| (0..65_536).map(|_| of(r.next() as u32)).collect::<Vec<_>>();
    bench.conversion("0 to 999", &ints(|n| (n % 1_000) as i32));
    bench.conversion("-999 to 999", &ints(|n| n as i32 % 1_000));
    bench.conversion("25 to 31 digits", &ints(|n| ((1 << 30 | n >> 2) >> (n % 7)) as i32));
    bench.conversion("all Ints", &ints(|n| n as i32));
}

fn lists(bench: &mut Bench, n: usize) {
    let (defs, every) = definitions(n);
    let (world, port) = (World::new(&defs), Checked::new(Builder::new(&defs).bytes()));
    let from = (n / 2).min(every.len() - n);
    let a = list(&defs, &every[..n]);
    let c = list(&defs, &every[from..from + n]); // overlaps a
    let half = list(&defs, &every[..n].iter().copied().step_by(2).collect::<Vec<_>>());
    let i = Val::Int;
    let rows: [(&str, u8, Vec<Val>); 19] = [
        ("union", 0, vec![a.clone(), c.clone()]),
        ("without", 1, vec![a.clone(), half.clone()]),
        ("without itself", 1, vec![a.clone(), a.clone()]),
        ("intersect", 24, vec![a.clone(), c.clone()]),
        ("increment by 1", 0, vec![a.clone(), i(1)]),
        ("all", 27, vec![a.clone()]),
        ("invert", 30, vec![half.clone()]),
        ("range", RANGE, vec![a.clone(), i(2), i((n as i32 / 2).min(32))]),
        ("has", 22, vec![a.clone(), half.clone()]),
        ("equal", EQUAL, vec![a.clone(), a.clone()]),
        ("notEquals at once", NOT_EQUALS, vec![a.clone(), c.clone()]),
        ("listMin", 25, vec![a.clone()]),
        ("listMax", 26, vec![a.clone()]),
        ("valueOfList", 29, vec![a.clone()]),
        ("greater", 7, vec![a.clone(), c.clone()]),
        ("greaterOrEquals", 9, vec![a.clone(), c.clone()]),
        ("count", 28, vec![a.clone()]),
        ("and Int", 13, vec![a.clone(), i(1)]),
        ("not", 12, vec![a.clone()]),
    ];
    for (name, op, operands) in rows {
        bench.operator(Group::Lists, name, n, &world, &port, op, &operands);
    }
    bench.memcmp(n);
}

/// Union of n entries and n others, every second item in the one and in the other.
fn growth(bench: &mut Bench) {
    let (defs, every) = definitions(250);
    let (world, port) = (World::new(&defs), Checked::new(Builder::new(&defs).bytes()));
    for n in [5, 10, 25, 50, 100, 128] {
        let second = |from: usize| every[from..].iter().copied().step_by(2).take(n).collect::<Vec<_>>();
        let operands = [list(&defs, &second(0)), list(&defs, &second(1))];
        bench.operator(Group::Growth, "union of n and n others", n, &world, &port, 0, &operands);
    }
}

const INTS: &str = "3 4 @0 5 @3 7 @4 2 @1 9 @15 1 @16 @5 100 @0 50 @7 1 @13";
const FLOATS: &str = "1.5 2.5 @0 5 @3 7.0 @4 2 @1 9 @15 1 @16 @5 100 @0 50.0 @7 1 @13";
const SHORT_LISTS: &str = "a b @0 1 @0 c @1 d @24 @30 e @22 f @26 @29 3 @7 @14 e g @8 @13";
const LONG_LISTS: &str = "a a @0 1 @0 a @24 a @1 @27 a @22 a @26 @29 3 @7 @14 a a @8 @13";

fn short_lists(defs: &Defs) -> Vec<Word> {
    let of = |items: &[u16]| list(defs, &items.iter().map(|k| (*k, *k as i32 + 1)).collect::<Vec<_>>());
    let all = [of(&[0, 1, 2, 3, 4]), of(&[3, 4, 5]), of(&[4]), of(&[2, 3, 6]), of(&[0]), of(&[0, 5]), of(&[2])];
    let names: Vec<(&str, &Val)> = ["a", "b", "c", "d", "e", "f", "g"].into_iter().zip(&all).collect();
    words(SHORT_LISTS, &names)
}

fn sheets(bench: &mut Bench) {
    let none = Defs::default();
    let small = definitions(5).0;
    let mut all = vec![
        ("20 Int instructions", 0, none.clone(), words(INTS, &[])),
        ("20 Float instructions", 0, none.clone(), words(FLOATS, &[])),
        ("lists", 5, small.clone(), short_lists(&small)),
    ];
    for n in [50, 250] {
        let (defs, every) = definitions(n);
        let a = list(&defs, &every[..n]);
        all.push(("lists", n, defs, words(LONG_LISTS, &[("a", &a)])));
    }
    for (name, entries, defs, words) in &all {
        bench.sheet(name, *entries, defs, words);
    }
    bench.least_run();
    for (name, entries, defs, words) in &all {
        bench.vet(name, *entries, &packed(defs, words));
    }
    let long: Vec<Word> = words("1 2 @0", &[]).into_iter().chain((0..1021).map(|_| Word::Op(5))).collect();
    bench.vet("1,024 Int instructions", 0, &packed(&none, &long));
}

/// A pack of so many bytes: definitions, then literals and sheets in turn as they are wanted, the last sheet filling up.
fn pack_of(size: usize, literals: bool, sheets: bool) -> Vec<u8> {
    let (defs, every) = definitions(if size < 4_000 { 5 } else { 250 });
    let mut b = Builder::new(&defs);
    let entries = every.len().min(50);
    let sheet = [33u8, 3, 0, 0, 0, 33, 4, 0, 0, 0, 0, 33, 5, 0, 0, 0, 3, 32, 1, 15, 36, 7, 14, 35, 0, 28, 16].repeat(10);
    if !literals {
        b.literal(&List { origins: 1, entries: vec![] }).unwrap();
    }
    for n in 0.. {
        if literals {
            let shifted: Vec<(u16, i32)> = every[..entries].iter().map(|e| (e.0, e.1 + n)).collect();
            b.literal(&List { origins: 1, entries: shifted }).unwrap();
        }
        if sheets {
            b.sheets.push(sheet.clone());
        }
        if b.size() + 600 > size {
            break;
        }
    }
    b.sheets.push(vec![37; size - 4 - b.size()]);
    assert_eq!(b.size(), size);
    b.bytes()
}

fn checks(bench: &mut Bench) {
    bench.check("1,024 bytes", pack_of(1_024, true, true));
    bench.check("16,384 bytes", pack_of(16_384, true, true));
    bench.check("65,535 bytes", pack_of(65_535, true, true));
    bench.check("65,535 bytes, literals", pack_of(65_535, true, false));
    bench.check("65,535 bytes, sheets", pack_of(65_535, false, true));
}

fn options() -> Result<Options, String> {
    let mut all = Options { rounds: 61, only: String::new(), spin: 0, write: None };
    let mut args = std::env::args().skip(1);
    while let Some(word) = args.next() {
        let mut next = || args.next().ok_or(format!("{word} needs a word after it"));
        let number = |w: String| w.parse::<usize>().map_err(|_| format!("{w} is no number"));
        match word.as_str() {
            "--rounds" => all.rounds = number(next()?)?.max(5),
            "--only" => all.only = next()?,
            "--spin" => all.spin = number(next()?)?,
            "--write" => all.write = Some(next()?),
            _ => return Err(format!("{word} is not known; -h has the usage")),
        }
    }
    Ok(all)
}

fn main() {
    let options = options().unwrap_or_else(|what| {
        eprintln!("bench: {what}");
        std::process::exit(2)
    });
    let mut bench = Bench { options, rows: Vec::new() };
    let load = report::load();
    numbers(&mut bench);
    conversions(&mut bench);
    [5, 50, 250].into_iter().for_each(|n| lists(&mut bench, n));
    sheets(&mut bench);
    checks(&mut bench);
    growth(&mut bench);
    if bench.options.spin > 0 {
        return;
    }
    print!("{}", report::table(&bench.rows));
    if let Some(folder) = &bench.options.write {
        report::write(folder, &bench.rows, bench.options.rounds, &load).unwrap_or_else(|e| {
            eprintln!("bench: {e}");
            std::process::exit(2)
        });
    }
}
