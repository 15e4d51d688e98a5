//! Document 01's pack, run and vetting around the original's operators, and a
//! generator of packs. Written from the document; only the operators are the original.
use crate::{
    generate::{self, Rng},
    original::{World, kind},
    values::{
        Answer, BOOL, CARRIED, CEILING, Defs, EQUAL, FLOOR, LIST, List, NOT_EQUALS, POW, RANGE, SUBTRACT, VOID, Val, arity,
    },
};
use std::fmt::Write;

#[derive(Clone, Debug)]
pub enum Ins {
    Op(u8),
    Push(Val),
    Literal(u8),
    Slot(u8),
}

pub struct Pack {
    pub world: World,
    pub literals: Vec<List>,
    pub sheets: Vec<Vec<Ins>>,
}

fn u16_at(b: &[u8], i: usize) -> usize {
    u16::from_le_bytes([b[i], b[i + 1]]) as usize
}
fn i32_at(b: &[u8], i: usize) -> i32 {
    i32::from_le_bytes(b[i..i + 4].try_into().unwrap())
}

/// Questions 1 to 5.
pub fn parse(b: &[u8]) -> Result<Pack, u8> {
    if b.len() < 4 || b.len() > 65_535 || b[0] != 1 || b[1] > 64 {
        return Err(1);
    }
    let (d, l, s) = (b[1] as usize, b[2] as usize, b[3] as usize);
    let contents = 4 + 4 * (d + l + s);
    if b.len() < contents {
        return Err(1);
    }
    let mut at = contents;
    let mut bodies = Vec::new();
    for i in 0..d + l + s {
        let (offset, length) = (u16_at(b, 4 + 4 * i), u16_at(b, 6 + 4 * i));
        if offset != at || at + length > b.len() {
            return Err(2);
        }
        bodies.push(&b[at..at + length]);
        at += length;
    }
    if at != b.len() {
        return Err(2);
    }
    let mut defs = Defs::default();
    for body in &bodies[..d] {
        if body.is_empty() || body[0] == 0 || body.len() != 1 + 4 * body[0] as usize {
            return Err(3);
        }
        defs.values.push((0..body[0] as usize).map(|i| i32_at(body, 1 + 4 * i)).collect());
        if defs.items() > 256 {
            return Err(3);
        }
    }
    let mut literals = Vec::new();
    for body in &bodies[d..d + l] {
        literals.push(parse_literal(body, &defs).ok_or(4)?);
    }
    let mut sheets = Vec::new();
    for body in &bodies[d + l..] {
        sheets.push(parse_sheet(body, l).ok_or(5)?);
    }
    Ok(Pack { world: World::new(&defs), literals, sheets })
}

fn parse_literal(body: &[u8], defs: &Defs) -> Option<List> {
    if body.len() < 8 || (body.len() - 8) % 5 != 0 {
        return None;
    }
    let origins = u64::from_le_bytes(body[..8].try_into().unwrap());
    let d = defs.values.len();
    if d < 64 && origins >> d != 0 {
        return None;
    }
    let entries: Vec<(u16, i32)> = body[8..].chunks(5).map(|e| (e[0] as u16, i32_at(e, 1))).collect();
    let rising = entries.windows(2).all(|w| w[0].0 < w[1].0);
    let inside = entries.iter().all(|e| (e.0 as usize) < defs.items());
    (rising && inside).then_some(List { origins, entries })
}

fn parse_sheet(body: &[u8], literals: usize) -> Option<Vec<Ins>> {
    let mut code = Vec::new();
    let mut i = 0;
    while i < body.len() {
        let args = match body[i] {
            0..=31 | 37 => 0,
            32 | 35 | 36 => 1,
            33 | 34 => 4,
            _ => return None,
        };
        let a = body.get(i + 1..i + 1 + args)?;
        code.push(match body[i] {
            32 if a[0] <= 1 => Ins::Push(Val::Bool(a[0] == 1)),
            33 => Ins::Push(Val::Int(i32_at(a, 0))),
            34 => Ins::Push(Val::Float(i32_at(a, 0) as u32)),
            35 if (a[0] as usize) < literals => Ins::Literal(a[0]),
            36 if a[0] <= 15 => Ins::Slot(a[0]),
            37 => Ins::Push(Val::Void),
            op @ 0..=31 => Ins::Op(op),
            _ => return None,
        });
        i += 1 + args;
    }
    (code.len() <= 1024).then_some(code)
}

impl Pack {
    /// Questions 8 to 13, 15 and 17: the value left, or (number, index).
    pub fn run(&self, sheet: usize, slots: &[Val; 16]) -> Result<Val, (u8, usize)> {
        let mut stack: Vec<Val> = Vec::new();
        for (index, ins) in self.sheets[sheet].iter().enumerate() {
            let value = match ins {
                Ins::Op(op) => {
                    if !CARRIED.contains(op) {
                        return Err((8, index));
                    }
                    let n = arity(*op);
                    if stack.len() < n {
                        return Err((10, index));
                    }
                    let operands = stack.split_off(stack.len() - n);
                    match self.world.call(*op, &operands) {
                        Answer::Val(v) => v,
                        Answer::Refused(n) => return Err((n, index)),
                        _ => unreachable!(),
                    }
                }
                _ if stack.len() >= 64 => return Err((9, index)),
                Ins::Push(v) => v.clone(),
                Ins::Literal(l) => Val::List(self.literals[*l as usize].clone()),
                Ins::Slot(s) => slots[*s as usize].clone(),
            };
            stack.push(value);
        }
        match stack.len() {
            1 => Ok(stack.pop().unwrap()),
            _ => Err((17, self.sheets[sheet].len())),
        }
    }

    /// Vetting: the forecast (count, top kind) for each instruction, or (number, index).
    pub fn vet(&self, sheet: usize, slots: &[u8; 16]) -> Result<Vec<(u8, u8)>, (u8, usize)> {
        let mut stack: Vec<u8> = Vec::new();
        let mut forecast = Vec::new();
        for (index, ins) in self.sheets[sheet].iter().enumerate() {
            let kind = match ins {
                Ins::Op(op) => {
                    if !CARRIED.contains(op) {
                        return Err((8, index));
                    }
                    let n = arity(*op);
                    if stack.len() < n {
                        return Err((10, index));
                    }
                    kind(*op, &stack.split_off(stack.len() - n)).map_err(|n| (n, index))?
                }
                _ if stack.len() >= 64 => return Err((9, index)),
                Ins::Push(v) => v.kind(),
                Ins::Literal(_) => LIST,
                Ins::Slot(s) => slots[*s as usize],
            };
            stack.push(kind);
            forecast.push((stack.len() as u8, kind));
        }
        if stack.len() == 1 { Ok(forecast) } else { Err((17, self.sheets[sheet].len())) }
    }
}

/// What `sheetrun` prints, whole.
pub fn sheetrun(bytes: &[u8]) -> String {
    let pack = match parse(bytes) {
        Err(n) => return format!("pack R {n}\n"),
        Ok(p) => p,
    };
    let mut out = format!("sheets {}\n", pack.sheets.len());
    for s in 0..pack.sheets.len() {
        match pack.run(s, &[const { Val::Void }; 16]) {
            Ok(v) => writeln!(out, "{s} {}", Answer::Val(v)).unwrap(),
            Err((n, i)) => writeln!(out, "{s} R {n} {i}").unwrap(),
        }
    }
    out
}

/// A pack under construction, as bytes of bodies.
#[derive(Clone, Default)]
pub struct Builder {
    pub defs: Defs,
    pub literals: Vec<Vec<u8>>,
    pub sheets: Vec<Vec<u8>>,
}

impl Builder {
    pub fn new(defs: &Defs) -> Self {
        Builder { defs: defs.clone(), ..Default::default() }
    }
    /// How many bytes the pack has.
    pub fn size(&self) -> usize {
        let bodies = |b: &Vec<Vec<u8>>| b.iter().map(|x| x.len() + 4).sum::<usize>();
        let definitions = self.defs.values.iter().map(|v| 5 + 4 * v.len()).sum::<usize>();
        4 + definitions + bodies(&self.literals) + bodies(&self.sheets)
    }
    /// The number of a literal, put in where it is new; None where there is no room for it.
    pub fn literal(&mut self, l: &List) -> Option<u8> {
        let mut body = l.origins.to_le_bytes().to_vec();
        for (k, v) in &l.entries {
            body.push(*k as u8);
            body.extend(v.to_le_bytes());
        }
        if let Some(i) = self.literals.iter().position(|b| *b == body) {
            return Some(i as u8);
        }
        if self.literals.len() == 255 {
            return None;
        }
        self.literals.push(body);
        Some(self.literals.len() as u8 - 1)
    }
    /// The instruction that pushes a value.
    pub fn push(&mut self, code: &mut Vec<u8>, v: &Val) -> Option<()> {
        match v {
            Val::Bool(b) => code.extend([32, *b as u8]),
            Val::Int(i) => {
                code.push(33);
                code.extend(i.to_le_bytes());
            }
            Val::Float(f) => {
                code.push(34);
                code.extend(f.to_le_bytes());
            }
            Val::List(l) => {
                let n = self.literal(l)?;
                code.extend([35, n]);
            }
            Val::Void => code.push(37),
        }
        Some(())
    }
    /// A sheet that pushes the operands and works the operator; false, and nothing is changed, where it does not fit.
    pub fn call(&mut self, op: u8, operands: &[Val]) -> bool {
        let before = self.literals.len();
        let mut code = Vec::new();
        let pushed = operands.iter().all(|v| self.push(&mut code, v).is_some());
        code.push(op);
        if !pushed || self.sheets.len() == 255 || self.size() + code.len() + 4 > 65_535 {
            self.literals.truncate(before);
            return false;
        }
        self.sheets.push(code);
        true
    }
    pub fn bytes(&self) -> Vec<u8> {
        let body = |v: &Vec<i32>| {
            let mut b = vec![v.len() as u8];
            v.iter().for_each(|x| b.extend(x.to_le_bytes()));
            b
        };
        let definitions = self.defs.values.iter().map(body).collect();
        assemble(&[definitions, self.literals.clone(), self.sheets.clone()])
    }
}

/// Definitions, literals and sheets as a pack.
pub fn assemble(bodies: &[Vec<Vec<u8>>; 3]) -> Vec<u8> {
    let mut out = vec![1];
    out.extend(bodies.iter().map(|b| b.len() as u8));
    let mut at = 4 + 4 * bodies.iter().map(Vec::len).sum::<usize>();
    for b in bodies.iter().flatten() {
        out.extend((at as u16).to_le_bytes());
        out.extend((b.len() as u16).to_le_bytes());
        at += b.len();
    }
    bodies.iter().flatten().for_each(|b| out.extend(b.iter()));
    out
}

/// The bodies of a pack that has passed.
pub fn bodies(pack: &[u8]) -> [Vec<Vec<u8>>; 3] {
    let mut all: [Vec<Vec<u8>>; 3] = Default::default();
    let mut i = 0;
    for which in 0..3 {
        for _ in 0..pack[1 + which] {
            let (at, length) = (u16_at(pack, 4 + 4 * i), u16_at(pack, 6 + 4 * i));
            all[which].push(pack[at..at + length].to_vec());
            i += 1;
        }
    }
    all
}

/// What an expression may push beside literals: the slots of each kind.
pub type SlotKinds = [u8; 16];

/// A value of the wanted kind, pushed: now and then a slot's, or a literal that is there already.
fn leaf(r: &mut Rng, b: &mut Builder, slots: &SlotKinds, edges: &[u32], kind: u8, code: &mut Vec<u8>) {
    let at = r.below(16);
    if slots[at] == kind && r.chance(60) {
        code.extend([36, at as u8]);
        return;
    }
    if kind == LIST && !b.literals.is_empty() && (b.literals.len() >= 60 || b.size() > 45_000 || r.chance(30)) {
        code.extend([35, r.below(b.literals.len()) as u8]);
        return;
    }
    let v = generate::random_val(r, &b.defs, edges, kind);
    b.push(code, &v).unwrap();
}

/// A list and itself under an operator: less itself it is empty, with the list's origins.
fn with_itself(r: &mut Rng, b: &mut Builder, slots: &SlotKinds, edges: &[u32], op: u8, code: &mut Vec<u8>) {
    let from = code.len();
    leaf(r, b, slots, edges, LIST, code);
    code.extend_from_within(from..);
    code.push(op);
}

/// An expression of the wanted kind, in the order of a sheet.
fn expression(r: &mut Rng, b: &mut Builder, slots: &SlotKinds, edges: &[u32], kind: u8, depth: usize, code: &mut Vec<u8>) {
    if depth == 0 || kind == VOID || r.chance(12) {
        return leaf(r, b, slots, edges, kind, code);
    }
    if kind == LIST && r.chance(8) {
        return with_itself(r, b, slots, edges, SUBTRACT, code);
    }
    if kind == BOOL && r.chance(4) {
        let op = *r.pick(&[EQUAL, NOT_EQUALS]);
        return with_itself(r, b, slots, edges, op, code);
    }
    let number = |r: &mut Rng| *r.pick(&[0u8, 1, 1, 1, 2, 2]);
    let any = |r: &mut Rng| *r.pick(&[0u8, 1, 2, 3]);
    let (op, operands): (u8, Vec<u8>) = match kind {
        0 => match r.below(5) {
            0 => (*r.pick(&[6, 7, 8, 9, 10, 11]), vec![number(r), number(r)]),
            1 => (*r.pick(&[6, 7, 8, 9, 10, 11, 22, 23]), vec![3, 3]),
            2 => (*r.pick(&[13, 14]), vec![any(r), any(r)]),
            3 => (12, vec![number(r)]),
            _ => (*r.pick(&[22, 23]), vec![3, 3]),
        },
        1 => match r.below(5) {
            0 | 1 => (*r.pick(&[0, 1, 2, 3, 4, 15, 16]), vec![r.below(2) as u8, r.below(2) as u8]),
            2 => (*r.pick(&[28, 29, 12]), vec![3]),
            3 => (*r.pick(&[5, FLOOR, CEILING]), vec![r.below(2) as u8]),
            _ => (20, vec![*r.pick(&[1, 2, 2])]),
        },
        2 => match r.below(4) {
            0 => (*r.pick(&[0, 1, 2, 3, 4, 15, 16]), vec![2, number(r)]),
            1 => (*r.pick(&[0, 1, 2, 3, 4, 15, 16]), vec![number(r), 2]),
            2 => (21, vec![number(r)]),
            _ => (*r.pick(&[5, FLOOR, CEILING]), vec![2]),
        },
        _ => match r.below(5) {
            0 => (*r.pick(&[0, 1]), vec![3, 1]),
            1 => (*r.pick(&[25, 26, 27, 30]), vec![3]),
            2 => (RANGE, vec![3, any(r), any(r)]),
            _ => (*r.pick(&[0, 0, 1, 24]), vec![3, 3]),
        },
    };
    for k in operands {
        expression(r, b, slots, edges, k, depth - 1, code);
    }
    code.push(op);
}

/// A sheet: mostly an expression, now and then one that is spoiled at its end, an operator on any kinds, an empty sheet, or
/// one near the stack's limit.
pub fn random_sheet(r: &mut Rng, b: &mut Builder, slots: &SlotKinds, edges: &[u32]) -> Vec<u8> {
    let mut code = Vec::new();
    match r.below(80) {
        0 => {}
        1 => {
            (0..62 + r.below(4)).for_each(|_| code.extend([32, 1]));
            (0..r.below(66)).for_each(|_| code.push(0));
        }
        2..16 => {
            let op = r.below(32) as u8;
            for _ in 0..arity(op) {
                let (kind, depth) = (*r.pick(&[0, 1, 2, 3, 3, 4]), r.below(4));
                expression(r, b, slots, edges, kind, depth, &mut code);
            }
            code.push(op);
        }
        _ => {
            let (kind, depth) = (r.below(4) as u8, r.below(6));
            expression(r, b, slots, edges, kind, depth, &mut code);
            if r.chance(20) {
                code.push(*r.pick(&[POW, FLOOR, CEILING, 37, 12, 28, 0, 5, 6, 13, 22, 24, 31, 25]));
            }
            if r.chance(5) {
                code.extend([36, r.below(16) as u8]);
                code.push(*r.pick(&[0, 2, 8, 13, 15, 24, 37]));
            }
        }
    }
    code
}

/// One byte changed, put in or taken out.
fn spoil(r: &mut Rng, b: &mut Vec<u8>) {
    const BYTES: [u8; 12] = [0, 1, 2, 5, 17, 31, 38, 64, 65, 127, 128, 255];
    let i = if r.chance(50) { r.below(b.len().min(9) + 1) } else { r.below(b.len() + 1) };
    let byte = if r.chance(70) { *r.pick(&BYTES) } else { r.next() as u8 };
    match r.below(4) {
        0 => b.insert(i, byte),
        1 if i < b.len() => drop(b.remove(i)),
        _ if i < b.len() => b[i] = byte,
        _ => b.push(byte),
    }
}

/// A pack that has passed, damaged: its bytes, or one of its bodies with the contents made to fit.
pub fn damaged(r: &mut Rng, pack: &[u8]) -> Vec<u8> {
    let mut bytes = pack.to_vec();
    let contents = 4 + 4 * pack[1..4].iter().map(|n| *n as usize).sum::<usize>();
    match r.below(8) {
        0 => bytes.truncate(r.below(pack.len() + 1)),
        1 => bytes.resize(pack.len() + 1 + r.below(5), r.next() as u8),
        2 => bytes[r.below(4)] = *r.pick(&[0, 1, 2, 64, 65, 255]),
        3 => {
            let i = r.below(contents);
            bytes[i] = bytes[i].wrapping_add(*r.pick(&[1, 4, 255]));
        }
        4 => {
            let i = r.below(bytes.len());
            bytes[i] = r.next() as u8;
        }
        _ => {
            let mut all = bodies(pack);
            let which = r.below(3);
            if all[which].is_empty() {
                all[which].push(vec![1, 1, 0, 0, 0]);
            } else {
                let n = r.below(all[which].len());
                spoil(r, &mut all[which][n]);
            }
            return assemble(&all);
        }
    }
    bytes
}

/// The stack, the instructions, items, definitions, literals and sheets at their limits, and one beyond: named packs.
pub fn at_limits() -> Vec<(String, Vec<u8>)> {
    let none = Defs::default();
    let mut all = Vec::new();
    let mut b = Builder::new(&none);
    const ONE: [u8; 5] = [33, 1, 0, 0, 0];
    for push in [&[32, 1][..], &[37], &[36, 15], &ONE] {
        for n in [1, 63, 64, 65, 66] {
            b.sheets.push(push.repeat(n));
        }
    }
    for after in [&[0; 63][..], &[0; 64], &[0, 37, 37]] {
        b.sheets.push([&ONE.repeat(64), after].concat());
    }
    b.sheets.push(vec![]);
    all.push(("stack".to_string(), b.bytes()));
    for n in [1023, 1024, 1025] {
        let mut b = Builder::new(&none);
        b.sheets.push([vec![32, 1], vec![12; n - 1]].concat());
        b.sheets.push(vec![37; n - 1]);
        all.push((format!("{n} instructions"), b.bytes()));
    }
    for sizes in [&[255, 1][..], &[255, 2], &[128, 128], &[128, 129], &[4; 64], &[1; 64], &[1; 65]] {
        let mut b = Builder::new(&Defs { values: sizes.iter().map(|n| vec![7; *n]).collect() });
        b.sheets.push(vec![32, 1]);
        all.push((format!("{} items of {} definitions", sizes.iter().sum::<usize>(), sizes.len()), b.bytes()));
    }
    let mut b = Builder::new(&Defs { values: vec![vec![1]] });
    for n in 0..255 {
        b.literal(&List { origins: 1, entries: vec![(0, n as i32)] }).unwrap();
        b.sheets.push(vec![35, n]);
    }
    all.push(("255 literals and sheets".to_string(), b.bytes()));
    all.push(("64 lists".to_string(), full_stacks()));
    all
}

/// Sheets that fill the stack with lists of 256 entries.
fn full_stacks() -> Vec<u8> {
    let mut b = Builder::new(&generate::full_defs()[0]);
    let entries: Vec<(u16, i32)> = (0..256).map(|k| (k, 256 - k as i32)).collect();
    b.literal(&List { origins: 3, entries: entries.clone() }).unwrap();
    b.literal(&List { origins: 1, entries: entries[3..9].to_vec() }).unwrap();
    for op in [0, 1, 24] {
        b.sheets.push([[35, 0].repeat(64), vec![op; 63]].concat());
        b.sheets.push([[35, 0, 35, 1].repeat(32), vec![op; 63]].concat());
        b.sheets.push([[35, 1, 35, 0].repeat(32), vec![op; 63]].concat());
    }
    b.sheets.push([[35, 0].repeat(63), vec![33, 1, 0, 0, 0], vec![0, 28], vec![37; 64]].concat());
    b.sheets.push([[35, 0].repeat(64), vec![27, 30, 25, 26, 28]].concat());
    b.sheets.push([[35, 0].repeat(62), vec![33, 5, 0, 0, 0, 33, 9, 0, 0, 0], vec![RANGE], vec![24; 61]].concat());
    b.sheets.push([35, 0].repeat(65));
    b.bytes()
}
