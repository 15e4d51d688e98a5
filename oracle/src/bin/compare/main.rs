//! Holds this repository's compiled code against the original: all edges, and random cases by seed.
mod asks;
mod cases;
mod port;

use asks::{Ask, Owed, owed};
use ink_oracle::{
    pack::{self, Ins, Pack},
    values::OP_NAMES,
};
use port::{MISTAKES, Port};
use std::{fmt::Write, process::exit, time::Instant};

const USAGE: &str = "compare [--first] [--mistake N] [SEED [COUNT]]
  all edges, then COUNT random cases (1,000,000 where none is said) from SEED (1)
  --first      stop at the first case that differs
  --mistake N  make a mistake after the port's answers, to see that it is noticed (N from 0; --mistakes lists them)
exit status: 0 none differs, 1 some differ, 2 bad usage";

/// Rows of the table: operators 0 to 31, other operator numbers, conversions, runs, vettings, checks.
const ROWS: usize = 40;
const PUSH: usize = 32;
const END: usize = 33;

fn row(ask: &Ask) -> usize {
    match ask {
        Ask::Call { op, .. } => (*op as usize).min(32),
        Ask::Cast { .. } => 33,
        Ask::Coerce { to, .. } => 34 + *to as usize,
        Ask::Run { .. } => 37,
        Ask::Vet { .. } => 38,
        Ask::Check => 39,
    }
}

fn row_name(row: usize) -> String {
    match row {
        0..32 => format!("{row:2} {}", OP_NAMES[row]),
        _ => [
            "   operator 32 to 255",
            "   cast",
            "   coerce_to_bool",
            "   coerce_to_int",
            "   coerce_to_float",
            "   run",
            "   vet",
            "   check",
        ][row - 32]
            .to_string(),
    }
}

pub struct Tally {
    port: Port,
    bytes: Vec<u8>,
    judged: Result<Pack, u8>,
    pub cases: u64,
    differing: u64,
    /// by row and number, 0 being a value or a pass
    counts: [[u64; 19]; ROWS],
    /// runs by the instruction at which they ended, and number
    ended: [[u64; 19]; 34],
    smallest: Option<String>,
    first: bool,
    began: Instant,
    said: Instant,
}

impl Tally {
    fn new(mistake: Option<usize>, first: bool) -> Self {
        Tally {
            port: Port::new(mistake),
            bytes: Vec::new(),
            judged: Err(1),
            cases: 0,
            differing: 0,
            counts: [[0; 19]; ROWS],
            ended: [[0; 19]; 34],
            smallest: None,
            first,
            began: Instant::now(),
            said: Instant::now(),
        }
    }

    /// The pack of the cases that follow.
    pub fn pack(&mut self, bytes: &[u8]) {
        self.bytes.clear();
        self.bytes.extend(bytes);
        self.judged = pack::parse(bytes);
    }

    /// How many sheets it has, none where it is turned back.
    pub fn sheets(&self) -> usize {
        self.judged.as_ref().map_or(0, |p| p.sheets.len())
    }

    pub fn turned_back(&self) -> bool {
        self.judged.is_err()
    }

    /// One case.
    pub fn ask(&mut self, ask: &Ask) {
        let owed = owed(&self.judged, ask);
        self.cases += 1;
        self.counts[row(ask)][owed.number as usize] += 1;
        self.count_end(ask, &owed);
        let mut differs = self.port.differs(&self.bytes, ask, &owed);
        if let (None, Ok(p)) = (&differs, &self.judged) {
            differs = self.port.checked_differs(&self.bytes, &p.world.defs, ask, &owed);
        }
        if let Some(what) = differs {
            self.differs(ask, &what);
        }
        if self.cases % 1024 == 0 && self.said.elapsed().as_secs() >= 2 {
            self.progress("..");
        }
    }

    fn count_end(&mut self, ask: &Ask, owed: &Owed) {
        let (Ask::Run { sheet, .. }, Ok(p), true) = (ask, &self.judged, owed.worked) else { return };
        let sheet = &p.sheets[*sheet];
        let at = if owed.number == 0 { sheet.last() } else { sheet.get(owed.index as usize) };
        let row = match at {
            Some(Ins::Op(op)) => *op as usize,
            Some(_) => PUSH,
            None => END,
        };
        self.ended[row][owed.number as usize] += 1;
    }

    fn differs(&mut self, ask: &Ask, what: &str) {
        self.differing += 1;
        let mut text = format!("{ask}\n  {what}\n  pack");
        self.bytes.iter().for_each(|b| write!(text, " {b:02x}").unwrap());
        if self.smallest.as_ref().is_none_or(|s| text.len() < s.len()) {
            self.smallest = Some(text);
        }
        if self.first {
            self.finish();
        }
    }

    pub fn progress(&mut self, what: &str) {
        let seconds = self.began.elapsed().as_secs_f64();
        eprintln!("{what:10} {:>9} cases, {} differing, {seconds:.1} s", self.cases, self.differing);
        self.said = Instant::now();
    }

    fn finish(&self) -> ! {
        let table = |names: &dyn Fn(usize) -> String, rows: &[[u64; 19]], numbers: &[usize]| {
            let mut head = format!("{:23}{:>8}", "", "answer");
            numbers.iter().for_each(|n| write!(head, "{n:>7}").unwrap());
            println!("{head}");
            for (i, counts) in rows.iter().enumerate() {
                let mut line = format!("{:23}{:>8}", names(i), counts[0]);
                numbers.iter().for_each(|n| write!(line, "{:>7}", counts[*n]).unwrap());
                println!("{line}");
            }
        };
        println!("Cases by what is called and what it answers: a value, or the number of a refusal.\n");
        table(&row_name, &self.counts, &[1, 2, 3, 4, 5, 6, 7, 8, 9, 10, 11, 12, 13, 15, 17, 18]);
        println!("\nRuns that reached question 8, by the instruction at which they ended.\n");
        let name = |i: usize| if i < 32 { row_name(i) } else { ["   a push", "   the sheet's end"][i - 32].to_string() };
        table(&name, &self.ended, &[8, 9, 10, 11, 12, 13, 15, 17]);
        println!();
        if let Some(s) = &self.smallest {
            println!("the smallest that differs: {s}\n");
        }
        println!("{} cases, {} differing", self.cases, self.differing);
        exit((self.differing > 0) as i32)
    }
}

fn usage(text: &str, status: i32) -> ! {
    if status == 0 {
        println!("{text}")
    } else {
        eprintln!("{text}")
    }
    exit(status)
}

fn main() {
    let (mut first, mut mistake, mut numbers) = (false, None, Vec::new());
    let mut args = std::env::args().skip(1);
    while let Some(a) = args.next() {
        match a.as_str() {
            "-h" | "--help" => usage(USAGE, 0),
            "--mistakes" => usage(&MISTAKES.join("\n"), 0),
            "--first" => first = true,
            "--mistake" => match args.next().and_then(|n| n.parse().ok()) {
                Some(n) if n < MISTAKES.len() => mistake = Some(n),
                _ => usage(USAGE, 2),
            },
            _ => numbers.push(a.replace(['_', ','], "").parse::<u64>().unwrap_or_else(|_| usage(USAGE, 2))),
        }
    }
    let (seed, count) = match numbers[..] {
        [] => (1, 1_000_000),
        [seed] => (seed, 1_000_000),
        [seed, count] => (seed, count),
        _ => usage(USAGE, 2),
    };
    let mut tally = Tally::new(mistake, first);
    cases::edges(&mut tally);
    cases::random(&mut tally, seed, count);
    tally.finish()
}
