//! Holds this repository's compiled code against the original on all 2^32 operands of a one-operand operator: `oracle/every -h` has the
//! usage.
use ink_oracle::{
    original::{World, integral},
    sys::ink_apply,
    values::{Answer, CEILING, Defs, FLOAT, FLOOR, INT, TO_FLOAT, Val},
};
use std::{
    io::{Write, stderr},
    process::exit,
    sync::atomic::{AtomicU32, AtomicU64, Ordering::Relaxed},
    thread,
    time::Instant,
};

const USAGE: &str = "every [NAME ..]
  all 2^32 operands under each operator that is named, or under all: floor ceiling float
exit status: 0 none differs, 1 some differ, 2 bad usage";

/// Operands are taken by blocks of 2^20.
const BLOCK: u32 = 20;
const BLOCKS: u32 = 1 << (32 - BLOCK);
/// Of so many operands one is also asked of the original's own call; the others only of the function that it calls.
const CALLED: u32 = 1021;
const NAN: u32 = 0x7fc0_0000;

/// What is asked of every operand: an operator on the number of a kind, Int or Float, with the operand's bits.
struct Sweep {
    name: &'static str,
    op: u8,
    kind: u8,
    /// what the original's operator calls
    original: fn(u32) -> f32,
}

const SWEEPS: [Sweep; 3] = [
    Sweep { name: "floor", op: FLOOR, kind: FLOAT, original: |bits| integral(FLOOR, f32::from_bits(bits)) },
    Sweep { name: "ceiling", op: CEILING, kind: FLOAT, original: |bits| integral(CEILING, f32::from_bits(bits)) },
    Sweep { name: "float", op: TO_FLOAT, kind: INT, original: |bits| bits as i32 as f32 },
];

impl Sweep {
    /// The words that the port owes: a NaN is the one NaN.
    fn owed(&self, bits: u32) -> [u64; 3] {
        let r = (self.original)(bits);
        [FLOAT as u64, if r.is_nan() { NAN } else { r.to_bits() } as u64, 0]
    }

    fn operand(&self, bits: u32) -> Val {
        if self.kind == INT { Val::Int(bits as i32) } else { Val::Float(bits) }
    }

    /// The words that the port answers; those of no value where it refuses.
    fn answered(&self, bits: u32) -> [u64; 3] {
        let operands = [self.kind as u64, bits as u64, 0, 0, 0, 0, 0, 0, 0];
        let (items, values, mut answer) = ([0u16; 0], [0i32; 0], [9; 3]);
        let (mut result_items, mut result_values) = ([0u16; 256], [0i32; 256]);
        let number = unsafe {
            ink_apply(
                items.as_ptr(),
                0,
                values.as_ptr(),
                0,
                self.op,
                1,
                operands.as_ptr().cast(),
                items.as_ptr(),
                0,
                values.as_ptr(),
                0,
                result_items.as_mut_ptr(),
                256,
                result_values.as_mut_ptr(),
                256,
                (&raw mut answer).cast(),
            )
        };
        if number == 0 { answer } else { [u64::MAX; 3] }
    }

    /// How many operands of a block differ; the first is told.
    fn block(&self, world: &World, block: u32, told: &AtomicU64) -> u64 {
        let mut differing = 0;
        for bits in block << BLOCK..=(block << BLOCK) + (1 << BLOCK) - 1 {
            let owed = self.owed(bits);
            if bits % CALLED == 0 {
                assert_eq!(
                    world.call(self.op, &[self.operand(bits)]),
                    Answer::Val(Val::Float(owed[1] as u32)),
                    "the original at {bits:08x}"
                );
            }
            let answer = self.answered(bits);
            if answer != owed {
                differing += 1;
                if told.fetch_add(1, Relaxed) == 0 {
                    eprintln!("\n{} of {bits:08x}: {answer:x?}, and the original has {owed:x?}", self.name);
                }
            }
        }
        differing
    }

    fn run(&self) -> u64 {
        let (next, done, differing, told) = (AtomicU32::new(0), AtomicU32::new(0), AtomicU64::new(0), AtomicU64::new(0));
        let start = Instant::now();
        let work = || {
            let world = World::new(&Defs::default());
            loop {
                let block = next.fetch_add(1, Relaxed);
                if block >= BLOCKS {
                    return;
                }
                differing.fetch_add(self.block(&world, block, &told), Relaxed);
                let n = done.fetch_add(1, Relaxed) + 1;
                if n % (BLOCKS / 64) == 0 {
                    eprint!("\r{} {:3} % {:4} s ", self.name, n as u64 * 100 / BLOCKS as u64, start.elapsed().as_secs());
                    let _ = stderr().flush();
                }
            }
        };
        thread::scope(|s| (0..thread::available_parallelism().map_or(1, usize::from)).for_each(|_| drop(s.spawn(work))));
        eprintln!();
        differing.into_inner()
    }
}

fn main() {
    let names: Vec<String> = std::env::args().skip(1).collect();
    if let Some(other) = names.iter().find(|n| SWEEPS.iter().all(|s| s.name != *n)) {
        eprintln!("every: no operator {other}\n{USAGE}");
        exit(2)
    }
    let mut all = 0;
    for sweep in SWEEPS.iter().filter(|s| names.is_empty() || names.iter().any(|n| n == s.name)) {
        let differing = sweep.run();
        println!("{}: {} operands, {differing} differing", sweep.name, 1u64 << 32);
        all += differing;
    }
    exit((all != 0) as i32)
}
