//! What is asked of the port, and what it owes: document 01's questions around the original's answers.
use ink_oracle::{
    original::World,
    pack::Pack,
    values::{Answer, Defs, LIST, List, Val},
};
use std::fmt;

/// A value as three words: its kind's code, what it holds, and where a List's entries stand (start + 2^32 * length).
pub type Words = [u64; 3];

/// The slices in which the entries of operands or slots stand.
#[derive(Clone, Default)]
pub struct Lent {
    pub items: Vec<u16>,
    pub values: Vec<i32>,
}

impl Lent {
    /// A value as words, a List's entries put at the end of the slices.
    pub fn words(&mut self, v: &Val) -> Words {
        match v {
            Val::Bool(b) => [0, *b as u64, 0],
            Val::Int(i) => [1, *i as u32 as u64, 0],
            Val::Float(b) => [2, *b as u64, 0],
            Val::Void => [4, 0, 0],
            Val::List(l) => {
                let start = self.items.len() as u64;
                self.items.extend(l.entries.iter().map(|e| e.0));
                self.values.extend(l.entries.iter().map(|e| e.1));
                [LIST as u64, l.origins, start + ((l.entries.len() as u64) << 32)]
            }
        }
    }

    /// Question 7 of one value: what the words hold, or nothing where they are not well formed.
    fn value(&self, defs: &Defs, w: &Words) -> Option<Val> {
        Some(match *w {
            [0, b, 0] if b < 2 => Val::Bool(b == 1),
            [1, n, 0] if n >> 32 == 0 => Val::Int(n as u32 as i32),
            [2, n, 0] if n >> 32 == 0 => Val::Float(n as u32),
            [4, 0, 0] => Val::Void,
            [3, origins, place] => {
                let (start, end) = (place as u32 as usize, (place as u32 as u64 + (place >> 32)) as usize);
                let (items, values) = (self.items.get(start..end)?, self.values.get(start..end)?);
                let rising = items.windows(2).all(|w| w[0] < w[1]);
                let inside = items.iter().all(|k| (*k as usize) < defs.items());
                let d = defs.values.len();
                if !rising || !inside || (d < 64 && origins >> d != 0) {
                    return None;
                }
                Val::List(List { origins, entries: items.iter().copied().zip(values.iter().copied()).collect() })
            }
            _ => return None,
        })
    }

    /// Question 7 of all of them, with the two slices equally long.
    fn all(&self, defs: &Defs, words: &[Words]) -> Option<Vec<Val>> {
        if self.items.len() != self.values.len() {
            return None;
        }
        words.iter().map(|w| self.value(defs, w)).collect()
    }
}

/// Lengths of a pair of slices, items and values.
pub type Room = [usize; 2];
pub const RESULT: usize = 256;
pub const WORK: usize = 16_384;
pub const FORECAST: usize = 2_048;

#[derive(Clone)]
pub enum Ask {
    Check,
    Vet {
        sheet: usize,
        kinds: [u8; 16],
        forecast: usize,
    },
    Run {
        sheet: usize,
        slots: [Words; 16],
        lent: Lent,
        work: Room,
        result: Room,
    },
    Call {
        op: u8,
        count: usize,
        operands: [Words; 3],
        lent: Lent,
        result: Room,
    },
    Cast {
        code: u8,
        operand: Words,
        lent: Lent,
        result: Room,
    },
    /// 0 `coerce_to_bool`, 1 `coerce_to_int`, 2 `coerce_to_float`
    Coerce {
        to: u8,
        operand: Words,
        lent: Lent,
    },
}

/// What the port owes for an ask.
#[derive(Default)]
pub struct Owed {
    /// 0, or the number of the question that says no
    pub number: u8,
    pub index: u64,
    pub value: Option<Val>,
    /// a zero from Min or Max: its sign is not compared
    pub signless: bool,
    pub forecast: Vec<u8>,
    /// question 8 was reached, so that a run's work slices are cleared
    pub worked: bool,
}

fn no(number: u8) -> Owed {
    Owed { number, ..Default::default() }
}

fn answered(a: Answer) -> Owed {
    match a {
        Answer::Val(v) => Owed { value: Some(v), ..Default::default() },
        Answer::Refused(n) => no(n),
        other => unreachable!("{other}"),
    }
}

fn long_enough(room: &Room, least: usize) -> bool {
    room.iter().all(|n| *n >= least)
}

fn owed_call(world: &World, op: u8, count: usize, values: Vec<Val>) -> Owed {
    let mut v = values;
    // more than three are never enough
    v.resize(count.min(4), Val::Int(1));
    let mut owed = answered(world.call(op, &v));
    let zero = matches!(owed.value, Some(Val::Float(b)) if b << 1 == 0);
    owed.signless = zero && (op == 15 || op == 16);
    owed
}

fn owed_run(pack: &Pack, sheet: usize, slots: Vec<Val>) -> Owed {
    match pack.run(sheet, &slots.try_into().unwrap()) {
        Ok(v) => Owed { value: Some(v), worked: true, ..Default::default() },
        Err((number, index)) => Owed { number, index: index as u64, worked: true, ..Default::default() },
    }
}

fn owed_vet(pack: &Pack, sheet: usize, kinds: &[u8; 16]) -> Owed {
    match pack.vet(sheet, kinds) {
        Ok(f) => Owed {
            index: f.len() as u64,
            forecast: f.iter().flat_map(|(count, kind)| [*count, *kind]).collect(),
            ..Default::default()
        },
        Err((number, index)) => Owed { number, index: index as u64, ..Default::default() },
    }
}

/// The questions in their order.
pub fn owed(judged: &Result<Pack, u8>, ask: &Ask) -> Owed {
    let pack = match judged {
        Err(n) => return no(*n),
        Ok(p) => p,
    };
    let defs = &pack.world.defs;
    match ask {
        Ask::Check => Owed::default(),
        Ask::Vet { sheet, .. } | Ask::Run { sheet, .. } if *sheet >= pack.sheets.len() => no(6),
        Ask::Vet { kinds, forecast, .. } if kinds.iter().any(|k| *k > 4) || *forecast < FORECAST => no(7),
        Ask::Vet { sheet, kinds, .. } => owed_vet(pack, *sheet, kinds),
        Ask::Run { sheet, slots, lent, work, result } => match lent.all(defs, slots) {
            Some(v) if long_enough(work, WORK) && long_enough(result, RESULT) => owed_run(pack, *sheet, v),
            _ => no(7),
        },
        Ask::Call { op, count, operands, lent, result } => match lent.all(defs, &operands[..(*count).min(3)]) {
            Some(v) if long_enough(result, RESULT) => owed_call(&pack.world, *op, *count, v),
            _ => no(7),
        },
        Ask::Cast { code, operand, lent, result } => match lent.all(defs, &[*operand]) {
            Some(v) if long_enough(result, RESULT) => answered(pack.world.cast(*code, &v[0])),
            _ => no(7),
        },
        Ask::Coerce { to, operand, lent } => match lent.all(defs, &[*operand]) {
            Some(v) => answered(pack.world.coerce_raw(*to, &v[0])),
            _ => no(7),
        },
    }
}

/// Words as a reader's values, where they are well formed.
fn shown(lent: &Lent, words: &[Words]) -> String {
    let any = Defs { values: vec![vec![0; 65_536]; 64] };
    let one = |w: &Words| lent.value(&any, w).map_or(format!("{w:x?}"), |v| v.to_string());
    let rest = if lent.items.len() == lent.values.len() {
        String::new()
    } else {
        format!(" in slices of {} and {}", lent.items.len(), lent.values.len())
    };
    words.iter().map(one).collect::<Vec<_>>().join(" ") + &rest
}

impl fmt::Display for Ask {
    fn fmt(&self, f: &mut fmt::Formatter<'_>) -> fmt::Result {
        match self {
            Ask::Check => write!(f, "check"),
            Ask::Vet { sheet, kinds, forecast } => write!(f, "vet sheet {sheet} for kinds {kinds:?}, forecast {forecast}"),
            Ask::Run { sheet, slots, lent, work, result } => {
                write!(f, "run sheet {sheet} with slots {}, work {work:?}, result {result:?}", shown(lent, slots))
            }
            Ask::Call { op, count, operands, lent, result } => {
                let used = &operands[..(*count).min(3)];
                write!(f, "call {op} of {count}: {}, result {result:?}", shown(lent, used))
            }
            Ask::Cast { code, operand, lent, result } => {
                write!(f, "cast to {code}: {}, result {result:?}", shown(lent, &[*operand]))
            }
            Ask::Coerce { to, operand, lent } => {
                write!(f, "coerce_to_{}: {}", ["bool", "int", "float"][*to as usize], shown(lent, &[*operand]))
            }
        }
    }
}
