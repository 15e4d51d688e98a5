//! The original behind item numbers: builds its operands, calls it, reads its answer.
use crate::{
    ink_list::InkList,
    ink_list_item::InkListItem,
    list_definition::ListDefinition,
    list_definitions_origin::ListDefinitionsOrigin,
    math,
    native_function_call::{NativeFunctionCall, Op},
    object::RTObject,
    remainder::remainder,
    story::error::StoryError,
    value::Value,
    value_type::ValueType,
    values::{Answer, Defs, FLOOR, List, POW, RANGE, SUBTRACT, Val, arity},
    void::Void,
};
use std::{
    collections::HashMap,
    panic::{AssertUnwindSafe, catch_unwind},
    rc::Rc,
    sync::OnceLock,
};

/// `Op` in source order; the index is document 01's operator number.
pub const OPS: [Op; 31] = [
    Op::Add,
    Op::Subtract,
    Op::Divide,
    Op::Multiply,
    Op::Mod,
    Op::Negate,
    Op::Equal,
    Op::Greater,
    Op::Less,
    Op::GreaterThanOrEquals,
    Op::LessThanOrEquals,
    Op::NotEquals,
    Op::Not,
    Op::And,
    Op::Or,
    Op::Min,
    Op::Max,
    Op::Pow,
    Op::Floor,
    Op::Ceiling,
    Op::Int,
    Op::Float,
    Op::Has,
    Op::Hasnt,
    Op::Intersect,
    Op::ListMin,
    Op::ListMax,
    Op::All,
    Op::Count,
    Op::ValueOfList,
    Op::Invert,
];

pub fn origin_name(d: usize) -> String {
    format!("o{d:02}")
}
pub fn item_name(k: u16) -> String {
    format!("i{k:04}")
}

/// A story's list definitions, as the runtime holds them.
pub struct World {
    pub defs: Defs,
    origins: ListDefinitionsOrigin,
}

impl World {
    pub fn new(defs: &Defs) -> Self {
        let mut lists: Vec<ListDefinition> = (0..defs.values.len())
            .map(|d| {
                let items: HashMap<String, i32> = defs.of(d).map(|(k, v)| (item_name(k), v)).collect();
                ListDefinition::new(origin_name(d), items)
            })
            .collect();
        World { defs: defs.clone(), origins: ListDefinitionsOrigin::new(&mut lists) }
    }

    pub fn item(&self, k: u16) -> InkListItem {
        InkListItem::new(Some(origin_name(self.defs.origin_of(k))), item_name(k))
    }

    /// Entries, the origins of the set as clones of the story's definitions (as the
    /// runtime puts them there when it pushes a list), and the names remembered.
    pub fn ink_list(&self, l: &List) -> InkList {
        let mut list = InkList::new();
        for (k, v) in &l.entries {
            list.items.insert(self.item(*k), *v);
        }
        let names: Vec<String> = (0..64).filter(|d| l.origins >> d & 1 == 1).map(origin_name).collect();
        for n in &names {
            let def = self.origins.get_list_definition(n).expect("origin bit below D");
            list.origins.borrow_mut().push(def.clone());
        }
        list.set_initial_origin_names(names);
        list
    }

    pub fn value_type(&self, v: &Val) -> Option<ValueType> {
        Some(match v {
            Val::Bool(b) => ValueType::new::<bool>(*b),
            Val::Int(i) => ValueType::new::<i32>(*i),
            Val::Float(b) => ValueType::new::<f32>(f32::from_bits(*b)),
            Val::List(l) => ValueType::new::<InkList>(self.ink_list(l)),
            Val::Void => return None,
        })
    }

    pub fn object(&self, v: &Val) -> Rc<dyn RTObject> {
        match self.value_type(v) {
            Some(t) => Rc::new(Value::new_value_type(t)),
            None => Rc::new(Void::new()),
        }
    }

    fn number(item: &InkListItem) -> u16 {
        item.get_item_name()[1..].parse().expect("item name")
    }

    /// Entries by item number; the origin set is document 01's (origins of the items).
    fn read_list(&self, l: &InkList) -> Val {
        let mut entries: Vec<(u16, i32)> = l.items.iter().map(|(k, v)| (Self::number(k), *v)).collect();
        entries.sort();
        for (k, _) in l.items.iter() {
            let d = self.defs.origin_of(Self::number(k));
            assert_eq!(k.get_origin_name(), Some(&origin_name(d)), "item left its origin");
        }
        Val::List(List { origins: self.defs.origins_of(&entries), entries })
    }

    fn read_value(&self, v: &ValueType) -> Answer {
        Answer::Val(match v {
            ValueType::Bool(b) => Val::Bool(*b),
            ValueType::Int(i) => Val::Int(*i),
            ValueType::Float(x) => Val::Float(x.to_bits()),
            ValueType::List(l) => self.read_list(l),
            _ => return Answer::Foreign,
        })
    }

    pub fn read(&self, o: &Rc<dyn RTObject>) -> Answer {
        match o.as_ref().as_any().downcast_ref::<Value>() {
            Some(v) => self.read_value(&v.value),
            None => Answer::Val(Val::Void),
        }
    }

    /// One call of the original, its answer untouched.
    pub fn call_raw(&self, op: u8, operands: &[Val]) -> Answer {
        if op == RANGE {
            return self.range(operands);
        }
        let params: Vec<Rc<dyn RTObject>> = operands.iter().map(|v| self.object(v)).collect();
        let f = NativeFunctionCall::new(OPS[op as usize]);
        assert_eq!(f.get_number_of_parameters(), arity(op));
        match quietly(|| f.call(params)) {
            None => Answer::Panic,
            Some(Ok(o)) => self.read(&o),
            Some(Err(e)) => Answer::Refused(refusal(&e)),
        }
    }

    /// `list_with_sub_range` takes a list and two values, so 10, 11 and 13 are
    /// document 01's here, not the original's.
    fn range(&self, operands: &[Val]) -> Answer {
        if operands.len() != 3 {
            return Answer::Refused(10);
        }
        if operands.contains(&Val::Void) {
            return Answer::Refused(11);
        }
        match &operands[0] {
            Val::List(l) => {
                let list = self.ink_list(l);
                let low = self.value_type(&operands[1]).unwrap();
                let high = self.value_type(&operands[2]).unwrap();
                self.read_list(&list.list_with_sub_range(&low, &high)).into()
            }
            _ => Answer::Refused(13),
        }
    }

    pub fn cast_raw(&self, code: u8, v: &Val) -> Answer {
        match self.value_type(v) {
            None => Answer::Refused(18),
            Some(t) => match Value::new_value_type(t).cast(code) {
                Err(_) => Answer::Refused(18),
                Ok(None) => Answer::Val(v.clone()),
                Ok(Some(w)) => self.read_value(&w.value),
            },
        }
    }

    pub fn coerce_raw(&self, code: u8, v: &Val) -> Answer {
        let t = match self.value_type(v) {
            None => return Answer::Refused(18),
            Some(t) => t,
        };
        let r = match code {
            0 => t.coerce_to_bool().map(Val::Bool),
            1 => t.coerce_to_int().map(Val::Int),
            _ => t.coerce_to_float().map(|x| Val::Float(x.to_bits())),
        };
        r.map_or(Answer::Refused(18), Answer::Val)
    }

    /// The original's answer in the form the port owes it: tied items become the
    /// smallest tied item number (after checking that the item given is tied), a NaN
    /// is 7fc00000, a zero from Min or Max is the left operand, a panic is 15, and
    /// what is left out is refused (8, 18).
    pub fn call(&self, op: u8, operands: &[Val]) -> Answer {
        if op == POW || op > RANGE {
            return Answer::Refused(8);
        }
        match self.call_raw(op, operands) {
            Answer::Panic => Answer::Refused(15),
            Answer::Val(Val::Float(b)) => {
                let x = f32::from_bits(b);
                if op == 4 {
                    let [m, n] = [0, 1].map(|i| as_float(&operands[i]));
                    assert_eq!(remainder(m, n), (!x.is_nan()).then_some(b), "the remainder of {m:08x} and {n:08x}");
                }
                Answer::Val(match op {
                    _ if x.is_nan() => Val::Float(0x7fc00000),
                    15 | 16 if x == 0.0 => zero_of_min_max(operands),
                    _ => Val::Float(b),
                })
            }
            Answer::Val(Val::List(l)) => {
                assert!(l.entries.len() <= self.defs.items(), "more entries than items");
                Answer::Val(Val::List(self.settle_ties(op, operands, l)))
            }
            other => other,
        }
    }

    fn settle_ties(&self, op: u8, operands: &[Val], mut r: List) -> List {
        let list = match &operands[0] {
            Val::List(l) => l,
            _ => return r,
        };
        if op == 25 || op == 26 {
            if let [(k, v)] = r.entries[..] {
                assert!(list.entries.contains(&(k, v)));
                let least = list.entries.iter().find(|e| e.1 == v).unwrap();
                r.entries = vec![*least];
            }
        } else if op <= 1 && matches!(operands[1], Val::Int(_)) {
            for e in r.entries.iter_mut() {
                let d = self.defs.origin_of(e.0);
                assert!(self.defs.of(d).any(|x| x == *e), "not defined with that value");
                e.0 = self.defs.of(d).find(|x| x.1 == e.1).unwrap().0;
            }
            r.entries.sort();
            assert!(r.entries.windows(2).all(|w| w[0].0 < w[1].0), "one item of a tie");
        }
        r.origins = self.result_origins(op, operands, &r.entries);
        r
    }

    /// Document 01's origin set of a result, which is not the original's: the origins of its items. What Subtract of two
    /// lists leaves empty keeps the left operand's.
    fn result_origins(&self, op: u8, operands: &[Val], entries: &[(u16, i32)]) -> u64 {
        match operands {
            [Val::List(left), Val::List(_)] if op == SUBTRACT && entries.is_empty() => left.origins,
            _ => self.defs.origins_of(entries),
        }
    }

    pub fn cast(&self, code: u8, v: &Val) -> Answer {
        if code > 3 { Answer::Refused(18) } else { self.cast_raw(code, v) }
    }
}

/// A number's Float.
fn as_float(v: &Val) -> u32 {
    match v {
        Val::Bool(b) => (*b as u8 as f32).to_bits(),
        Val::Int(i) => (*i as f32).to_bits(),
        Val::Float(b) => *b,
        _ => unreachable!(),
    }
}

/// Min or Max is zero: the left operand, coerced, when it is a zero too, else the right.
fn zero_of_min_max(operands: &[Val]) -> Val {
    for v in operands {
        match v {
            Val::Float(b) if f32::from_bits(*b) == 0.0 => return v.clone(),
            Val::Int(0) | Val::Bool(false) => return Val::Float(0),
            _ => {}
        }
    }
    unreachable!("a zero from Min or Max is one of the operands")
}

impl From<Val> for Answer {
    fn from(v: Val) -> Self {
        Answer::Val(v)
    }
}

/// Document 01's number for an Err of `call`, by its message.
fn refusal(e: &StoryError) -> u8 {
    let m = e.get_message();
    match () {
        _ if m.starts_with("Unexpected number of parameters") => 10,
        _ if m.starts_with("Attempting to perform") => 11,
        _ if m.starts_with("Can not call use") => 12,
        _ if m.starts_with("Operation not available for type.") => 13,
        _ => panic!("unknown message {m:?}"),
    }
}

/// Runs f; None when it panics. The panic's message is not printed.
fn quietly<T>(f: impl FnOnce() -> T) -> Option<T> {
    static ONCE: std::sync::Once = std::sync::Once::new();
    ONCE.call_once(|| {
        let usual = std::panic::take_hook();
        std::panic::set_hook(Box::new(move |info| {
            let m = info.payload_as_str().unwrap_or("");
            if !m.starts_with("attempt to ") {
                usual(info);
            }
        }));
    });
    match catch_unwind(AssertUnwindSafe(f)) {
        Ok(x) => Some(x),
        Err(p) => {
            let m = p.downcast_ref::<&str>().copied().unwrap_or("");
            assert!(m.starts_with("attempt to divide") || m.starts_with("attempt to calculate"), "an unexpected panic: {m:?}");
            None
        }
    }
}

/// The kind of an operator's answer on kinds, or the number of its refusal, as the original says on a value of each kind.
pub fn kind(op: u8, kinds: &[u8]) -> Result<u8, u8> {
    static TABLE: OnceLock<Vec<Result<u8, u8>>> = OnceLock::new();
    let table = TABLE.get_or_init(|| {
        let world = World::new(&Defs { values: vec![vec![1]] });
        let one = |code: usize| match code {
            0 => Val::Bool(true),
            1 => Val::Int(1),
            2 => Val::Float(0x3f80_0000),
            3 => Val::List(List { origins: 1, entries: vec![(0, 1)] }),
            _ => Val::Void,
        };
        (0..32 * 125)
            .map(|n| {
                let op = (n / 125) as u8;
                let v = [n / 25 % 5, n / 5 % 5, n % 5].map(one);
                match world.call(op, &v[..arity(op)]) {
                    Answer::Val(v) => Ok(v.kind()),
                    Answer::Refused(number) => Err(number),
                    other => unreachable!("{other}"),
                }
            })
            .collect()
    });
    let k = |i: usize| kinds.get(i).map_or(0, |k| *k as usize);
    table[op as usize * 125 + k(0) * 25 + k(1) * 5 + k(2)]
}

/// What the original's Floor or Ceiling calls on a Float.
pub fn integral(op: u8, x: f32) -> f32 {
    if op == FLOOR { math::floor(x) } else { math::ceil(x) }
}

/// The original's own calls and objects, for timing.
pub mod bare {
    use super::{InkList, StoryError};
    pub use super::{OPS, World};
    pub use crate::{native_function_call::NativeFunctionCall, object::RTObject, value::Value, value_type::ValueType};
    pub use std::rc::Rc;

    #[inline(always)]
    pub fn call(f: &NativeFunctionCall, params: Vec<Rc<dyn RTObject>>) -> Result<Rc<dyn RTObject>, StoryError> {
        f.call(params)
    }

    pub fn parameters(f: &NativeFunctionCall) -> usize {
        f.get_number_of_parameters()
    }

    pub fn range(l: &InkList, low: &ValueType, high: &ValueType) -> InkList {
        l.list_with_sub_range(low, high)
    }

    pub fn as_list(o: &Rc<dyn RTObject>) -> Option<&InkList> {
        Value::get_value::<&InkList>(o.as_ref())
    }

    /// What the runtime does when it pushes a list, reconstructed, since that file is not among the published ones: the
    /// list's origins become those of its items. An empty list keeps those it has: the left operand's after `without`.
    pub fn set_origins(world: &World, o: &Rc<dyn RTObject>) {
        if let Some(list) = as_list(o).filter(|l| !l.items.is_empty()) {
            let names = list.get_origin_names();
            let mut origins = list.origins.borrow_mut();
            origins.clear();
            for n in &names {
                if !origins.iter().any(|d| d.get_name() == n) {
                    origins.push(world.origins.get_list_definition(n).unwrap().clone());
                }
            }
        }
    }
}
