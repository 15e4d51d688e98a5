//! The rows of docs/DIFFERENCES.md, asked of the original: `cargo test --release --offline --lib`.
use crate::{
    ink_list::InkList,
    ink_list_item::InkListItem,
    native_function_call::NativeFunctionCall,
    object::RTObject,
    original::{OPS, World},
    value::Value,
    values::{Answer, CEILING, Defs, FLOOR, List, POW, Val},
};
use std::{collections::BTreeSet, rc::Rc};

fn world(values: &[&[i32]]) -> World {
    World::new(&Defs { values: values.iter().map(|v| v.to_vec()).collect() })
}

fn list(origins: u64, entries: &[(u16, i32)]) -> Val {
    Val::List(List { origins, entries: entries.to_vec() })
}

/// What the original says, word for word: P is a panic, S a String.
fn says(w: &World, op: u8, v: &[Val]) -> String {
    w.call_raw(op, v).to_string()
}

#[test]
fn division_panics() {
    let w = world(&[]);
    for op in [2, 4] {
        assert_eq!(says(&w, op, &[Val::Int(1), Val::Int(0)]), "P");
        assert_eq!(says(&w, op, &[Val::Int(i32::MIN), Val::Int(-1)]), "P");
        assert_eq!(w.call(op, &[Val::Int(1), Val::Int(0)]).to_string(), "R 15");
    }
}

#[test]
fn nan_keeps_its_bits() {
    let w = world(&[]);
    assert_eq!(w.call_raw(21, &[Val::Float(0x7fc0_0001)]), Answer::Val(Val::Float(0x7fc0_0001)));
    assert_eq!(w.call_raw(5, &[Val::Float(0x7fc0_0000)]), Answer::Val(Val::Float(0xffc0_0000)));
    assert_eq!(w.cast_raw(2, &Val::Float(0xffc0_0001)), Answer::Val(Val::Float(0xffc0_0001)));
}

/// Ties are settled by hash order, which differs from one map to the next.
#[test]
fn ties_vary() {
    let seen = |op: u8, v: &[Val]| -> BTreeSet<String> { (0..200).map(|_| says(&world(&[&[1, 1, 0]]), op, v)).collect() };
    let either = BTreeSet::from(["L 1 0=1".to_string(), "L 1 1=1".to_string()]);
    assert_eq!(seen(26, &[list(1, &[(0, 1), (1, 1)])]), either);
    assert_eq!(seen(25, &[list(1, &[(0, 1), (1, 1)])]), either);
    assert_eq!(seen(0, &[list(1, &[(2, 0)]), Val::Int(1)]), either);
}

#[test]
fn equality_of_lists_looks_at_items_alone() {
    let w = world(&[&[1, 2], &[1, 2]]);
    assert_eq!(says(&w, 6, &[list(1, &[(0, 1)]), list(0, &[(0, 9)])]), "B 1");
    assert_eq!(says(&w, 6, &[list(0, &[]), list(3, &[])]), "B 1");
    assert_eq!(says(&w, 11, &[list(3, &[(0, 1)]), list(3, &[(2, 1)])]), "B 1");
    // a key has its origin's name: items of one name from two definitions are two items
    let of = |origin: &str| {
        let mut l = InkList::new();
        l.items.insert(InkListItem::new(Some(origin.to_string()), "x".to_string()), 1);
        l
    };
    assert!(of("a") == of("a") && of("a") != of("b"));
    // a list is not equal to one that has its items and more, on either side
    assert_eq!(says(&w, 6, &[list(1, &[(0, 1)]), list(1, &[(0, 1), (1, 2)])]), "B 0");
    assert_eq!(says(&w, 6, &[list(1, &[(0, 1), (1, 2)]), list(1, &[(0, 1)])]), "B 0");
}

#[test]
fn the_left_out_operator_is_carried_there() {
    let w = world(&[]);
    assert_eq!(says(&w, POW, &[Val::Int(2), Val::Int(3)]), "F 41000000");
    assert_eq!(w.call(POW, &[Val::Int(2), Val::Int(3)]).to_string(), "R 8");
}

#[test]
fn floor_and_ceiling() {
    let w = world(&[&[1]]);
    let both = |v: Val| [FLOOR, CEILING].map(|op| says(&w, op, std::slice::from_ref(&v)));
    assert_eq!(both(Val::Float(0xbf00_0000)), ["F bf800000", "F 80000000"]); // -0.5: -1.0, -0.0
    assert_eq!(both(Val::Float(0x3f00_0000)), ["F 00000000", "F 3f800000"]); // 0.5: 0.0, 1.0
    assert_eq!(both(Val::Float(0x8000_0000)), ["F 80000000", "F 80000000"]); // -0.0
    assert_eq!(both(Val::Float(0xff80_0000)), ["F ff800000", "F ff800000"]); // -infinity
    assert_eq!(both(Val::Int(-7)), ["I -7", "I -7"]);
    assert_eq!(both(Val::Bool(true)), ["I 1", "I 1"]);
    assert_eq!(both(list(1, &[(0, 1)])), ["R 13", "R 13"]);
    assert_eq!(both(Val::Void), ["R 11", "R 11"]);
}

#[test]
fn cast_to_4_is_a_string() {
    let w = world(&[]);
    assert_eq!(w.cast_raw(4, &Val::Int(1)), Answer::Foreign);
    assert_eq!(w.cast_raw(4, &list(0, &[])), Answer::Foreign);
    assert_eq!(w.cast_raw(5, &Val::Int(1)), Answer::Refused(18));
}

/// Origins, and the names remembered where there are none.
fn names(o: &Rc<dyn RTObject>) -> (Vec<String>, Vec<String>) {
    let l = Value::get_value::<&InkList>(o.as_ref()).unwrap();
    let mut origins: Vec<String> = l.origins.borrow().iter().map(|d| d.get_name().to_string()).collect();
    let mut remembered = l.get_origin_names();
    origins.sort();
    remembered.sort();
    (origins, remembered)
}

#[test]
fn origins_of_results() {
    let w = world(&[&[1, 2], &[1, 2]]);
    let (a, b) = (list(1, &[(0, 1)]), list(2, &[(2, 1)]));
    let run = |op: usize, v: &[&Val]| {
        let p = v.iter().map(|v| w.object(v)).collect();
        NativeFunctionCall::new(OPS[op]).call(p).ok().unwrap()
    };
    let s = |v: &[&str]| v.iter().map(|x| x.to_string()).collect::<Vec<_>>();
    // union and without keep the left operand's, whatever the items
    assert_eq!(names(&run(0, &[&a, &b])), (s(&["o00"]), s(&["o00", "o01"])));
    assert_eq!(names(&run(1, &[&a, &a])), (s(&["o00"]), s(&["o00"])));
    assert_eq!(names(&run(1, &[&list(1, &[]), &b])), (s(&["o00"]), s(&["o00"])));
    let wide = list(3, &[(0, 1)]);
    assert_eq!(names(&run(1, &[&wide, &a])), (s(&["o00", "o01"]), s(&["o00", "o01"])));
    assert_eq!(names(&run(1, &[&wide, &b])), (s(&["o00", "o01"]), s(&["o00"])));
    // so Invert of what is left of a wider set has the items of all of it
    let left = NativeFunctionCall::new(OPS[30]).call(vec![run(1, &[&wide, &b])]).ok().unwrap();
    assert_eq!(w.read(&left).to_string(), "L 3 1=2 2=1 3=2");
    let emptied = NativeFunctionCall::new(OPS[30]).call(vec![run(1, &[&wide, &a])]).ok().unwrap();
    assert_eq!(w.read(&emptied).to_string(), "L 4 0=1 1=2 2=1 3=2");
    // the others have none, nor a remembered one when empty
    assert_eq!(names(&run(24, &[&a, &b])), (s(&[]), s(&[])));
    assert_eq!(names(&run(27, &[&a])), (s(&[]), s(&["o00", "o00"])));
    assert_eq!(names(&run(0, &[&a, &Val::Int(1)])), (s(&[]), s(&["o00"])));
    assert_eq!(names(&run(25, &[&a])), (s(&[]), s(&["o00"])));
    // so All of a bare union misses the right operand's origin
    let all = NativeFunctionCall::new(OPS[27]).call(vec![run(0, &[&a, &b])]).ok().unwrap();
    assert_eq!(w.read(&all).to_string(), "L 2 0=1 1=2");
}

/// In this build both give the left of two zeros.
#[test]
fn zeros_of_min_and_max() {
    let w = world(&[]);
    for op in [15, 16] {
        for (a, b) in [(0, 1 << 31), (1 << 31, 0)] {
            assert_eq!(w.call_raw(op, &[Val::Float(a), Val::Float(b)]), Answer::Val(Val::Float(a)));
        }
    }
}
