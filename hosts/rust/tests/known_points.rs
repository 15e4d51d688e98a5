//! Document 01's sample pack, known points and misreadings, through the safe interface.
mod common;

use std::slice::from_ref;

use common::{int, pack, sheet, six_items, SAMPLE, VOID_SLOTS};
use ink_operators::{op, Forecast, Kind, Pack, Refusal, Value, Workspace};
use Value::{Bool, Float, Int, Void};

fn no(number: u32) -> Refusal {
    Refusal { number, index: 0 }
}

#[test]
fn the_sample_pack() {
    let pack = Pack::new(SAMPLE).unwrap();
    let mut workspace = Workspace::new();
    assert_eq!((pack.sheets(), pack.definitions(), pack.items()), (2, 1, 3));
    assert_eq!(pack.run(&mut workspace, 0, &VOID_SLOTS), Ok(Value::list(1, &[(2, 3)])));
    assert_eq!(pack.run(&mut workspace, 1, &VOID_SLOTS), Err(Refusal { number: 15, index: 2 }));
}

#[test]
fn starred_points() {
    let p = six_items();
    let empty = Value::list(0, &[]);
    let one = Value::list(1, &[(0, 1)]);
    let cases: &[(u8, &[Value], Result<Value, Refusal>)] = &[
        (op::ADD, &[Bool(true), Bool(true)], Ok(Int(2))),
        (op::NOT, from_ref(&empty), Ok(Int(1))),
        (op::NOT, &[Int(0)], Ok(Bool(true))),
        (op::LESS, &[empty.clone(), empty.clone()], Ok(Bool(false))),
        (op::LESS, &[empty.clone(), one.clone()], Ok(Bool(true))),
        (op::HASNT, &[empty.clone(), empty.clone()], Ok(Bool(true))),
        (op::DIVIDE, &[Int(-7), Int(2)], Ok(Int(-3))),
        (op::MOD, &[Int(-7), Int(2)], Ok(Int(-1))),
        (op::DIVIDE, &[Int(i32::MIN), Int(-1)], Err(no(15))),
    ];
    for (op, operands, answer) in cases {
        assert_eq!(p.call(*op, operands), *answer, "{op} of {operands:?}");
    }
    for (z, x) in [(16_777_216, 16_777_216.0), (16_777_217, 16_777_216.0), (16_777_219, 16_777_220.0)] {
        assert_eq!(p.cast(2, &Int(z)), Ok(Float(x)));
        assert_eq!(p.coerce_to_float(&Int(z)), Ok(x));
        assert_eq!(p.call(op::FLOAT, &[Int(z)]), Ok(Float(x)));
    }
}

#[test]
fn other_points() {
    let p = six_items();
    assert_eq!(p.call(op::INT, &[Float(2_147_483_648.0)]), Ok(Int(2_147_483_647)));
    assert_eq!(p.coerce_to_bool(&Int(2)), Ok(false));
    assert_eq!(p.coerce_to_bool(&Int(1)), Ok(true));
    assert_eq!(p.cast(0, &Int(2)), Ok(Bool(true)));
    // 64 pushes pass question 9, the 65th not; an empty sheet is 17 at 0
    let pushes = |n: usize| sheet(&vec![int(1).as_slice(); n]);
    let q = pack(&[], &[], &[pushes(64), pushes(65), Vec::new()]);
    let mut workspace = Workspace::new();
    assert_eq!(q.run(&mut workspace, 0, &VOID_SLOTS), Err(Refusal { number: 17, index: 64 }));
    assert_eq!(q.run(&mut workspace, 1, &VOID_SLOTS), Err(Refusal { number: 9, index: 64 }));
    assert_eq!(q.run(&mut workspace, 2, &VOID_SLOTS), Err(Refusal { number: 17, index: 0 }));
    // 256 items pass, 257 do not
    assert!(Pack::new(common::bytes(&[vec![0; 255], vec![0; 1]], &[], &[])).is_ok());
    assert_eq!(Pack::new(common::bytes(&[vec![0; 255], vec![0; 2]], &[], &[])).err(), Some(no(3)));
}

#[test]
fn misreadings() {
    let p = six_items();
    let empty = Value::list(0, &[]);
    let three = Value::list(1, &[(0, 1), (1, 2), (2, 3)]);
    // Has on an empty right side is no
    assert_eq!(p.call(op::HAS, &[three.clone(), empty.clone()]), Ok(Bool(false)));
    // range's lower bound, when it is a Float, is 0
    let low = Value::list(1, &[(0, -5), (1, 2)]);
    assert_eq!(p.call(op::RANGE, &[low, Float(-9.0), Int(9)]), Ok(Value::list(1, &[(1, 2)])));
    // two Bools become Ints under Min
    assert_eq!(p.call(op::MIN, &[Bool(true), Bool(false)]), Ok(Int(0)));
    // Int to Float rounds, it does not cut
    assert_eq!(p.coerce_to_float(&Int(16_777_219)), Ok(16_777_220.0));
}

#[test]
fn floats() {
    let p = six_items();
    assert_eq!(p.call(op::ADD, &[Float(0.1), Float(0.2)]), Ok(Float(0.1 + 0.2)));
    assert_eq!(p.call(op::MOD, &[Float(-7.5), Float(2.0)]), Ok(Float(-1.5)));
    for nan in [f32::NAN, -f32::NAN, f32::from_bits(0x7f80_0001)] {
        let Ok(Float(x)) = p.call(op::ADD, &[Float(nan), Int(1)]) else { panic!("a Float") };
        assert_eq!(x.to_bits(), 0x7fc0_0000);
    }
    assert_eq!(p.call(op::INT, &[Float(f32::NAN)]), Ok(Int(0)));
    assert_eq!(p.call(op::NEGATE, &[Float(0.0)]).map(|v| matches!(v, Float(x) if x.to_bits() == 0x8000_0000)), Ok(true));
}

/// Ints of every size around powers of two, ties and carries, both signs: the processor rounds to the nearest, ties to even, too.
#[test]
fn int_to_float() {
    let p = six_items();
    for size in 0..32 {
        for below in 0..=9 {
            for near in [1i64 << size, 3 << size, (1 << size) - (1 << (size - below).max(0))] {
                for n in (near - 3..=near + 3).flat_map(|n| [n, -n]).filter_map(|n| i32::try_from(n).ok()) {
                    let x = n as f32;
                    assert_eq!(p.call(op::FLOAT, &[Int(n)]), Ok(Float(x)), "Float of {n}");
                    assert_eq!(p.cast(2, &Int(n)), Ok(Float(x)), "{n} cast");
                    assert_eq!(p.coerce_to_float(&Int(n)).map(f32::to_bits), Ok(x.to_bits()), "{n} coerced");
                }
            }
        }
    }
}

/// Floor and Ceiling of a Float, by their bits, beside Rust's own.
#[test]
fn rounding() {
    let p = six_items();
    let mut cases: Vec<u32> = (-40..=40).map(|n| (n as f32 / 8.0).to_bits()).collect();
    cases.extend([0x8000_0000, 0x0000_0001, 0x8000_0001, 0x4aff_ffff, 0xcaff_ffff, 0x4b00_0000, 0x7f7f_ffff, 0x7f80_0000, 0xff80_0000]);
    for x in cases.into_iter().map(f32::from_bits) {
        for (op, owed) in [(op::FLOOR, x.floor()), (op::CEILING, x.ceil())] {
            let Ok(Float(r)) = p.call(op, &[Float(x)]) else { panic!("a Float") };
            assert_eq!(r.to_bits(), owed.to_bits(), "{op} of {x}");
        }
    }
    for op in [op::FLOOR, op::CEILING] {
        let Ok(Float(r)) = p.call(op, &[Float(-f32::NAN)]) else { panic!("a Float") };
        assert_eq!(r.to_bits(), 0x7fc0_0000);
        for z in [0, -7, i32::MIN, i32::MAX] {
            assert_eq!(p.call(op, &[Int(z)]), Ok(Int(z)));
        }
        assert_eq!(p.call(op, &[Bool(true)]), Ok(Int(1)));
    }
}

/// Vetting foretells the kind, and the run has it.
#[test]
fn a_rounded_slot() {
    let p = pack(&[], &[], &[vec![36, 0, op::FLOOR], vec![36, 0, op::CEILING]]);
    let mut workspace = Workspace::new();
    let mut slots = VOID_SLOTS;
    let mut kinds = [Kind::Void; 16];
    let cases = [
        (Float(-2.5), Kind::Float, Kind::Float, [Float(-3.0), Float(-2.0)]),
        (Int(-7), Kind::Int, Kind::Int, [Int(-7), Int(-7)]),
        (Bool(true), Kind::Bool, Kind::Int, [Int(1), Int(1)]),
    ];
    for (value, kind, top, answers) in cases {
        (slots[0], kinds[0]) = (value, kind);
        for (sheet, answer) in answers.into_iter().enumerate() {
            assert_eq!(p.run(&mut workspace, sheet, &slots), Ok(answer));
            let told: Vec<_> = p.vet(sheet, &kinds).unwrap().iter().map(|f| (f.count, f.top)).collect();
            assert_eq!(told, [(1, kind), (1, top)]);
        }
    }
    kinds[0] = Kind::List;
    assert_eq!(p.vet(0, &kinds).err(), Some(Refusal { number: 13, index: 1 }));
}

#[test]
fn lists() {
    let p = six_items();
    let a = Value::list(1, &[(0, 1), (2, 3)]);
    let b = Value::list(2, &[(2, 7), (4, 2)]);
    assert_eq!(p.call(op::ADD, &[a.clone(), b.clone()]), Ok(Value::list(3, &[(0, 1), (2, 7), (4, 2)])));
    assert_eq!(p.call(op::SUBTRACT, &[a.clone(), b.clone()]), Ok(Value::list(1, &[(0, 1)])));
    assert_eq!(p.call(op::INTERSECT, &[a.clone(), b.clone()]), Ok(Value::list(1, &[(2, 3)])));
    assert_eq!(p.call(op::ADD, &[a.clone(), Int(1)]), Ok(Value::list(1, &[(1, 2)])));
    assert_eq!(p.call(op::ALL, from_ref(&a)), Ok(Value::list(1, &[(0, 1), (1, 2), (2, 3)])));
    assert_eq!(p.call(op::INVERT, from_ref(&a)), Ok(Value::list(1, &[(1, 2)])));
    assert_eq!(p.call(op::COUNT, from_ref(&a)), Ok(Int(2)));
    assert_eq!(p.call(op::VALUE_OF_LIST, from_ref(&a)), Ok(Int(3)));
    assert_eq!(p.cast(3, &a), Ok(a.clone()));
    assert_eq!(p.cast(1, &a), Ok(Int(3)));
}

/// Equal and NotEquals of two Lists: the same items on both sides, whatever their values and origin sets.
#[test]
fn equal_lists() {
    let p = six_items();
    let equal = |a: &Value, b: &Value| {
        let said = p.call(op::EQUAL, &[a.clone(), b.clone()]);
        assert_eq!(said, p.call(op::EQUAL, &[b.clone(), a.clone()]));
        match (said, p.call(op::NOT_EQUALS, &[a.clone(), b.clone()])) {
            (Ok(Bool(yes)), Ok(Bool(no))) if yes != no => yes,
            other => panic!("{other:?}"),
        }
    };
    let one = Value::list(1, &[(0, 1), (2, 3)]);
    assert!(equal(&one, &one));
    assert!(equal(&one, &Value::list(1, &[(0, 7), (2, -3)])));
    assert!(equal(&one, &Value::list(2, &[(0, 1), (2, 3)])));
    assert!(equal(&Value::list(0, &[]), &Value::list(3, &[])));
    for other in [&[][..], &[(0, 1)], &[(2, 3)], &[(0, 1), (1, 2)], &[(0, 1), (2, 3), (4, 2)]] {
        assert!(!equal(&one, &Value::list(1, other)), "{other:?}");
    }
}

/// Vetting foretells a Bool, and the run gives it.
#[test]
fn equal_slots() {
    let sheets = [&[36, 0, 36, 1, op::EQUAL][..], &[36, 0, 36, 1, op::NOT_EQUALS]];
    let p = pack(&[vec![1, 2], vec![3]], &[], &sheets.map(|s| s.to_vec()));
    let mut workspace = Workspace::new();
    let mut slots = VOID_SLOTS;
    slots[0] = Value::list(1, &[(0, 1), (2, 3)]);
    let mut kinds = [Kind::Void; 16];
    kinds[..2].fill(Kind::List);
    for (right, equal) in [(Value::list(2, &[(0, 5), (2, 3)]), true), (Value::list(3, &[(0, 1), (1, 3)]), false)] {
        slots[1] = right;
        for (sheet, answer) in [(0, equal), (1, !equal)] {
            assert_eq!(p.run(&mut workspace, sheet, &slots), Ok(Bool(answer)));
            let told: Vec<_> = p.vet(sheet, &kinds).unwrap().iter().map(|f| (f.count, f.top)).collect();
            assert_eq!(told, [(1, Kind::List), (2, Kind::List), (1, Kind::Bool)]);
        }
    }
}

/// A list that Subtract empties keeps the left operand's origins; every other result has those of its items.
#[test]
fn emptied_lists() {
    let p = six_items();
    let one = Value::list(1, &[(0, 1)]);
    let wide = Value::list(3, &[(0, 1)]);
    let other = Value::list(2, &[(0, 1), (4, 2)]);
    let none = Value::list(0, &[]);
    assert_eq!(p.call(op::SUBTRACT, &[one.clone(), one.clone()]), Ok(Value::list(1, &[])));
    assert_eq!(p.call(op::SUBTRACT, &[one.clone(), other.clone()]), Ok(Value::list(1, &[])));
    assert_eq!(p.call(op::SUBTRACT, &[wide.clone(), one.clone()]), Ok(Value::list(3, &[])));
    assert_eq!(p.call(op::SUBTRACT, &[wide.clone(), none.clone()]), Ok(one.clone()));
    assert_eq!(p.call(op::SUBTRACT, &[wide.clone(), Int(9)]), Ok(none.clone()));
    assert_eq!(p.call(op::INTERSECT, &[wide.clone(), none.clone()]), Ok(none.clone()));
    assert_eq!(p.call(op::ADD, &[Value::list(3, &[]), Value::list(3, &[])]), Ok(none.clone()));
    // what was answered is handed in again
    let emptied = p.call(op::SUBTRACT, &[wide.clone(), wide]).unwrap();
    assert_eq!(p.call(op::SUBTRACT, &[emptied.clone(), one]), Ok(emptied.clone()));
    assert_eq!(p.call(op::INVERT, from_ref(&emptied)), p.call(op::ALL, from_ref(&Value::list(3, &[]))));
    assert_eq!(p.call(op::ADD, &[emptied, Int(1)]), Ok(none));
}

#[test]
fn an_emptied_slot() {
    // slot 0 less itself, inverted; slot 0 less slot 1, inverted
    let sheets = [&[36, 0, 36, 0, op::SUBTRACT, op::INVERT][..], &[36, 0, 36, 1, op::SUBTRACT, op::INVERT]];
    let p = pack(&[vec![1, 2], vec![3]], &[], &sheets.map(|s| s.to_vec()));
    let mut workspace = Workspace::new();
    let mut slots = VOID_SLOTS;
    // a wider set than its items
    slots[0] = Value::list(3, &[(0, 1), (1, 2)]);
    slots[1] = Value::list(0, &[(1, 0)]);
    assert_eq!(p.run(&mut workspace, 0, &slots), Ok(Value::list(3, &[(0, 1), (1, 2), (2, 3)])));
    assert_eq!(p.run(&mut workspace, 1, &slots), Ok(Value::list(1, &[(1, 2)])));
    let mut kinds = [Kind::Void; 16];
    kinds[..2].fill(Kind::List);
    for sheet in [0, 1] {
        let told: Vec<_> = p.vet(sheet, &kinds).unwrap().iter().map(|f| (f.count, f.top)).collect();
        assert_eq!(told, [(1, Kind::List), (2, Kind::List), (1, Kind::List), (1, Kind::List)]);
    }
}

#[test]
fn conversions_refused() {
    let p = six_items();
    let list = Value::list(1, &[(0, 1)]);
    assert_eq!(p.cast(0, &list), Err(no(18)));
    assert_eq!(p.cast(4, &Int(0)), Err(no(18)));
    assert_eq!(p.cast(255, &Int(0)), Err(no(18)));
    assert_eq!(p.cast(3, &Int(0)), Err(no(18)));
    assert_eq!(p.cast(1, &Void), Err(no(18)));
    assert_eq!(p.coerce_to_bool(&Float(1.0)), Err(no(18)));
    assert_eq!(p.coerce_to_int(&list), Err(no(18)));
    assert_eq!(p.coerce_to_float(&Void), Err(no(18)));
    assert_eq!(p.coerce_to_int(&Float(-1.9)), Ok(-1));
    assert_eq!(p.coerce_to_int(&Bool(true)), Ok(1));
}

#[test]
fn vetting_foretells() {
    // slot 0, Int 2, Add
    let p = pack(&[vec![1, 2, 3]], &[], &[sheet(&[&[36, 0], &int(2), &[0]])]);
    let mut kinds = [Kind::Void; 16];
    kinds[0] = Kind::List;
    let told = p.vet(0, &kinds).unwrap();
    let tops: Vec<_> = told.iter().map(|f| (f.count, f.top)).collect();
    assert_eq!(tops, [(1, Kind::List), (2, Kind::Int), (1, Kind::List)]);
    assert_eq!(told.last(), Some(&Forecast { count: 1, top: Kind::List }));
    let mut slots = VOID_SLOTS;
    slots[0] = Value::list(1, &[(0, 1)]);
    let mut workspace = Workspace::new();
    assert_eq!(p.run(&mut workspace, 0, &slots), Ok(Value::list(1, &[(2, 3)])));
    kinds[0] = Kind::Void;
    assert_eq!(p.vet(0, &kinds), Err(Refusal { number: 11, index: 2 }));
    assert_eq!(p.run(&mut workspace, 0, &VOID_SLOTS), Err(Refusal { number: 11, index: 2 }));
    assert_eq!(p.vet(1, &kinds), Err(no(6)));
}
