//! Bad input through the safe interface: the numbers, and nothing else.
mod common;

use std::slice::from_ref;

use common::{bytes, float, int, pack, sheet, six_items, SAMPLE, VOID_SLOTS};
use ink_operators::{op, Kind, Pack, Refusal, Value, Workspace};
use Value::{Bool, Int, Void};

fn no(number: u32) -> Refusal {
    Refusal { number, index: 0 }
}

#[test]
fn damaged_packs() {
    assert_eq!(Pack::new([]).err(), Some(no(1)));
    assert_eq!(Pack::new([1, 0, 0]).err(), Some(no(1)));
    assert_eq!(Pack::new([2, 0, 0, 0]).err(), Some(no(1)));
    assert_eq!(Pack::new([1, 65, 0, 0]).err(), Some(no(1)));
    assert_eq!(Pack::new(vec![1; 65_536]).err(), Some(no(1)));
    assert!(Pack::new([1, 0, 0, 0]).is_ok());
    assert_eq!(Pack::new([1, 0, 0, 0, 0]).err(), Some(no(2)));
    for n in 0..SAMPLE.len() {
        let refused = Pack::new(&SAMPLE[..n]).unwrap_err();
        assert!((1..=2).contains(&refused.number), "{n} bytes: {refused}");
    }
}

#[test]
fn every_byte_of_the_sample_changed() {
    let mut workspace = Workspace::new();
    let kinds = [Kind::Void; 16];
    for at in 0..SAMPLE.len() {
        for byte in 0..=255 {
            let mut changed = SAMPLE;
            changed[at] = byte;
            match Pack::new(changed) {
                Err(refused) => assert!((1..=5).contains(&refused.number) && refused.index == 0),
                Ok(pack) => {
                    for s in 0..=pack.sheets() {
                        let ran = pack.run(&mut workspace, s, &VOID_SLOTS);
                        let vetted = pack.vet(s, &kinds);
                        // what vetting says, every run keeps
                        match (vetted, ran) {
                            (Ok(told), Ok(value)) => assert_eq!(told.last().unwrap().top, value.kind()),
                            (Ok(_), Err(stopped)) => assert_eq!(stopped.number, 15),
                            (Err(turned), Err(stopped)) => {
                                assert!(turned == stopped || (stopped.index < turned.index && stopped.number == 15))
                            }
                            (Err(turned), Ok(value)) => panic!("{turned}, and the run gave {value:?}"),
                        }
                    }
                }
            }
        }
    }
}

#[test]
fn sheet_numbers() {
    let pack = Pack::new(SAMPLE).unwrap();
    let mut workspace = Workspace::new();
    for s in [2, 255, 256, usize::MAX] {
        assert_eq!(pack.run(&mut workspace, s, &VOID_SLOTS), Err(no(6)));
        assert_eq!(pack.vet(s, &[Kind::Int; 16]), Err(no(6)));
    }
}

#[test]
fn malformed_lists() {
    let p = pack(&[vec![1, 2, 3]], &[], &[sheet(&[&[36, 0]])]);
    let mut workspace = Workspace::new();
    let long: Vec<_> = (0..300).map(|i| (i as u16, 0)).collect();
    let ill = [
        Value::list(1, &[(1, 2), (0, 1)]),
        Value::list(1, &[(1, 2), (1, 2)]),
        Value::list(1, &[(3, 1)]),
        Value::list(1, &[(65_535, 1)]),
        Value::list(2, &[(0, 1)]),
        Value::list(u64::MAX, &[]),
        Value::list(0, &long),
    ];
    for list in &ill {
        for k in [0, 7, 15] {
            let mut slots = VOID_SLOTS;
            slots[k] = list.clone();
            assert_eq!(p.run(&mut workspace, 0, &slots), Err(no(7)), "{list:?} in slot {k}");
            // the sheet number is asked before the slots
            assert_eq!(p.run(&mut workspace, 1, &slots), Err(no(6)));
        }
        assert_eq!(p.call(op::COUNT, from_ref(list)), Err(no(7)));
        assert_eq!(p.call(op::ADD, &[Value::list(0, &[]), list.clone()]), Err(no(7)));
        // 7 comes before 8 and 10
        assert_eq!(p.call(op::RANGE, from_ref(list)), Err(no(7)));
        assert_eq!(p.call(17, from_ref(list)), Err(no(7)));
        assert_eq!(p.cast(1, list), Err(no(7)));
        assert_eq!(p.coerce_to_int(list), Err(no(7)));
    }
    let mut slots = VOID_SLOTS;
    slots[0] = Value::list(1, &[(0, -9), (2, 5)]);
    slots[1] = Value::list(0, &[(1, 4)]);
    assert_eq!(p.run(&mut workspace, 0, &slots), Ok(Value::list(1, &[(0, -9), (2, 5)])));
}

#[test]
fn operators() {
    let p = six_items();
    for op in [17, 32, 200, 255] {
        assert_eq!(p.call(op, &[Int(1), Int(2)]), Err(no(8)));
    }
    for op in [op::FLOOR, op::CEILING] {
        assert_eq!(p.call(op, &[]), Err(no(10)));
        assert_eq!(p.call(op, &[Int(1), Int(2)]), Err(no(10)));
        assert_eq!(p.call(op, &[Void]), Err(no(11)));
        assert_eq!(p.call(op, &[Value::list(1, &[(0, 1)])]), Err(no(13)));
    }
    assert_eq!(p.call(op::ADD, &[]), Err(no(10)));
    assert_eq!(p.call(op::ADD, &[Int(1)]), Err(no(10)));
    assert_eq!(p.call(op::ADD, &[Int(1), Int(2), Int(3)]), Err(no(10)));
    assert_eq!(p.call(op::RANGE, &vec![Int(0); 9]), Err(no(10)));
    assert_eq!(p.call(op::ADD, &[Int(1), Void]), Err(no(11)));
    assert_eq!(p.call(op::MULTIPLY, &[Value::list(0, &[]), Int(1)]), Err(no(12)));
    assert_eq!(p.call(op::HAS, &[Int(1), Int(1)]), Err(no(13)));
    assert_eq!(p.call(op::EQUAL, &[Value::list(0, &[]), Int(0)]), Err(no(12)));
    assert_eq!(p.call(op::MOD, &[Int(1), Int(0)]), Err(no(15)));
    assert_eq!(p.call(op::RANGE, &[Bool(true), Int(0), Int(1)]), Err(no(13)));
}

#[test]
fn workspace_after_refusals() {
    // the whole list and a division by 0; the whole list alone; a Float left over; one of the other definition
    let whole = (1u64, (0..200).map(|i| (i as u8, i)).collect::<Vec<_>>());
    let other = (2u64, vec![(200, 7)]);
    let p = pack(
        &[(0..200).collect(), (0..56).collect()],
        &[whole.clone(), other],
        &[
            sheet(&[&[35, 0], &[35, 0], &[35, 0], &int(1), &int(0), &[2]]),
            sheet(&[&[35, 0]]),
            sheet(&[&[35, 0], &float(1.5)]),
            sheet(&[&[35, 1]]),
        ],
    );
    let mut workspace = Workspace::new();
    let all: Vec<_> = whole.1.iter().map(|&(i, v)| (i as u16, v)).collect();
    for _ in 0..3 {
        assert_eq!(p.run(&mut workspace, 0, &VOID_SLOTS), Err(Refusal { number: 15, index: 5 }));
        assert_eq!(p.run(&mut workspace, 1, &VOID_SLOTS), Ok(Value::list(1, &all)));
        assert_eq!(p.run(&mut workspace, 9, &VOID_SLOTS), Err(no(6)));
        assert_eq!(p.run(&mut workspace, 2, &VOID_SLOTS), Err(Refusal { number: 17, index: 2 }));
        assert_eq!(p.run(&mut workspace, 3, &VOID_SLOTS), Ok(Value::list(2, &[(200, 7)])));
    }
    // and with another pack
    let sample = Pack::new(SAMPLE).unwrap();
    assert_eq!(sample.run(&mut workspace, 0, &VOID_SLOTS), Ok(Value::list(1, &[(2, 3)])));
    assert_eq!(Pack::new(bytes(&[], &[(1, vec![])], &[])).err(), Some(no(4)));
}

#[test]
fn full_lists() {
    // a pack of as many items as there may be: no result is longer, and one of them all is answered (16 is retired)
    let values: Vec<i32> = (0..256).collect();
    let defined = [values[..255].to_vec(), values[255..].to_vec()];
    let literal = values.iter().map(|&v| (v as u8, v)).collect();
    let twice = [35, 0, 35, 0, op::ADD];
    let p = pack(&defined, &[(3, literal)], &[twice.to_vec()]);
    let entries: Vec<(u16, i32)> = values.iter().map(|&v| (v as u16, v)).collect();
    let (full, none) = (Value::list(3, &entries), Value::list(3, &[]));
    let (even, odd): (Vec<_>, Vec<_>) = entries.iter().partition(|e| e.0 % 2 == 0);
    let call = |op: u8, operands: &[&Value]| p.call(op, &operands.iter().map(|&v| v.clone()).collect::<Vec<_>>());
    for (op, operands) in [
        (op::ADD, vec![&full, &full]),
        (op::ADD, vec![&Value::list(3, &even), &Value::list(3, &odd)]),
        (op::ADD, vec![&full, &Int(0)]),
        (op::SUBTRACT, vec![&full, &none]),
        (op::INTERSECT, vec![&full, &full]),
        (op::ALL, vec![&none]),
        (op::INVERT, vec![&none]),
        (op::RANGE, vec![&full, &Int(0), &Int(255)]),
    ] {
        assert_eq!(call(op, &operands), Ok(full.clone()), "operator {op}");
    }
    assert_eq!(p.run(&mut Workspace::new(), 0, &VOID_SLOTS), Ok(full));
}
