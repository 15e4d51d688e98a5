//! Answers do not depend on the thread's floating-point environment, and it is left as it was.
mod common;

use common::{float, pack, VOID_SLOTS};
use ink_operators::{op, Value, Workspace};

/// Does some work under a control word, and gives its answer with the word that it left.
fn under<R>(word: u32, work: impl FnOnce() -> R) -> (R, u32) {
    let (mut own, mut left) = (0u32, 0u32);
    // SAFETY: the words are stored to and loaded from locals, and the thread's own is set again before anything else is done.
    unsafe {
        std::arch::asm!("stmxcsr [{}]", in(reg) &mut own, options(nostack));
        std::arch::asm!("ldmxcsr [{}]", in(reg) &word, options(nostack));
        let answer = work();
        std::arch::asm!("stmxcsr [{}]", in(reg) &mut left, options(nostack));
        std::arch::asm!("ldmxcsr [{}]", in(reg) &own, options(nostack));
        // without the flags of exceptions that occurred
        (answer, left & 0xffc0)
    }
}

/// Every rounding mode, flush-to-zero, denormals-are-zero, exceptions masked or not.
fn words() -> impl Iterator<Item = u32> {
    (0..4).flat_map(|rounding| {
        [0, 0x8000].into_iter().flat_map(move |flush| {
            [0, 0x40].into_iter().flat_map(move |zero| [0x1f80, 0].into_iter().map(move |masks| rounding << 13 | flush | zero | masks))
        })
    })
}

fn bits(v: Value) -> u32 {
    match v {
        Value::Float(x) => x.to_bits(),
        other => panic!("{other:?} is no Float"),
    }
}

#[test]
fn the_same_floats_under_every_control_word() {
    let divide = vec![float(1.0), float(0.0), vec![op::DIVIDE]].concat();
    let pack = pack(&[], &[], &[divide]);
    let x = |b: u32| Value::Float(f32::from_bits(b));
    // the smallest normal number halved; a sum whose tie is broken upward; an overflow; 1 / 3; 0 / 0; an Int that is rounded
    let cases = [
        (op::MULTIPLY, x(0x0080_0000), x(0x3f00_0000), 0x0040_0000),
        (op::ADD, x(0x3f80_0000), x(0x3300_0001), 0x3f80_0000),
        (op::ADD, x(0x0000_0001), x(0x0000_0002), 0x0000_0003),
        (op::MULTIPLY, x(0x7f7f_ffff), x(0x4000_0000), 0x7f80_0000),
        (op::DIVIDE, x(0x3f80_0000), x(0x4040_0000), 0x3eaa_aaab),
        (op::DIVIDE, x(0), x(0), 0x7fc0_0000),
        (op::MOD, x(0x0040_0001), x(0x0000_0002), 0x0000_0001),
        (op::ADD, Value::Int(16_777_219), x(0), 0x4b80_0002),
    ];
    let mut workspace = Workspace::new();
    for word in words() {
        for (o, a, b, owed) in &cases {
            let (answer, left) = under(word, || pack.call(*o, &[a.clone(), b.clone()]));
            assert_eq!((bits(answer.unwrap()), left), (*owed, word), "operator {o} under {word:x}");
        }
        let (answer, left) = under(word, || pack.run(&mut workspace, 0, &VOID_SLOTS));
        assert_eq!((bits(answer.unwrap()), left), (0x7f80_0000, word), "a run under {word:x}");
        let (answer, left) = under(word, || pack.cast(1, &x(0x4020_0000)));
        assert_eq!((answer.unwrap(), left), (Value::Int(2), word));
        // with denormals as zeros it would be 0
        let (answer, left) = under(word, || pack.call(op::CEILING, &[x(0x0000_0001)]));
        assert_eq!((bits(answer.unwrap()), left), (0x3f80_0000, word), "Ceiling under {word:x}");
        let (answer, left) = under(word, || pack.coerce_to_float(&Value::Int(16_777_217)));
        assert_eq!((answer.unwrap().to_bits(), left), (0x4b80_0000, word));
    }
}

#[test]
fn a_panic_leaves_the_environment_as_it_was() {
    let (caught, left) = under(0x9fc0, || std::panic::catch_unwind(|| ink_operators::environment::guarded(|| panic!("out"))).is_err());
    assert_eq!((caught, left), (true, 0x9fc0));
}
