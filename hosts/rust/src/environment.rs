//! The floating-point environment of a call. Float operators follow the processor's control word (x86-64: MXCSR) of the calling thread,
//! and the archive's answers are those of its definitions under the word that every thread starts with: rounding to the nearest, denormal
//! numbers kept, exceptions masked. Other code of the process may have changed it, as a library linked with -ffast-math does.

/// All exceptions masked, to the nearest, no flush-to-zero, no denormals-are-zero.
const DEFAULT: u32 = 0x1f80;
/// The bits that say how operations work; the others are the flags of exceptions that occurred.
const CONTROL: u32 = 0xffc0;

#[cfg(not(target_arch = "x86_64"))]
compile_error!("libink_operators.a is for x86-64");

fn word() -> u32 {
    let mut word = 0u32;
    // SAFETY: the instruction stores four bytes to a local.
    unsafe { std::arch::asm!("stmxcsr [{}]", in(reg) &mut word, options(nostack, preserves_flags)) };
    word
}

fn set(word: u32) {
    // SAFETY: the word is the default, or one that the thread had: no reserved bit is set.
    unsafe { std::arch::asm!("ldmxcsr [{}]", in(reg) &word, options(nostack, preserves_flags)) };
}

/// The thread's own word, set again when this is dropped.
struct Own(u32);

impl Drop for Own {
    fn drop(&mut self) {
        set(self.0);
    }
}

/// Does some work in the environment that the archive's answers are proved for, and leaves the thread's own as it was. Where the thread
/// has that environment already, nothing is set. Every method of [`crate::Pack`] does this; it is for calls of [`crate::sys`].
#[inline]
pub fn guarded<R>(work: impl FnOnce() -> R) -> R {
    let own = word();
    let _own = (own & CONTROL != DEFAULT).then(|| {
        set(DEFAULT);
        Own(own)
    });
    work()
}
