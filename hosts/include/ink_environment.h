/* The floating-point environment that libink_operators.a is called in (x86-64).
 *
 * Float operators are the processor's own, so they follow the control word MXCSR of the calling thread. The library's answers are those
 * of its definitions under the word that every thread starts with: rounding to the nearest, denormal numbers kept (neither
 * flush-to-zero nor denormals-are-zero), all exceptions masked. Under another word a call may answer another Float, or end the program
 * by a signal. A program linked with -ffast-math or -Ofast sets flush-to-zero at its start; a library loaded later may do so too.
 *
 * ink_environment_enter sets that word and returns the thread's own, which ink_environment_leave sets again. Around one call or many:
 *
 *     uint32_t own = ink_environment_enter();
 *     number = ink_run(..);
 *     ink_environment_leave(own);
 */
#ifndef INK_ENVIRONMENT_H
#define INK_ENVIRONMENT_H

#include <stdint.h>

/* All exceptions masked, to the nearest, no flush-to-zero, no denormals-are-zero; no exception flag set. */
#define INK_ENVIRONMENT 0x1f80u
/* The bits that say how operations work; the others are the flags of exceptions that occurred. */
#define INK_ENVIRONMENT_CONTROL 0xffc0u

static inline uint32_t ink_environment_word(void) {
    uint32_t word;
    __asm__ volatile("stmxcsr %0" : "=m"(word));
    return word;
}

static inline void ink_environment_set(uint32_t word) {
    __asm__ volatile("ldmxcsr %0" : : "m"(word) : "memory");
}

/* Sets the library's word where the thread has another, and returns the thread's. */
static inline uint32_t ink_environment_enter(void) {
    uint32_t own = ink_environment_word();
    if ((own & INK_ENVIRONMENT_CONTROL) != INK_ENVIRONMENT)
        ink_environment_set(INK_ENVIRONMENT);
    return own;
}

/* Sets the thread's word again, where it is another than the library's. */
static inline void ink_environment_leave(uint32_t own) {
    if ((own & INK_ENVIRONMENT_CONTROL) != INK_ENVIRONMENT)
        ink_environment_set(own);
}

#endif
