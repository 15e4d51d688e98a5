/* The operators under every floating-point environment, called between ink_environment_enter and ink_environment_leave: four rounding
 * modes, flush-to-zero, denormals-are-zero, exceptions masked or not. Build and run it from the repository's root, after
 * `rt lib` in crates/ink_operators; it prints how many calls it made and how many answered otherwise, and what the guard costs:
 *     cc -std=c11 -O2 -Wall -Wextra -Ihosts/include tests/environment.c -Lcrates/ink_operators/out -link_operators -o /tmp/environment &&
 *     /tmp/environment
 */
#define _POSIX_C_SOURCE 200809L
#include <stdio.h>
#include <time.h>

#include "ink_environment.h"
#include "ink_operators.h"

enum { ADD = 0, DIVIDE = 2, MULTIPLY = 3, MOD = 4, FLOOR = 18, CEILING = 19 };

static const struct {
    uint8_t op;
    uint32_t a, b, owed;
} cases[] = {
    {MULTIPLY, 0x00800000, 0x3f000000, 0x00400000}, {ADD, 0x3f800000, 0x33000001, 0x3f800000}, {ADD, 1, 2, 3},
    {MULTIPLY, 0x7f7fffff, 0x40000000, 0x7f800000}, {DIVIDE, 0x3f800000, 0x40400000, 0x3eaaaaab},
    {DIVIDE, 0x3f800000, 0, 0x7f800000},            {DIVIDE, 0, 0, 0x7fc00000},
    {MOD, 0x00400001, 2, 1},                        {FLOOR, 0x80000001, 0, 0xbf800000},        {CEILING, 1, 0, 0x3f800000},
};

static uint16_t items[INK_RESULT_PLACES];
static int32_t values[INK_RESULT_PLACES];

static uint32_t call(uint8_t op, uint32_t a, uint32_t b, uint64_t answer[3]) {
    const uint64_t operands[9] = {2, a, 0, 2, b, 0, 4, 0, 0};
    const uint16_t ends[1] = {0};
    const int32_t defined[1] = {0};
    return ink_call_checked(ends, 0, defined, 0, op, op < FLOOR ? 2 : 1, operands, items, 0, values, 0, items, INK_RESULT_PLACES, values,
                            INK_RESULT_PLACES, answer);
}

static double seconds(void) {
    struct timespec t;
    clock_gettime(CLOCK_MONOTONIC, &t);
    return (double)t.tv_sec + 1e-9 * (double)t.tv_nsec;
}

/* The least time of a call, in nanoseconds, of many rounds. */
static double timed(int guard) {
    enum { ROUNDS = 50, CALLS = 100000 };
    double least = 1;
    uint64_t answer[3];
    for (int r = 0; r < ROUNDS; r++) {
        double start = seconds();
        for (int i = 0; i < CALLS; i++) {
            uint32_t own = guard ? ink_environment_enter() : 0;
            call(ADD, 0x3f800000, 0x40000000, answer);
            if (guard)
                ink_environment_leave(own);
        }
        double took = seconds() - start;
        if (took < least)
            least = took;
    }
    return least * 1e9 / CALLS;
}

int main(void) {
    int calls = 0, differing = 0;
    for (uint32_t k = 0; k < 32; k++) {
        /* rounding, flush-to-zero, denormals-are-zero, all exceptions masked or none */
        uint32_t word = (k & 3) << 13 | (k & 4) << 13 | (k & 8) << 3 | (k & 16 ? 0 : 0x1f80u);
        for (size_t i = 0; i < sizeof cases / sizeof *cases; i++) {
            uint64_t answer[3];
            uint32_t before = ink_environment_word();
            ink_environment_set(word);
            uint32_t own = ink_environment_enter();
            uint32_t number = call(cases[i].op, cases[i].a, cases[i].b, answer);
            ink_environment_leave(own);
            uint32_t left = ink_environment_word();
            ink_environment_set(before);
            calls++;
            if (number || answer[1] != cases[i].owed || (left & INK_ENVIRONMENT_CONTROL) != word) {
                differing++;
                printf("operator %d on %08x and %08x under %04x: %08x, left %04x\n", cases[i].op, (unsigned)cases[i].a,
                       (unsigned)cases[i].b, (unsigned)word, (unsigned)answer[1], (unsigned)left);
            }
        }
    }
    double plain = timed(0), guarded = timed(1);
    ink_environment_set(INK_ENVIRONMENT | 0x8000u);
    double set = timed(1);
    ink_environment_set(INK_ENVIRONMENT);
    printf("a Float sum: %.1f ns, guarded %.1f ns, guarded where the word is another %.1f ns\n", plain, guarded, set);
    printf("%d calls, %d differing\n", calls, differing);
    return differing != 0;
}
