/* Calls every function of the archive with each slice in a block of its own, as long as the slice and not a byte longer, so that valgrind
 * sees a byte read or written past it; nothing is cleared that the header does not ask to be clear, so that it sees what is read unwritten.
 *     lent STREAM    a stream of named packs (a byte and the name, three bytes and the pack), as crates/oracle_points/stdin; prints for each
 *                    its name and what sheetrun prints of it, then works a small pack damaged in every place, and slices too short by one;
 *                    to the standard error how many calls were made
 *     lent           breaks the caller's duty on purpose: a pack is said to be one byte longer than its block
 * Exit status 1 where a call for a checked pack answers otherwise than the call for any bytes.
 */
#include <inttypes.h>
#include <stdio.h>
#include <stdlib.h>
#include <string.h>

#include "ink_operators.h"

static unsigned long calls, differing;

/* A block with so many bytes; of none, a pointer that may not be read. */
static void *block(size_t bytes) {
    void *p = malloc(bytes);
    if (!p)
        abort();
    return p;
}

static void *copy(const void *from, size_t bytes) {
    return memcpy(block(bytes), from, bytes);
}

/* Two parallel slices. */
struct pair {
    uint16_t *items;
    int32_t *values;
    size_t items_len, values_len;
};

static struct pair pair_of(size_t items_len, size_t values_len) {
    struct pair p = {block(items_len * 2), block(values_len * 4), items_len, values_len};
    return p;
}

static void release(struct pair p) {
    free(p.items);
    free(p.values);
}

#define PAIR(p) (p).items, (p).items_len, (p).values, (p).values_len

static void print_answer(uint32_t number, const uint64_t answer[3], struct pair result) {
    if (number) {
        printf(" R %" PRIu32 " %" PRIu64 "\n", number, answer[0]);
        return;
    }
    switch (answer[0]) {
    case 0:
        printf(" B %" PRIu64, answer[1]);
        break;
    case 1:
        printf(" I %" PRId32, (int32_t)(uint32_t)answer[1]);
        break;
    case 2:
        printf(" F %08" PRIx32, (uint32_t)answer[1]);
        break;
    case 3:
        printf(" L %" PRIu64, answer[2] >> 32);
        for (uint64_t i = 0; i < answer[2] >> 32; i++)
            printf(" %u=%" PRId32, result.items[i], result.values[i]);
        break;
    default:
        printf(" V");
    }
    printf("\n");
}

/* The same number and words, and the same entries of a List. */
static void same(uint32_t n, const uint64_t *a, struct pair p, uint32_t m, const uint64_t *b, struct pair q) {
    int lists = n == 0 && a[0] == 3;
    size_t length = lists ? a[2] >> 32 : 0;
    if (n != m || memcmp(a, b, 24) || memcmp(p.items, q.items, length * 2) || memcmp(p.values, q.values, length * 4))
        differing++;
}

/* What a host keeps of a pack that has passed. */
struct checked {
    uint16_t *ends;
    int32_t *defined;
    size_t definitions, items;
};

static struct checked definitions_of(const uint8_t *pack, size_t len) {
    uint16_t *ends = block(64 * 2);
    int32_t *defined = block(256 * 4);
    uint64_t *counts = block(2 * 8);
    calls++;
    if (ink_definitions(pack, len, ends, 64, defined, 256, counts))
        differing++;
    /* cut to what is used, so that a place beyond it is seen */
    struct checked c = {copy(ends, counts[0] * 2), copy(defined, counts[1] * 4), counts[0], counts[1]};
    free(ends);
    free(defined);
    free(counts);
    return c;
}

/* A run of a sheet by both calls; where `say`, what it answers is printed. */
static void run(const uint8_t *pack, size_t len, const struct checked *c, size_t sheet, const uint64_t *slots, struct pair lent,
                struct pair work, struct pair result, int say) {
    uint64_t *answer = block(24);
    calls++;
    uint32_t number = ink_run(pack, len, sheet, slots, PAIR(lent), PAIR(work), PAIR(result), answer);
    if (say)
        print_answer(number, answer, result);
    if (c) {
        struct pair clear = pair_of(work.items_len, work.values_len), again = pair_of(result.items_len, result.values_len);
        uint64_t *second = block(24);
        memset(clear.items, 0, clear.items_len * 2);
        memset(clear.values, 0, clear.values_len * 4);
        calls++;
        uint32_t m = ink_run_checked(pack, len, c->ends, c->definitions, c->defined, c->items, sheet, slots, PAIR(lent), PAIR(clear),
                                     PAIR(again), second);
        same(number, answer, result, m, second, again);
        release(clear);
        release(again);
        free(second);
    }
    free(answer);
}

static void vet(const uint8_t *pack, size_t len, size_t sheet, uint8_t kind, size_t room) {
    uint8_t *kinds = block(16), *forecast = block(room);
    uint64_t *index = block(8);
    memset(kinds, kind, 16);
    calls++;
    ink_vet(pack, len, sheet, kinds, forecast, room, index);
    free(kinds);
    free(forecast);
    free(index);
}

/* An operator by both calls. */
static void call(const uint8_t *pack, size_t len, const struct checked *c, uint8_t op, size_t count, const uint64_t *operands,
                 struct pair lent, struct pair result) {
    uint64_t *answer = block(24), *second = block(24);
    struct pair again = pair_of(result.items_len, result.values_len);
    calls++;
    uint32_t number = ink_call(pack, len, op, count, operands, PAIR(lent), PAIR(result), answer);
    if (c) {
        calls++;
        uint32_t m = ink_call_checked(c->ends, c->definitions, c->defined, c->items, op, count, operands, PAIR(lent), PAIR(again), second);
        same(number, answer, result, m, second, again);
#ifdef INK_APPLY
        /* its caller's duty is that question 7 says yes */
        if (m != 7) {
            calls++;
            m = ink_apply(c->ends, c->definitions, c->defined, c->items, op, count, operands, PAIR(lent), PAIR(again), second);
            same(number, answer, result, m, second, again);
        }
#endif
    }
    release(again);
    free(answer);
    free(second);
}

static void convert(const uint8_t *pack, size_t len, const uint64_t *operand, struct pair lent, struct pair result) {
    uint64_t *answer = block(24);
    for (int code = 0; code < 6; code++)
        ink_cast(pack, len, code, operand, PAIR(lent), PAIR(result), answer);
    ink_coerce_to_bool(pack, len, operand, PAIR(lent), answer);
    ink_coerce_to_int(pack, len, operand, PAIR(lent), answer);
    ink_coerce_to_float(pack, len, operand, PAIR(lent), answer);
    calls += 9;
    free(answer);
}

/* Every operator and conversion on Lists that reach to the last place of their slices, and on an Int. */
static void operators(const uint8_t *pack, size_t len, const struct checked *c) {
    size_t n = c && c->items < 9 ? c->items : c ? 9 : 3;
    struct pair lent = pair_of(n, n), result = pair_of(INK_RESULT_PLACES, INK_RESULT_PLACES);
    for (size_t i = 0; i < n; i++) {
        lent.items[i] = (uint16_t)i;
        lent.values[i] = (int32_t)i + 1;
    }
    uint64_t set = c && c->definitions ? 1 : 0, half = n / 2;
    const uint64_t words[2][9] = {
        {3, set, (uint64_t)n << 32, 3, set, half + ((n - half) << 32), 1, 2, 0},
        {3, set, (uint64_t)n << 32, 1, 1, 0, 2, 0x40e00000, 0},
    };
    for (int which = 0; which < 2; which++) {
        uint64_t *operands = copy(words[which], 72);
        for (int op = 0; op < 33; op++)
            for (size_t count = 1; count <= 3; count++)
                call(pack, len, c, (uint8_t)op, count, operands, lent, result);
        convert(pack, len, operands, lent, result);
        free(operands);
    }
    release(lent);
    release(result);
}

static uint64_t *slots_of(uint64_t kind, uint64_t word, uint64_t place) {
    uint64_t *slots = block(48 * 8);
    for (int k = 0; k < 16; k++) {
        slots[3 * k] = kind;
        slots[3 * k + 1] = word;
        slots[3 * k + 2] = place;
    }
    return slots;
}

/* A pack, its sheets vetted and run with all slots Void, and every operator with it. */
static void whole(const uint8_t *bytes, size_t len, int say) {
    uint8_t *pack = copy(bytes, len);
    uint32_t number = ink_check(pack, len);
    struct checked c, *has = NULL;
    size_t sheets = 2;
    calls++;
    if (number == 0) {
        c = definitions_of(pack, len);
        has = &c;
        sheets = pack[3];
    }
    if (say && number)
        printf("pack R %" PRIu32 "\n", number);
    else if (say)
        printf("sheets %zu\n", sheets);
    uint64_t *slots = slots_of(4, 0, 0);
    struct pair none = pair_of(0, 0), work = pair_of(INK_WORK_PLACES, INK_WORK_PLACES);
    struct pair result = pair_of(INK_RESULT_PLACES, INK_RESULT_PLACES);
    for (size_t sheet = 0; sheet < sheets; sheet++) {
        vet(pack, len, sheet, 4, INK_FORECAST_BYTES);
        if (say && has)
            printf("%zu", sheet);
        run(pack, len, has, sheet, slots, none, work, result, say && has);
    }
    operators(pack, len, has);
    free(slots);
    release(none);
    release(work);
    release(result);
    free(pack);
    if (has) {
        free(c.ends);
        free(c.defined);
    }
}

static const uint8_t sample[] = {
    0x01, 0x01, 0x01, 0x03, 0x18, 0x00, 0x0d, 0x00, 0x25, 0x00, 0x0d, 0x00, 0x32, 0x00, 0x08, 0x00, 0x3a, 0x00, 0x0b, 0x00, 0x45, 0x00,
    0x05, 0x00, 0x03, 0x01, 0x00, 0x00, 0x00, 0x02, 0x00, 0x00, 0x00, 0x03, 0x00, 0x00, 0x00, 0x01, 0x00, 0x00, 0x00, 0x00, 0x00, 0x00,
    0x00, 0x01, 0x02, 0x00, 0x00, 0x00, 0x23, 0x00, 0x21, 0x01, 0x00, 0x00, 0x00, 0x00, 0x21, 0x07, 0x00, 0x00, 0x00, 0x21, 0x00, 0x00,
    0x00, 0x00, 0x02, 0x24, 0x0f, 0x23, 0x00, 0x00,
};

/* The sample cut at every place, with a byte more, and with every byte changed. */
static void damaged(void) {
    const uint8_t bytes[] = {0, 1, 2, 37, 64, 128, 255};
    uint8_t all[sizeof sample + 1] = {0};
    for (size_t len = 0; len <= sizeof sample; len++)
        whole(sample, len, 0);
    for (size_t at = 0; at < sizeof sample; at++)
        for (size_t k = 0; k < sizeof bytes; k++) {
            memcpy(all, sample, sizeof sample);
            all[at] = bytes[k];
            whole(all, sizeof sample, 0);
        }
    memcpy(all, sample, sizeof sample);
    whole(all, sizeof all, 0);
}

/* Slices at the least length and one below, Lists in the slots that reach to the last place and one beyond, words that are no value's. */
static void lengths(void) {
    uint8_t *pack = copy(sample, sizeof sample);
    if (ink_check(pack, sizeof sample))
        abort();
    struct checked c = definitions_of(pack, sizeof sample);
    for (int less = 0; less < 64; less++) {
        int one[6];
        for (int k = 0; k < 6; k++)
            one[k] = less >> k & 1;
        struct pair work = pair_of(INK_WORK_PLACES - one[0], INK_WORK_PLACES - one[1]);
        struct pair result = pair_of(INK_RESULT_PLACES - one[2], INK_RESULT_PLACES - one[3]);
        struct pair lent = pair_of(3 - one[4], 3 - one[5]);
        for (size_t i = 0; i < lent.items_len; i++)
            lent.items[i] = (uint16_t)i;
        for (size_t i = 0; i < lent.values_len; i++)
            lent.values[i] = (int32_t)i - 1;
        const uint64_t kinds[][3] = {{3, 1, 3ull << 32}, {3, 1, 1 + (2ull << 32)}, {3, 0, 3}, {3, 1, ~0ull}, {5, 0, 0}, {1, ~0ull, 0}};
        for (size_t k = 0; k < sizeof kinds / sizeof kinds[0]; k++) {
            uint64_t *slots = slots_of(kinds[k][0], kinds[k][1], kinds[k][2]);
            for (size_t sheet = 0; sheet < 4; sheet++)
                run(pack, sizeof sample, &c, sheet, slots, lent, work, result, 0);
            for (int op = 0; op < 33; op++)
                call(pack, sizeof sample, &c, (uint8_t)op, 2, slots, lent, result);
            convert(pack, sizeof sample, slots, lent, result);
            free(slots);
        }
        for (int kind = 0; kind < 7; kind++)
            vet(pack, sizeof sample, kind % 4, (uint8_t)kind, INK_FORECAST_BYTES - one[0]);
        release(work);
        release(result);
        release(lent);
    }
    free(c.ends);
    free(c.defined);
    free(pack);
}

/* The packs of a stream. */
static int stream(const char *path) {
    FILE *file = fopen(path, "rb");
    if (!file)
        return 0;
    for (int length; (length = fgetc(file)) != EOF;) {
        char name[256] = {0};
        uint8_t size[3], *bytes;
        if (fread(name, 1, (size_t)length, file) != (size_t)length || fread(size, 1, 3, file) != 3)
            break;
        size_t len = size[0] + 256 * (size[1] + 256 * (size_t)size[2]);
        bytes = block(len);
        if (fread(bytes, 1, len, file) == len) {
            printf("%s:\n", name);
            whole(bytes, len, 1);
        }
        free(bytes);
    }
    fclose(file);
    return 1;
}

/* A pack whose last byte is beyond its block. */
static void beyond(void) {
    uint8_t *pack = copy(sample, sizeof sample - 1);
    printf("%" PRIu32 "\n", ink_check(pack, sizeof sample));
    free(pack);
}

int main(int argc, char **argv) {
    if (argc == 1) {
        beyond();
        return 0;
    }
    if (argc != 2 || !stream(argv[1])) {
        fprintf(stderr, "usage: lent [STREAM]\n");
        return 2;
    }
    damaged();
    lengths();
    fprintf(stderr, "lent: %lu calls, %lu differing\n", calls, differing);
    return differing != 0;
}
