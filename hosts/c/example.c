/* Runs every sheet of a pack with all slots Void and prints what the program sheetrun prints: example [PACK], the sample of document 01
 * where no file is named. Build and run it from the repository's root, after `rt lib` in crates/ink_operators:
 *     cc -O2 -Wall -Wextra -Ihosts/include hosts/c/example.c -Lcrates/ink_operators/out -link_operators -o /tmp/example && /tmp/example
 */
#include <inttypes.h>
#include <stdio.h>
#include <stdlib.h>
#include <string.h>

#include "ink_environment.h"
#include "ink_operators.h"

static const uint8_t sample[] = {
    0x01, 0x01, 0x01, 0x02, 0x14, 0x00, 0x0d, 0x00, 0x21, 0x00, 0x0d, 0x00, 0x2e, 0x00, 0x08, 0x00, 0x36, 0x00, 0x0b, 0x00, 0x03, 0x01,
    0x00, 0x00, 0x00, 0x02, 0x00, 0x00, 0x00, 0x03, 0x00, 0x00, 0x00, 0x01, 0x00, 0x00, 0x00, 0x00, 0x00, 0x00, 0x00, 0x01, 0x02, 0x00,
    0x00, 0x00, 0x23, 0x00, 0x21, 0x01, 0x00, 0x00, 0x00, 0x00, 0x21, 0x07, 0x00, 0x00, 0x00, 0x21, 0x00, 0x00, 0x00, 0x00, 0x02,
};

/* One byte more than a pack may have, so that a longer input is seen to be too long. */
static uint8_t pack[65536];
static uint16_t work_items[INK_WORK_PLACES], result_items[INK_RESULT_PLACES];
static int32_t work_values[INK_WORK_PLACES], result_values[INK_RESULT_PLACES];

static void print_value(const uint64_t value[3]) {
    switch (value[0]) {
    case 0:
        printf(" B %" PRIu64, value[1]);
        break;
    case 1:
        printf(" I %" PRId32, (int32_t)(uint32_t)value[1]);
        break;
    case 2:
        printf(" F %08" PRIx32, (uint32_t)value[1]);
        break;
    case 3: {
        uint64_t length = value[2] >> 32;
        printf(" L %" PRIu64, length);
        for (uint64_t i = 0; i < length; i++)
            printf(" %u=%" PRId32, result_items[i], result_values[i]);
        break;
    }
    default:
        printf(" V");
    }
}

static size_t read_pack(int argc, char **argv) {
    if (argc < 2) {
        memcpy(pack, sample, sizeof sample);
        return sizeof sample;
    }
    FILE *file = fopen(argv[1], "rb");
    size_t length = file ? fread(pack, 1, sizeof pack, file) : 0;
    if (!file || ferror(file)) {
        perror(argv[1]);
        exit(2);
    }
    fclose(file);
    return length;
}

int main(int argc, char **argv) {
    size_t length = read_pack(argc, argv);
    uint32_t refused = ink_check(pack, length);
    if (refused) {
        printf("pack R %" PRIu32 "\n", refused);
        return 0;
    }
    uint64_t slots[48] = {0};
    for (int k = 0; k < 16; k++)
        slots[3 * k] = 4;
    /* the slots have no Lists, so their slices are empty */
    const uint16_t no_items[1] = {0};
    const int32_t no_values[1] = {0};
    size_t sheets = pack[3];
    /* the words that Float operators work by, whatever this program was linked with */
    uint32_t own = ink_environment_enter();
    printf("sheets %zu\n", sheets);
    for (size_t sheet = 0; sheet < sheets; sheet++) {
        uint64_t answer[3];
        uint32_t number = ink_run(pack, length, sheet, slots, no_items, 0, no_values, 0, work_items, INK_WORK_PLACES, work_values,
                                  INK_WORK_PLACES, result_items, INK_RESULT_PLACES, result_values, INK_RESULT_PLACES, answer);
        printf("%zu", sheet);
        if (number)
            printf(" R %" PRIu32 " %" PRIu64, number, answer[0]);
        else
            print_value(answer);
        printf("\n");
    }
    ink_environment_leave(own);
    if (fflush(stdout)) {
        perror("standard output");
        return 1;
    }
    return 0;
}
