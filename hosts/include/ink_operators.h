/* The native operators of Ink, as a static library: libink_operators.a.
 *
 * Every function below is proved to answer what the definitions in crates/ say, for any bytes and any words; the few duties of a caller
 * are named. The numbers of the questions are those of README.md.
 *
 * ENVIRONMENT. A caller's duty for every function but ink_check, ink_vet and ink_definitions: the thread's floating-point control word is
 * the one that threads start with (to the nearest, no flush-to-zero, no denormals-are-zero, exceptions masked). Under another word a
 * Float may differ, or a signal end the program: -ffast-math sets such a word when a program starts. ink_environment.h has a guard.
 *
 * VALUES. A value is three 64-bit words:
 *
 *     Bool     {0, 0 or 1, 0}
 *     Int      {1, the 32 bits of its two's complement, 0}
 *     Float    {2, the 32 bits of its binary32, 0}; every NaN is one, and is written as 7fc00000
 *     List     {3, origin set, start + 2^32 * length}
 *     Void     {4, 0, 0}
 *
 * A List's entries are `length` places from `start` on of two slices that are passed beside the value: item numbers, and the items'
 * values. Its origin set has bit i for definition i. The List of an answer starts at place 0 of the two result slices and has at most 256
 * entries. An operator's List has the origins of its items; where Subtract of two Lists leaves nothing, it keeps the left one's set, so
 * that All and Invert of it give that set's items. Two Lists are equal where they have the same items: their values and origin sets are
 * not compared. Any other three words are no value: question 7 says no to them, where the call gets to it.
 *
 * ANSWERS. A function returns 0 and writes a value to `answer`; or it returns the number of the question that said no (1 to 13, 15, 17 or
 * 18), and writes {index, 0, 0}, the index being the instruction's (0 for questions 1 to 7 and 18 and for all direct calls).
 *
 * MEMORY. The library keeps nothing, allocates nothing and has no state: whatever is passed stays the caller's, is read and written
 * during the call alone, and calls on different memory may run at the same time. A pointer that comes with a length points to that many
 * elements, aligned for their type; an array points to as many as it says. What a call writes to (not `const`) overlaps nothing else that
 * is passed to it. Pointers are not null, also where the length is 0. Lengths are those of the slices, and too short a slice is question
 * 7's no, not an error of the caller's. These are the duties of a caller for every function.
 */
#ifndef INK_OPERATORS_H
#define INK_OPERATORS_H

#include <stddef.h>
#include <stdint.h>

#ifdef __cplusplus
extern "C" {
#endif

/* The places that slices must have at least, or question 7 says no: each of the two result slices, each of the two work slices, the
 * forecast of vetting, and the two tables of a pack's definitions. */
#define INK_RESULT_PLACES 256
#define INK_WORK_PLACES 16384
#define INK_FORECAST_BYTES 2048
#define INK_END_PLACES 64
#define INK_DEFINED_PLACES 256

/* Asks questions 1 to 5 of any bytes. Returns 0, or the number of the first no. Writes nothing. */
uint32_t ink_check(const uint8_t *pack, size_t pack_len);

/* Vets sheet `sheet` of any bytes for slots of sixteen kind codes: questions 1 to 13 and 17.
 * Passed: returns 0, writes two bytes for each instruction to the start of `forecast` (how many values are stacked after it, and the kind
 * code of the topmost) and the count of instructions to `*index`. Every run on slots of those kinds then ends in one value of the kind
 * forecast last, or stops with 15. Refused: returns the number, writes the instruction's index to `*index` and leaves `forecast`
 * unchanged; every run on slots of those kinds stops there with that number, or before it with 15. */
uint32_t ink_vet(const uint8_t *pack, size_t pack_len, size_t sheet, const uint8_t kinds[16],
                 uint8_t *forecast, size_t forecast_len, uint64_t *index);

/* Runs sheet `sheet` of any bytes with sixteen slots (three words each), whose Lists' entries stand in `slot_items` and `slot_values`:
 * questions 1 to 13, 15 and 17. A List that it ends in is written to the start of the result slices; other places of them, and all of them
 * after another end or a refusal, are left as they were. The work slices are scratch: after questions 1 to 7 said yes, the first 16,384
 * places of each are left zero and the later ones as they were; before that all are untouched. `answer` is always written. */
uint32_t ink_run(const uint8_t *pack, size_t pack_len, size_t sheet, const uint64_t slots[48],
                 const uint16_t *slot_items, size_t slot_items_len, const int32_t *slot_values, size_t slot_values_len,
                 uint16_t *work_items, size_t work_items_len, int32_t *work_values, size_t work_values_len,
                 uint16_t *result_items, size_t result_items_len, int32_t *result_values, size_t result_values_len,
                 uint64_t answer[3]);

/* Calls operator `op` (0 to 31 but 17, POW; 31 is range) on the first `count` of three operands, whose Lists' entries stand in `items` and
 * `values`: questions 1 to 5, 7, 8, 10 to 13 and 15. The words of operands from `count` on are not looked at. A List is written to the
 * result slices as by ink_run. `answer` is always written. */
uint32_t ink_call(const uint8_t *pack, size_t pack_len, uint8_t op, size_t count, const uint64_t operands[9],
                  const uint16_t *items, size_t items_len, const int32_t *values, size_t values_len,
                  uint16_t *result_items, size_t result_items_len, int32_t *result_values, size_t result_values_len,
                  uint64_t answer[3]);

/* Casts one operand to the kind of a code: questions 1 to 5, 7 and 18. It has result slices since a List is cast to a List. `answer` is
 * always written. */
uint32_t ink_cast(const uint8_t *pack, size_t pack_len, uint8_t code, const uint64_t operand[3],
                  const uint16_t *items, size_t items_len, const int32_t *values, size_t values_len,
                  uint16_t *result_items, size_t result_items_len, int32_t *result_values, size_t result_values_len,
                  uint64_t answer[3]);

/* Coerces one operand to a Bool: Bool and Int only, and only Int 1 is true. Questions 1 to 5, 7 and 18. `answer` is always written, and
 * nothing else. */
uint32_t ink_coerce_to_bool(const uint8_t *pack, size_t pack_len, const uint64_t operand[3],
                            const uint16_t *items, size_t items_len, const int32_t *values, size_t values_len, uint64_t answer[3]);

/* Coerces one operand to an Int: not List or Void; a Float is cut toward zero and held within the range of an Int, NaN is 0. Questions 1
 * to 5, 7 and 18. `answer` is always written, and nothing else. */
uint32_t ink_coerce_to_int(const uint8_t *pack, size_t pack_len, const uint64_t operand[3],
                           const uint16_t *items, size_t items_len, const int32_t *values, size_t values_len, uint64_t answer[3]);

/* Coerces one operand to a Float: not List or Void; an Int goes to the nearest, ties to the even significand. Questions 1 to 5, 7 and 18.
 * `answer` is always written, and nothing else. */
uint32_t ink_coerce_to_float(const uint8_t *pack, size_t pack_len, const uint64_t operand[3],
                             const uint16_t *items, size_t items_len, const int32_t *values, size_t values_len, uint64_t answer[3]);

/* ---- For a host that keeps a pack and asks questions 1 to 5 once. What each asks of its caller is needed: without it nothing is promised,
 * not even that memory is left alone. */

/* Reads the definitions of a pack. The caller's duty: ink_check returned 0 for these bytes. Writes one past each definition's last item to
 * the start of `ends`, each item's value to the start of `defined`, and how many definitions and items there are to `counts`; places
 * beyond are left as they were. Returns 0; or 7 where a slice has fewer places than INK_END_PLACES or INK_DEFINED_PLACES, and then
 * nothing is written. */
uint32_t ink_definitions(const uint8_t *pack, size_t pack_len, uint16_t *ends, size_t ends_len, int32_t *defined, size_t defined_len,
                         uint64_t counts[2]);

/* ink_run without questions 1 to 5, which have said yes, and without clearing. The caller's duties: ink_check returned 0 for these bytes;
 * `ends` and `defined` are what ink_definitions wrote of them, `definitions` and `items` its counts; and the first 16,384 places of the
 * work slices are zero, as far as they reach. It answers what ink_run answers, and the work slices are left as they were: zero again, so
 * the next call can use them. */
uint32_t ink_run_checked(const uint8_t *pack, size_t pack_len,
                         const uint16_t *ends, size_t definitions, const int32_t *defined, size_t items,
                         size_t sheet, const uint64_t slots[48],
                         const uint16_t *slot_items, size_t slot_items_len, const int32_t *slot_values, size_t slot_values_len,
                         uint16_t *work_items, size_t work_items_len, int32_t *work_values, size_t work_values_len,
                         uint16_t *result_items, size_t result_items_len, int32_t *result_values, size_t result_values_len,
                         uint64_t answer[3]);

/* ink_call without questions 1 to 5. The caller's duty: `ends` and `defined` are what ink_definitions wrote of a pack for which ink_check
 * returned 0, `definitions` and `items` its counts. It answers what ink_call answers for that pack. */
uint32_t ink_call_checked(const uint16_t *ends, size_t definitions, const int32_t *defined, size_t items,
                          uint8_t op, size_t count, const uint64_t operands[9],
                          const uint16_t *list_items, size_t list_items_len, const int32_t *list_values, size_t list_values_len,
                          uint16_t *result_items, size_t result_items_len, int32_t *result_values, size_t result_values_len,
                          uint64_t answer[3]);

/* The same without question 7, for operands that are known to be well formed: lists that a call or a run with this pack gave, or
   that ink_call_checked has taken before. A caller's duty, beside that of ink_call_checked: of the first `count` operands and of the
   result slices question 7 says yes (lists formed as literals of the pack, the two entry slices equally long, 256 places or more
   in each result slice). It answers and writes what ink_call_checked does. */
uint32_t ink_apply(const uint16_t *ends, size_t definitions, const int32_t *defined, size_t items,
                   uint8_t op, size_t count, const uint64_t operands[9],
                   const uint16_t *list_items, size_t list_items_len, const int32_t *list_values, size_t list_values_len,
                   uint16_t *result_items, size_t result_items_len, int32_t *result_values, size_t result_values_len,
                   uint64_t answer[3]);

#ifdef __cplusplus
}
#endif

#endif
