/* Sets of parking bays for C: the proved libraries, in libbays.a. docs/LIBRARY.md tells more.
 *
 * A set is the bays 1 to its last bay, which is from 1 to 65,535, each a member or not. An index is a set in bytes, in one of four forms;
 * its bytes are the caller's. Nothing is allocated, kept between calls or shared between threads: what a call answers follows from what it is
 * passed. On the stack a sheet takes bays into 2 KB of memory, and measuring and filling into up to 9 KB, once for each of the two.
 *
 * Each memory is passed as a pointer and how many elements lie there (of a uint16_t memory numbers, and not bytes). What every call asks of
 * its caller, and cannot test:
 * - a pointer is not null, and is aligned, also where its length is 0: for a memory that there is not pass bays_no_bytes or bays_no_numbers,
 *   or, where it would be written, the address of any element of one's own;
 * - so many elements, and of a struct one, can be read there, or written where the pointer is not to const, and no memory is longer than
 *   PTRDIFF_MAX bytes;
 * - a memory or struct that the call writes to overlaps none of the other memories and structs of the call; those that it only reads may;
 * - nobody else writes to any of them during the call.
 * Every call answers for all contents and numbers else.
 */
#ifndef BAYS_H
#define BAYS_H

#include <stddef.h>
#include <stdint.h>

#ifdef __cplusplus
extern "C" {
#endif

/* The forms of an index. */
enum bays_form { BAYS_PLAIN = 0, BAYS_LIST = 1, BAYS_ZOMBIT = 2, BAYS_PIONEER = 3 };

/* The questions: is a place a member (1 or 0); the next bay of the sort at or after the place; the previous one at or before it; how
 * many bays of the sort lie from 1 to the place; the bay of the sort with this number, counted from 1. Where there is no such bay, the
 * answer is 0. */
enum bays_question { BAYS_HOLDS = 0, BAYS_NEXT = 1, BAYS_PREVIOUS = 2, BAYS_RANK = 3, BAYS_SELECT = 4 };

/* The sorts of bays of a set: its members, and the others. */
enum bays_sort { BAYS_MEMBERS = 0, BAYS_OTHERS = 1 };

/* What was told of an index.
 *
 *                number               first     second    third
 *   plain        not looked at        bits
 *   list         not looked at        numbers
 *   zombit       the block size       U         O         M
 *   pioneer      how many members     starts    sums
 *
 * The lengths are in bytes, that of a list in 16-bit numbers. Where a form has no such part, the length is not looked at. The parts lie one
 * behind the other from the front of the bytes on; a list lies at the front of the numbers. What lies behind is not looked at. A part that
 * is longer than what is left of its memory is what is left, and so mostly of a wrong length. */
typedef struct BaysTold {
    uint32_t form;
    uint32_t last;
    uint32_t number;
    size_t first;
    size_t second;
    size_t third;
} BaysTold;

/* Why a call was refused; all 0 where it was not. A call that was refused has written nothing.
 *
 *   number   1 to 6    a flaw of an index: 1 numbers, 2 length, 3 content, 4 block size, 5 no room, 6 unlawful
 *            7, 9      a place that is 0; one beyond the last place of the round
 *            12 to 14  a number that names nothing: of a form, a question, a sort
 *   part     of a flaw: 1, 2 or 3 for a part, 0 for the numbers
 *   index    1 for the index that is read, or the free bays; 2 for the one that is measured or filled, or the class; 0 for neither
 *
 * Numbers that name nothing are looked for first, then opening refuses, the first index before the second, and then what is called.
 * docs/REFUSALS.md has the numbers 1 to 11. */
typedef struct BaysFault {
    uint32_t number;
    uint32_t part;
    uint32_t index;
} BaysFault;

/* What a round gives when it is closed: bays handed out, stretches taken, and the place. */
typedef struct BaysReport {
    uint32_t handed;
    uint32_t stretches;
    uint32_t place;
} BaysReport;

/* For a memory that there is not. */
static const uint8_t bays_no_bytes[1] = {0};
static const uint16_t bays_no_numbers[1] = {0};

/* Whether the index is opened. Numbers: 1, 2, 3, 4, 6, 12. */
BaysFault bays_open(const BaysTold *told, const uint8_t *bytes, size_t bytes_length, const uint16_t *numbers, size_t numbers_length);

/* Opens the index once and asks one question at each place. answers[k] is the answer at places[k], for as many as both have; behind that,
 * answers are kept. Holds looks at no sort, which must have a name all the same. Numbers: those of opening, 12, 13, 14. */
BaysFault bays_ask(const BaysTold *told, const uint8_t *bytes, size_t bytes_length, const uint16_t *numbers, size_t numbers_length,
                   uint32_t question, uint32_t sort, const uint32_t *places, size_t places_length, uint32_t *answers, size_t answers_length);

/* Tells in *to what the set takes in a form, with blocks of this size if it is zombit. Numbers: those of opening, 4, 12. */
BaysFault bays_measure(const BaysTold *told, const uint8_t *bytes, size_t bytes_length, const uint16_t *numbers, size_t numbers_length,
                       uint32_t form, uint32_t size, BaysTold *to);

/* Fills the set in a form: its parts go to the front of to_bytes, one behind the other, or to the front of to_numbers, and *to is what
 * bays_measure tells, with which it is opened there. What lies behind is kept. Numbers: those of opening, 4, 5, 12. */
BaysFault bays_fill(const BaysTold *told, const uint8_t *bytes, size_t bytes_length, const uint16_t *numbers, size_t numbers_length,
                    uint32_t form, uint32_t size, BaysTold *to, uint8_t *to_bytes, size_t to_bytes_length, uint16_t *to_numbers,
                    size_t to_numbers_length);

/* The calls on two sets: the free bays and a class of bays. Their last bay is the smaller of the two; a common bay is a member of both. */

/* Opens a fresh round, goes to the place, writes one sheet, and closes the round. The sheet is the common bays from the place on, rising,
 * as many as out has room for, and *report is the closing report: as many bays at the front of out as were handed. What lies behind is
 * kept. Numbers: those of opening; 7 where the place is 0, 9 where it is beyond the one behind the last bay, both with index 0; 12. */
BaysFault bays_sheet(const BaysTold *free_told, const uint8_t *free_bytes, size_t free_bytes_length, const uint16_t *free_numbers,
                     size_t free_numbers_length, const BaysTold *class_told, const uint8_t *class_bytes, size_t class_bytes_length,
                     const uint16_t *class_numbers, size_t class_numbers_length, uint32_t place, uint32_t *out, size_t out_length,
                     BaysReport *report);

/* answers[k] is the free bay up to the last bay that is nearest to places[k], the lower at equal distance; 0 for none, and where the place
 * is 0 or beyond the last bay. For as many as both have; behind that, answers are kept. Numbers: those of opening, 12. */
BaysFault bays_nearest(const BaysTold *free_told, const uint8_t *free_bytes, size_t free_bytes_length, const uint16_t *free_numbers,
                       size_t free_numbers_length, const BaysTold *class_told, const uint8_t *class_bytes, size_t class_bytes_length,
                       const uint16_t *class_numbers, size_t class_numbers_length, const uint32_t *places, size_t places_length,
                       uint32_t *answers, size_t answers_length);

/* counts[k] is how many free bays lie from firsts[k] to lasts[k]; 0 where the first is 0 or above the last, or the last is beyond the last
 * bay of both. For as many as all three have; behind that, counts are kept. Numbers: those of opening, 12. */
BaysFault bays_count(const BaysTold *free_told, const uint8_t *free_bytes, size_t free_bytes_length, const uint16_t *free_numbers,
                     size_t free_numbers_length, const BaysTold *class_told, const uint8_t *class_bytes, size_t class_bytes_length,
                     const uint16_t *class_numbers, size_t class_numbers_length, const uint32_t *firsts, size_t firsts_length,
                     const uint32_t *lasts, size_t lasts_length, uint32_t *counts, size_t counts_length);

#ifdef __cplusplus
}
#endif

#endif
