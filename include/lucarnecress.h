/* Lucarnecress: every settled position of a relay group, for programs in C and C++.
 *
 *     cc $(pkg-config --cflags --libs lucarnecress) host.c       with liblucarnecress.so; behind host.c for liblucarnecress.a
 *
 * Proved are all functions but lucarnecress_version and lucarnecress_refusal_text, which are plain C (the last two here). README and docs/PROOF.md of the
 * repository say what is proved; the macros and constants of this file are not, and are held against the library by its tests.
 *
 * Lent areas. An area passes as a pointer and then its length in elements. The pointer is never NULL, not for length 0 either; it is aligned as its type
 * asks, words to 8 bytes; the area has as many elements as its length says; and no two areas of a call overlap. An area may have any length: what a short
 * one gets is said at each function. Areas that are only read, const here, are not changed, and no function keeps a pointer.
 *
 * Words have 64 bits; a position is a word in which bit i is atom i. Words are handed over in the machine's order. In areas of bytes, plans and
 * sheets, the lowest byte of a word comes first, and in runs of readings the highest.
 *
 * Machine. x86-64-v2, that is x86-64 with SSE4.2 and POPCNT, with the System V calling convention, as on Linux. No function looks whether the processor
 * has them.
 *
 * Threads. No function has a state of its own, takes memory from a heap, opens, locks or waits for anything, or calls back: of the C library memcpy and
 * memset alone are called. So any number of threads may call at the same time, each with areas of its own to write; what is only read may be shared.
 *
 * Stack. Each function needs as much stack as its constant below says (LUCARNECRESS_LIST_STACK and so on) and always returns on so much. On less it may
 * crash: a thread of 64 kB is too small for most.
 *
 * Time. A call cannot be stopped, and nothing is proved about its time. Measured (2026-11-18, lists): at most 30 milliseconds on 226 plans of a
 * benchmark; at most 0.4 seconds on eleven plans that were made to be slow; seconds and longer where one unit uses all 64 atoms and has constraints over the
 * answers of several tables. A plan may take longer than anyone waits. A host that must answer in time makes the call in a process of its own, which it
 * can end (examples/walk.c), or in a thread that it leaves to itself, with areas that stay lent.
 *
 * What a number means (names without LUCARNECRESS_). All functions but those of readings give one number, and a refusal from CODE_STEP on (IS_REFUSAL):
 *
 *     function                                 gives
 *     lucarnecress_list                        0 LISTED
 *     lucarnecress_judge                       0 NOT_SETTLED, 1 SETTLED
 *     lucarnecress_judge_sheet                 0 to 255 the place of the first that is not settled, 256 ALL_SETTLED
 *     lucarnecress_first, _next                0 NONE_LEFT, 1 FOUND
 *     lucarnecress_first_positions,
 *     lucarnecress_next_positions              0 WRITTEN
 *     lucarnecress_missing                     0 FULL, 1 LACKS
 *     lucarnecress_blame                       0 HELD, 1 FOUND
 *     lucarnecress_sheet                       0 NO_ROOM, else the sheet's length; never a refusal, since a plan that is refused has a sheet too
 *     lucarnecress_count, _common, _rows,
 *     lucarnecress_positions_of_rows           0
 *     lucarnecress_reading_number, _of         a number or a reading; 65535 NOT_MEASURED    (READING_IS_REFUSAL)
 *     lucarnecress_reading_sum                 a reading, and 65536 more for a carry; 65535 NOT_MEASURED    (READING_IS_REFUSAL)
 *     lucarnecress_reading_compare             0 BELOW, 1 EQUAL, 2 ABOVE; 65535 NOT_MEASURED    (READING_IS_REFUSAL)
 *     lucarnecress_reading_largest             0 where none is measured, 1 where one is    (READING_IS_REFUSAL)
 */
#ifndef LUCARNECRESS_H
#define LUCARNECRESS_H

#include <stddef.h>
#include <stdint.h>

#ifdef __cplusplus
extern "C" {
#endif

/* The version of this header, which is the tool's too; lucarnecress_version gives the library's. */
#define LUCARNECRESS_VERSION "1.0.0"

/* ---- refusals ---------------------------------------------------------------------------------------------------------------- */

/* The code of a refusal is its number times LUCARNECRESS_CODE_STEP plus its spot, or plus 65,535 where a run of readings has a greater spot. */
#define LUCARNECRESS_CODE_STEP 65536u
#define LUCARNECRESS_IS_REFUSAL(code) ((code) >= LUCARNECRESS_CODE_STEP) /* not for readings: a sum with a carry would read as refusal 1 */
#define LUCARNECRESS_NUMBER(code) ((code) / LUCARNECRESS_CODE_STEP)
#define LUCARNECRESS_SPOT(code) ((code) % LUCARNECRESS_CODE_STEP)

enum {
    LUCARNECRESS_TABLE_SHORT = 1,
    LUCARNECRESS_TRUNCATED = 2,
    LUCARNECRESS_UNKNOWN_COMMAND = 3,
    LUCARNECRESS_OUT_OF_ORDER = 4,
    LUCARNECRESS_TOO_MANY = 5,
    LUCARNECRESS_EMPTY_RULE = 6,
    LUCARNECRESS_ABSENT_RULE = 7,
    LUCARNECRESS_BAD_EDGE = 8,
    LUCARNECRESS_TRAILING_BYTES = 9,
    LUCARNECRESS_RULE_IN_NO_UNIT = 10,
    LUCARNECRESS_HEADED_RULE_IN_SEVERAL = 11,
    LUCARNECRESS_CYCLE = 12,
    LUCARNECRESS_NONMONOTONIC_UNSEEN = 13,
    LUCARNECRESS_MONOTONIC_UNSEEN = 14,
    LUCARNECRESS_LONG_LIST = 15,
    LUCARNECRESS_GIVEN_IN_HEAD = 16,
    LUCARNECRESS_TOO_MANY_QUESTIONS = 17,
    LUCARNECRESS_BAD_TABLE = 18,
    LUCARNECRESS_BAD_USE = 19,
    LUCARNECRESS_BAD_READING = 20,
    LUCARNECRESS_CONTRADICTORY_BODY = 21,
    LUCARNECRESS_NO_SHEET = 22,
    LUCARNECRESS_WRONG_COUNT = 23,
    LUCARNECRESS_BAD_SHEET = 24
};

/* ---- stack ------------------------------------------------------------------------------------------------------------------- */

/* Bytes of stack that a call takes at most, with some to spare: worked out from the frames of the machine code and the proved depth of its recursions,
 * some 4 KiB for memcpy and memset included (host/stack.py of the repository). What the caller and its signal handlers take comes on top, and for a new
 * thread PTHREAD_STACK_MIN. */
#define LUCARNECRESS_LIST_STACK 249856u
#define LUCARNECRESS_JUDGE_STACK 40960u
#define LUCARNECRESS_JUDGE_SHEET_STACK 40960u
#define LUCARNECRESS_FIRST_STACK 274432u
#define LUCARNECRESS_NEXT_STACK 274432u
#define LUCARNECRESS_FIRST_POSITIONS_STACK 274432u
#define LUCARNECRESS_NEXT_POSITIONS_STACK 274432u
#define LUCARNECRESS_MISSING_STACK 278528u
#define LUCARNECRESS_BLAME_STACK 299008u
#define LUCARNECRESS_SHEET_STACK 290816u
#define LUCARNECRESS_COUNT_STACK 8192u
#define LUCARNECRESS_COMMON_STACK 4096u
#define LUCARNECRESS_ROWS_STACK 8192u
#define LUCARNECRESS_POSITIONS_OF_ROWS_STACK 8192u
#define LUCARNECRESS_READING_NUMBER_STACK 4096u
#define LUCARNECRESS_READING_OF_STACK 4096u
#define LUCARNECRESS_READING_SUM_STACK 4096u
#define LUCARNECRESS_READING_COMPARE_STACK 4096u
#define LUCARNECRESS_READING_LARGEST_STACK 4096u
#define LUCARNECRESS_STACK 299008u /* enough for each of them */

/* ---- lists ------------------------------------------------------------------------------------------------------------------- */

#define LUCARNECRESS_LISTED 0u
#define LUCARNECRESS_PLAN_BYTES 3783u  /* no plan that reads well is longer. From a file or a line take one more: longer input gets the same refusal */
#define LUCARNECRESS_UNITS 16u         /* the most units of a plan */
#define LUCARNECRESS_LIST_WORDS 256u   /* words of a list in the table, and the most positions of one */
#define LUCARNECRESS_LAST_LIST 4096u   /* the word of the table where the last list starts; that of unit i starts at 256 * i */
#define LUCARNECRESS_TABLE_WORDS 4352u /* the least length of a table */
#define LUCARNECRESS_COUNTS 17u        /* a count for each unit, then that of the last list */
#define LUCARNECRESS_LAST_COUNT 16u    /* where the count of the last list stands */

/* Lists a plan. The lists go into the table, rising, with zeros behind each; the counts say how many positions each has. Counts are
 * written as far as there is room. The last list has the positions cut to the atoms that the plan shows (SHOW), each cut once; unit lists are
 * not cut. Gives LUCARNECRESS_LISTED, or the code of the refusal: then all counts are 0, and the table is as it was, or for
 * LUCARNECRESS_LONG_LIST its first LUCARNECRESS_TABLE_WORDS words are 0. */
uint64_t lucarnecress_list(const uint8_t *plan, size_t plan_length, uint64_t *table, size_t table_length, uint64_t *counts,
                           size_t counts_length);

/* ---- single positions -------------------------------------------------------------------------------------------------------- */

#define LUCARNECRESS_NOT_SETTLED 0u
#define LUCARNECRESS_SETTLED 1u

/* Judges one position with all its atoms, whatever the plan shows: LUCARNECRESS_SETTLED, LUCARNECRESS_NOT_SETTLED, or the code of a refusal in
 * reading. */
uint64_t lucarnecress_judge(const uint8_t *plan, size_t plan_length, uint64_t position);

/* ---- a whole sheet judged ---------------------------------------------------------------------------------------------------- */

#define LUCARNECRESS_POSITION_BYTES 8u /* bytes of a position, the lowest first */
#define LUCARNECRESS_ALL_SETTLED 256u  /* the most positions of a sheet; places are below it */

/* Judges up to 256 positions in any order, repeats permitted; `length` is that of their bytes. The plan is read once. Gives
 * LUCARNECRESS_ALL_SETTLED where lucarnecress_judge would find each of them settled, and so for an empty sheet; or the place from 0 of the first that
 * is not; or the code of a refusal: of one in reading the plan, and after these LUCARNECRESS_BAD_SHEET at 0 for more than 256 positions or a
 * length that is no multiple of LUCARNECRESS_POSITION_BYTES. A sheet that passes need not be full: other positions may be settled too;
 * lucarnecress_list gives them all. */
uint64_t lucarnecress_judge_sheet(const uint8_t *plan, size_t plan_length, const uint8_t *positions, size_t length);

/* ---- one position after the other -------------------------------------------------------------------------------------------- */

#define LUCARNECRESS_NONE_LEFT 0u
#define LUCARNECRESS_FOUND 1u

/* Finds the least settled position of all, as an unsigned number. Gives LUCARNECRESS_FOUND with the position in found[0], as far as there is
 * room; words behind it are left alone. Or gives LUCARNECRESS_NONE_LEFT, or the code of a refusal in reading, with nothing written. Units and
 * edges are not looked at, and there may be any number of positions. */
uint64_t lucarnecress_first(const uint8_t *plan, size_t plan_length, uint64_t *found, size_t found_length);

/* Finds the least settled position above this one, which need not be settled itself, and gives what lucarnecress_first gives. From the first
 * position on, each call with what the last one found, until none is left, meets every settled position once, rising. Above 0 is not
 * from the start: where 0 is settled, only lucarnecress_first finds it. */
uint64_t lucarnecress_next(const uint8_t *plan, size_t plan_length, uint64_t position, uint64_t *found, size_t found_length);

/* ---- several positions in one call ------------------------------------------------------------------------------------------- */

#define LUCARNECRESS_WRITTEN 0u

/* Fills found with the least settled positions, rising, until it is full or none is left: those that lucarnecress_first and then lucarnecress_next,
 * call by call, would find. Gives LUCARNECRESS_WRITTEN with their number in count[0], as far as there is room; words of found behind them are left
 * alone. A number below found_length says that no other is left. Or gives the code of a refusal in reading, with nothing written. Found may have any
 * length, and one call for many positions is much faster than one call for each. */
uint64_t lucarnecress_first_positions(const uint8_t *plan, size_t plan_length, uint64_t *found, size_t found_length, uint64_t *count,
                                      size_t count_length);

/* The same of the settled positions above this one, which need not be settled itself. After a full call, one above the last position found goes on. */
uint64_t lucarnecress_next_positions(const uint8_t *plan, size_t plan_length, uint64_t position, uint64_t *found, size_t found_length,
                                     uint64_t *count, size_t count_length);

/* ---- what a sheet lacks ------------------------------------------------------------------------------------------------------ */

#define LUCARNECRESS_FULL 0u
#define LUCARNECRESS_LACKS 1u

/* Looks for settled positions that are not among up to 256 positions in any order, repeats permitted; `length` is that of their bytes. Gives
 * LUCARNECRESS_FULL where every settled position is among them, or LUCARNECRESS_LACKS with the least one that is not in found[0], as far as there is
 * room; or the code of a refusal, as lucarnecress_judge_sheet does, with nothing written. The plan may have any number of settled positions.
 * LUCARNECRESS_ALL_SETTLED from lucarnecress_judge_sheet and LUCARNECRESS_FULL from this are given for the same sheet exactly if its positions are, as a set,
 * the settled ones. */
uint64_t lucarnecress_missing(const uint8_t *plan, size_t plan_length, const uint8_t *positions, size_t length, uint64_t *found,
                              size_t found_length);

/* ---- the constraints to blame ----------------------------------------------------------------------------------------------- */

#define LUCARNECRESS_HELD 0u

/* Says which few constraints leave a plan without a position. Gives LUCARNECRESS_HELD with the word of these constraints in found[0]: bit i
 * stands for rule i, and only rules without a head have a bit. With exactly these, the given facts and all rules with a head there is no position,
 * and without any one of them there is one; 0 says that the rules with a head and the given facts have none by themselves. Constraints are tried in
 * rule order; each one whose removal still leaves no position is dropped. The answer is what remains.
 * A plan that has a position gives LUCARNECRESS_FOUND with the least one in found[0], all its atoms, as lucarnecress_first does. A word is
 * written as far as there is room; words behind it are left alone. Or gives the code of a refusal in reading, with nothing written. Units and
 * edges are not looked at. */
uint64_t lucarnecress_blame(const uint8_t *plan, size_t plan_length, uint64_t *found, size_t found_length);

/* ---- sheets ------------------------------------------------------------------------------------------------------------------ */

#define LUCARNECRESS_NO_ROOM 0u
#define LUCARNECRESS_SHEET_BYTES 4366u /* no sheet is longer */

/* Writes the plan's sheet, that of a refused one too: `refused R at S`. Gives its length in bytes, or LUCARNECRESS_NO_ROOM where the area is too short; then
 * nothing is written. The sheet does not end in a zero byte. */
uint64_t lucarnecress_sheet(const uint8_t *plan, size_t plan_length, uint8_t *sheet, size_t sheet_length);

/* ---- questions over a list --------------------------------------------------------------------------------------------------- */

#define LUCARNECRESS_MAX_QUESTIONS 64u  /* the most questions of a call */
#define LUCARNECRESS_QUESTION_WORDS 3u  /* words of a question: */
#define LUCARNECRESS_QUESTION_UP 0u     /* the atoms that are up, */
#define LUCARNECRESS_QUESTION_DROPPED 1u /* those that are dropped, */
#define LUCARNECRESS_QUESTION_COUNT 2u  /* and the count, which is filled in */

/* Counts for each question the places of the list whose position has every up atom and no dropped one. There are as many questions as
 * the words have room for; up to two words behind the last are left alone. Gives 0, or the code of LUCARNECRESS_TOO_MANY_QUESTIONS with
 * nothing filled in. */
uint64_t lucarnecress_count(const uint64_t *list, size_t list_length, uint64_t *questions, size_t questions_length);

/* Writes the atoms up in all listed positions to atoms[0] and those up in some to atoms[1], as far as there is room. For an empty list
 * these are all 64 and none. Gives 0. */
uint64_t lucarnecress_common(const uint64_t *list, size_t list_length, uint64_t *atoms, size_t atoms_length);

/* ---- a sheet by relay -------------------------------------------------------------------------------------------------------- */

#define LUCARNECRESS_ROW_WORDS 4u /* words of a row, a bit for each position of a list */

/* Rearranges the first `count` positions of a list into 64 rows: bit j of row i says whether position j has atom i up. Row i starts at word
 * LUCARNECRESS_ROW_WORDS * i, and bit j is bit j % 64 of its word j / 64; bits from the count on are 0. The first LUCARNECRESS_LIST_WORDS words of
 * the rows are written and those behind left alone. Gives 0, or LUCARNECRESS_NO_SHEET at 0, with nothing written, where the list or the rows have
 * fewer words than that or the count is above it. */
uint64_t lucarnecress_rows(const uint64_t *list, size_t list_length, uint64_t count, uint64_t *rows, size_t rows_length);

/* The way back: writes the positions below the count and 0 in the rest of the list's first LUCARNECRESS_LIST_WORDS words. Bits of the rows
 * from the count on are not looked at. Gives what lucarnecress_rows gives. */
uint64_t lucarnecress_positions_of_rows(const uint64_t *rows, size_t rows_length, uint64_t count, uint64_t *list, size_t list_length);

/* ---- drop-away readings in packed decimal ------------------------------------------------------------------------------------ */

/* A reading is four decimal digits, four bits each, highest first: 0x1234 is 1234 tenths of a millisecond. */
#define LUCARNECRESS_NOT_MEASURED 65535u /* 0xffff, the one reading whose digits may be above 9 */
/* Of a number that these functions give; a reading or a number is below LUCARNECRESS_CODE_STEP, and a sum has a carry of one such step. */
#define LUCARNECRESS_READING_IS_REFUSAL(code) ((code) >= LUCARNECRESS_BAD_READING * LUCARNECRESS_CODE_STEP)
#define LUCARNECRESS_SUM_READING(code) ((code) % LUCARNECRESS_CODE_STEP)
#define LUCARNECRESS_SUM_CARRY(code) ((code) / LUCARNECRESS_CODE_STEP)
#define LUCARNECRESS_BELOW 0u
#define LUCARNECRESS_EQUAL 1u
#define LUCARNECRESS_ABOVE 2u

/* The whole number of a reading; LUCARNECRESS_NOT_MEASURED stays so. A digit above 9 is LUCARNECRESS_BAD_READING at 0. */
uint64_t lucarnecress_reading_number(uint16_t reading);

/* The reading of a whole number; LUCARNECRESS_NOT_MEASURED stays so. Any other number above 9999 is LUCARNECRESS_BAD_READING at 0. */
uint64_t lucarnecress_reading_of(uint64_t number);

/* The sum of two readings modulo 10,000 as a reading (LUCARNECRESS_SUM_READING), and LUCARNECRESS_CODE_STEP more where it passes 9999
 * (LUCARNECRESS_SUM_CARRY). With one that is not measured the sum is
 * not measured. A bad reading is refused at 0 or 1, the first one counting. */
uint64_t lucarnecress_reading_sum(uint16_t a, uint16_t b);

/* A reading against a limit: LUCARNECRESS_BELOW, LUCARNECRESS_EQUAL, LUCARNECRESS_ABOVE, or LUCARNECRESS_NOT_MEASURED. Refused as a sum is. */
uint64_t lucarnecress_reading_compare(uint16_t reading, uint16_t limit);

/* The largest measured reading of a run of bytes, two to a reading, the high one first. Gives 1, with the reading in found[0] and its lowest
 * place, in readings from 0, in found[1], as far as there is room; or 0 where none is measured. A bad reading, or a lone last byte, is refused
 * at its place. In these two cases nothing is written. */
uint64_t lucarnecress_reading_largest(const uint8_t *bytes, size_t bytes_length, uint64_t *found, size_t found_length);

/* ---- plain C, not proved ----------------------------------------------------------------------------------------------------- */

/* The version of the library: LUCARNECRESS_VERSION of the header that it was built with. */
const char *lucarnecress_version(void);

/* A refusal's number in words, as LUCARNECRESS_NUMBER gives it: those of the tool lucarne, without names and places. Never NULL: for other numbers it is
 * "no refusal has this number". */
const char *lucarnecress_refusal_text(uint64_t number);

#ifdef __cplusplus
}
#endif

#endif
