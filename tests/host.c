/* A host in C: calls every function of include/lucarnecress.h and checks what it gives. A new function gets a check here and a row in
 * `checks`; tests/host.sh sees that none is left out. The last line is 'N passed, M failed'. */
#include <inttypes.h>
#include <stdio.h>
#include <string.h>

#include "lucarnecress.h"

static unsigned passed, failed;

/* Counts one comparison; a difference is printed. */
static void same(const char *what, uint64_t expected, uint64_t actual)
{
    if (expected == actual) {
        passed++;
        return;
    }
    failed++;
    printf("differs: %s: expected %" PRIu64 ", got %" PRIu64 "\n", what, expected, actual);
}

static uint64_t refusal(uint64_t number, uint64_t spot)
{
    return number * LUCARNECRESS_CODE_STEP + spot;
}

/* Plan P: head {0, 1}; head {2}, positive {0}; a unit for each; the second depends on the first. */
static const uint8_t plan_p[] = {
    0x01, 0x03, 0, 0, 0, 0, 0, 0, 0, 0, 0, 0, 0, 0, 0, 0, 0, 0, 0, 0, 0, 0, 0, 0, 0, /* RULE */
    0x01, 0x04, 0, 0, 0, 0, 0, 0, 0, 1, 0, 0, 0, 0, 0, 0, 0, 0, 0, 0, 0, 0, 0, 0, 0, /* RULE */
    0x02, 0x01, 0, 0, 0, 0, 0, 0, 0,                                                 /* UNIT */
    0x02, 0x02, 0, 0, 0, 0, 0, 0, 0,                                                 /* UNIT */
    0x03, 1, 0,                                                                      /* EDGE */
    0x00                                                                             /* END */
};

/* Where the EDGE of plan P stands, and END in a plan without it. */
#define EDGE_OFFSET 68u
#define UNSEEN_LENGTH 69u

static const uint64_t settled[] = {0x2, 0x5};

/* Plan P without its EDGE: refused 14 at 1. */
static const uint8_t *unseen_plan(void)
{
    static uint8_t plan[UNSEEN_LENGTH];
    memcpy(plan, plan_p, EDGE_OFFSET);
    plan[EDGE_OFFSET] = 0x00;
    return plan;
}

/* Relay 0 or 1, with relay 2 up where the table finds one of the two up alone, and relay 3 where it finds otherwise; then the wrong
 * bytes of a plan with tables. The offsets are those of the TABLE, of its truth word and of the two USEs. */
#define TABLE_OFFSET 0u
#define TRUTH_OFFSET 9u
#define USE_OFFSET 92u
#define SECOND_USE_OFFSET 96u

static const uint8_t plan_tables[] = {
    0x05, 0x03, 0, 0, 0, 0, 0, 0, 0, 0x06, 0, 0, 0, 0, 0, 0, 0,                      /* TABLE */
    0x01, 0x03, 0, 0, 0, 0, 0, 0, 0, 0, 0, 0, 0, 0, 0, 0, 0, 0, 0, 0, 0, 0, 0, 0, 0, /* RULE */
    0x01, 0x04, 0, 0, 0, 0, 0, 0, 0, 0, 0, 0, 0, 0, 0, 0, 0, 0, 0, 0, 0, 0, 0, 0, 0, /* RULE */
    0x01, 0x08, 0, 0, 0, 0, 0, 0, 0, 0, 0, 0, 0, 0, 0, 0, 0, 0, 0, 0, 0, 0, 0, 0, 0, /* RULE */
    0x06, 1, 0, 0,                                                                   /* USE, must be true */
    0x06, 2, 0, 1,                                                                   /* USE, must be false */
    0x02, 0x01, 0, 0, 0, 0, 0, 0, 0,                                                 /* UNIT */
    0x02, 0x06, 0, 0, 0, 0, 0, 0, 0,                                                 /* UNIT */
    0x03, 1, 0,                                                                      /* EDGE */
    0x00                                                                             /* END */
};

static const uint64_t settled_tables[] = {0x5, 0x6};

/* The plan with tables with one byte changed. */
static const uint8_t *changed_tables(size_t offset, uint8_t byte)
{
    static uint8_t plan[sizeof plan_tables];
    memcpy(plan, plan_tables, sizeof plan_tables);
    plan[offset] = byte;
    return plan;
}

/* A plan with tables through every function that takes a plan. */
static void check_tables(void)
{
    static const char sheet_tables[] = "positions 2\n0000000000000005\n0000000000000006\n";
    static const char sheet_bad_use[] = "refused 19 at 96\n";
    static uint64_t table[LUCARNECRESS_TABLE_WORDS];
    uint64_t counts[LUCARNECRESS_COUNTS];
    uint8_t sheet[LUCARNECRESS_SHEET_BYTES];
    const uint8_t *bad_table = changed_tables(TRUTH_OFFSET, 0x10);
    memset(table, 0xa5, sizeof table);
    same("tables, list, truth bit past the rows", refusal(LUCARNECRESS_BAD_TABLE, TABLE_OFFSET),
         lucarnecress_list(bad_table, sizeof plan_tables, table, LUCARNECRESS_TABLE_WORDS, counts, LUCARNECRESS_COUNTS));
    same("tables, list, refused table", 0xa5a5a5a5a5a5a5a5u, table[0]);
    same("tables, judge, truth bit past the rows", refusal(LUCARNECRESS_BAD_TABLE, TABLE_OFFSET),
         lucarnecress_judge(bad_table, sizeof plan_tables, settled_tables[0]));
    same("tables, list, absent rule", refusal(LUCARNECRESS_BAD_USE, USE_OFFSET),
         lucarnecress_list(changed_tables(USE_OFFSET + 1, 3), sizeof plan_tables, table, LUCARNECRESS_TABLE_WORDS, counts,
                           LUCARNECRESS_COUNTS));
    same("tables, list, refused count", 0, counts[LUCARNECRESS_LAST_COUNT]);
    same("tables, list, refused table again", 0xa5a5a5a5a5a5a5a5u, table[LUCARNECRESS_LAST_LIST]);
    same("tables, list", 0,
         lucarnecress_list(plan_tables, sizeof plan_tables, table, LUCARNECRESS_TABLE_WORDS, counts, LUCARNECRESS_COUNTS));
    same("tables, list, count of unit 0", 2, counts[0]);
    same("tables, list, last count", 2, counts[LUCARNECRESS_LAST_COUNT]);
    same("tables, list, first position", settled_tables[0], table[LUCARNECRESS_LAST_LIST]);
    same("tables, list, second position", settled_tables[1], table[LUCARNECRESS_LAST_LIST + 1]);
    same("tables, judge, settled", LUCARNECRESS_SETTLED, lucarnecress_judge(plan_tables, sizeof plan_tables, settled_tables[1]));
    same("tables, judge, table not followed", LUCARNECRESS_NOT_SETTLED, lucarnecress_judge(plan_tables, sizeof plan_tables, 0x1));
    same("tables, judge, a sign of 2", refusal(LUCARNECRESS_BAD_USE, SECOND_USE_OFFSET),
         lucarnecress_judge(changed_tables(SECOND_USE_OFFSET + 3, 2), sizeof plan_tables, 0));
    same("tables, sheet, length", sizeof sheet_tables - 1,
         lucarnecress_sheet(plan_tables, sizeof plan_tables, sheet, sizeof sheet));
    same("tables, sheet, bytes", 0, (uint64_t)(memcmp(sheet, sheet_tables, sizeof sheet_tables - 1) != 0));
    same("tables, sheet, refused", sizeof sheet_bad_use - 1,
         lucarnecress_sheet(changed_tables(SECOND_USE_OFFSET + 2, 1), sizeof plan_tables, sheet, sizeof sheet));
    same("tables, sheet, refused bytes", 0, (uint64_t)(memcmp(sheet, sheet_bad_use, sizeof sheet_bad_use - 1) != 0));
}

/* Plan P that shows relays 1 and 2 alone: its last list and sheet are cut, unit lists and single positions are not. */
#define SHOW_BYTES 9u

static void check_shown(void)
{
    static const char sheet_shown[] = "positions 2\n0000000000000002\n0000000000000004\n";
    static const uint8_t show[SHOW_BYTES + 1] = {0x08, 0x06};
    static const uint8_t uncut[] = {0x5, 0, 0, 0, 0, 0, 0, 0}, cut[] = {0x4, 0, 0, 0, 0, 0, 0, 0};
    static uint64_t table[LUCARNECRESS_TABLE_WORDS];
    uint64_t counts[LUCARNECRESS_COUNTS];
    uint8_t sheet[LUCARNECRESS_SHEET_BYTES];
    uint8_t plan[sizeof plan_p + 2 * SHOW_BYTES];
    memcpy(plan, plan_p, sizeof plan_p - 1);
    memcpy(plan + sizeof plan_p - 1, show, sizeof show);
    same("shown, list", 0,
         lucarnecress_list(plan, sizeof plan_p + SHOW_BYTES, table, LUCARNECRESS_TABLE_WORDS, counts, LUCARNECRESS_COUNTS));
    same("shown, list, last count", 2, counts[LUCARNECRESS_LAST_COUNT]);
    same("shown, list, first position", 0x2, table[LUCARNECRESS_LAST_LIST]);
    same("shown, list, second position", 0x4, table[LUCARNECRESS_LAST_LIST + 1]);
    same("shown, list, unit 0", 0x1, table[0]);
    same("shown, judge, settled", LUCARNECRESS_SETTLED, lucarnecress_judge(plan, sizeof plan_p + SHOW_BYTES, settled[1]));
    same("shown, judge, its cut", LUCARNECRESS_NOT_SETTLED, lucarnecress_judge(plan, sizeof plan_p + SHOW_BYTES, 0x4));
    same("shown, sheet judged, uncut", LUCARNECRESS_ALL_SETTLED,
         lucarnecress_judge_sheet(plan, sizeof plan_p + SHOW_BYTES, uncut, sizeof uncut));
    same("shown, sheet judged, cut", 0, lucarnecress_judge_sheet(plan, sizeof plan_p + SHOW_BYTES, cut, sizeof cut));
    same("shown, sheet, length", sizeof sheet_shown - 1,
         lucarnecress_sheet(plan, sizeof plan_p + SHOW_BYTES, sheet, sizeof sheet));
    same("shown, sheet, bytes", 0, (uint64_t)(memcmp(sheet, sheet_shown, sizeof sheet_shown - 1) != 0));
    memcpy(plan + sizeof plan_p - 1 + SHOW_BYTES, show, sizeof show);
    same("shown, a second SHOW", refusal(LUCARNECRESS_OUT_OF_ORDER, sizeof plan_p - 1 + SHOW_BYTES),
         lucarnecress_judge(plan, sizeof plan, settled[0]));
}

/* Plan P with its sizes declared: it is listed as without them; without its EDGE it is refused, and so is a COUNT behind the first command. */
#define COUNT_BYTES 4u

static void check_counted(void)
{
    static const uint8_t count[COUNT_BYTES] = {0x07, 2, 2, 1};
    static uint64_t table[LUCARNECRESS_TABLE_WORDS];
    uint64_t counts[LUCARNECRESS_COUNTS], found[1];
    uint8_t plan[sizeof plan_p + 2 * COUNT_BYTES];
    memcpy(plan, count, COUNT_BYTES);
    memcpy(plan + COUNT_BYTES, plan_p, sizeof plan_p);
    same("counted, list", 0,
         lucarnecress_list(plan, sizeof plan_p + COUNT_BYTES, table, LUCARNECRESS_TABLE_WORDS, counts, LUCARNECRESS_COUNTS));
    same("counted, list, last count", 2, counts[LUCARNECRESS_LAST_COUNT]);
    same("counted, list, second position", settled[1], table[LUCARNECRESS_LAST_LIST + 1]);
    same("counted, judge", LUCARNECRESS_SETTLED, lucarnecress_judge(plan, sizeof plan_p + COUNT_BYTES, settled[0]));
    memcpy(plan + COUNT_BYTES, unseen_plan(), UNSEEN_LENGTH);
    same("counted, list, a lost EDGE", refusal(LUCARNECRESS_WRONG_COUNT, 0),
         lucarnecress_list(plan, UNSEEN_LENGTH + COUNT_BYTES, table, LUCARNECRESS_TABLE_WORDS, counts, LUCARNECRESS_COUNTS));
    same("counted, list, refused count", 0, counts[LUCARNECRESS_LAST_COUNT]);
    same("counted, list, table untouched", settled[1], table[LUCARNECRESS_LAST_LIST + 1]);
    same("counted, judge, a lost EDGE", refusal(LUCARNECRESS_WRONG_COUNT, 0),
         lucarnecress_judge(plan, UNSEEN_LENGTH + COUNT_BYTES, settled[0]));
    same("counted, first, a lost EDGE", refusal(LUCARNECRESS_WRONG_COUNT, 0),
         lucarnecress_first(plan, UNSEEN_LENGTH + COUNT_BYTES, found, 1));
    memcpy(plan + COUNT_BYTES, count, COUNT_BYTES);
    same("counted, a second COUNT", refusal(LUCARNECRESS_OUT_OF_ORDER, COUNT_BYTES), lucarnecress_judge(plan, sizeof plan, settled[0]));
}

static void check_list(void)
{
    static uint64_t table[LUCARNECRESS_TABLE_WORDS + 1];
    uint64_t counts[LUCARNECRESS_COUNTS];
    memset(table, 0xa5, sizeof table);
    same("list, one word short", refusal(LUCARNECRESS_TABLE_SHORT, LUCARNECRESS_TABLE_WORDS - 1),
         lucarnecress_list(plan_p, sizeof plan_p, table, LUCARNECRESS_TABLE_WORDS - 1, counts, LUCARNECRESS_COUNTS));
    same("list, refused count", 0, counts[LUCARNECRESS_LAST_COUNT]);
    same("list, refused table", 0xa5a5a5a5a5a5a5a5u, table[0]);
    same("list", 0, lucarnecress_list(plan_p, sizeof plan_p, table, LUCARNECRESS_TABLE_WORDS + 1, counts, LUCARNECRESS_COUNTS));
    same("list, last count", 2, counts[LUCARNECRESS_LAST_COUNT]);
    same("list, count of unit 0", 2, counts[0]);
    same("list, count of unit 15", 0, counts[LUCARNECRESS_UNITS - 1]);
    same("list, first position", settled[0], table[LUCARNECRESS_LAST_LIST]);
    same("list, second position", settled[1], table[LUCARNECRESS_LAST_LIST + 1]);
    same("list, zeros behind", 0, table[LUCARNECRESS_LAST_LIST + LUCARNECRESS_LIST_WORDS - 1]);
    same("list, behind the table", 0xa5a5a5a5a5a5a5a5u, table[LUCARNECRESS_TABLE_WORDS]);
    same("list, unseen rule", refusal(LUCARNECRESS_MONOTONIC_UNSEEN, 1),
         lucarnecress_list(unseen_plan(), UNSEEN_LENGTH, table, LUCARNECRESS_TABLE_WORDS, counts, LUCARNECRESS_COUNTS));
}

static void check_judge(void)
{
    same("judge, settled", LUCARNECRESS_SETTLED, lucarnecress_judge(plan_p, sizeof plan_p, settled[1]));
    same("judge, not settled", LUCARNECRESS_NOT_SETTLED, lucarnecress_judge(plan_p, sizeof plan_p, 0x7));
    same("judge, no graph", LUCARNECRESS_SETTLED, lucarnecress_judge(unseen_plan(), UNSEEN_LENGTH, settled[1]));
    same("judge, no bytes", refusal(LUCARNECRESS_TRUNCATED, 0), lucarnecress_judge(plan_p, 0, 0));
}

#define POSITION LUCARNECRESS_POSITION_BYTES
#define MOST LUCARNECRESS_ALL_SETTLED

/* A sheet of 257 settled positions of plan P, each with many repeats; the bytes of a position are the lowest first. */
static uint8_t *settled_sheet(void)
{
    static uint8_t sheet[(MOST + 1) * POSITION];
    memset(sheet, 0, sizeof sheet);
    for (size_t place = 0; place <= MOST; place++)
        sheet[place * POSITION] = (uint8_t)settled[place % 3 != 0];
    return sheet;
}

/* Plan P's reply for the first 256 of them, with position 7, which is not settled, at one place. */
static uint64_t with_wrong(size_t place)
{
    uint8_t *sheet = settled_sheet();
    sheet[place * POSITION] = 0x7;
    return lucarnecress_judge_sheet(plan_p, sizeof plan_p, sheet, MOST * POSITION);
}

static void check_judge_sheet(void)
{
    static const uint8_t highest_first[] = {0, 0, 0, 0, 0, 0, 0, 0x2};
    uint8_t *sheet = settled_sheet();
    same("sheet judged, empty", LUCARNECRESS_ALL_SETTLED, lucarnecress_judge_sheet(plan_p, sizeof plan_p, sheet, 0));
    same("sheet judged, one", LUCARNECRESS_ALL_SETTLED, lucarnecress_judge_sheet(plan_p, sizeof plan_p, sheet, POSITION));
    same("sheet judged, 256 with repeats", LUCARNECRESS_ALL_SETTLED,
         lucarnecress_judge_sheet(plan_p, sizeof plan_p, sheet, MOST * POSITION));
    same("sheet judged, 257", refusal(LUCARNECRESS_BAD_SHEET, 0),
         lucarnecress_judge_sheet(plan_p, sizeof plan_p, sheet, (MOST + 1) * POSITION));
    same("sheet judged, 2,047 bytes", refusal(LUCARNECRESS_BAD_SHEET, 0),
         lucarnecress_judge_sheet(plan_p, sizeof plan_p, sheet, MOST * POSITION - 1));
    same("sheet judged, one byte", refusal(LUCARNECRESS_BAD_SHEET, 0), lucarnecress_judge_sheet(plan_p, sizeof plan_p, sheet, 1));
    same("sheet judged, no graph", LUCARNECRESS_ALL_SETTLED,
         lucarnecress_judge_sheet(unseen_plan(), UNSEEN_LENGTH, sheet, MOST * POSITION));
    same("sheet judged, highest byte first", 0, lucarnecress_judge_sheet(plan_p, sizeof plan_p, highest_first, sizeof highest_first));
    same("sheet judged, the first wrong", 0, with_wrong(0));
    same("sheet judged, one in the middle wrong", 100, with_wrong(100));
    same("sheet judged, the last wrong", MOST - 1, with_wrong(MOST - 1));
    sheet[100 * POSITION] = 0x7;
    same("sheet judged, two wrong", 100, lucarnecress_judge_sheet(plan_p, sizeof plan_p, sheet, MOST * POSITION));
    sheet[0] = 0x7;
    same("sheet judged, 24 before the places", refusal(LUCARNECRESS_BAD_SHEET, 0),
         lucarnecress_judge_sheet(plan_p, sizeof plan_p, sheet, (MOST + 1) * POSITION));
    same("sheet judged, reading before 24", refusal(LUCARNECRESS_TRUNCATED, sizeof plan_p - 1),
         lucarnecress_judge_sheet(plan_p, sizeof plan_p - 1, sheet, (MOST + 1) * POSITION));
}

/* One position after the other, from the start to the end of plan P, then from other positions. */
static void check_walk(void)
{
    uint64_t found[] = {99, 99};
    same("first", LUCARNECRESS_FOUND, lucarnecress_first(plan_p, sizeof plan_p, found, 2));
    same("first, its position", settled[0], found[0]);
    same("first, behind", 99, found[1]);
    same("next", LUCARNECRESS_FOUND, lucarnecress_next(plan_p, sizeof plan_p, settled[0], found, 2));
    same("next, its position", settled[1], found[0]);
    same("next, behind", 99, found[1]);
    found[0] = 99;
    same("next, none left", LUCARNECRESS_NONE_LEFT, lucarnecress_next(plan_p, sizeof plan_p, settled[1], found, 2));
    same("next, above the greatest word", LUCARNECRESS_NONE_LEFT, lucarnecress_next(plan_p, sizeof plan_p, UINT64_MAX, found, 2));
    same("next, none left: nothing written", 99, found[0]);
    same("next, above what is not settled", LUCARNECRESS_FOUND, lucarnecress_next(plan_p, sizeof plan_p, 0x3, found, 1));
    same("next, above what is not settled: its position", settled[1], found[0]);
    same("next, above 0", LUCARNECRESS_FOUND, lucarnecress_next(plan_p, sizeof plan_p, 0, found, 1));
    same("next, above 0: its position", settled[0], found[0]);
    found[0] = 99;
    same("first, no room", LUCARNECRESS_FOUND, lucarnecress_first(plan_p, sizeof plan_p, found, 0));
    same("next, no room", LUCARNECRESS_FOUND, lucarnecress_next(plan_p, sizeof plan_p, 0, found, 0));
    same("first and next, no room: nothing written", 99, found[0]);
}

/* The edges of a walk: position 0, a graph that a list would refuse, a plan without a position, and plans that cannot be read. */
static void check_walk_edges(void)
{
    static const uint8_t end_only[] = {0x00};
    static const uint8_t odd_loop[] = {0x01, 1, 0, 0, 0, 0, 0, 0, 0, 0, 0, 0, 0, 0, 0, 0, 0, 1, 0, 0, 0, 0, 0, 0, 0, 0x00};
    uint64_t found[] = {99, 99};
    same("first, position 0", LUCARNECRESS_FOUND, lucarnecress_first(end_only, sizeof end_only, found, 2));
    same("first, position 0: written", 0, found[0]);
    found[0] = 99;
    same("next, above 0 is not from the start", LUCARNECRESS_NONE_LEFT, lucarnecress_next(end_only, sizeof end_only, 0, found, 2));
    same("first, no graph", LUCARNECRESS_FOUND, lucarnecress_first(unseen_plan(), UNSEEN_LENGTH, found, 2));
    same("first, no graph: its position", settled[0], found[0]);
    same("next, no graph", LUCARNECRESS_FOUND, lucarnecress_next(unseen_plan(), UNSEEN_LENGTH, settled[0], found, 2));
    same("next, no graph: its position", settled[1], found[0]);
    found[0] = 99;
    same("first, none", LUCARNECRESS_NONE_LEFT, lucarnecress_first(odd_loop, sizeof odd_loop, found, 2));
    same("first, no bytes", refusal(LUCARNECRESS_TRUNCATED, 0), lucarnecress_first(plan_p, 0, found, 2));
    same("first, no END", refusal(LUCARNECRESS_TRUNCATED, sizeof plan_p - 1), lucarnecress_first(plan_p, sizeof plan_p - 1, found, 2));
    same("next, no END", refusal(LUCARNECRESS_TRUNCATED, sizeof plan_p - 1),
         lucarnecress_next(plan_p, sizeof plan_p - 1, settled[0], found, 2));
    same("first and next, nothing written", 99, found[0]);
}

/* Several positions in one call: plan P has two. */
static void check_batches(void)
{
    uint64_t found[] = {99, 99, 99}, count[] = {99, 99};
    same("positions", LUCARNECRESS_WRITTEN, lucarnecress_first_positions(plan_p, sizeof plan_p, found, 3, count, 2));
    same("positions, how many", 2, count[0]);
    same("positions, behind the count", 99, count[1]);
    same("positions, the first", settled[0], found[0]);
    same("positions, the second", settled[1], found[1]);
    same("positions, behind", 99, found[2]);
    found[0] = found[1] = 99;
    same("positions, full", LUCARNECRESS_WRITTEN, lucarnecress_first_positions(plan_p, sizeof plan_p, found, 1, count, 1));
    same("positions, full: how many", 1, count[0]);
    same("positions, full: the first", settled[0], found[0]);
    same("positions, full: behind", 99, found[1]);
    same("positions, on", LUCARNECRESS_WRITTEN, lucarnecress_next_positions(plan_p, sizeof plan_p, settled[0], found, 2, count, 1));
    same("positions, on: how many", 1, count[0]);
    same("positions, on: the second", settled[1], found[0]);
    same("positions, none left", LUCARNECRESS_WRITTEN, lucarnecress_next_positions(plan_p, sizeof plan_p, settled[1], found, 2, count, 1));
    same("positions, none left: how many", 0, count[0]);
    same("positions, none left: nothing written", settled[1], found[0]);
    same("positions, no room", LUCARNECRESS_WRITTEN, lucarnecress_first_positions(plan_p, sizeof plan_p, found, 0, count, 0));
    count[0] = 99;
    same("positions, no END", refusal(LUCARNECRESS_TRUNCATED, sizeof plan_p - 1),
         lucarnecress_first_positions(plan_p, sizeof plan_p - 1, found, 3, count, 1));
    same("positions, no END: nothing written", settled[1], found[0]);
    same("positions, no END: nothing counted", 99, count[0]);
}

/* What a sheet lacks. */
static void check_missing(void)
{
    uint8_t *sheet = settled_sheet();
    uint64_t found[] = {99, 99};
    same("missing, full with repeats", LUCARNECRESS_FULL, lucarnecress_missing(plan_p, sizeof plan_p, sheet, MOST * POSITION, found, 2));
    same("missing, full: nothing written", 99, found[0]);
    same("missing, empty", LUCARNECRESS_LACKS, lucarnecress_missing(plan_p, sizeof plan_p, sheet, 0, found, 2));
    same("missing, empty: the least", settled[0], found[0]);
    same("missing, empty: behind", 99, found[1]);
    same("missing, one", LUCARNECRESS_LACKS, lucarnecress_missing(plan_p, sizeof plan_p, sheet, POSITION, found, 2));
    same("missing, one: the other", sheet[0] == settled[0] ? settled[1] : settled[0], found[0]);
    found[0] = 99;
    same("missing, 257", refusal(LUCARNECRESS_BAD_SHEET, 0),
         lucarnecress_missing(plan_p, sizeof plan_p, sheet, (MOST + 1) * POSITION, found, 2));
    same("missing, one byte", refusal(LUCARNECRESS_BAD_SHEET, 0), lucarnecress_missing(plan_p, sizeof plan_p, sheet, 1, found, 2));
    same("missing, reading before 24", refusal(LUCARNECRESS_TRUNCATED, sizeof plan_p - 1),
         lucarnecress_missing(plan_p, sizeof plan_p - 1, sheet, 1, found, 2));
    same("missing, refused: nothing written", 99, found[0]);
    same("missing, no graph", LUCARNECRESS_FULL, lucarnecress_missing(unseen_plan(), UNSEEN_LENGTH, sheet, MOST * POSITION, found, 2));
    same("missing, no room", LUCARNECRESS_LACKS, lucarnecress_missing(plan_p, sizeof plan_p, sheet, 0, found, 0));
}

/* A rule of one head word and two body words, each below 256. */
#define RULE(head, positive, negative) 0x01, head, 0, 0, 0, 0, 0, 0, 0, positive, 0, 0, 0, 0, 0, 0, 0, negative, 0, 0, 0, 0, 0, 0, 0

/* What plans are blamed on: relay 0 or 1 is up, and two pairs of constraints forbid both; a rule that leaves no position by itself; plan P. */
static void check_blame(void)
{
    static const uint8_t two_groups[] = {RULE(3, 0, 0), RULE(0, 1, 0), RULE(0, 2, 0), RULE(0, 0, 2), RULE(0, 0, 1), 0x00};
    static const uint8_t headed_alone[] = {RULE(1, 0, 1), RULE(6, 0, 0), RULE(0, 2, 0), RULE(0, 4, 0), 0x00};
    uint64_t found[] = {99, 99};
    same("blame", LUCARNECRESS_HELD, lucarnecress_blame(two_groups, sizeof two_groups, found, 2));
    same("blame, rules 3 and 4", 0x18, found[0]);
    same("blame, behind", 99, found[1]);
    same("blame, headed rules alone", LUCARNECRESS_HELD, lucarnecress_blame(headed_alone, sizeof headed_alone, found, 2));
    same("blame, headed rules alone: no constraint", 0, found[0]);
    same("blame, a position", LUCARNECRESS_FOUND, lucarnecress_blame(plan_p, sizeof plan_p, found, 1));
    same("blame, a position: the least", settled[0], found[0]);
    same("blame, no graph", LUCARNECRESS_FOUND, lucarnecress_blame(unseen_plan(), UNSEEN_LENGTH, found, 1));
    found[0] = 99;
    same("blame, no room", LUCARNECRESS_HELD, lucarnecress_blame(two_groups, sizeof two_groups, found, 0));
    same("blame, no bytes", refusal(LUCARNECRESS_TRUNCATED, 0), lucarnecress_blame(plan_p, 0, found, 2));
    same("blame, no END", refusal(LUCARNECRESS_TRUNCATED, sizeof plan_p - 1), lucarnecress_blame(plan_p, sizeof plan_p - 1, found, 2));
    same("blame, nothing written", 99, found[0]);
}

static void check_sheet(void)
{
    static const char sheet_p[] = "positions 2\n0000000000000002\n0000000000000005\n";
    static const char sheet_unseen[] = "refused 14 at 1\n";
    uint8_t sheet[LUCARNECRESS_SHEET_BYTES];
    same("sheet, length", sizeof sheet_p - 1, lucarnecress_sheet(plan_p, sizeof plan_p, sheet, sizeof sheet));
    same("sheet, bytes", 0, (uint64_t)(memcmp(sheet, sheet_p, sizeof sheet_p - 1) != 0));
    same("sheet, no room", 0, lucarnecress_sheet(plan_p, sizeof plan_p, sheet, sizeof sheet_p - 2));
    same("sheet, refused", sizeof sheet_unseen - 1, lucarnecress_sheet(unseen_plan(), UNSEEN_LENGTH, sheet, sizeof sheet));
    same("sheet, refused bytes", 0, (uint64_t)(memcmp(sheet, sheet_unseen, sizeof sheet_unseen - 1) != 0));
}

static void check_count(void)
{
    /* A list with a repeat; the last word is no whole question. */
    static const uint64_t list[] = {0x5, 0x2, 0x5, 0x0};
    uint64_t questions[] = {0x4, 0x2, 99, 0x0, 0x0, 99, 0x1, 0x1, 99, 77};
    uint64_t many[LUCARNECRESS_QUESTION_WORDS * (LUCARNECRESS_MAX_QUESTIONS + 1)];
    size_t most = LUCARNECRESS_QUESTION_WORDS * LUCARNECRESS_MAX_QUESTIONS;
    same("count", 0, lucarnecress_count(list, 4, questions, 10));
    same("count, a repeat at each place", 2, questions[LUCARNECRESS_QUESTION_COUNT]);
    same("count, nothing asked", 4, questions[LUCARNECRESS_QUESTION_WORDS + LUCARNECRESS_QUESTION_COUNT]);
    same("count, contradictory", 0, questions[2 * LUCARNECRESS_QUESTION_WORDS + LUCARNECRESS_QUESTION_COUNT]);
    same("count, up word", 0x4, questions[LUCARNECRESS_QUESTION_UP]);
    same("count, dropped word", 0x2, questions[LUCARNECRESS_QUESTION_DROPPED]);
    same("count, behind the last question", 77, questions[9]);
    memset(many, 0, sizeof many);
    same("count, 64 questions", 0, lucarnecress_count(list, 4, many, most));
    same("count, the 64th", 4, many[most - 1]);
    many[most - 1] = 99;
    same("count, 65 questions", refusal(LUCARNECRESS_TOO_MANY_QUESTIONS, 0),
         lucarnecress_count(list, 4, many, most + LUCARNECRESS_QUESTION_WORDS));
    same("count, nothing filled in", 99, many[most - 1]);
}

static void check_common(void)
{
    static const uint64_t list[] = {0x5, 0x7, 0xd};
    uint64_t atoms[] = {99, 99, 99};
    same("common", 0, lucarnecress_common(list, 3, atoms, 3));
    same("common, in all", 0x5, atoms[0]);
    same("common, in some", 0xf, atoms[1]);
    same("common, behind", 99, atoms[2]);
    same("common, empty list", 0, lucarnecress_common(list, 0, atoms, 2));
    same("common, all 64", UINT64_MAX, atoms[0]);
    same("common, none", 0, atoms[1]);
    atoms[1] = 99;
    same("common, room for one", 0, lucarnecress_common(list, 3, atoms, 1));
    same("common, room for one: the second word", 99, atoms[1]);
}

static void check_rows(void)
{
    uint64_t list[LUCARNECRESS_LIST_WORDS], rows[LUCARNECRESS_LIST_WORDS + 1], back[LUCARNECRESS_LIST_WORDS + 1];
    for (size_t j = 0; j < LUCARNECRESS_LIST_WORDS; j++)
        list[j] = j;
    for (size_t w = 0; w <= LUCARNECRESS_LIST_WORDS; w++)
        rows[w] = back[w] = 99;
    same("rows", 0, lucarnecress_rows(list, LUCARNECRESS_LIST_WORDS, 250, rows, LUCARNECRESS_LIST_WORDS + 1));
    same("rows, atom 0: every other position", 0xaaaaaaaaaaaaaaaa, rows[0]);
    same("rows, atom 6: the second 64 positions", UINT64_MAX, rows[LUCARNECRESS_ROW_WORDS * 6 + 1]);
    same("rows, atom 7: behind the count", 0x03ffffffffffffff, rows[LUCARNECRESS_ROW_WORDS * 7 + 3]);
    same("rows, the word behind", 99, rows[LUCARNECRESS_LIST_WORDS]);
    rows[3] = UINT64_MAX;
    same("positions of rows", 0,
         lucarnecress_positions_of_rows(rows, LUCARNECRESS_LIST_WORDS + 1, 250, back, LUCARNECRESS_LIST_WORDS + 1));
    same("positions of rows, there and back", 0, (uint64_t)(memcmp(list, back, 192 * sizeof list[0]) != 0));
    same("positions of rows, a bit of a row", 193, back[192]);
    same("positions of rows, from the count on", 0, back[250]);
    same("positions of rows, the word behind", 99, back[LUCARNECRESS_LIST_WORDS]);
    same("rows, a count of 257", refusal(LUCARNECRESS_NO_SHEET, 0),
         lucarnecress_rows(list, LUCARNECRESS_LIST_WORDS, 257, back, LUCARNECRESS_LIST_WORDS));
    same("rows, a short list", refusal(LUCARNECRESS_NO_SHEET, 0), lucarnecress_rows(list, 255, 1, back, LUCARNECRESS_LIST_WORDS));
    same("positions of rows, a short area", refusal(LUCARNECRESS_NO_SHEET, 0),
         lucarnecress_positions_of_rows(rows, LUCARNECRESS_LIST_WORDS, 1, back, 255));
    same("positions of rows, nothing written", 193, back[192]);
}

static void check_readings(void)
{
    same("number of a reading", 1234, lucarnecress_reading_number(0x1234));
    same("number of what is not measured", LUCARNECRESS_NOT_MEASURED, lucarnecress_reading_number(0xffff));
    same("number of a bad reading", refusal(LUCARNECRESS_BAD_READING, 0), lucarnecress_reading_number(0xfff9));
    same("reading of a number", 0x9999, lucarnecress_reading_of(9999));
    same("reading of 65,535", LUCARNECRESS_NOT_MEASURED, lucarnecress_reading_of(LUCARNECRESS_NOT_MEASURED));
    same("reading of 10,000", refusal(LUCARNECRESS_BAD_READING, 0), lucarnecress_reading_of(10000));
    same("sum", 0x9999, lucarnecress_reading_sum(0x9998, 0x0001));
    same("sum past 9999", LUCARNECRESS_CODE_STEP + 0x0001, lucarnecress_reading_sum(0x9999, 0x0002));
    same("sum, not measured", LUCARNECRESS_NOT_MEASURED, lucarnecress_reading_sum(0xffff, 0x0002));
    same("sum, second bad", refusal(LUCARNECRESS_BAD_READING, 1), lucarnecress_reading_sum(0xffff, 0x00a0));
    same("below", LUCARNECRESS_BELOW, lucarnecress_reading_compare(0x0999, 0x1000));
    same("equal", LUCARNECRESS_EQUAL, lucarnecress_reading_compare(0x1000, 0x1000));
    same("above", LUCARNECRESS_ABOVE, lucarnecress_reading_compare(0x1001, 0x1000));
    same("compared, not measured", LUCARNECRESS_NOT_MEASURED, lucarnecress_reading_compare(0x1001, 0xffff));
}

static void check_largest(void)
{
    static const uint8_t run[] = {0x01, 0x20, 0xff, 0xff, 0x04, 0x56, 0x04, 0x56, 0x0a, 0x00};
    uint64_t found[] = {99, 99, 99};
    same("largest", 1, lucarnecress_reading_largest(run, 8, found, 3));
    same("largest, its reading", 0x0456, found[0]);
    same("largest, its lowest place", 2, found[1]);
    same("largest, behind", 99, found[2]);
    found[0] = 99;
    same("largest, none measured", 0, lucarnecress_reading_largest(run + 2, 2, found, 3));
    same("largest, bad reading", refusal(LUCARNECRESS_BAD_READING, 4), lucarnecress_reading_largest(run, sizeof run, found, 3));
    same("largest, lone byte", refusal(LUCARNECRESS_BAD_READING, 3), lucarnecress_reading_largest(run, 7, found, 3));
    same("largest, nothing written", 99, found[0]);
}

/* Refusals, as a host takes them apart. A sum with a carry is none. */
static void check_codes(void)
{
    uint64_t code = refusal(LUCARNECRESS_LONG_LIST, 9), carried = lucarnecress_reading_sum(0x9999, 0x0002);
    same("number of a code", LUCARNECRESS_LONG_LIST, LUCARNECRESS_NUMBER(code));
    same("spot of a code", 9, LUCARNECRESS_SPOT(code));
    same("a code is a refusal", 1, LUCARNECRESS_IS_REFUSAL(code));
    same("the least code is one", 1, LUCARNECRESS_IS_REFUSAL(refusal(LUCARNECRESS_TABLE_SHORT, 0)));
    same("256 is none", 0, LUCARNECRESS_IS_REFUSAL(LUCARNECRESS_ALL_SETTLED));
    same("nor is the longest sheet", 0, LUCARNECRESS_IS_REFUSAL(LUCARNECRESS_SHEET_BYTES));
    same("a carry", 1, LUCARNECRESS_SUM_CARRY(carried));
    same("a carry, its reading", 0x0001, LUCARNECRESS_SUM_READING(carried));
    same("a carry is no refusal", 0, LUCARNECRESS_READING_IS_REFUSAL(carried));
    same("nor is what is not measured", 0, LUCARNECRESS_READING_IS_REFUSAL(LUCARNECRESS_NOT_MEASURED));
    same("a bad reading is", 1, LUCARNECRESS_READING_IS_REFUSAL(lucarnecress_reading_sum(0x00a0, 0x0002)));
    same("a bad reading is, its number", LUCARNECRESS_BAD_READING, LUCARNECRESS_NUMBER(lucarnecress_reading_number(0x00a0)));
}

/* The plain C: the version, and every refusal in words of its own. */
static void check_told(void)
{
    const char *other = lucarnecress_refusal_text(0);
    same("version", 0, (uint64_t)(strcmp(lucarnecress_version(), LUCARNECRESS_VERSION) != 0));
    same("words", 0, (uint64_t)(strcmp(lucarnecress_refusal_text(LUCARNECRESS_EMPTY_RULE), "a RULE has neither head nor body") != 0));
    for (uint64_t number = 1; number <= LUCARNECRESS_BAD_SHEET; number++)
        same("words of a number", 1, (uint64_t)(strcmp(lucarnecress_refusal_text(number), other) != 0));
    same("words of the number behind", 0, (uint64_t)(strcmp(lucarnecress_refusal_text(LUCARNECRESS_BAD_SHEET + 1), other) != 0));
    same("words of a code", 0, (uint64_t)(strcmp(lucarnecress_refusal_text(refusal(LUCARNECRESS_CYCLE, 0)), other) != 0));
}

/* A command with its operands, at a plan's end; the new length. */
static size_t add(uint8_t *plan, size_t length, uint8_t command, const void *operands, size_t bytes)
{
    plan[length] = command;
    memcpy(plan + length + 1, operands, bytes);
    return length + 1 + bytes;
}

/* The longest plan: every command as often as it may stand. */
static size_t longest_plan(uint8_t *plan)
{
    static const uint8_t numbers[] = {64, 16, 240};
    static const uint64_t none = 0, table[] = {0, 1};
    size_t length = add(plan, add(plan, 0, 0x07, numbers, 3), 0x04, &none, 8);
    for (unsigned i = 0; i < 16; i++)
        length = add(plan, length, 0x05, table, 16);
    for (unsigned i = 0; i < 64; i++)
        length = add(plan, length, 0x01, (const uint64_t[]){(uint64_t)1 << i, 0, 0}, 24);
    for (unsigned i = 0; i < 256; i++)
        length = add(plan, length, 0x06, (const uint8_t[]){(uint8_t)(i / 4), i / 2 % 2, i % 2}, 3);
    for (unsigned i = 0; i < 16; i++)
        length = add(plan, length, 0x02, &none, 8);
    for (unsigned i = 0; i < 256; i++)
        if (i / 16 != i % 16)
            length = add(plan, length, 0x03, (const uint8_t[]){(uint8_t)(i / 16), i % 16}, 2);
    return add(plan, add(plan, length, 0x08, &none, 8), 0x00, &none, 0);
}

/* The header's length of the longest plan; one byte more shows every fault of a longer one. */
static void check_longest(void)
{
    static uint8_t plan[4096];
    static const uint8_t edge[] = {0, 1};
    size_t length = longest_plan(plan);
    same("the longest plan", LUCARNECRESS_PLAN_BYTES, length);
    same("the longest plan reads", 0, LUCARNECRESS_IS_REFUSAL(lucarnecress_judge(plan, length, 0)));
    same("a byte behind it", refusal(LUCARNECRESS_TRAILING_BYTES, length), lucarnecress_judge(plan, length + 1, 0));
    size_t behind_edges = length - 1 - 9;
    add(plan, behind_edges, 0x03, edge, 2);
    same("a 241st EDGE", refusal(LUCARNECRESS_BAD_EDGE, behind_edges), lucarnecress_judge(plan, LUCARNECRESS_PLAN_BYTES + 1, 0));
}

static void (*const checks[])(void) = {check_list,     check_judge, check_judge_sheet, check_walk,     check_walk_edges,
                                       check_blame,    check_sheet, check_count,       check_rows,     check_common,
                                       check_readings, check_largest, check_codes,     check_tables,   check_shown,
                                       check_counted,  check_batches, check_missing, check_told, check_longest};

int main(void)
{
    for (size_t i = 0; i < sizeof checks / sizeof checks[0]; i++)
        checks[i]();
    printf("%u passed, %u failed\n", passed, failed);
    return failed != 0;
}
