/* stacks TABLE FOLDER PLAN.. [--once PLAN..]: how much stack the functions of the proved library take on these plans, seen by painting it before each call.
 * No call may take more than host/stack.py worked out, of whose TABLE a line is a function's name and its bytes, nor more than the header tells. FOLDER has
 * drawn plans, 0.plan and so on; plans behind --once are slow, and walked from their start alone. Then each function is called on a thread that has the
 * stack that the header tells, on a plan whose search goes deep. The last line is 'N passed, M failed'. */
#define _GNU_SOURCE
#include <inttypes.h>
#include <limits.h>
#include <pthread.h>
#include <stdio.h>
#include <stdlib.h>
#include <string.h>
#include <sys/mman.h>
#include <ucontext.h>

#include "lucarnecress.h"

enum { AREA = 1 << 19, PAGE = 4096, ROOM = 4096, BATCH = 40, PLACES = 3, PAINT = 0xa5 };

/* What the caller itself writes below its frame: the functions here that make the calls. */
enum { CALLER = 128 };

/* A call's operands; each job makes one of them. */
static uint8_t plan[ROOM];
static size_t plan_length;
static uint64_t table[LUCARNECRESS_TABLE_WORDS], counts[LUCARNECRESS_COUNTS], found[LUCARNECRESS_LIST_WORDS], count[1], position;
static uint64_t walked[BATCH], walked_count[1];
static uint64_t rows[LUCARNECRESS_LIST_WORDS], questions[LUCARNECRESS_QUESTION_WORDS * LUCARNECRESS_MAX_QUESTIONS];
static uint8_t listed[LUCARNECRESS_LIST_WORDS * LUCARNECRESS_POSITION_BYTES], sheet[LUCARNECRESS_SHEET_BYTES];
static size_t listed_length;
static volatile uint64_t reply;

static void do_list(void) { reply = lucarnecress_list(plan, plan_length, table, LUCARNECRESS_TABLE_WORDS, counts, LUCARNECRESS_COUNTS); }
static void do_judge(void) { reply = lucarnecress_judge(plan, plan_length, position); }
static void do_judge_sheet(void) { reply = lucarnecress_judge_sheet(plan, plan_length, listed, listed_length); }
static void do_first(void) { reply = lucarnecress_first(plan, plan_length, found, 1); }
static void do_next(void) { reply = lucarnecress_next(plan, plan_length, position, found, 1); }
static void do_first_positions(void) { reply = lucarnecress_first_positions(plan, plan_length, walked, BATCH, walked_count, 1); }
static void do_next_positions(void) { reply = lucarnecress_next_positions(plan, plan_length, position, found, BATCH, count, 1); }
static void do_missing(void) { reply = lucarnecress_missing(plan, plan_length, listed, listed_length, found, 1); }
static void do_blame(void) { reply = lucarnecress_blame(plan, plan_length, found, 1); }
static void do_sheet(void) { reply = lucarnecress_sheet(plan, plan_length, sheet, sizeof sheet); }
static void do_count(void) { reply = lucarnecress_count(table, LUCARNECRESS_LIST_WORDS, questions, sizeof questions / sizeof questions[0]); }
static void do_common(void) { reply = lucarnecress_common(table, LUCARNECRESS_LIST_WORDS, found, 2); }
static void do_rows(void) { reply = lucarnecress_rows(table, LUCARNECRESS_LIST_WORDS, 200, rows, LUCARNECRESS_LIST_WORDS); }
static void do_positions_of_rows(void) { reply = lucarnecress_positions_of_rows(rows, LUCARNECRESS_LIST_WORDS, 200, found, LUCARNECRESS_LIST_WORDS); }
static void do_reading_number(void) { reply = lucarnecress_reading_number((uint16_t)position); }
static void do_reading_of(void) { reply = lucarnecress_reading_of(position); }
static void do_reading_sum(void) { reply = lucarnecress_reading_sum((uint16_t)position, 0x9999); }
static void do_reading_compare(void) { reply = lucarnecress_reading_compare((uint16_t)position, 0x5000); }
static void do_reading_largest(void) { reply = lucarnecress_reading_largest(plan, plan_length, found, 2); }

/* A function: what the header tells of it, what was worked out, and the most that was seen, on which plan. */
struct job {
    const char *name;
    void (*run)(void);
    size_t told, worked_out, most;
    const char *on;
};

#define JOB(function, constant) {"lucarnecress_" #function, do_##function, LUCARNECRESS_##constant##_STACK, 0, 0, ""}
static struct job jobs[] = {
    JOB(list, LIST), JOB(judge, JUDGE), JOB(judge_sheet, JUDGE_SHEET), JOB(first, FIRST), JOB(next, NEXT),
    JOB(first_positions, FIRST_POSITIONS), JOB(next_positions, NEXT_POSITIONS), JOB(missing, MISSING), JOB(blame, BLAME), JOB(sheet, SHEET),
    JOB(count, COUNT), JOB(common, COMMON), JOB(rows, ROWS), JOB(positions_of_rows, POSITIONS_OF_ROWS), JOB(reading_number, READING_NUMBER),
    JOB(reading_of, READING_OF), JOB(reading_sum, READING_SUM), JOB(reading_compare, READING_COMPARE), JOB(reading_largest, READING_LARGEST)};
enum { JOBS = sizeof jobs / sizeof jobs[0], SEARCHES = 10 }; /* the first ten search or judge */

static uint8_t *area; /* the painted stack */
static struct job *current;
static uint8_t *frame; /* where the frame of the caller stands on it */

static void on_painted_stack(void)
{
    frame = __builtin_frame_address(0);
    current->run();
}

/* Runs a job on the painted stack. */
static void switch_to(struct job *job)
{
    static ucontext_t here, there;
    current = job;
    getcontext(&there);
    there.uc_stack.ss_sp = area;
    there.uc_stack.ss_size = AREA;
    there.uc_link = &here;
    makecontext(&there, on_painted_stack, 0);
    swapcontext(&here, &there);
}

static const char *running; /* the plan that stands there */

/* How many bytes at the low end of the stack are still painted. */
static size_t painted(void)
{
    static uint8_t page[PAGE];
    size_t clean = 0;
    memset(page, PAINT, sizeof page);
    while (memcmp(area + clean, page, PAGE) == 0)
        clean += PAGE;
    while (area[clean] == PAINT)
        clean++;
    return clean;
}

/* Runs a job, notes how much stack it took, and paints that anew. */
static void run(struct job *job)
{
    switch_to(job);
    size_t clean = painted();
    if ((size_t)(frame - area) - clean > job->most) {
        job->most = (size_t)(frame - area) - clean;
        job->on = running;
    }
    memset(area + clean, PAINT, AREA - clean);
}

/* The positions that a walk from the start has met become a sheet to judge, and one of them a place to go on from. */
static void take_walked(uint64_t *place)
{
    listed_length = walked_count[0] * LUCARNECRESS_POSITION_BYTES;
    memcpy(listed, walked, listed_length);
    if (walked_count[0] > 0)
        *place = walked[walked_count[0] / 2];
}

/* Runs every job on the plan that stands there, first at position 0 and with an empty sheet, then those that search at further positions. */
static void run_all(const char *name, size_t places)
{
    uint64_t place[PLACES] = {0, UINT64_MAX, UINT64_MAX / 2};
    running = name;
    listed_length = walked_count[0] = 0;
    for (size_t i = 0; i < places; i++) {
        position = place[i];
        for (struct job *job = jobs; job < jobs + (i == 0 ? JOBS : SEARCHES); job++)
            run(job);
        if (i == 0)
            take_walked(&place[1]);
    }
}

static int read_plan(const char *path)
{
    FILE *file = fopen(path, "rb");
    if (!file)
        return 0;
    plan_length = fread(plan, 1, sizeof plan, file);
    fclose(file);
    return 1;
}

/* Runs the drawn plans of a folder: how many there are. */
static unsigned run_drawn(const char *folder)
{
    char path[PATH_MAX];
    for (unsigned i = 0;; i++) {
        snprintf(path, sizeof path, "%s/%u.plan", folder, i);
        if (!read_plan(path))
            return i;
        run_all("a drawn plan", PLACES);
    }
}

/* RULE with this head and these bodies, at the end of the plan. */
static void add_rule(uint64_t head, uint64_t positive, uint64_t negative)
{
    const uint64_t sets[3] = {head, positive, negative};
    plan[plan_length++] = 0x01;
    memcpy(plan + plan_length, sets, sizeof sets);
    plan_length += sizeof sets;
}

/* UNIT of all rules, and END. */
static void end_plan(unsigned rules)
{
    const uint64_t unit = rules == 64 ? UINT64_MAX : ((uint64_t)1 << rules) - 1;
    plan[plan_length++] = 0x02;
    memcpy(plan + plan_length, &unit, sizeof unit);
    plan_length += sizeof unit;
    plan[plan_length++] = 0x00;
}

/* Plans whose search goes deep: 64 atoms in one head; the same with constraints that leave few; pairs; a circle of choices that saturates. */
static void run_deep(void)
{
    plan_length = 0;
    add_rule(UINT64_MAX, 0, 0);
    end_plan(1);
    run_all("64 atoms in one head", PLACES);

    plan_length = 0;
    add_rule(UINT64_MAX, 0, 0);
    for (unsigned i = 0; i < 63; i++)
        add_rule(0, (uint64_t)1 << i, 0);
    end_plan(64);
    run_all("64 atoms in one head, one of them left", PLACES);

    plan_length = 0;
    for (unsigned i = 0; i < 32; i++)
        add_rule((uint64_t)3 << 2 * i, 0, 0);
    end_plan(32);
    run_all("32 pairs", PLACES);

    plan_length = 0;
    for (unsigned i = 0; i < 32; i++)
        add_rule((uint64_t)3 << 2 * i, 0, 0);
    for (unsigned i = 0; i < 32; i++)
        add_rule((uint64_t)1 << i | (uint64_t)1 << (i + 32), (uint64_t)1 << (i + 1) % 32, 0);
    end_plan(64);
    run_all("32 pairs over a circle", PLACES);
}

/* What was worked out for each function. */
static int read_table(const char *path)
{
    FILE *file = fopen(path, "r");
    char name[64];
    size_t bytes;
    while (file && fscanf(file, "%63s %zu", name, &bytes) == 2) {
        size_t job = 0;
        while (job < JOBS && strcmp(jobs[job].name, name) != 0)
            job++;
        if (job == JOBS) {
            printf("%s is not called here\n", name);
            return 0;
        }
        jobs[job].worked_out = bytes;
    }
    if (!file || fclose(file) != 0) {
        printf("cannot read %s\n", path);
        return 0;
    }
    return 1;
}

static void *on_thread(void *job)
{
    ((struct job *)job)->run();
    return NULL;
}

/* Calls a job on a thread that has as much stack as the header says. One that needs more crashes. */
static int run_on_thread(struct job *job)
{
    pthread_attr_t attributes;
    pthread_t thread;
    return pthread_attr_init(&attributes) == 0 && pthread_attr_setstacksize(&attributes, job->told + PTHREAD_STACK_MIN) == 0 &&
           pthread_create(&thread, &attributes, on_thread, job) == 0 && pthread_join(thread, NULL) == 0;
}

int main(int arguments, char **argument)
{
    unsigned passed = 0, failed = 0;
    area = mmap(NULL, AREA, PROT_READ | PROT_WRITE, MAP_PRIVATE | MAP_ANONYMOUS, -1, 0);
    if (arguments < 3 || area == MAP_FAILED || !read_table(argument[1])) {
        printf("usage: stacks TABLE FOLDER PLAN.. [--once PLAN..]\n");
        return 2;
    }
    memset(area, PAINT, AREA);
    printf("%u drawn plans, and %d others\n", run_drawn(argument[2]), arguments - 3);
    for (int i = 3, places = PLACES; i < arguments; i++) {
        if (strcmp(argument[i], "--once") == 0) {
            places = 1;
            continue;
        }
        if (!read_plan(argument[i])) {
            printf("cannot read %s\n", argument[i]);
            return 2;
        }
        run_all(argument[i], (size_t)places);
    }
    run_deep();
    plan_length = 0;
    add_rule(UINT64_MAX, 0, 0);
    end_plan(1);
    for (struct job *job = jobs; job < jobs + JOBS; job++) {
        int fits = job->most <= job->worked_out + CALLER && job->worked_out > 0 && job->worked_out <= job->told;
        printf("%s%s: %zu seen, %zu worked out, %zu told (%s)\n", fits ? "" : "TOO MUCH: ", job->name, job->most, job->worked_out, job->told, job->on);
        fflush(stdout);
        fits = fits && run_on_thread(job);
        passed += fits;
        failed += !fits;
    }
    printf("%u passed, %u failed\n", passed, failed);
    return failed != 0;
}
