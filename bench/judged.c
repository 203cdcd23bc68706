/* sheets CLINGO PROGRAM PLAN: judges a sheet of 256 settled positions of a plan by the proved library, once by one call of
 * lucarnecress_judge_sheet and once by 256 calls of lucarnecress_judge, and lets clingo check the same 256 in one process: PROGRAM has the plan's
 * rules, and a second file a choice of one place and the constraints that its position is the answer set. The sheet has the positions of the plan's
 * last list in turn, and again from the first. Runs alternate; times are medians of the processor's time. Prints a row of a Markdown table. */
#define _DEFAULT_SOURCE
#include <fcntl.h>
#include <inttypes.h>
#include <stdio.h>
#include <stdlib.h>
#include <string.h>
#include <sys/resource.h>
#include <sys/wait.h>
#include <time.h>
#include <unistd.h>

#include "lucarnecress.h"

enum { PLAN_BYTES = 4096, PLACES = LUCARNECRESS_ALL_SETTLED, BYTES = LUCARNECRESS_POSITION_BYTES, RUNS = 15, CALLS = 20 };

static uint8_t plan[PLAN_BYTES], sheet[PLACES * BYTES];
static uint64_t list[PLACES];
static size_t length;

/* The plan's last list, in turn and again; 0 if it has no position or cannot be listed. */
static uint64_t fill_sheet(void)
{
    static uint64_t table[LUCARNECRESS_TABLE_WORDS];
    uint64_t counts[LUCARNECRESS_COUNTS];
    lucarnecress_list(plan, length, table, LUCARNECRESS_TABLE_WORDS, counts, LUCARNECRESS_COUNTS);
    uint64_t positions = counts[LUCARNECRESS_LAST_COUNT];
    for (size_t place = 0; place < PLACES && positions != 0; place++) {
        list[place] = table[LUCARNECRESS_LAST_LIST + place % positions];
        for (size_t byte = 0; byte < BYTES; byte++)
            sheet[place * BYTES + byte] = (uint8_t)(list[place] >> 8 * byte);
    }
    return positions;
}

static double milliseconds(struct timeval time)
{
    return 1e3 * (double)time.tv_sec + 1e-3 * (double)time.tv_usec;
}

static double now(void)
{
    struct timespec time;
    clock_gettime(CLOCK_THREAD_CPUTIME_ID, &time);
    return 1e3 * (double)time.tv_sec + 1e-6 * (double)time.tv_nsec;
}

static double by_sheet(uint64_t *reply)
{
    double start = now();
    for (size_t call = 0; call < CALLS; call++)
        *reply = lucarnecress_judge_sheet(plan, length, sheet, sizeof sheet);
    return (now() - start) / CALLS;
}

/* How many are settled, each by a call of its own. */
static double by_positions(uint64_t *settled)
{
    double start = now();
    for (size_t call = 0; call < CALLS; call++) {
        *settled = 0;
        for (size_t place = 0; place < PLACES; place++)
            *settled += lucarnecress_judge(plan, length, list[place]);
    }
    return (now() - start) / CALLS;
}

/* The places, and which atoms each has up: an answer set for each place whose position is one. */
static void write_places(const char *path)
{
    FILE *file = fopen(path, "w");
    fprintf(file, "1 { at(0..%d) } 1.\n:- at(P), up(P, A), not is(A).\n:- at(P), is(A), not up(P, A).\n", PLACES - 1);
    for (unsigned atom = 0; atom < 64; atom++)
        fprintf(file, "is(%u) :- a%u.\n", atom, atom);
    for (size_t place = 0; place < PLACES; place++)
        for (unsigned atom = 0; atom < 64; atom++)
            if (list[place] >> atom & 1)
                fprintf(file, "up(%zu,%u).\n", place, atom);
    fclose(file);
}

/* One process of clingo, what it prints thrown away: its user and system time. */
static double by_clingo(const char *clingo, const char *program, const char *places)
{
    struct rusage usage;
    pid_t child = fork();
    if (child == 0) {
        int nowhere = open("/dev/null", O_WRONLY);
        dup2(nowhere, 1);
        dup2(nowhere, 2);
        execl(clingo, clingo, "-n", "0", "-q", program, places, (char *)NULL);
        _exit(127);
    }
    wait4(child, NULL, 0, &usage);
    return milliseconds(usage.ru_utime) + milliseconds(usage.ru_stime);
}

/* How many places clingo finds. */
static unsigned clingo_places(const char *clingo, const char *program, const char *places)
{
    char command[1024], line[256];
    unsigned found = 0;
    snprintf(command, sizeof command, "%s -n 0 -q %s %s 2>/dev/null", clingo, program, places);
    FILE *output = popen(command, "r");
    while (fgets(line, sizeof line, output) != NULL)
        sscanf(line, "Models : %u", &found);
    pclose(output);
    return found;
}

static int by_size(const void *a, const void *b)
{
    double x = *(const double *)a, y = *(const double *)b;
    return (x > y) - (x < y);
}

static double median(double *times)
{
    qsort(times, RUNS, sizeof *times, by_size);
    return times[RUNS / 2];
}

int main(int count, char **arguments)
{
    static const char places[] = "target/bench/places.lp";
    double times[3][RUNS];
    uint64_t reply = 0, settled = 0;
    FILE *file = count == 4 ? fopen(arguments[3], "rb") : NULL;
    if (file == NULL)
        return 2;
    length = fread(plan, 1, sizeof plan, file);
    fclose(file);
    uint64_t positions = fill_sheet();
    if (positions == 0)
        return 0;
    write_places(places);
    for (size_t run = 0; run < RUNS; run++) {
        times[0][run] = by_sheet(&reply);
        times[1][run] = by_positions(&settled);
        times[2][run] = by_clingo(arguments[1], arguments[2], places);
    }
    const char *name = strrchr(arguments[3], '/');
    double one = median(times[0]), each = median(times[1]), clingo = median(times[2]);
    printf("| %s | %" PRIu64 " | %.3f | %.3f | %.2f | %.1f | %.3f | %u |\n", name == NULL ? arguments[3] : name + 1, positions, one, each, one / each, clingo,
           one / clingo, clingo_places(arguments[1], arguments[2], places));
    if (reply == PLACES && settled == PLACES)
        return 0;
    puts("the sheet does not pass");
    return 1;
}
