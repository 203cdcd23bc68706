/* blame [RUNS]: what a plan is blamed on by the proved library; the plan comes on standard input.
 *
 * Without RUNS it writes `held` or `position` and the word as sixteen hexadecimal digits. With RUNS it asks that often and writes the nanoseconds of a
 * call: the processor's time, its median. */
#define _POSIX_C_SOURCE 200809L
#include <inttypes.h>
#include <stdio.h>
#include <stdlib.h>
#include <time.h>

#include "lucarnecress.h"

enum { PLAN_BYTES = 4096 };

static uint8_t plan[PLAN_BYTES];
static size_t length;

static double nanoseconds(void)
{
    struct timespec now;
    clock_gettime(CLOCK_THREAD_CPUTIME_ID, &now);
    return 1e9 * (double)now.tv_sec + (double)now.tv_nsec;
}

static int by_size(const void *a, const void *b)
{
    double x = *(const double *)a, y = *(const double *)b;
    return (x > y) - (x < y);
}

static void write_time(size_t runs)
{
    double *times = malloc(sizeof *times * runs);
    uint64_t word;
    for (size_t run = 0; run < runs; run++) {
        double start = nanoseconds();
        lucarnecress_blame(plan, length, &word, 1);
        times[run] = nanoseconds() - start;
    }
    qsort(times, runs, sizeof *times, by_size);
    printf("%.0f\n", times[runs / 2]);
    free(times);
}

static int write_blame(void)
{
    uint64_t word = 0, reply = lucarnecress_blame(plan, length, &word, 1);
    if (reply > LUCARNECRESS_FOUND) {
        fprintf(stderr, "refused %" PRIu64 " at %" PRIu64 "\n", LUCARNECRESS_NUMBER(reply), LUCARNECRESS_SPOT(reply));
        return 1;
    }
    printf("%s %016" PRIx64 "\n", reply == LUCARNECRESS_FOUND ? "position" : "held", word);
    return 0;
}

int main(int count, char **arguments)
{
    length = fread(plan, 1, sizeof plan, stdin);
    if (count < 2)
        return write_blame();
    write_time(strtoul(arguments[1], NULL, 10));
    return 0;
}
