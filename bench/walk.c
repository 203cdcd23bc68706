/* walk SIZE [RUNS]: goes over the settled positions of a plan by the proved library, at most SIZE (up to 256) in a call; the plan comes on standard
 * input. A SIZE of 1 goes by lucarnecress_first and lucarnecress_next, from one position to the next.
 *
 * Without RUNS it writes each position as sixteen hexadecimal digits, one line each. With RUNS it goes that often and writes one line: how many
 * calls a walk makes, the nanoseconds of the slowest one, and its place from 0. The time of a call is the processor's, its median over all walks.
 * A walk that has met MOST positions ends there. */
#define _POSIX_C_SOURCE 200809L
#include <inttypes.h>
#include <stdio.h>
#include <stdlib.h>
#include <time.h>

#include "lucarnecress.h"

enum { PLAN_BYTES = 4096, MOST = 8192, BATCH = 256, CALLS = MOST + 1 };

static uint8_t plan[PLAN_BYTES];
static size_t length, size;

/* Where a walk stands: the positions that the last call found, and how many. */
struct walk {
    uint64_t found[BATCH], count, met;
};

/* One position, from the start or above the one found before it. */
static uint64_t step(struct walk *walk)
{
    uint64_t reply = walk->met == 0 ? lucarnecress_first(plan, length, walk->found, 1)
                                    : lucarnecress_next(plan, length, walk->found[0], walk->found, 1);
    walk->count = reply == LUCARNECRESS_FOUND;
    return reply > LUCARNECRESS_FOUND ? reply : 0;
}

/* As many positions as a call is for, from the start or above the last one found before them. */
static uint64_t leap(struct walk *walk)
{
    uint64_t last = walk->met == 0 ? 0 : walk->found[walk->count - 1];
    return walk->met == 0 ? lucarnecress_first_positions(plan, length, walk->found, size, &walk->count, 1)
                          : lucarnecress_next_positions(plan, length, last, walk->found, size, &walk->count, 1);
}

/* The next call of a walk. Gives the code of a refusal, or 0. */
static uint64_t go_on(struct walk *walk)
{
    uint64_t refused = size == 1 ? step(walk) : leap(walk);
    walk->met += refused ? 0 : walk->count;
    return refused;
}

/* Is another call to be made? A call that is not full has met the last position. */
static int has_more(const struct walk *walk)
{
    return walk->count == size && walk->met < MOST;
}

static int write_positions(void)
{
    struct walk walk = {{0}, 0, 0};
    uint64_t refused;
    do {
        refused = go_on(&walk);
        for (size_t place = 0; !refused && place < walk.count; place++)
            printf("%016" PRIx64 "\n", walk.found[place]);
    } while (!refused && has_more(&walk));
    if (refused)
        fprintf(stderr, "refused %" PRIu64 " at %" PRIu64 "\n", LUCARNECRESS_NUMBER(refused), LUCARNECRESS_SPOT(refused));
    return refused != 0;
}

static double nanoseconds(void)
{
    struct timespec now;
    clock_gettime(CLOCK_THREAD_CPUTIME_ID, &now);
    return 1e9 * (double)now.tv_sec + (double)now.tv_nsec;
}

/* One walk; the time of each call goes to its place, `apart` words from the one before. Gives the number of calls. */
static size_t time_calls(double *times, size_t apart)
{
    struct walk walk = {{0}, 0, 0};
    uint64_t refused;
    size_t place = 0;
    do {
        double start = nanoseconds();
        refused = go_on(&walk);
        times[apart * place++] = nanoseconds() - start;
    } while (!refused && has_more(&walk) && place < CALLS);
    return place;
}

static int by_size(const void *a, const void *b)
{
    double x = *(const double *)a, y = *(const double *)b;
    return (x > y) - (x < y);
}

static void write_slowest(size_t runs)
{
    double *times = malloc(sizeof *times * runs * CALLS), slowest = 0;
    size_t calls = 0, where = 0;
    for (size_t run = 0; run < runs; run++)
        calls = time_calls(times + run, runs);
    for (size_t place = 0; place < calls; place++) {
        double *of_call = times + runs * place;
        qsort(of_call, runs, sizeof *of_call, by_size);
        if (of_call[runs / 2] > slowest) {
            slowest = of_call[runs / 2];
            where = place;
        }
    }
    printf("%zu %.0f %zu\n", calls, slowest, where);
    free(times);
}

int main(int count, char **arguments)
{
    size = count < 2 ? 0 : strtoul(arguments[1], NULL, 10);
    if (size < 1 || size > BATCH) {
        fprintf(stderr, "usage: walk SIZE [RUNS], a SIZE from 1 to %d\n", BATCH);
        return 2;
    }
    length = fread(plan, 1, sizeof plan, stdin);
    if (count < 3)
        return write_positions();
    write_slowest(strtoul(arguments[2], NULL, 10));
    return 0;
}
