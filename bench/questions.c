/* questions: 64 questions over the longest list of a plan and over a million words, by the proved library and by the same loop in C.
 *
 * Both go through the list once and hold each position against every question. Runs of the two alternate; the time is the median. The
 * lists hold random words with few atoms, the questions ask for few, and both must give the same counts. */
#define _POSIX_C_SOURCE 200809L
#include <stdio.h>
#include <stdlib.h>
#include <string.h>
#include <time.h>

#include "lucarnecress.h"

enum { QUESTIONS = LUCARNECRESS_MAX_QUESTIONS, WORDS = QUESTIONS * LUCARNECRESS_QUESTION_WORDS, RUNS = 31 };

static uint64_t state = 1;

/* splitmix64 */
static uint64_t drawn(void)
{
    uint64_t mixed = state += 0x9e3779b97f4a7c15u;
    mixed = (mixed ^ mixed >> 30) * 0xbf58476d1ce4e5b9u;
    mixed = (mixed ^ mixed >> 27) * 0x94d049bb133111ebu;
    return mixed ^ mixed >> 31;
}

/* The same loop, not inlined into its caller; words and counts are in arrays, as the library has them. */
__attribute__((noinline)) static void count_in_c(const uint64_t *list, size_t length, uint64_t *questions, size_t words)
{
    size_t n = words / LUCARNECRESS_QUESTION_WORDS;
    uint64_t up[QUESTIONS], dropped[QUESTIONS], counts[QUESTIONS] = {0};
    for (size_t i = 0; i < n; i++) {
        up[i] = questions[LUCARNECRESS_QUESTION_WORDS * i + LUCARNECRESS_QUESTION_UP];
        dropped[i] = questions[LUCARNECRESS_QUESTION_WORDS * i + LUCARNECRESS_QUESTION_DROPPED];
    }
    for (size_t at = 0; at < length; at++)
        for (size_t i = 0; i < n; i++)
            counts[i] += ((up[i] & ~list[at]) | (dropped[i] & list[at])) == 0;
    for (size_t i = 0; i < n; i++)
        questions[LUCARNECRESS_QUESTION_WORDS * i + LUCARNECRESS_QUESTION_COUNT] = counts[i];
}

static double seconds(void)
{
    struct timespec now;
    clock_gettime(CLOCK_MONOTONIC, &now);
    return (double)now.tv_sec + 1e-9 * (double)now.tv_nsec;
}

static int by_size(const void *a, const void *b)
{
    double x = *(const double *)a, y = *(const double *)b;
    return (x > y) - (x < y);
}

static double median(double *times)
{
    qsort(times, RUNS, sizeof *times, by_size);
    return times[RUNS / 2];
}

/* One row of the table: each run goes over the list so often that it takes long enough for the clock. */
static void measure(size_t length, size_t often)
{
    uint64_t *list = malloc(length * sizeof *list), proved[WORDS], plain[WORDS];
    double by_library[RUNS], in_c[RUNS];
    for (size_t at = 0; at < length; at++)
        list[at] = drawn() & drawn() & drawn();
    for (size_t i = 0; i < QUESTIONS; i++) {
        proved[3 * i] = UINT64_C(1) << drawn() % 64;
        proved[3 * i + 1] = UINT64_C(1) << drawn() % 64;
        proved[3 * i + 2] = 0;
    }
    memcpy(plain, proved, sizeof plain);
    for (size_t run = 0; run < RUNS; run++) {
        double start = seconds();
        for (size_t i = 0; i < often; i++)
            lucarnecress_count(list, length, proved, WORDS);
        double middle = seconds();
        for (size_t i = 0; i < often; i++)
            count_in_c(list, length, plain, WORDS);
        by_library[run] = (middle - start) / (double)often;
        in_c[run] = (seconds() - middle) / (double)often;
    }
    double library = median(by_library), c = median(in_c), held = (double)length * QUESTIONS;
    printf("| %zu | %.3f | %.3f | %.2f | %.2f | %s |\n", length, 1e3 * library, 1e3 * c, 1e-9 * held / library, library / c,
           memcmp(proved, plain, sizeof plain) == 0 ? "same" : "differ");
    free(list);
}

int main(void)
{
    puts("| words of the list | library ms | C ms | library, positions held against questions, 10^9 a second | ratio | counts |");
    puts("|---:|---:|---:|---:|---:|---|");
    measure(LUCARNECRESS_LIST_WORDS, 2000);
    measure(1000000, 1);
    return 0;
}
