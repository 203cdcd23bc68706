/* rows: a list of 256 positions as rows and back, by the proved library and by the same in C, once bit by bit and once by exchanging half
 * blocks of 64 by 64 bits. Runs alternate; the time is the median for one call. All three must write the same words. */
#define _POSIX_C_SOURCE 200809L
#include <stdio.h>
#include <stdlib.h>
#include <string.h>
#include <time.h>

#include "lucarnecress.h"

enum { WORDS = LUCARNECRESS_LIST_WORDS, ROW = LUCARNECRESS_ROW_WORDS, RUNS = 31, CALLS = 2000 };

typedef void way(const uint64_t *from, size_t count, uint64_t *to);

static uint64_t state = 1;

/* splitmix64 */
static uint64_t drawn(void)
{
    uint64_t mixed = state += 0x9e3779b97f4a7c15u;
    mixed = (mixed ^ mixed >> 30) * 0xbf58476d1ce4e5b9u;
    mixed = (mixed ^ mixed >> 27) * 0x94d049bb133111ebu;
    return mixed ^ mixed >> 31;
}

__attribute__((noinline)) static void rows_by_bits(const uint64_t *list, size_t count, uint64_t *rows)
{
    memset(rows, 0, WORDS * sizeof *rows);
    for (size_t i = 0; i < 64; i++)
        for (size_t j = 0; j < count; j++)
            rows[ROW * i + j / 64] |= (list[j] >> i & 1) << j % 64;
}

__attribute__((noinline)) static void positions_by_bits(const uint64_t *rows, size_t count, uint64_t *list)
{
    memset(list, 0, WORDS * sizeof *list);
    for (size_t i = 0; i < 64; i++)
        for (size_t j = 0; j < count; j++)
            list[j] |= (rows[ROW * i + j / 64] >> j % 64 & 1) << i;
}

/* Half blocks of 32, 16, .. 1 words and bits, in place. */
static void turn(uint64_t *block)
{
    uint64_t mask = 0x00000000ffffffff;
    for (unsigned half = 32; half != 0; half >>= 1, mask ^= mask << half)
        for (unsigned k = 0; k < 64; k = (k + half + 1) & ~half) {
            uint64_t across = (block[k] >> half ^ block[k + half]) & mask;
            block[k + half] ^= across;
            block[k] ^= across << half;
        }
}

__attribute__((noinline)) static void rows_by_blocks(const uint64_t *list, size_t count, uint64_t *rows)
{
    for (size_t q = 0; q < ROW; q++) {
        uint64_t block[64];
        for (size_t k = 0; k < 64; k++)
            block[k] = 64 * q + k < count ? list[64 * q + k] : 0;
        turn(block);
        for (size_t i = 0; i < 64; i++)
            rows[ROW * i + q] = block[i];
    }
}

__attribute__((noinline)) static void positions_by_blocks(const uint64_t *rows, size_t count, uint64_t *list)
{
    for (size_t q = 0; q < ROW; q++) {
        uint64_t block[64];
        for (size_t i = 0; i < 64; i++)
            block[i] = rows[ROW * i + q];
        turn(block);
        for (size_t k = 0; k < 64; k++)
            list[64 * q + k] = 64 * q + k < count ? block[k] : 0;
    }
}

static void rows_proved(const uint64_t *list, size_t count, uint64_t *rows)
{
    lucarnecress_rows(list, WORDS, count, rows, WORDS);
}

static void positions_proved(const uint64_t *rows, size_t count, uint64_t *list)
{
    lucarnecress_positions_of_rows(rows, WORDS, count, list, WORDS);
}

static double seconds(void)
{
    struct timespec now;
    clock_gettime(CLOCK_MONOTONIC, &now);
    return (double)now.tv_sec + 1e-9 * (double)now.tv_nsec;
}

static int by_size(const void *a, const void *b)
{
    double x = *(const double *)a, y = *(const double *)b;
    return (x > y) - (x < y);
}

/* One line of the table: the medians of the three ways over the same area. */
static int measure(const char *name, size_t count, way *const ways[3])
{
    static uint64_t area[WORDS], written[3][WORDS];
    double times[3][RUNS];
    for (size_t w = 0; w < WORDS; w++)
        area[w] = drawn();
    for (size_t run = 0; run < RUNS; run++)
        for (size_t i = 0; i < 3; i++) {
            size_t calls = i == 1 ? CALLS / 20 : CALLS;
            double start = seconds();
            for (size_t call = 0; call < calls; call++)
                ways[i](area, count, written[i]);
            times[i][run] = 1e9 * (seconds() - start) / (double)calls;
        }
    for (size_t i = 0; i < 3; i++)
        qsort(times[i], RUNS, sizeof times[i][0], by_size);
    double proved = times[0][RUNS / 2], bits = times[1][RUNS / 2], blocks = times[2][RUNS / 2];
    printf("| %s, count %zu | %.0f ns | %.0f ns | %.0f ns | %.2f |\n", name, count, proved, bits, blocks, proved / blocks);
    return memcmp(written[0], written[1], sizeof written[0]) != 0 || memcmp(written[0], written[2], sizeof written[0]) != 0;
}

int main(void)
{
    static way *const there[] = {rows_proved, rows_by_bits, rows_by_blocks};
    static way *const back[] = {positions_proved, positions_by_bits, positions_by_blocks};
    static const size_t counts[] = {256, 200, 1};
    int differ = 0;
    puts("| way | proved | C -O2, bit by bit | C -O2, half blocks | ratio to half blocks |\n|---|---|---|---|---|");
    for (size_t i = 0; i < sizeof counts / sizeof counts[0]; i++) {
        differ |= measure("rows of a list", counts[i], there);
        differ |= measure("list of rows", counts[i], back);
    }
    if (differ)
        puts("the words differ");
    return differ;
}
