/* list < PLAN: every settled position of a plan, sixteen hexadecimal digits each, as the plan's sheet has them.
 *
 *     cc $(pkg-config --cflags --libs lucarnecress) list.c -o list */
#include <inttypes.h>
#include <lucarnecress.h>
#include <stdio.h>

int main(void)
{
    static uint8_t plan[LUCARNECRESS_PLAN_BYTES + 1];
    static uint64_t table[LUCARNECRESS_TABLE_WORDS], counts[LUCARNECRESS_COUNTS];
    size_t length = fread(plan, 1, sizeof plan, stdin);
    uint64_t code = lucarnecress_list(plan, length, table, LUCARNECRESS_TABLE_WORDS, counts, LUCARNECRESS_COUNTS);
    if (LUCARNECRESS_IS_REFUSAL(code)) {
        printf("refused %" PRIu64 " at %" PRIu64 "\n", LUCARNECRESS_NUMBER(code), LUCARNECRESS_SPOT(code));
        fprintf(stderr, "list: %s\n", lucarnecress_refusal_text(LUCARNECRESS_NUMBER(code)));
        return 2;
    }
    printf("positions %" PRIu64 "\n", counts[LUCARNECRESS_LAST_COUNT]);
    for (uint64_t i = 0; i < counts[LUCARNECRESS_LAST_COUNT]; i++)
        printf("%016" PRIx64 "\n", table[LUCARNECRESS_LAST_LIST + i]);
    return 0;
}
