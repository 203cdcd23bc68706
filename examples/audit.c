/* audit PLAN < LIST: holds a list from elsewhere against a plan: which of its positions are not settled, and which settled one it lacks. LIST has a line of
 * sixteen hexadecimal digits for each position, with all its atoms; a first line `positions N` is passed over. Status 0 where the list is just the settled
 * positions, 1 where it is not, and 2 where something is refused. */
#include <inttypes.h>
#include <lucarnecress.h>
#include <stdio.h>

/* The positions as bytes, lowest first, with room for one too many. */
static uint8_t listed[(LUCARNECRESS_ALL_SETTLED + 1) * LUCARNECRESS_POSITION_BYTES];

/* Reads a list from the standard input: the length of its bytes, or (size_t)-1 where a line is no position. */
static size_t read_list(void)
{
    char line[64];
    size_t length = 0;
    while (length < sizeof listed && fgets(line, sizeof line, stdin)) {
        uint64_t position, count;
        int end = 0;
        if (length == 0 && sscanf(line, "positions %" SCNu64, &count) == 1)
            continue;
        if (sscanf(line, "%16" SCNx64 "%n", &position, &end) != 1 || (line[end] != '\n' && line[end] != '\0'))
            return (size_t)-1;
        for (unsigned i = 0; i < LUCARNECRESS_POSITION_BYTES; i++)
            listed[length++] = (uint8_t)(position >> 8 * i);
    }
    return length;
}

static uint64_t position_at(uint64_t place)
{
    uint64_t position = 0;
    for (unsigned i = LUCARNECRESS_POSITION_BYTES; i-- > 0;)
        position = position << 8 | listed[place * LUCARNECRESS_POSITION_BYTES + i];
    return position;
}

static int refused(uint64_t code)
{
    fprintf(stderr, "refused %" PRIu64 " at %" PRIu64 ": %s\n", LUCARNECRESS_NUMBER(code), LUCARNECRESS_SPOT(code),
            lucarnecress_refusal_text(LUCARNECRESS_NUMBER(code)));
    return 2;
}

/* Both questions together: only then does a passed list say that it is the whole list. */
static int audit(const uint8_t *plan, size_t plan_length, size_t length)
{
    int differs = 0;
    uint64_t found[1], code, place = 0;
    for (;; place++) { /* judged on from behind the last one that is not settled */
        size_t from = place * LUCARNECRESS_POSITION_BYTES;
        code = lucarnecress_judge_sheet(plan, plan_length, listed + from, length - from);
        if (LUCARNECRESS_IS_REFUSAL(code))
            return refused(code);
        if (code == LUCARNECRESS_ALL_SETTLED)
            break;
        place += code;
        printf("not settled: %016" PRIx64 "\n", position_at(place));
        differs = 1;
    }
    code = lucarnecress_missing(plan, plan_length, listed, length, found, 1);
    if (LUCARNECRESS_IS_REFUSAL(code))
        return refused(code);
    if (code == LUCARNECRESS_LACKS) {
        printf("missing, the least: %016" PRIx64 "\n", found[0]);
        differs = 1;
    }
    if (!differs)
        printf("the list is just the settled positions\n");
    return differs;
}

int main(int count, char **arguments)
{
    static uint8_t plan[LUCARNECRESS_PLAN_BYTES + 1];
    FILE *file = count == 2 ? fopen(arguments[1], "rb") : NULL;
    if (!file) {
        fprintf(stderr, "usage: audit PLAN < LIST\n");
        return 2;
    }
    size_t plan_length = fread(plan, 1, sizeof plan, file), length = read_list();
    fclose(file);
    if (length == (size_t)-1) {
        fprintf(stderr, "audit: a line of the list is no position\n");
        return 2;
    }
    return audit(plan, plan_length, length);
}
