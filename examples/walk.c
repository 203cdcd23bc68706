/* walk [SECONDS] < PLAN: every settled position of a plan, however many, 256 in a call, sixteen hexadecimal digits each. A call cannot be stopped, so they
 * are made in a process of their own, which ends after SECONDS (default 10) wherever it is; what was found before is kept. Status 0 where the walk went to
 * its end, 1 where it was stopped, and 2 where the plan is refused. */
#define _POSIX_C_SOURCE 200809L
#include <inttypes.h>
#include <lucarnecress.h>
#include <signal.h>
#include <stdio.h>
#include <stdlib.h>
#include <sys/wait.h>
#include <unistd.h>

enum { BATCH = 256 };

/* Goes over all positions. */
static int walk(const uint8_t *plan, size_t length)
{
    uint64_t found[BATCH], count[1] = {0};
    uint64_t code = lucarnecress_first_positions(plan, length, found, BATCH, count, 1);
    while (!LUCARNECRESS_IS_REFUSAL(code)) {
        for (uint64_t i = 0; i < count[0]; i++)
            printf("%016" PRIx64 "\n", found[i]);
        fflush(stdout);
        if (count[0] < BATCH) /* no other is left */
            return 0;
        code = lucarnecress_next_positions(plan, length, found[BATCH - 1], found, BATCH, count, 1);
    }
    fprintf(stderr, "refused %" PRIu64 " at %" PRIu64 ": %s\n", LUCARNECRESS_NUMBER(code), LUCARNECRESS_SPOT(code),
            lucarnecress_refusal_text(LUCARNECRESS_NUMBER(code)));
    return 2;
}

int main(int count, char **arguments)
{
    static uint8_t plan[LUCARNECRESS_PLAN_BYTES + 1];
    unsigned seconds = count > 1 ? (unsigned)strtoul(arguments[1], NULL, 10) : 10;
    size_t length = fread(plan, 1, sizeof plan, stdin);
    int status = 0;
    pid_t child = fork();
    if (child == 0) {
        alarm(seconds);
        return walk(plan, length);
    }
    if (child < 0 || waitpid(child, &status, 0) != child) {
        perror("walk");
        return 3;
    }
    if (WIFSIGNALED(status) && WTERMSIG(status) == SIGALRM) {
        fprintf(stderr, "walk: stopped after %u seconds\n", seconds);
        return 1;
    }
    return WIFEXITED(status) ? WEXITSTATUS(status) : 3;
}
