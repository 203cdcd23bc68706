/* What settle's object file asks of a C library, for a program that is linked without one (tools/settle-static.sh): its start and end, read and
 * write as calls of Linux on x86-64, memcpy and memset, and what each program asks before its main: that a reader who is gone ends no process, and what the
 * processor has. None of this is proved; tests/settle.sh runs the program. */
#include <cpuid.h>
#include <stddef.h>

enum { READ = 0, WRITE = 1, SIGACTION = 13, EXIT_GROUP = 231 };

typedef long long block __attribute__((vector_size(16), aligned(1), may_alias));
typedef long long word __attribute__((aligned(1), may_alias));

int main(void);

/* A call of Linux: what it answers, or -1 where it answers that it failed. */
static long ask(long call, long first, const void *area, size_t count, size_t last)
{
    long answer;
    register size_t fourth __asm__("r10") = last;
    __asm__ volatile("syscall" : "=a"(answer) : "a"(call), "D"(first), "S"(area), "d"(count), "r"(fourth) : "rcx", "r11", "memory");
    return answer < 0 ? -1 : answer;
}

long read(int file, void *area, size_t count)
{
    return ask(READ, file, area, count, 0);
}

long write(int file, const void *area, size_t count)
{
    return ask(WRITE, file, area, count, 0);
}

long __write(int file, const void *area, size_t count)
{
    return write(file, area, count);
}

/* What a signal does: its number, and a handler that is 0, the usual, or 1, nothing. */
long __sysv_signal(int signal, long handler)
{
    const struct {
        long handler, flags, restorer, mask;
    } action = {handler, 0, 0, 0};
    return ask(SIGACTION, signal, &action, 0, sizeof action.mask);
}

/* What the processor has: four words of cpuid, and the same once more as what the system lets programs use, which for what is asked here is no less. Leaf 0
 * is cpuid's first, leaf 2 its extended first; of others nothing is told. */
const unsigned *__x86_get_cpuid_feature_leaf(unsigned leaf)
{
    static unsigned found[3][8];
    unsigned *words = found[leaf == 0 || leaf == 2 ? leaf : 1];
    if (leaf == 0)
        __cpuid(1, words[0], words[1], words[2], words[3]);
    if (leaf == 2)
        __cpuid(0x80000001, words[0], words[1], words[2], words[3]);
    for (size_t at = 0; at < 4; at++)
        words[4 + at] = words[at];
    return words;
}

/* Sixteen bytes at a time, the last ones once more where they do not fill a block; eight likewise where there are fewer than sixteen. */
void *memcpy(void *restrict to, const void *restrict from, size_t count)
{
    char *out = to;
    const char *in = from;
    if (count >= sizeof(block)) {
        size_t last = count - sizeof(block);
        block end = *(const block *)(in + last);
        for (size_t at = 0; at < last; at += sizeof(block))
            *(block *)(out + at) = *(const block *)(in + at);
        *(block *)(out + last) = end;
    } else if (count >= sizeof(word)) {
        size_t last = count - sizeof(word);
        word end = *(const word *)(in + last);
        *(word *)out = *(const word *)in;
        *(word *)(out + last) = end;
    } else {
        for (size_t at = 0; at < count; at++)
            out[at] = in[at];
    }
    return to;
}

void *memset(void *to, int byte, size_t count)
{
    char *out = to;
    if (count >= sizeof(block)) {
        word eight = (unsigned char)byte * 0x0101010101010101ULL;
        block all = {eight, eight};
        size_t last = count - sizeof(block);
        for (size_t at = 0; at < last; at += sizeof(block))
            *(block *)(out + at) = all;
        *(block *)(out + last) = all;
    } else {
        for (size_t at = 0; at < count; at++)
            out[at] = (char)byte;
    }
    return to;
}

/* Linux begins here, with the stack as it likes. */
__asm__(".globl _start\n_start:\n    xor %ebp, %ebp\n    and $-16, %rsp\n    call begin\n    hlt\n");

__attribute__((used, noreturn)) void begin(void)
{
    ask(EXIT_GROUP, main(), NULL, 0, 0);
    __builtin_unreachable();
}
