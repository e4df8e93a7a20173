/* What the floating-point mode of the calling thread does to a trace, and how the header's guard keeps it out: the line of a job file on
 * standard input, traced in several modes with and without the guard, against the line of the mode that a program starts with. Lines are
 * checked in that mode. Ends with 1 if a guarded call gives another bit or leaves another mode, or if the guard does not tell the mode.
 * From the repository's root:
 *     tools/staticlib.sh capi
 *     cc -Iinclude examples-c/environment.c target/staticlib/libcapi.a -o target/environment
 *     tools/job.py docs/example-loop.txt | target/environment                                              */
#include <geomcore.h>
#include <stdio.h>
#include <string.h>
#include <sys/wait.h>
#include <unistd.h>

#define ROOM 28007 /* seven numbers for each of the 4001 points of the greatest cap */

static uint8_t job[GEOMCORE_JOB_BYTES + 1];
static size_t bytes;
static double first[ROOM], other[ROOM];

/* The line in a mode, traced with the guard or without; the mode as the host has it afterwards. */
static uint64_t traced(unsigned mode, int guarded, unsigned *after) {
    uint64_t word;
    memset(other, 0, sizeof other);
    _mm_setcsr(mode);
    unsigned before = guarded ? geomcore_mode_set() : 0;
    word = geomcore_trace(job, bytes, other, ROOM);
    if (guarded)
        geomcore_mode_restore(before);
    *after = _mm_getcsr() & GEOMCORE_MODE_BITS;
    _mm_setcsr(GEOMCORE_MODE);
    return word;
}

/* How many numbers of the line differ in bits. */
static int differing(void) {
    int count = 0;
    for (int i = 0; i < ROOM; i++)
        count += memcmp(&first[i], &other[i], sizeof first[i]) != 0;
    return count;
}

/* What the check says of the line, in the mode that a program starts with: 0 or the refusal's number. */
static uint64_t checked(uint64_t word) {
    return geomcore_check(job, bytes, other, ROOM, word >> 32, word >> 16 & 65535, word >> 8 & 255) & 255;
}

/* The signal that ends an unguarded trace in a mode with traps, or 0. */
static int signalled(unsigned mode) {
    int status;
    unsigned after;
    pid_t child = fork();
    if (child == 0) {
        traced(mode, 0, &after);
        _exit(0);
    }
    return child > 0 && waitpid(child, &status, 0) == child && WIFSIGNALED(status) ? WTERMSIG(status) : 0;
}

int main(void) {
    static const struct { const char *name; unsigned mode; } modes[] = {
        {"as a program starts", 0x1f80}, {"upward", 0x5f80}, {"downward", 0x3f80}, {"toward zero", 0x7f80},
        {"flush to zero", 0x9fc0}, {"traps unmasked", 0x0000},
    };
    int wrong = 0;
    unsigned after;
    bytes = fread(job, 1, sizeof job, stdin);
    uint64_t answer = traced(GEOMCORE_MODE, 0, &after);
    memcpy(first, other, sizeof first);
    printf("%-20s %-5s %s\n", "mode", "fit", "without the guard");
    for (size_t i = 0; i < sizeof modes / sizeof modes[0]; i++) {
        unsigned mode = modes[i].mode;
        _mm_setcsr(mode);
        int fit = geomcore_mode_fit();
        _mm_setcsr(GEOMCORE_MODE);
        printf("%-20s %-5s ", modes[i].name, fit ? "yes" : "no");
        int signal = mode == 0 ? signalled(mode) : 0;
        if (signal)
            printf("ended by signal %d\n", signal);
        else {
            uint64_t word = traced(mode, 0, &after);
            printf("%s answer, %d numbers with other bits", word == answer ? "the same" : "another", differing());
            if ((word & 255) == 0)
                printf(", check %u", (unsigned)checked(word));
            puts("");
        }
        uint64_t word = traced(mode, 1, &after);
        wrong |= fit != (mode == GEOMCORE_MODE) || word != answer || differing() != 0 || after != mode;
    }
    puts(wrong ? "the guard FAILS" : "with the guard: the same answer and bits in every mode, and the host's mode kept");
    return wrong;
}
