/* Times calls of the C interface that read a job file and are refused at once, and the point of its surface A: the least of 400 rounds of
 * 2,000 calls each, in processor nanoseconds.
 *
 *     tools/staticlib.sh capi && tools/job.py docs/example-job.txt target/job
 *     cc -O2 -Iinclude bench/refused.c target/staticlib/libcapi.a -lm -o target/refused && target/refused target/job
 */
#include <geomcore.h>
#include <stdio.h>
#include <string.h>
#include <time.h>

enum { JOB = 347, SURFACE = 146, ANGULAR = 305, LENT = 7007, CALLS = 2000, ROUNDS = 400 };

static uint8_t job[JOB], unfit[JOB];
static double lent[LENT], out[3];

static uint64_t point(void) { return geomcore_point(job + 5, SURFACE, 0.1, 0.2, out, 3); }
static uint64_t trace_by_5(void) { return geomcore_trace(unfit, JOB, lent, LENT); }
static uint64_t check_by_5(void) { return geomcore_check(unfit, JOB, lent, LENT, 5, 0, 0); }
static uint64_t check_by_12(void) { return geomcore_check(job, JOB, lent, LENT, 3, 0, 0); }

static double now(void) {
    struct timespec t;
    clock_gettime(CLOCK_PROCESS_CPUTIME_ID, &t);
    return t.tv_sec * 1e9 + t.tv_nsec;
}

int main(int count, char **words) {
    static const struct {
        const char *name;
        uint64_t (*call)(void);
    } calls[] = {{"point of a plane", point}, {"trace refused by 5", trace_by_5}, {"check refused by 5", check_by_5}, {"check refused by 12", check_by_12}};
    const uint8_t two[8] = {0x40};
    FILE *file = count == 2 ? fopen(words[1], "rb") : NULL;
    if (!file || fread(job, 1, JOB, file) != JOB) {
        fprintf(stderr, "usage: %s JOB\n", words[0]);
        return 2;
    }
    memcpy(unfit, job, JOB);
    memcpy(unfit + ANGULAR, two, sizeof two);
    for (size_t k = 0; k < sizeof calls / sizeof *calls; k++) {
        double least = 1e18;
        uint64_t sum = 0;
        for (int round = 0; round < ROUNDS; round++) {
            double start = now();
            for (int i = 0; i < CALLS; i++) sum += calls[k].call();
            double taken = (now() - start) / CALLS;
            if (taken < least) least = taken;
        }
        printf("%s: %.1f ns (words %llu)\n", calls[k].name, least, (unsigned long long)sum);
    }
    return 0;
}
