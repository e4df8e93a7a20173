/* Square roots with and without the header's guard of the floating-point mode: nanoseconds a call, the least of 200 rounds. */
#include <geomcore.h>
#include <stdio.h>
#include <time.h>

#define CALLS 100000

static double plain(double x) { return geomcore_sqrt(x); }

static double guarded(double x) {
    unsigned before = geomcore_mode_set();
    double r = geomcore_sqrt(x);
    geomcore_mode_restore(before);
    return r;
}

static double now(void) {
    struct timespec at;
    clock_gettime(CLOCK_THREAD_CPUTIME_ID, &at);
    return 1e9 * at.tv_sec + at.tv_nsec;
}

static double least(double (*f)(double), unsigned mode) {
    double best = 1e99;
    for (int round = 0; round < 200; round++) {
        volatile double sum = 0;
        _mm_setcsr(mode);
        double start = now();
        for (int i = 1; i <= CALLS; i++)
            sum = f(i);
        double took = now() - start;
        _mm_setcsr(GEOMCORE_MODE);
        (void)sum;
        if (took < best)
            best = took;
    }
    return best / CALLS;
}

int main(void) {
    printf("C, a square root: %.2f ns; guarded, mode fit %.2f ns; guarded, rounding upward %.2f ns\n", least(plain, GEOMCORE_MODE),
           least(guarded, GEOMCORE_MODE), least(guarded, 0x5f80));
    return 0;
}
