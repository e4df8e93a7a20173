/* How long a square root takes: the hardware's instruction and ours (libcapi.a), in one run, for calls that do not depend on each other and for
   a chain of calls each of which waits for the one before. The least of many rounds is printed, and the ratio. */
#include <stdint.h>
#include <stdio.h>
#include <string.h>
#include <time.h>

double geomcore_sqrt(double x);

__attribute__((noinline)) static double hardware_sqrt(double x) {
    double r;
    __asm__ volatile("sqrtsd %1, %0" : "=x"(r) : "x"(x));
    return r;
}

enum { COUNT = 4096, PASSES = 50, ROUNDS = 60 };
static double numbers[COUNT], roots[COUNT];

static double now(void) {
    struct timespec t;
    clock_gettime(CLOCK_MONOTONIC, &t);
    return t.tv_sec * 1e9 + t.tv_nsec;
}

static uint64_t state = 88172645463325252u;

static uint64_t next(void) {
    state ^= state << 13;
    state ^= state >> 7;
    state ^= state << 17;
    return state;
}

/* Numbers from 2^-200 to 2^200, of both parities of the exponent. */
static void fill(void) {
    for (int i = 0; i < COUNT; i++) {
        uint64_t bits = (next() & 0xfffffffffffff) | (uint64_t)(823 + next() % 401) << 52;
        memcpy(&numbers[i], &bits, 8);
    }
}

static double independent(double (*root)(double)) {
    double best = 1e9;
    for (int k = 0; k < ROUNDS; k++) {
        double start = now();
        for (int j = 0; j < PASSES; j++)
            for (int i = 0; i < COUNT; i++) roots[i] = root(numbers[i]);
        double each = (now() - start) / (PASSES * COUNT);
        if (each < best) best = each;
    }
    return best;
}

/* The chain adds the last root, made too small to change the number: a product and a sum more for each root. */
static double dependent(double (*root)(double)) {
    double best = 1e9, last = 1;
    for (int k = 0; k < ROUNDS; k++) {
        double start = now();
        for (int j = 0; j < PASSES; j++)
            for (int i = 0; i < COUNT; i++) last = root(numbers[i] + last * 0x1p-600);
        double each = (now() - start) / (PASSES * COUNT);
        if (each < best) best = each;
    }
    roots[0] = last;
    return best;
}

int main(void) {
    fill();
    double h = independent(hardware_sqrt), o = independent(geomcore_sqrt);
    double hd = dependent(hardware_sqrt), od = dependent(geomcore_sqrt);
    printf("independent calls: hardware %.2f ns, ours %.2f ns, ratio %.2f\n", h, o, o / h);
    printf("dependent chain:   hardware %.2f ns, ours %.2f ns, ratio %.2f\n", hd, od, od / hd);
    return 0;
}
