/* compare_sqrt SEED COUNT: compares our square root (libcapi.a) with the hardware's, bit for bit and all NaNs as one, at COUNT arguments of each kind. */
#include <stdint.h>
#include <stdio.h>
#include <stdlib.h>
#include <string.h>

double geomcore_sqrt(double x);

static double hardware_sqrt(double x) {
    double r;
    __asm__ volatile("sqrtsd %1, %0" : "=x"(r) : "x"(x));
    return r;
}

static uint64_t state;

/* splitmix64 */
static uint64_t next(void) {
    uint64_t z = state += 0x9e3779b97f4a7c15u;
    z = (z ^ z >> 30) * 0xbf58476d1ce4e5b9u;
    z = (z ^ z >> 27) * 0x94d049bb133111ebu;
    return z ^ z >> 31;
}

/* Any pattern. */
static uint64_t any(void) { return next(); }

/* A number of at least 0 with each exponent as likely, subnormal ones of each length among them. */
static uint64_t spread(void) {
    uint64_t e = next() % 2098;
    if (e < 52) return (next() & ((UINT64_C(1) << e) - 1)) | UINT64_C(1) << e;
    return (next() & 0xfffffffffffff) | (e - 51) << 52;
}

/* A number whose root lies near the middle of two neighbours: 4 * A * 2^52 is an odd square y * y less a c of at most 2^27 either way. */
static uint64_t hard(void) {
    for (;;) {
        unsigned odd = next() & 1, k = 54 + odd;
        int64_t c = 8 * (int64_t)(next() & 0x1ffffff) - 0x8000000 + 1;
        uint64_t y = 1, mask = (UINT64_C(1) << k) - 1;
        for (unsigned i = 3; i < k; i++)
            if ((y * y - (uint64_t)c) >> i & 1) y += UINT64_C(1) << (i - 1);
        uint64_t r = next();
        if (r & 1) y = -y;
        if (r & 2) y += UINT64_C(1) << (k - 1);
        y &= mask;
        unsigned __int128 a = ((unsigned __int128)y * y - (__int128)c) >> k;
        if (a >> 52 != 1) continue;
        uint64_t e = 1 + 2 * (next() % 1023) + odd; /* the power of two beside A is even, or odd where A is taken twice */
        return ((uint64_t)a & 0xfffffffffffff) | e << 52;
    }
}

static uint64_t differ;

static void compare(const char *kind, uint64_t (*argument)(void), uint64_t count) {
    uint64_t found = 0;
    for (uint64_t i = 0; i < count; i++) {
        uint64_t bits = argument(), ours, theirs;
        double x;
        memcpy(&x, &bits, 8);
        double a = geomcore_sqrt(x), b = hardware_sqrt(x);
        memcpy(&ours, &a, 8);
        memcpy(&theirs, &b, 8);
        if (ours != theirs && !(a != a && b != b)) {
            if (found++ < 5) printf("root of %016lx: ours %016lx, the hardware's %016lx\n", bits, ours, theirs);
        }
    }
    printf("square roots of %s: %lu compared, %lu differ\n", kind, count, found);
    differ += found;
}

int main(int argc, char **argv) {
    if (argc != 3) return 2;
    state = strtoull(argv[1], 0, 0);
    uint64_t count = strtoull(argv[2], 0, 0);
    compare("any bit patterns", any, count);
    compare("numbers of every exponent", spread, count);
    compare("numbers near a rounding boundary", hard, count);
    return differ != 0;
}
