// Nanoseconds a call of the library's functions, of the same algorithms in C (bench/fdlibm.c) and of the C library's,
// in one run over the same arguments: the best of several rounds. The C build's answers are compared with the library's first.
#include <math.h>
#include <stdint.h>
#include <stdio.h>
#include <string.h>
#include <time.h>

double geomcore_sin(double x);
double geomcore_cos(double x);
double geomcore_atan2(double y, double x);
double c_sin(double x);
double c_cos(double x);
double c_atan(double x);
double c_atan2(double y, double x);

// fdlibm answers atan(x).
static double ours_atan(double x) {
    return geomcore_atan2(x, 1.0);
}

enum { COUNT = 1 << 16, ROUNDS = 40 };
static double xs[COUNT], ys[COUNT];
static volatile double sink;

typedef double (*one)(double);
typedef double (*two)(double, double);

static uint64_t state;

static double uniform(void) {
    state = state * 6364136223846793005u + 1442695040888963407u;
    return (double)(state >> 11) / 9007199254740992.0 * 2 - 1;
}

static double seconds(void) {
    struct timespec t;
    clock_gettime(CLOCK_MONOTONIC, &t);
    return (double)t.tv_sec + 1e-9 * (double)t.tv_nsec;
}

static double time_one(one f) {
    double best = 1e9;
    for (int r = 0; r < ROUNDS; r++) {
        double sum = 0, from = seconds();
        for (int i = 0; i < COUNT; i++) {
            sum += f(xs[i]);
        }
        double took = seconds() - from;
        sink = sum;
        best = took < best ? took : best;
    }
    return best / COUNT * 1e9;
}

static double time_two(two f) {
    double best = 1e9;
    for (int r = 0; r < ROUNDS; r++) {
        double sum = 0, from = seconds();
        for (int i = 0; i < COUNT; i++) {
            sum += f(ys[i], xs[i]);
        }
        double took = seconds() - from;
        sink = sum;
        best = took < best ? took : best;
    }
    return best / COUNT * 1e9;
}

static int same(double a, double b) {
    return (a != a && b != b) || memcmp(&a, &b, 8) == 0;
}

static int failed;

// Arguments up to scale in magnitude.
static void within(double scale) {
    state = 1;
    for (int i = 0; i < COUNT; i++) {
        xs[i] = uniform() * scale;
    }
}

// Arguments of the exponents from low to high, each as often.
static void exponents(int low, int high) {
    state = 1;
    for (int i = 0; i < COUNT; i++) {
        int exponent = low + (int)((uniform() + 1) / 2 * (high - low + 1));
        double x = uniform();
        xs[i] = ldexp(x < 0 ? x - 1 : x + 1, exponent);
    }
}

static void row(const char *name, const char *range, one ours, one built, one libm) {
    for (int i = 0; i < COUNT; i++) {
        failed |= !same(ours(xs[i]), built(xs[i]));
    }
    double a = time_one(ours), b = time_one(built), c = time_one(libm);
    printf("%-6s %-16s %8.2f %8.2f %8.2f %8.2f\n", name, range, a, b, c, a / b);
}

int main(void) {
    printf("%-6s %-16s %8s %8s %8s %8s\n", "", "arguments", "ours ns", "C ns", "libm ns", "ours/C");
    one ours[] = {geomcore_sin, geomcore_cos}, built[] = {c_sin, c_cos}, libm[] = {sin, cos};
    for (int k = 0; k < 2; k++) {
        const char *name = k ? "cos" : "sin";
        within(0.785);
        row(name, "within pi/4", ours[k], built[k], libm[k]);
        within(10);
        row(name, "within 10", ours[k], built[k], libm[k]);
        within(800000);
        row(name, "within 800000", ours[k], built[k], libm[k]);
        exponents(21, 61);
        row(name, "2^21 to 2^61", ours[k], built[k], libm[k]);
        exponents(21, 1023);
        row(name, "2^21 to 2^1023", ours[k], built[k], libm[k]);
    }
    within(0.4);
    row("atan", "within 0.4", ours_atan, c_atan, atan);
    within(10);
    row("atan", "within 10", ours_atan, c_atan, atan);
    state = 1;
    for (int i = 0; i < COUNT; i++) {
        xs[i] = uniform();
        ys[i] = uniform();
        failed |= !same(geomcore_atan2(ys[i], xs[i]), c_atan2(ys[i], xs[i]));
    }
    double a = time_two(geomcore_atan2), b = time_two(c_atan2), c = time_two(atan2);
    printf("%-6s %-16s %8.2f %8.2f %8.2f %8.2f\n", "atan2", "within 1", a, b, c, a / b);
    if (failed) {
        printf("the C build's answers differ\n");
    }
    return failed;
}
