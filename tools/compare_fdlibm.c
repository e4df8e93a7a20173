// Reads records of StrictMathAnswers.java from standard input, works each out through the library and compares bits, all
// NaNs being one. Writes one row of the table, which counts the angles that fdlibm reduces by the digits of 2/pi too; the exit status is 1
// if an answer differs.
#include <stdint.h>
#include <stdio.h>
#include <string.h>

double geomcore_sin(double x);
double geomcore_cos(double x);
double geomcore_atan2(double y, double x);

static uint64_t word(const unsigned char *at) {
    uint64_t bits = 0;
    for (int i = 0; i < 8; i++) {
        bits = bits << 8 | at[i];
    }
    return bits;
}

static double number(uint64_t bits) {
    double x;
    memcpy(&x, &bits, 8);
    return x;
}

static uint64_t pattern(double x) {
    uint64_t bits;
    memcpy(&bits, &x, 8);
    return x != x ? 0x7ff8000000000000u : bits;
}

int main(int count, char **words) {
    if (count != 2) {
        return 2;
    }
    const char *function = words[1];
    int is_sin = !strcmp(function, "sin"), is_cos = !strcmp(function, "cos"), is_two = !strcmp(function, "atan2");
    size_t size = is_two ? 24 : 16;
    unsigned char record[24];
    unsigned long compared = 0, large = 0, differ = 0;
    while (fread(record, 1, size, stdin) == size) {
        uint64_t y = word(record), x = word(record + size - 16), expected = pattern(number(word(record + size - 8)));
        uint64_t magnitude = x & 0x7fffffffffffffffu;
        double got = is_sin ? geomcore_sin(number(x))
            : is_cos ? geomcore_cos(number(x))
            : is_two ? geomcore_atan2(number(y), number(x))
            : geomcore_atan2(number(x), 1.0); // fdlibm answers atan(x)
        large += (is_sin || is_cos) && magnitude >> 32 > 0x413921fb && magnitude < 0x7ff0000000000000u;
        compared++;
        if (pattern(got) != expected) {
            if (differ++ < 10) {
                printf("%s of %016lx %016lx: %016lx, expected %016lx\n", function, (unsigned long)y, (unsigned long)x,
                    (unsigned long)pattern(got), (unsigned long)expected);
            }
        }
    }
    printf("%-8s %12lu %12lu %12lu\n", function, compared, large, differ);
    return differ != 0 || compared == 0;
}
