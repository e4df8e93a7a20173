/* What a build answers: reads job files of 347 bytes each from standard input, traces each into a buffer of zeros with its cap lowered to 60,
 * and writes a line for each: the kinds of its surfaces, whether an angle of its guess or of a window that applies is 1,647,100 or more in
 * magnitude, the answer's number (0: a line), the line's count, the answer's word and a sum of the buffer's bits. tools/changed.sh compares
 * two builds by it. */
#include <geomcore.h>
#include <math.h>
#include <stdio.h>
#include <string.h>

#define ROOM 28007
#define CAP 60
#define SURFACE 146

static uint8_t job[GEOMCORE_JOB_BYTES];
static double buffer[ROOM];

static double number(const uint8_t *at) {
    uint64_t bits = 0;
    for (int i = 0; i < 8; i++) {
        bits = bits << 8 | at[i];
    }
    double x;
    memcpy(&x, &bits, 8);
    return x;
}

static int large(double x) {
    return isfinite(x) && fabs(x) >= 1647100.0;
}

/* Whether parameter k (u, v on A, u, v on B) is an angle, and it or an end of its window, where that applies, is large. */
static int large_parameter(int k) {
    const uint8_t *s = job + 5 + SURFACE * (k / 2);
    int angle = k % 2 == 0 ? s[0] >= 1 : s[0] >= 3;
    int marked = s[1] >> k % 2 & 1;
    const uint8_t *window = s + 114 + 16 * (k % 2);
    return angle && (large(number(job + 313 + 8 * k)) || (!marked && (large(number(window)) || large(number(window + 8)))));
}

int main(void) {
    while (fread(job, 1, sizeof job, stdin) == sizeof job) {
        unsigned cap = job[345] << 8 | job[346];
        if (cap > CAP) {
            job[345] = 0;
            job[346] = CAP;
        }
        memset(buffer, 0, sizeof buffer);
        uint64_t word = geomcore_trace(job, sizeof job, buffer, ROOM);
        uint64_t sum = 1469598103934665603u;
        for (int i = 0; i < 7 * (2 * CAP + 1); i++) {
            uint64_t bits;
            memcpy(&bits, buffer + i, 8);
            sum = (sum ^ bits) * 1099511628211u;
        }
        unsigned refused = word & 255;
        int angles = large_parameter(0) | large_parameter(1) | large_parameter(2) | large_parameter(3);
        printf("%u %u %d %u %lu %016lx %016lx\n", job[5], job[5 + SURFACE], angles, refused, refused ? 0ul : (unsigned long)(word >> 32), (unsigned long)word, (unsigned long)sum);
    }
    return 0;
}
