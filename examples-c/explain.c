/* Why a line crosses a box, or why not, in words: walks the line of a job file on standard input; the box is given by its low x, y and z,
 * then its high ones, in kilometres. Segments are counted from 0; the box is grown by 8000 times the job's confusion.
 * From the repository's root:
 *     tools/staticlib.sh capi
 *     cc -Iinclude examples-c/explain.c target/staticlib/libcapi.a -o target/explain
 *     tools/job.py docs/example-job.txt | target/explain 0.1 0 0 0.2 0 0
 * The reason is proved. The distance beside it is worked out here, and says so. Ends with 1 where something is refused. */
#include <geomcore.h>
#include <stdio.h>
#include <stdlib.h>
#include <string.h>

#define ROOM 28007 /* seven numbers for each of the 4001 points of the greatest cap */
#define TOLERANCE 297 /* where confusion stands in a job file, and angular after it */

static double buffer[ROOM];

/* The big-endian number that begins at a byte. */
static double number(const uint8_t *bytes) {
    uint64_t bits = 0;
    double x;
    for (int i = 0; i < 8; i++)
        bits = bits << 8 | bytes[i];
    memcpy(&x, &bits, sizeof x);
    return x;
}

/* How far the line's points are, along an axis, from the stretch between two sides of the box. */
static double distance(uint64_t count, uint64_t axis, double low, double high) {
    double least = buffer[axis], most = least;
    for (uint64_t i = 1; i < count; i++) {
        double x = buffer[7 * i + axis];
        least = x < least ? x : least;
        most = x > most ? x : most;
    }
    return low > most ? low - most : least - high;
}

static void print_point(const double *p) { printf("(%.17g, %.17g, %.17g)", p[0], p[1], p[2]); }

static void print_segment(uint64_t i) {
    printf("crosses at segment %u, between ", (unsigned)i);
    print_point(buffer + 7 * i);
    printf(" and ");
    print_point(buffer + 7 * (i + 1));
    printf("\n");
}

static void print_reason(uint64_t word, uint64_t count, const double *corners) {
    uint64_t value = word >> 32;
    switch (word >> 8 & 255) {
    case GEOMCORE_SEGMENT:
        print_segment(value);
        break;
    case GEOMCORE_WHOLE_APART:
        printf("the whole line lies apart from the grown box along %c\n", "xyz"[value]);
        printf("computed, not proved: %.3g km from the box as drawn\n", distance(count, value, corners[value], corners[3 + value]));
        break;
    case GEOMCORE_RUNS_APART:
        printf("every run of 16 segments lies apart from the grown box\n");
        break;
    default:
        printf("no segment of the runs not apart from the grown box meets it (segments in these runs: %u)\n", (unsigned)value);
    }
}

static int read_corners(char **words, double *corners) {
    for (int i = 0; i < 6; i++) {
        char *end;
        corners[i] = strtod(words[i], &end);
        if (end == words[i] || *end)
            return 0;
    }
    return 1;
}

static int refused(const char *what, uint64_t word) {
    printf("%s: refused %u\n", what, (unsigned)(word & 255));
    return 1;
}

int main(int argc, char **argv) {
    uint8_t job[GEOMCORE_JOB_BYTES + 1]; /* one more than a job has, so that a longer one shows */
    double corners[6];
    if (argc != 7 || !read_corners(argv + 1, corners)) {
        fprintf(stderr, "usage: explain LOW_X LOW_Y LOW_Z HIGH_X HIGH_Y HIGH_Z < JOB\n");
        return 2;
    }
    uint64_t word = geomcore_trace(job, fread(job, 1, sizeof job, stdin), buffer, ROOM), count = word >> 32;
    if (word & 255)
        return refused("trace", word);
    word = geomcore_explain(number(job + TOLERANCE), number(job + TOLERANCE + 8), buffer, ROOM, count, corners, 6);
    if (word & 255)
        return refused("explain", word);
    print_reason(word, count, corners);
    return 0;
}
