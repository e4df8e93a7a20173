/* Reads a job file from standard input, walks its line and writes the points: one a line, x y z.
 * From the repository's root:
 *     tools/staticlib.sh capi
 *     cc -Iinclude examples-c/trace.c target/staticlib/libcapi.a -o target/trace
 *     tools/job.py docs/example-job.txt | target/trace                                                */
#include <geomcore.h>
#include <stdio.h>

#define ROOM 28007 /* seven numbers for each of the 4001 points of the greatest cap */

int main(void) {
    static double buffer[ROOM];
    uint8_t job[GEOMCORE_JOB_BYTES + 1];
    size_t bytes = fread(job, 1, sizeof job, stdin);
    uint64_t word = geomcore_trace(job, bytes, buffer, ROOM);
    unsigned refused = word & 255, code = word >> 8 & 255, start = word >> 16 & 65535;
    uint64_t count = word >> 32;
    if (refused == 21) { /* no meeting: the bytes above the number are the Newton round and the solve's column, a coordinate */
        printf("refused 21 in round %u at %c: the surfaces are as good as parallel there: take another pair\n", code, "xyz"[start]);
        return 0;
    }
    if (refused == 9) { /* no meeting: the byte above the number is the Newton round */
        printf("refused 9 in round %u: take another guess\n", code);
        return 0;
    }
    if (refused) {
        printf("refused %u\n", refused);
        return 0;
    }
    for (uint64_t i = 0; i < count; i++)
        printf("%.17g %.17g %.17g%s\n", buffer[7 * i], buffer[7 * i + 1], buffer[7 * i + 2], i == start ? "  start" : "");
    uint64_t checked = geomcore_check(job, bytes, buffer, ROOM, count, start, code);
    printf("closing code %u, check %u\n", code, (unsigned)(checked & 255));
    return 0;
}
