/* The point at (u, v) of surface A of a job file on standard input: one line, x y z.
 * From the repository's root:
 *     tools/staticlib.sh capi
 *     cc -Iinclude examples-c/point.c target/staticlib/libcapi.a -o target/point
 *     tools/job.py docs/example-job.txt | target/point 0.25 0.5                  */
#include <geomcore.h>
#include <stdio.h>
#include <stdlib.h>

int main(int argc, char **argv) {
    uint8_t job[GEOMCORE_JOB_BYTES];
    double p[3];
    if (argc != 3 || fread(job, 1, sizeof job, stdin) != sizeof job) {
        fprintf(stderr, "point U V < JOB\n");
        return 2;
    }
    uint64_t refused = geomcore_point(job + 5, GEOMCORE_SURFACE_BYTES, atof(argv[1]), atof(argv[2]), p, 3);
    if (refused)
        printf("refused %u\n", (unsigned)refused);
    else
        printf("%.17g %.17g %.17g\n", p[0], p[1], p[2]);
    return 0;
}
