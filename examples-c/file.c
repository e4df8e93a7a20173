/* How office and unit pass a line: the office walks the line of a job file and writes it to a trace file; the unit, which has the same job,
 * reads the trace file and checks the line before anybody steers by it. From the repository's root:
 *     tools/staticlib.sh capi
 *     cc -Iinclude examples-c/file.c target/staticlib/libcapi.a -o target/file
 *     tools/job.py docs/example-job.txt target/job
 *     target/file write target/job target/line        # 5 points, start 2, code 0: 290 bytes written
 *     target/file check target/job target/line        # 5 points, start 2, code 0: passes the check
 *     tools/trace_file.py target/line                 # the same file as text
 * It ends with 1 where something is refused or a file cannot be read or written. */
#include <geomcore.h>
#include <stdio.h>
#include <string.h>

#define MOST 4001 /* points of a trace */

static uint8_t job[GEOMCORE_JOB_BYTES + 1];                /* one more than a job has, so that a longer one shows */
static uint8_t file[GEOMCORE_FILE_V1_BYTES(MOST) + 1];     /* likewise */
static double buffer[7 * MOST];

static size_t load(const char *name, uint8_t *bytes, size_t room) {
    FILE *in = fopen(name, "rb");
    size_t got = in ? fread(bytes, 1, room, in) : 0;
    if (in)
        fclose(in);
    return got;
}

static int refused(const char *what, uint64_t word) {
    printf("%s: refused %u\n", what, (unsigned)(word & 255));
    return 1;
}

/* The office. */
static int write_line(size_t bytes, const char *name) {
    uint64_t word = geomcore_trace(job, bytes, buffer, 7 * MOST);
    if (word & 255)
        return refused("trace", word);
    uint64_t count = word >> 32, start = word >> 16 & 65535, code = word >> 8 & 255;
    uint64_t written = geomcore_write_v1(buffer, 7 * MOST, count, start, code, file, sizeof file);
    if (written & 255)
        return refused("write", written);
    FILE *out = fopen(name, "wb");
    size_t put = out ? fwrite(file, 1, written >> 32, out) : 0;
    if (!out || fclose(out) || put != written >> 32) {
        perror(name);
        return 1;
    }
    printf("%u points, start %u, code %u: %u bytes written\n", (unsigned)count, (unsigned)start, (unsigned)code, (unsigned)put);
    return 0;
}

/* The unit: what was read is a trace only once it passes the check under the unit's own job. */
static int check_line(size_t bytes, const char *name) {
    uint64_t word = geomcore_read_v1(file, load(name, file, sizeof file), buffer, 7 * MOST);
    if (word & 255)
        return refused("read", word);
    uint64_t count = word >> 32, start = word >> 16 & 65535, code = word >> 8 & 255;
    uint64_t checked = geomcore_check(job, bytes, buffer, 7 * MOST, count, start, code);
    if (checked & 255)
        return refused("check", checked);
    printf("%u points, start %u, code %u: passes the check\n", (unsigned)count, (unsigned)start, (unsigned)code);
    return 0;
}

int main(int argc, char **argv) {
    if (argc == 4 && !strcmp(argv[1], "write"))
        return write_line(load(argv[2], job, sizeof job), argv[3]);
    if (argc == 4 && !strcmp(argv[1], "check"))
        return check_line(load(argv[2], job, sizeof job), argv[3]);
    fprintf(stderr, "usage: file write|check JOB FILE\n");
    return 2;
}
