/* What calls use: reads job files of 347 bytes each from standard input, traces and checks each, writes its line to a trace file and reads
 * that, each call on a stack of its own that was painted before, and prints the most of the stack that a call used (from where it was called,
 * its return address included) and the longest time. tools/limits.sh builds and runs it. */
#include <geomcore.h>
#include <stdio.h>
#include <string.h>
#include <time.h>

#define ROOM 28007
#define STACK 65536
#define PAINT 0xa5

static _Alignas(64) unsigned char stack[STACK];
static uint8_t job[GEOMCORE_JOB_BYTES];
static double buffer[ROOM];
static uint8_t file[GEOMCORE_FILE_V1_BYTES(4001)];
static volatile uint64_t word; /* volatile: the compiler does not see that the assembly below calls functions of this file */
static char *volatile called_from;

/* Runs the work on the painted stack. */
static void on_stack(void (*work)(void)) {
    void *top = stack + STACK;
    __asm__ volatile("movq %%rsp, %%rbx\n\tmovq %0, %%rsp\n\tcall *%1\n\tmovq %%rbx, %%rsp"
                     :
                     : "r"(top), "r"(work)
                     : "rbx", "rax", "rcx", "rdx", "rsi", "rdi", "r8", "r9", "r10", "r11", "memory", "cc", "xmm0", "xmm1", "xmm2", "xmm3",
                       "xmm4", "xmm5", "xmm6", "xmm7", "xmm8", "xmm9", "xmm10", "xmm11", "xmm12", "xmm13", "xmm14", "xmm15");
}

#define HERE() __asm__ volatile("movq %%rsp, %0" : "=r"(called_from))

static void do_trace(void) {
    HERE();
    word = geomcore_trace(job, sizeof job, buffer, ROOM);
}

static void do_check(void) {
    HERE();
    word = geomcore_check(job, sizeof job, buffer, ROOM, word >> 32, word >> 16 & 65535, word >> 8 & 255);
}

static const double corners[6] = {-1.0, -1.0, -1.0, 1.0, 1.0, 1.0};

static void do_crossing(void) {
    HERE();
    word = geomcore_crossing(1e-7, 1e-12, buffer, ROOM, word >> 32, corners, 6);
}

static void do_explain(void) {
    HERE();
    word = geomcore_explain(1e-7, 1e-12, buffer, ROOM, word >> 32, corners, 6);
}

static void do_point(void) {
    double p[3];
    HERE();
    word = geomcore_point(job + 5, GEOMCORE_SURFACE_BYTES, 0.3, 0.1, p, 3);
}

static void do_write(void) {
    HERE();
    word = geomcore_write_v1(buffer, ROOM, word >> 32, word >> 16 & 65535, word >> 8 & 255, file, sizeof file);
}

static void do_read(void) {
    HERE();
    word = geomcore_read_v1(file, word >> 32, buffer, ROOM);
}

static double now(void) {
    struct timespec at;
    clock_gettime(CLOCK_THREAD_CPUTIME_ID, &at);
    return at.tv_sec + 1e-9 * at.tv_nsec;
}

/* The most stack and time of a call so far, and of which job. */
struct most {
    const char *name;
    void (*work)(void);
    long bytes, calls;
    double seconds;
    long job;
};

static void measure(struct most *m, long index) {
    memset(stack, PAINT, STACK);
    double start = now();
    on_stack(m->work);
    double took = now() - start;
    unsigned char *lowest = stack;
    while (lowest < stack + STACK && *lowest == PAINT)
        lowest++;
    long used = called_from - (char *)lowest;
    m->bytes = used > m->bytes ? used : m->bytes;
    m->calls++;
    if (took > m->seconds) {
        m->seconds = took;
        m->job = index;
    }
}

static struct most all[] = {{"geomcore_trace", do_trace, 0, 0, 0, 0},
                            {"geomcore_check", do_check, 0, 0, 0, 0},
                            {"geomcore_crossing", do_crossing, 0, 0, 0, 0},
                            {"geomcore_explain", do_explain, 0, 0, 0, 0},
                            {"geomcore_point", do_point, 0, 0, 0, 0},
                            {"geomcore_write_v1", do_write, 0, 0, 0, 0},
                            {"geomcore_read_v1", do_read, 0, 0, 0, 0}};

int main(void) {
    long lines = 0, points = 0, most_points = 0;
    for (long i = 0; fread(job, 1, sizeof job, stdin) == sizeof job; i++) {
        measure(&all[4], i);
        measure(&all[0], i);
        if (word & 255)
            continue;
        uint64_t line = word;
        long count = line >> 32;
        lines++;
        points += count;
        most_points = count > most_points ? count : most_points;
        measure(&all[1], i);
        if (word) {
            printf("job %ld: the check refuses the line\n", i);
            return 1;
        }
        word = line;
        measure(&all[2], i);
        word = line;
        measure(&all[3], i);
        word = line;
        measure(&all[5], i);
        measure(&all[6], i);
        if (word != line) {
            printf("job %ld: the line that was written and read is another\n", i);
            return 1;
        }
    }
    printf("%ld lines of %ld points, the longest of %ld\n", lines, points, most_points);
    for (int k = 0; k < 7; k++)
        printf("%-18s %8ld calls, at most %5ld bytes of stack, %.3f ms (job %ld)\n", all[k].name, all[k].calls, all[k].bytes,
               1e3 * all[k].seconds, all[k].job);
    return 0;
}
