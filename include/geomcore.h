/* The proved line where two analytic surfaces meet: the C interface of the archive that `tools/staticlib.sh capi` writes (x86-64 Linux).
 *
 * Units: lengths are in kilometres, angles in radians (docs/RULES.md says which number is which).
 *
 * What is unfit is refused under a number (docs/RULES.md), and a refused call writes nothing unless said here. Every NaN counts as one.
 * A call demands of its input only what C cannot say (docs/TRUST.md):
 *   - A slice passes as a pointer and a length: not null, aligned for its type, good for that many elements. With length 0 it is not read,
 *     but still not null and aligned.
 *   - What is lent as `const` is not written, and `const` slices may overlap each other; what is lent to be written (`out`, `buffer` of a
 *     trace or of a reader, `file` of a writer) must overlap nothing else that the call is given. No thread may write what is lent before
 *     the call returns.
 *   - The calling thread's floating-point mode (MXCSR) rounds to nearest, flushes nothing to zero and has every trap masked. A program
 *     starts so; -ffast-math in any part linked, fesetround or feenableexcept change it, and then answers differ and lines that the check
 *     would refuse are traced. geomcore_mode_fit, geomcore_mode_set and geomcore_mode_restore below ask for it, set it and put it back.
 *   - Stack: GEOMCORE_STACK_BYTES are enough for any call (measured, not proved).
 * The archive has no state and no writable data: any number of threads may call at once. */
#ifndef GEOMCORE_H
#define GEOMCORE_H

#include <stddef.h>
#include <stdint.h>
#include <xmmintrin.h>

#ifdef __cplusplus
extern "C" {
#endif

/* The bytes of one surface in a job file, and of the whole file (docs/RULES.md, "The job file"). */
#define GEOMCORE_SURFACE_BYTES 146
#define GEOMCORE_JOB_BYTES 347

/* The bytes of a trace file of version 1, of count points (docs/RULES.md, "The trace file"): 234 for 4, 224066 for 4001. */
#define GEOMCORE_FILE_V1_BYTES(count) (10 + 56 * (size_t)(count))

/* More than a call was seen to use of the stack (tools/limits.sh measures it). */
#define GEOMCORE_STACK_BYTES 8192

/* The kinds of reason in geomcore_explain's word, word >> 8 & 255. */
#define GEOMCORE_SEGMENT 1
#define GEOMCORE_WHOLE_APART 2
#define GEOMCORE_RUNS_APART 3
#define GEOMCORE_NONE_MET 4

/* MXCSR but for the flags that operations leave: as a program starts, and the bits that say so. */
#define GEOMCORE_MODE 0x1f80u
#define GEOMCORE_MODE_BITS 0xffc0u

/* Whether this thread rounds to nearest, flushes nothing to zero and has every trap masked. */
static inline int geomcore_mode_fit(void) { return (_mm_getcsr() & GEOMCORE_MODE_BITS) == GEOMCORE_MODE; }

/* Sets that mode, if it is not set, and gives what stood before, to be put back after the calls. */
static inline unsigned geomcore_mode_set(void) {
    unsigned before = _mm_getcsr();
    if ((before & GEOMCORE_MODE_BITS) != GEOMCORE_MODE)
        _mm_setcsr(GEOMCORE_MODE);
    return before;
}

/* Puts back what geomcore_mode_set gave; the flags of the calls between are lost if the mode was another. */
static inline void geomcore_mode_restore(unsigned before) {
    if ((before & GEOMCORE_MODE_BITS) != GEOMCORE_MODE)
        _mm_setcsr(before);
}

double geomcore_sqrt(double x); /* IEEE 754's: proved */
double geomcore_sin(double x); /* fdlibm's, of an angle in radians; a NaN of an infinite one and of a NaN */
double geomcore_cos(double x);
double geomcore_atan2(double y, double x); /* the angle of the point (x, y), in radians */

/* The point at (u, v) of a surface given by its 146 bytes (more may follow): 0, and x, y, z in the first three numbers of out; or the
 * refusal's number.
 * Tested in this order: 19 for bytes that are no surface, 8 for fewer than three numbers lent, 1 to 4, 6; a refusal writes nothing. */
uint64_t geomcore_point(const uint8_t *surface, size_t bytes, double u, double v, double *out, size_t room);

/* Walks the line where the two surfaces of a job file meet, over the lent numbers, at least 7 (2 cap + 1) of them: the refusal's number
 * + 2^8 times the closing code (0 open, 1 closed forward, 2 closed backward) + 2^16 times the start's index + 2^32 times the count of
 * points. Seven numbers a point stand first (x, y, z, u, v on A, u, v on B), then zeros up to 7 (2 cap + 1);
 * refusals 9, 21, 10 and 11 leave nothing but zeros there, the others write nothing.
 * The guess leads to no meeting: 9 or 21 in the low byte, and in the byte above it (word >> 8 & 255) the Newton round, from 0, in which
 * the meeting gave up; beside 21, in the two bytes above that (word >> 16 & 65535), the column, from 0, at which the solve gave up.
 *   21: a solve gave up, in a round of 0 to 31. Where that round stood the two surfaces are as good as parallel, or one has no normal
 *       there (a pole, an apex), or a radius near the limit of 2^20 makes them look so. Round 0 stands at the guess, drawn into the
 *       windows. Another pair of surfaces is needed; where they bend, a guess elsewhere may do.
 *       The column is a coordinate, 0, 1, 2 for x, y, z: the first that the directions of the two surfaces there, u and v of each, do
 *       not reach by themselves. 0: none has a part along x; 1: their parts along y follow from those along x; 2: those along z follow
 *       from x and y. A normal that both surfaces share has its last part, in this order, along that coordinate: two level planes, one
 *       above the other, give 2.
 *   9:  every other failed meeting. 0 to 31: in that round no trial came nearer; 32: all rounds came nearer, none near enough. Another
 *       guess is needed; none will do where the surfaces do not meet inside their windows.
 * Proved: where the low byte is 0 the line in the buffer passes the check under the job, with that count, start and code; where it is 9 or
 * 21, the meeting of the job's guess gave that number, round and column. */
uint64_t geomcore_trace(const uint8_t *job, size_t bytes, double *buffer, size_t lent);

/* Whether a trace of count points, seven numbers each (x, y, z, u, v on A, u, v on B), with its start's index and closing code, passes the
 * check against the surfaces and tolerance of a job file (its guess and cap aren't read): 0, or the refusal's number + 2^32 times the
 * index of the point that 13 to 16 name.
 * Proved: it is 0 exactly when the bytes are a job and the trace passes, and then at every point the exact squared gap between the two
 * surfaces' computed points is at most the confusion squared times (1 + 2^-50). */
uint64_t geomcore_check(const uint8_t *job, size_t bytes, const double *buffer, size_t lent, uint64_t count,
                        uint64_t start, uint64_t code);

/* Whether a trace of count points crosses a box grown by 8000 times the confusion: the refusal's number + 2^8 if it does. corners: low
 * x, y, z, then high; fewer than six numbers given are refused by 8, before all else. */
uint64_t geomcore_crossing(double confusion, double angular, const double *buffer, size_t lent, uint64_t count,
                           const double *corners, size_t given);

/* Why a trace of count points crosses a box, corners as for geomcore_crossing, or why not: the refusal's number + 2^8 times the kind of the
 * reason + 2^32 times its value. The first of these that holds is the answer. Apart is always from the box grown by 8000 times the
 * confusion. A run holds 16 segments, from points 0, 16, 32 and on; the last one what is left.
 *   GEOMCORE_SEGMENT:     some segment counts: neither the whole trace's box nor its run's is apart, and it meets the grown box; value: the
 *                         index, from 0, of the first. Segment i goes from point i to i + 1: buffer[7 i] and the 13 numbers after it.
 *   GEOMCORE_WHOLE_APART: the whole trace's box is apart; value: the first axis, 0, 1, 2 for x, y, z, on which it is.
 *   GEOMCORE_RUNS_APART:  the boxes of all runs are apart; value: 0.
 *   GEOMCORE_NONE_MET:    no segment of the runs whose box is not apart meets the grown box; value: how many segments these runs hold.
 * Refused as by geomcore_crossing, in this order: 5, 8, 12 (the count alone), 18, 17; fewer than six corners given by 8, before all else.
 * Kind and value are then 0.
 * Proved: the answer is the one that this rule gives. Its low byte is geomcore_crossing's; its kind is GEOMCORE_SEGMENT exactly where
 * geomcore_crossing says that the trace crosses, and no segment before that one counts; beside GEOMCORE_NONE_MET stands at least 1. */
uint64_t geomcore_explain(double confusion, double angular, const double *buffer, size_t lent, uint64_t count,
                          const double *corners, size_t given);

/* The trace file, version 1: how office and unit pass a line. Big-endian: 4 bytes length of what follows (6 + 56 count), version byte 1,
 * 2 bytes count, 2 bytes start's index, 1 byte closing code, then seven 8-byte numbers a point. One file stands for a trace: -0 and +0
 * make two. It holds no surfaces: who reads a file checks the trace against the job that both have (geomcore_check).
 *
 * Writes count points of the buffer, seven numbers each, to the front of the file's room: the refusal's number + 2^32 times the bytes
 * written, GEOMCORE_FILE_V1_BYTES(count). Tested in this order: 20 for a count outside 4 to 4001, a start not below the count or a code
 * above 2; 8 for fewer than 7 count numbers lent or fewer bytes of room; 20 for a number that is not finite. A refusal writes nothing,
 * and nothing beyond the file is written.
 * Proved: the file, read into room enough, gives count, start, code and numbers back bit for bit; a trace that passes the check is
 * refused at most by 8. */
uint64_t geomcore_write_v1(const double *buffer, size_t lent, uint64_t count, uint64_t start, uint64_t code, uint8_t *file,
                           size_t room);

/* Reads a trace file of exactly so many bytes into the front of the buffer: the word of geomcore_trace, or the refusal's number. 20 for
 * bytes that are no such file: fewer than 10, another version, a count, start, code or number that the writer refuses by 20, a length that
 * does not agree with the count and with the bytes handed over, so that a byte too many is refused. Then 8 for fewer than 7 count numbers
 * lent; 28007 are enough for any file. A refusal writes nothing, and nothing beyond the trace is written. It judges no geometry.
 * Proved: a trace that was read, written again, gives the same file; no other file reads as that trace. */
uint64_t geomcore_read_v1(const uint8_t *file, size_t bytes, double *buffer, size_t lent);

#ifdef __cplusplus
}
#endif

#endif
