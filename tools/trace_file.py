#!/usr/bin/env python3
"""trace_file.py [--bits] FILE: print a trace file of version 1 as text, or say what is wrong with it.

The first line says how many points the trace has, which of them is the start and how it closes. Then a line for each point: its index, x, y, z
of the point of surface A, u and v on A, u and v on B; lengths in kilometres, angles in radians. A number is the shortest decimal that reads
back as the same bits, with --bits the 16 hexadecimal digits of its bits. FILE may be - for standard input.

What makes bytes no trace file (refusal 20 of geomcore_read_v1, docs/RULES.md) is said on standard error, all of it that can be told, and the
program ends with 1. Whether the points lie on two surfaces is not looked at: the check does that.
"""
import math
import struct
import sys

HEADER = struct.Struct(">IBHHB")  # the length of what follows, version, count, start index, code
VERSION, WIDTH = 1, 7
LEAST, MOST = 4, 4001
JOB = 347  # the bytes of a job file, which begins likewise and has no 4 points
CODES = ("open", "closed forward", "closed backward")
NAMES = ("x", "y", "z", "u on A", "v on A", "u on B", "v on B")


def size(count):
    """How many bytes the file of so many points has."""
    return HEADER.size + 8 * WIDTH * count


def header_faults(data):
    """What is wrong with all but the numbers."""
    if len(data) < HEADER.size:
        yield f"{len(data)} bytes: a trace file has {HEADER.size} before its numbers"
        return
    length, version, count, start, code = HEADER.unpack_from(data)
    if len(data) == JOB and length == JOB - 4:
        yield "a job file, not a trace file"
        return
    if version != VERSION:
        yield f"version {version}: only version {VERSION} is read here"
        return
    if not LEAST <= count <= MOST:
        yield f"{count} points: a trace has {LEAST} to {MOST}"
    if start >= count:
        yield f"the start is point {start}, and the {count} points are counted from 0"
    if code >= len(CODES):
        yield f"closing code {code}: the codes are " + ", ".join(f"{k} {name}" for k, name in enumerate(CODES))
    if length != size(count) - 4:
        yield f"its length says that {length} bytes follow; {count} points make {size(count) - 4}"
    if len(data) != size(count):
        missing = size(count) - len(data)
        yield f"{len(data)} bytes, where {count} points make {size(count)}: " + (f"{missing} are missing" if missing > 0 else f"{-missing} too many")


def numbers(data):
    """The numbers of a file whose header is right."""
    return struct.unpack_from(f">{(len(data) - HEADER.size) // 8}d", data, HEADER.size)


def bits(x):
    return struct.pack(">d", x).hex()


def faults(data):
    """What makes the bytes no trace file; nothing where they are one."""
    wrong = list(header_faults(data))
    if wrong:
        yield from wrong
        return
    for k, x in enumerate(numbers(data)):
        if not math.isfinite(x):
            what = "not a number" if math.isnan(x) else "infinite"
            yield f"point {k // WIDTH}, {NAMES[k % WIDTH]}: {what} (bits {data[HEADER.size + 8 * k:HEADER.size + 8 * k + 8].hex()})"


def read(data):
    """Count, start, code and numbers; None for bytes that are no trace file."""
    if any(True for _ in faults(data)):
        return None
    _, _, count, start, code = HEADER.unpack_from(data)
    return count, start, code, numbers(data)


def write(values, count, start, code):
    """The file of a trace that is not refused."""
    return HEADER.pack(size(count) - 4, VERSION, count, start, code) + struct.pack(f">{WIDTH * count}d", *values[:WIDTH * count])


def text(data, shown):
    """The lines of a trace file."""
    count, start, code, values = read(data)
    yield f"# trace file, version {VERSION}: {count} points, start {start}, code {code} ({CODES[code]})"
    yield "# point  " + "  ".join(NAMES)
    for p in range(count):
        yield f"{p}  " + "  ".join(shown(x) for x in values[WIDTH * p:WIDTH * (p + 1)])


def main():
    words = [word for word in sys.argv[1:] if word != "--bits"]
    if len(words) != 1 or words[0] in ("-h", "--help"):
        print(__doc__, file=sys.stderr)
        sys.exit(2)
    try:
        data = sys.stdin.buffer.read() if words[0] == "-" else open(words[0], "rb").read()
    except OSError as wrong:
        print(f"trace_file.py: {wrong}", file=sys.stderr)
        sys.exit(1)
    wrong = list(faults(data))
    for what in wrong[:10]:
        print(f"trace_file.py: {words[0]}: {what}", file=sys.stderr)
    if len(wrong) > 10:
        print(f"trace_file.py: {words[0]}: and {len(wrong) - 10} numbers more that are not finite", file=sys.stderr)
    if wrong:
        sys.exit(1)
    print("\n".join(text(data, bits if "--bits" in sys.argv[1:] else repr)))


if __name__ == "__main__":
    main()
