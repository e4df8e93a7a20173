#!/usr/bin/env python3
"""list_file.py: the trace files that the gate replays, written and read, to standard output (`| tools/lists.py put file -`).

What a call answers and leaves is said by the second reading of request A1 over Python's struct (tools/compare_file.py, tools/trace_file.py). A
record is laid out as crates/replay/src/files.rt says.
"""
import random
import struct
import sys

import trace_file
from compare_file import FILL, SPECIAL, WILD, damaged, finite, good, read, written
from trace_file import HEADER, WIDTH, size

NUMBER = struct.pack("=d", -0.5)  # what lent numbers hold before the call


def whole(data):
    return data + bytes(-len(data) % 8)


def big(values):
    """Numbers in the record's order."""
    return b"".join(values[k:k + 8][::-1] for k in range(0, len(values), 8))


def record(head, said, words):
    return struct.pack(">QQ", head[0], len(words) // 8) + struct.pack(">5Q", *head[1:]) + struct.pack(">Q", said) + words


def write_record(values, count, start, code, room):
    said, after = written(values, count, start, code, room)
    return record((0, count, start, code, len(values) // 8, room), said, big(values) + whole(after[:room]))


def read_record(data, room):
    said, after = read(data, room)
    if after[:8] == bytes([FILL]) * 8:
        after = NUMBER * room
    else:
        count = said >> 32
        after = after[:8 * WIDTH * count] + NUMBER * (room - WIDTH * count)
    return record((1, len(data), room, 0, 0, 0), said, whole(data) + big(after[:8 * room]))


def writes(r):
    file = good(r, 4)
    values = struct.pack("=28d", *trace_file.numbers(file))
    # the ends of count, start and code, and rooms exact and one short: 20, then 8, then 20 for numbers
    for count in (0, 3, 4, 5, 4000, 4001, 4002, *WILD[10:]):
        for start in (0, 3, 4, 5, 2**64 - 1):
            yield values, count, start, 0, size(4)
    for code in (0, 1, 2, 3, 255, 256, 2**64 - 1):
        yield values, 4, 3, code, size(4)
    for have in (0, 27, 28, 29):
        for room in (0, size(4) - 1, size(4), size(4) + 1, size(4) + 20):
            yield (values + values)[:8 * have], 4, 0, 2, room
    # two rules broken at once: the one that is tested first answers
    spoiled = values[:8 * 27] + struct.pack("=Q", 0x7FF0000000000000)
    yield spoiled, 4, 0, 0, size(4)
    yield spoiled, 4, 0, 0, size(4) - 1
    yield spoiled, 4, 4, 0, size(4) - 1
    yield spoiled[:8 * 26], 4, 0, 3, size(4)
    # a number beyond the trace is not looked at
    yield values + struct.pack("=Q", 0x7FF8000000000000), 4, 0, 0, size(4)
    for at in range(0, 28, 3):
        for bits in SPECIAL:
            yield values[:8 * at] + struct.pack("=Q", bits) + values[8 * at + 8:], 4, 2, 1, size(4) + 3
    for _ in range(40):
        count = r.randrange(4, 13)
        yield finite(r, WIDTH * count), count, r.randrange(count), r.randrange(3), size(count)


def reads(r):
    file = good(r, 4)
    for room in (0, 27, 28, 29, 40):
        yield file, room
    for n in (0, 1, 4, 5, 9, 10, 11, 17, 18, 178, 226, 233):
        yield file[:n], 28
    for more in (1, 8, 56):
        yield file + bytes(more), 35
        yield file + file[10:10 + more], 35
    # every byte of the header, and places behind it
    for at in (*range(10), 10, 11, 17, 18, 121, 226, 233):
        for value in (0, 1, 2, 3, 4, 127, 128, 255):
            yield file[:at] + bytes([value]) + file[at + 1:], 28
    # a length and a count that agree with each other and not with the bytes, and the other way round
    for claimed in (3, 5, 4001, 4002):
        yield HEADER.pack(size(claimed) - 4, 1, claimed, 0, 0) + file[10:], 35
        yield HEADER.pack(size(4) - 4, 1, claimed, 0, 0) + file[10:], 35
        yield HEADER.pack(size(claimed) - 4, 1, 4, 0, 0) + file[10:], 35
    five = good(r, 5)
    yield HEADER.pack(size(5) - 4, 1, 4, 0, 0) + five[10:], 35
    yield HEADER.pack(size(4) - 4, 1, 4, 0, 0) + five[10:], 35
    yield HEADER.pack(size(4) - 4, 1, 5, 0, 0) + five[10:], 35
    # all of 20 comes before 8
    yield file[:226] + struct.pack(">Q", 0x7FF0000000000000), 27
    yield file[:4] + b"\x02" + file[5:], 0
    for at in range(0, 28, 3):
        for bits in SPECIAL:
            yield file[:10 + 8 * at] + struct.pack(">Q", bits) + file[18 + 8 * at:], 28
    for _ in range(40):
        count = r.randrange(4, 13)
        yield damaged(r, good(r, count)), WIDTH * count + r.choice((0, 0, 1, -1))


def main():
    out = sys.stdout.buffer
    for case in writes(random.Random(1)):
        out.write(write_record(*case))
    for case in reads(random.Random(2)):
        out.write(read_record(*case))


if __name__ == "__main__":
    main()
