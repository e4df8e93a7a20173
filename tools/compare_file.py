#!/usr/bin/env python3
"""compare_file.py LIBRARY SEED COUNT: compares the proved writer and reader of the trace file, in a shared library, with a writer and a reader
over Python's struct (tools/trace_file.py): the answer's word and every byte lent, those beyond the file or the trace too.

  changes of one byte   every byte of a file of 4 points changed to every other value
  cuts                  the file cut at every place, and with bytes behind it
  ends                  counts, starts and codes at the ends of their ranges and wild ones, rooms exact and one short, with 3, 4, 5, 4001 and 4002
                        points
  special numbers       each in each place of a trace of 4 points, written and read
  written, read         COUNT random calls of each, of bit patterns, with rooms around what is needed and files damaged

Ends non-zero on any difference. tools/compare_file.sh builds the library and runs it.
"""
import ctypes
import math
import random
import struct
import sys

import trace_file
from trace_file import WIDTH, size

# -0, subnormals, the greatest and the least normal, infinities, NaNs quiet and signalling of both signs
SPECIAL = [0x0000000000000000, 0x8000000000000000, 0x0000000000000001, 0x800FFFFFFFFFFFFF, 0x0010000000000000, 0x7FEFFFFFFFFFFFFF,
           0xFFEFFFFFFFFFFFFF, 0x7FF0000000000000, 0xFFF0000000000000, 0x7FF8000000000000, 0xFFF8000000000000, 0x7FF0000000000001,
           0xFFF0000000000001, 0x7FFFFFFFFFFFFFFF, 0xFFFFFFFFFFFFFFFF, 0x7FF4000000000000]
WILD = [0, 1, 2, 3, 4, 5, 255, 256, 4000, 4001, 4002, 65535, 65536, 65540, 2**32, 2**32 + 4, 2**61, 2**63, 2**64 // 7, 2**64 // 56 + 1, 2**64 - 1]
FILL = 0xA5


class Library:
    """The two calls, each with what the lent bytes are afterwards. Numbers are 8 bytes each, in the machine's order."""

    def __init__(self, path):
        archive = ctypes.CDLL(path)
        self.writer, self.reader = archive.geomcore_write_v1, archive.geomcore_read_v1
        size_t, word, bytes_ = ctypes.c_size_t, ctypes.c_uint64, ctypes.c_void_p
        self.writer.restype = self.reader.restype = word
        self.writer.argtypes = [bytes_, size_t, word, word, word, bytes_, size_t]
        self.reader.argtypes = [bytes_, size_t, bytes_, size_t]

    def write(self, values, count, start, code, room):
        lent, out = ctypes.create_string_buffer(values, len(values) + 8), ctypes.create_string_buffer(bytes([FILL]) * (room + 8), room + 8)
        said = self.writer(lent, len(values) // 8, count, start, code, out, room)
        return said, out.raw

    def read(self, data, room):
        lent, out = ctypes.create_string_buffer(data, len(data) + 8), ctypes.create_string_buffer(bytes([FILL]) * (8 * room + 8), 8 * room + 8)
        said = self.reader(lent, len(data), out, room)
        return said, out.raw


def over(new, length):
    """The lent bytes with these at their front."""
    return new + bytes([FILL]) * (length - len(new))


def written(values, count, start, code, room):
    """What the writer must answer and leave."""
    untouched = over(b"", room + 8)
    if not 4 <= count <= 4001 or start >= count or code > 2:
        return 20, untouched
    if len(values) // 8 < WIDTH * count or room < size(count):
        return 8, untouched
    numbers = struct.unpack(f"={WIDTH * count}d", values[:8 * WIDTH * count])
    if not all(map(math.isfinite, numbers)):
        return 20, untouched
    file = trace_file.write(numbers, count, start, code)
    return len(file) << 32, over(file, room + 8)


def read(data, room):
    """What the reader must answer and leave."""
    untouched, said = over(b"", 8 * room + 8), trace_file.read(data)
    if said is None:
        return 20, untouched
    count, start, code, numbers = said
    if room < WIDTH * count:
        return 8, untouched
    return count << 32 | start << 16 | code << 8, over(struct.pack(f"={WIDTH * count}d", *numbers), 8 * room + 8)


class Tally:
    """What was compared, and how many of each answer there were."""

    def __init__(self, name):
        self.name, self.compared, self.differ, self.answers = name, 0, 0, {}

    def count(self, case, got, want):
        number = want[0] & 255
        self.compared += 1
        self.answers[number] = self.answers.get(number, 0) + 1
        if got != want:
            self.differ += 1
            if self.differ < 4:
                print(f"  {self.name}: {case}: {got[0]:x}, not {want[0]:x}" + ("" if got[0] != want[0] else "; the lent bytes differ"))

    def line(self):
        answers = ", ".join(f"{n} " + (f"refused by {k}" if k else "done") for k, n in sorted(self.answers.items()))
        print(f"trace files, {self.name}: {self.compared} compared, {self.differ} differ ({answers})")
        return self.differ


def patterns(r, n):
    """n numbers of any bits."""
    return r.getrandbits(64 * n).to_bytes(8 * n, "little") if n else b""


def finite(r, n):
    """n numbers, few of them not finite: bit patterns, most with the exponent's highest bit clear."""
    data = bytearray(patterns(r, n))
    for k in range(n):
        if r.randrange(40):
            data[8 * k + 7] &= 0xBF
    return bytes(data)


def numbers_of(values):
    return struct.unpack(f"={len(values) // 8}d", values)


def good(r, count):
    """A file of so many points, and its start and code."""
    start, code = r.randrange(count), r.randrange(3)
    values = bytearray(patterns(r, WIDTH * count))
    for k in range(WIDTH * count):
        values[8 * k + 7] &= 0xBF
    return trace_file.write(numbers_of(bytes(values)), count, start, code)


def one_byte(library, r):
    tally, file = Tally("changes of one byte"), good(r, 4)
    for at in range(len(file)):
        for value in range(256):
            data = file[:at] + bytes([value]) + file[at + 1:]
            tally.count((at, value), library.read(data, 28), read(data, 28))
    return tally


def cuts(library, r):
    tally, file = Tally("cuts"), good(r, 4)
    for n in range(len(file) + 1):
        for room in (27, 28, 29):
            tally.count((n, room), library.read(file[:n], room), read(file[:n], room))
    for more in (1, 2, 7, 8, 56, 112):
        for tail in (bytes(more), bytes([255]) * more, file[:more]):
            tally.count((more, tail), library.read(file + tail, 100), read(file + tail, 100))
    return tally


def ends(library, r):
    tally, large = Tally("ends"), good(r, 4001)
    values = struct.pack(f"={WIDTH * 4001}d", *trace_file.numbers(large))
    for count in (3, 4, 5, 4001, 4002):
        lent = values + patterns(r, WIDTH)
        for have in (WIDTH * count - 1, WIDTH * count, WIDTH * count + 1):
            for room in (size(count) - 1, size(count), size(count) + 9):
                case = (lent[:8 * have], count, count - 1, 2, room)
                tally.count((count, have, room), library.write(*case), written(*case))
    for count in WILD:
        for start in WILD:
            for code in (0, 1, 2, 3, 255, 256, 2**32, 2**64 - 1):
                case = (values[:8 * 40], count, start, code, 400)
                tally.count(case[1:], library.write(*case), written(*case))
    for count in (3, 4, 5, 4001, 4002):
        for claimed in (count - 1, count, count + 1):
            body = over(values, 8 * WIDTH * count) if count > 4001 else values[:8 * WIDTH * count]
            data = trace_file.HEADER.pack(size(claimed) - 4, 1, claimed, 0, 0) + struct.pack(f">{WIDTH * count}d", *numbers_of(body))
            for room in (WIDTH * count - 1, WIDTH * count, WIDTH * count + 1):
                tally.count((count, claimed, room), library.read(data, room), read(data, room))
    return tally


def special(library, r):
    tally, file = Tally("special numbers"), good(r, 4)
    values = struct.pack("=28d", *trace_file.numbers(file))
    for at in range(29):
        for bits in SPECIAL:
            lent = bytearray(values + values[:8])
            lent[8 * at:8 * at + 8] = struct.pack("=Q", bits)
            tally.count((at, hex(bits)), library.write(bytes(lent), 4, 3, 1, 240), written(bytes(lent), 4, 3, 1, 240))
            data = (file + bytes(8))[:10 + 8 * at] + struct.pack(">Q", bits) + file[18 + 8 * at:]
            tally.count((at, hex(bits), "read"), library.read(data[:234], 28), read(data[:234], 28))
    return tally


def random_writes(library, r, cases):
    tally = Tally("written")
    for _ in range(cases):
        count = r.randrange(2, 14) if r.randrange(50) else r.choice(WILD)
        few = min(count, 14)
        have = max(0, WIDTH * few + r.choice((0, 0, 0, 0, 1, 7, -1, -7)))
        room = max(0, size(few) + r.choice((0, 0, 0, 0, 1, 8, -1, -8)))
        start = r.randrange(few + 1) if r.randrange(20) else r.choice(WILD)
        code = r.randrange(3) if r.randrange(20) else r.choice(WILD)
        case = (finite(r, have), count, start, code, room)
        tally.count(case, library.write(*case), written(*case))
    return tally


def damaged(r, file):
    """The file, most often with something changed."""
    kind = r.randrange(8)
    if kind == 0:
        at = r.randrange(len(file))
        return file[:at] + bytes([r.randrange(256)]) + file[at + 1:]
    if kind == 1:
        return file[:r.randrange(len(file))]
    if kind == 2:
        return file + patterns(r, 1)[:r.randrange(9)]
    if kind == 3:
        length, version, count, start, code = trace_file.HEADER.unpack_from(file)
        field = r.randrange(5)
        changed = [length, version, count, start, code]
        changed[field] = r.choice((0, 1, 2, 3, 4, 5, count, length, length + 56, start + 1)) % (2**32, 256, 65536, 65536, 256)[field]
        return trace_file.HEADER.pack(*changed) + file[10:]
    if kind == 4:
        at = r.randrange((len(file) - 10) // 8)
        return file[:10 + 8 * at] + struct.pack(">Q", r.choice(SPECIAL)) + file[18 + 8 * at:]
    return file


def random_reads(library, r, cases):
    tally = Tally("read")
    for _ in range(cases):
        count = r.randrange(4, 14)
        data = damaged(r, good(r, count)) if r.randrange(50) else patterns(r, 30)[:r.randrange(240)]
        room = max(0, WIDTH * count + r.choice((0, 0, 0, 1, 7, -1, -7)))
        tally.count((data.hex(), room), library.read(data, room), read(data, room))
    return tally


def main():
    if len(sys.argv) != 4:
        sys.exit(__doc__)
    library, seed, cases = Library(sys.argv[1]), int(sys.argv[2]), int(sys.argv[3])
    differ = 0
    for k, part in enumerate((one_byte, cuts, ends, special)):
        differ += part(library, random.Random(seed + k)).line()
    differ += random_writes(library, random.Random(seed + 10), cases).line()
    differ += random_reads(library, random.Random(seed + 11), cases).line()
    sys.exit(1 if differ else 0)


if __name__ == "__main__":
    main()
