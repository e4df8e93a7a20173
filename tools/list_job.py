#!/usr/bin/env python3
"""list_job.py LIST LINES: the inputs of the job program that the gate replays (`tools/lists.py put job LIST`), and the lines that
crates/replay/stdout must have for them.

Inputs are document 01's examples 9 to 12, the last row 9 as request A2 has it, docs/example-far.txt, and the cases of refusal 19, with
numbers that are NaN patterns among them. A record is a 2-byte length and 400 bytes, zeros behind the input. The lines follow from 01 alone,
but for those of THE_RUST.
"""
import struct
import sys
from pathlib import Path

import job

HERE = Path(__file__).resolve().parent
TEN = (HERE / "../docs/example-job.txt").read_text()
FAR = (HERE / "../docs/example-far.txt").read_text()


def ten(**lines):
    """Example 10's file with some lines changed: a word of the text, and what it says now."""
    text = TEN
    for word, new in lines.items():
        old = [x for x in text.split("\n") if x.split(" ")[0] == word]
        text = text.replace(old[0], f"{word} {new}")
    return job.job(text)


def nine(b):
    """Example 9's file with these lines for B."""
    square = "u -1 1\nv -1 1\n"
    return job.job(f"surface A plane\n{square}surface B plane\n{b}{square}confusion 1e-7\nangular 1e-12\nguess 0 0 0 0\ncap 2\n")


def at(data, place, new):
    """The file with some bytes replaced."""
    return data[:place] + new + data[place + len(new):]


def bits(b):
    return f"bits:{b:016x}"


def kind(code, first=0, second=0):
    """Example 10 with another kind byte for A and these bits in its sizes."""
    return at(at(ten(), 5, bytes([code])), 5 + 98, struct.pack(">QQ", first, second))


def cases():
    whole = ten()
    yield whole, "trace 5 2 0"
    yield ten(u="0.1 0.2"), "refused 11"
    # 9: the same plane; one higher, where the first solve gives up; upright and out of reach. The line has the number alone, no round.
    yield nine(""), "refused 10"
    yield nine("origin 0 0 1\n"), "refused 21"
    yield nine("origin 3 0 0\nx 0 1 0\ny 0 0 1\nz 1 0 0\n"), "refused 9"
    # 12: the ends of confusion and their outer neighbours
    least = struct.unpack(">Q", struct.pack(">d", 2.0 ** -40))[0]
    yield ten(confusion="2^-40"), THE_RUST["least"]
    yield ten(confusion=bits(least - 1)), "refused 5"
    yield ten(confusion="1"), THE_RUST["one"]
    yield ten(confusion=bits(0x3FF0000000000001)), "refused 5"
    for cap, line in [(1, 7), (2001, 7), (501, 8), (0, 7), (65535, 7)]:
        yield ten(cap=str(cap)), f"refused {line}"
    yield job.job(FAR), THE_RUST["far"]
    # 19: lengths, the length field, version, kind, mark, unused sizes
    yield b"", "refused 19"
    yield whole[:346], "refused 19"
    yield whole + b"\0", "refused 19"
    yield whole + bytes(53), "refused 19"
    for field in (0, 342, 344, 347, 343 << 16):
        yield at(whole, 0, struct.pack(">I", field)), "refused 19"
    for version in (0, 2, 255):
        yield at(whole, 4, bytes([version])), "refused 19"
    for place in (5, 151):
        yield at(whole, place, b"\x05"), "refused 19"
        yield at(whole, place + 1, b"\x04"), "refused 19"
        yield at(whole, place + 98, struct.pack(">d", -0.0)), "refused 19"
        yield at(whole, place + 113, b"\x01"), "refused 19"
    one = 0x3FF0000000000000
    yield kind(1, one, 1), "refused 19"
    yield kind(3, one, 1 << 63), "refused 19"
    # the sizes in their places: an unfit one is refused by 2, marks on a plane by 4
    yield kind(1), "refused 2"
    yield kind(2, one, 0x3FF8000000000000), "refused 2"
    yield kind(4, one, 0), "refused 2"
    for marks in (1, 2, 3):
        yield at(whole, 6, bytes([marks])), "refused 4"
    # 19 comes before all else, and A's refusals before B's
    yield at(kind(1), 4, b"\x02"), "refused 19"
    yield at(kind(1), 151 + 1, b"\x01"), "refused 2"
    # two rules broken at once: the one that is tested first answers
    no_number = struct.pack(">Q", 0x7FF8000000000000)
    low = ten(confusion=bits(least - 1))
    yield at(low, 313, no_number), "refused 5"
    yield at(ten(cap="1"), 313, no_number), "refused 6"
    yield at(low, 151 + 1, b"\x01"), "refused 4"
    yield at(at(whole, 6, b"\x01"), 151 + 2, no_number), "refused 4"
    # NaN patterns, quiet and signalling, are NaN
    for nan in (0x7FF8000000000000, 0x7FF0000000000001, 0xFFF0000000000001, 0xFFFFFFFFFFFFFFFF):
        word = struct.pack(">Q", nan)
        for place, number in [(7, 1), (119, 3), (297, 5), (305, 5), (313, 6), (337, 6)]:
            yield at(whole, place, word), f"refused {number}"


# What the Rust, with document 01's changes, answers at the ends of confusion and where an angle is many turns out.
THE_RUST = {"least": "trace 23 11 0", "one": "refused 11", "far": "trace 55 10 0"}


def main():
    records, lines = [], []
    for data, line in cases():
        records.append(struct.pack(">H", len(data)) + data.ljust(400, b"\0"))
        lines.append(line + "\n")
    Path(sys.argv[1]).write_bytes(b"".join(records))
    Path(sys.argv[2]).write_text("".join(lines))


if __name__ == "__main__":
    main()
