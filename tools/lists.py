#!/usr/bin/env python3
"""lists.py: the recorded lists that the gate replays, crates/replay/stdin: one list of each kind, headed by its kind's number and how many
records it has, 8 bytes each, big-endian.

  lists.py put KIND LIST   the list of this kind is LIST's bytes from now on
  lists.py get KIND LIST   the records of the list of this kind, without its head, to LIST
  lists.py show            the lists: kind, records, bytes

LIST is a file, or - for standard input or output. The lines of crates/replay/stdout that say how many were compared are changed by hand.
"""
import struct
import sys
from pathlib import Path

STDIN = Path(__file__).resolve().parent / "../crates/replay/stdin"
# the kinds in the order of their numbers, and the bytes of a record: those before the numbers where it names how many follow
KINDS = {"sqrt": 16, "tolerance": 24, "fdlibm": 48, "solve": 216, "surface": 240, "crossing": 968, "marching": 488, "job": 402,
         "trace": 376, "check": 400, "file": 64}
FOLLOWED = {"trace", "check", "file"}


def records(kind, data):
    """The places behind each record of the list that data begins with."""
    place = 0
    while place < len(data):
        end = place + KINDS[kind]
        if kind in FOLLOWED:
            end += 8 * struct.unpack(">Q", data[place + 8:place + 16])[0]
        if end > len(data):
            sys.exit(f"lists.py: {kind}: the last record is cut off")
        yield end
        place = end


def lists():
    """The lists by kind, without their heads."""
    data, found = STDIN.read_bytes() if STDIN.exists() else b"", {}
    while data:
        number, count = struct.unpack(">QQ", data[:16])
        kind, data, end = list(KINDS)[number], data[16:], 0
        ends = records(kind, data)
        for _ in range(count):
            end = next(ends)
        found[kind], data = data[:end], data[end:]
    return found


def main():
    words = sys.argv[1:]
    if len(words) not in (1, 3) or words[0] not in ("put", "get", "show") or (words[0] == "show") != (len(words) == 1):
        sys.exit(__doc__)
    now = lists()
    if words[0] == "show":
        for kind, data in now.items():
            print(f"{kind}: {len(list(records(kind, data)))} records, {len(data)} bytes")
        return
    _, kind, path = words
    if kind not in KINDS:
        sys.exit(f"lists.py: no kind {kind}: {', '.join(KINDS)}")
    if words[0] == "get":
        sys.stdout.buffer.write(now[kind]) if path == "-" else Path(path).write_bytes(now[kind])
        return
    now[kind] = sys.stdin.buffer.read() if path == "-" else Path(path).read_bytes()
    out = b""
    for number, kind in enumerate(KINDS):
        if kind in now:
            out += struct.pack(">QQ", number, len(list(records(kind, now[kind])))) + now[kind]
    STDIN.write_bytes(out)


if __name__ == "__main__":
    main()
