#!/usr/bin/env python3
"""job.py TEXT [FILE]: write the job file (347 bytes) of a readable text to FILE, or to standard output.

    surface A cylinder            kinds: plane, cylinder, cone, sphere, torus
    origin 0 0 0                  the frame; lines left out are those of the unit frame
    x 1 0 0
    y 0 1 0
    z 0 0 1
    radius 2                      cylinder and sphere: radius; cone: radius, angle; torus: major, minor
    u 0 6.25                      the windows, low and high; here u is an angle and v a length
    v -inf inf
    turn u                        u has a period (v of a torus too: turn u v), so its window is not applied
    surface B plane               the second surface, likewise
    u 0 0.3
    v -1 1
    confusion 2^-20
    angular 1e-12
    guess 0.15 0 0.15 0           u, v on A, then on B
    cap 500                       steps each way

Lengths are in kilometres, angles in radians: the cone's 'angle', u of all but the plane, v of the sphere and the torus. A note on standard
error says where an angle looks like degrees; the file is written all the same.

A number is decimal (0.3, -1e-12, inf, nan), a power of two (2^-20, -2^3) or 16 hexadecimal digits of bits (bits:3fd3333333333333).
'#' starts a comment. TEXT may be - for standard input. Nothing is judged here that the tracer refuses by a number of its own.
"""
import math
import re
import struct
import sys

KINDS = {"plane": (0, []), "cylinder": (1, ["radius"]), "cone": (2, ["radius", "angle"]), "sphere": (3, ["radius"]),
         "torus": (4, ["major", "minor"])}
ANGLES = ["", "u", "u", "uv", "uv"]  # which parameters are angles, by the kind's number
UNIT = {"origin": (0.0, 0.0, 0.0), "x": (1.0, 0.0, 0.0), "y": (0.0, 1.0, 0.0), "z": (0.0, 0.0, 1.0)}
SIZES = {name for _, names in KINDS.values() for name in names}


class Bad(Exception):
    """What is wrong with the text, and in which line (0: in none)."""

    def __init__(self, line, what):
        super().__init__(f"line {line}: {what}" if line else what)


def number(line, word):
    """The eight bytes of a number."""
    power = re.fullmatch(r"(-?)2\^(-?\d{1,4})", word)
    if power:
        try:
            return struct.pack(">d", math.ldexp(-1.0 if power[1] else 1.0, int(power[2])))
        except OverflowError:
            raise Bad(line, f"'{word}' is too large for a binary64 number") from None
    bits = re.fullmatch(r"bits:([0-9a-fA-F]{16})", word)
    if bits:
        return bytes.fromhex(bits[1])
    try:
        value = float(word)
    except ValueError:
        raise Bad(line, f"'{word}' is no number (0.3, -1e-12, inf, nan, 2^-20 or bits: and 16 hexadecimal digits)") from None
    if math.isinf(value) and "inf" not in word.lower():
        raise Bad(line, f"'{word}' is too large for a binary64 number")
    return struct.pack(">d", value)


def numbers(line, name, words, count):
    if len(words) != count:
        raise Bad(line, f"'{name}' takes {count} number{'s' if count > 1 else ''}, {len(words)} given")
    return b"".join(number(line, w) for w in words)


def put(table, line, name, value, where):
    if name in table:
        raise Bad(line, f"'{name}' is given twice{where}")
    table[name] = value


def surface_line(table, line, name, words, who):
    """One line that belongs to a surface."""
    kind = table["kind"]
    sizes = KINDS[kind][1]
    where = f" for surface {who}"
    if name in UNIT:
        put(table, line, name, numbers(line, name, words, 3), where)
    elif name in ("u", "v"):
        put(table, line, name, numbers(line, name, words, 2), where)
    elif name in sizes:
        put(table, line, name, numbers(line, name, words, 1), where)
    elif name in SIZES:
        raise Bad(line, f"a {kind} has no '{name}'" + (f": it has {' and '.join(sizes)}" if sizes else ": it has no size"))
    elif name == "turn":
        if not words or len(set(words)) != len(words) or not set(words) <= {"u", "v"}:
            raise Bad(line, "'turn' takes u, v, or u v")
        put(table, line, name, sum({"u": 1, "v": 2}[w] for w in words), where)
    else:
        return False
    return True


def read(text):
    """The surfaces by name, and the rest."""
    surfaces, rest, who = {}, {}, None
    for line, raw in enumerate(text.splitlines(), 1):
        words = raw.split("#", 1)[0].split()
        if not words:
            continue
        name, words = words[0], words[1:]
        if name == "surface":
            if len(words) != 2 or words[0] not in ("A", "B") or words[1] not in KINDS:
                raise Bad(line, f"'surface' takes A or B and a kind ({', '.join(KINDS)})")
            who = words[0]
            put(surfaces, line, who, {"kind": words[1]}, "")
        elif name in ("confusion", "angular"):
            put(rest, line, name, numbers(line, name, words, 1), "")
        elif name == "guess":
            put(rest, line, name, numbers(line, name, words, 4), "")
        elif name == "cap":
            if len(words) != 1 or not re.fullmatch(r"\d{1,5}", words[0]) or int(words[0]) > 65535:
                raise Bad(line, "'cap' takes one whole number from 0 to 65535")
            put(rest, line, name, struct.pack(">H", int(words[0])), "")
        elif who is None:
            raise Bad(line, f"'{name}' before any 'surface A KIND'")
        elif not surface_line(surfaces[who], line, name, words, who):
            raise Bad(line, f"unknown word '{name}'")
    return surfaces, rest


def surface_bytes(table, who):
    code, sizes = KINDS[table["kind"]]
    for name in [*sizes, "u", "v"]:
        if name not in table:
            raise Bad(0, f"surface {who} ({table['kind']}) has no '{name}'")
    frame = b"".join(table.get(name) or struct.pack(">3d", *unit) for name, unit in UNIT.items())
    used = b"".join(table[name] for name in sizes)
    return bytes([code, table.get("turn", 0)]) + frame + used.ljust(16, b"\0") + table["u"] + table["v"]


def job(text):
    """The 347 bytes."""
    surfaces, rest = read(text)
    for who in ("A", "B"):
        if who not in surfaces:
            raise Bad(0, f"no 'surface {who} KIND'")
    for name in ("confusion", "angular", "guess", "cap"):
        if name not in rest:
            raise Bad(0, f"no '{name}'")
    body = b"\x01" + surface_bytes(surfaces["A"], "A") + surface_bytes(surfaces["B"], "B")
    body += rest["confusion"] + rest["angular"] + rest["guess"] + rest["cap"]
    return struct.pack(">I", len(body)) + body


def angles(data):
    """The angles of a job file: a name, the number, and the magnitude above which it looks like degrees. In radians a window spans a turn
    at most and a guess lies in it, so two turns from 0 (12.57) leave room; most windows in degrees end farther out. A cone's semi-angle
    must be below 1.5 (refusal 2)."""
    def at(place):
        return struct.unpack(">d", data[place:place + 8])[0]

    for k, start in enumerate((5, 151)):
        who, kind = "AB"[k], data[start]
        if kind == KINDS["cone"][0]:
            yield f"surface {who}: angle", at(start + 106), 1.5
        for axis in ANGLES[kind]:
            j = "uv".index(axis)
            for side, place in (("low", start + 114 + 16 * j), ("high", start + 122 + 16 * j)):
                yield f"surface {who}: {axis}, {side} end", at(place), 4 * math.pi
            yield f"guess: {axis} on {who}", at(313 + 16 * k + 8 * j), 4 * math.pi


def notes(data):
    """What looks like degrees. An infinite end is a window without end."""
    for name, value, most in angles(data):
        if most < abs(value) < math.inf:
            yield f"note: {name} is {value:g}; angles are in radians (that many degrees are {math.radians(value):.6g})"


def main():
    if len(sys.argv) not in (2, 3) or sys.argv[1] in ("-h", "--help"):
        print(__doc__, file=sys.stderr)
        sys.exit(2)
    try:
        text = sys.stdin.read() if sys.argv[1] == "-" else open(sys.argv[1], encoding="utf-8").read()
        data = job(text)
        for note in notes(data):
            print(f"job.py: {sys.argv[1]}: {note}", file=sys.stderr)
        if len(sys.argv) == 3:
            with open(sys.argv[2], "wb") as out:
                out.write(data)
        else:
            sys.stdout.buffer.write(data)
    except (Bad, OSError, UnicodeDecodeError) as wrong:
        print(f"job.py: {sys.argv[1]}: {wrong}", file=sys.stderr)
        sys.exit(1)


if __name__ == "__main__":
    main()
