#!/usr/bin/env python3
"""archive.py [ARCHIVE]: what an archive of the proved code (target/staticlib/libcapi.a if none is named) holds, by nm, readelf and objdump.

Prints what it asks of the linker, and a bound on the stack of each function that it exports: frames and return addresses summed along the
worst chain of calls, with the 128 bytes below its frame that a function may use which calls nothing; not what the C functions that it calls
use beyond their return address. Ends with 1 if there is writable data, a call whose target does not stand in the code, a chain of calls that
comes back to itself, a fixed address in the code, an x87 or fused instruction, or one that changes MXCSR: then a sentence of docs/TRUST.md,
"Limits", is not true.
"""
import re
import subprocess
import sys
from collections import defaultdict


def said(*command):
    return subprocess.run(command, check=True, capture_output=True, text=True).stdout


def symbols(archive):
    """The names exported, and those asked for."""
    exported, asked = set(), set()
    for line in said("nm", "-g", archive).splitlines():
        words = line.split()
        if len(words) == 3 and words[1] == "T":
            exported.add(words[2])
        elif len(words) == 2 and words[0] in "Uw":
            asked.add(words[1])
    return exported, asked - exported


def writable(archive):
    """Sections that a program can write, and that are not empty."""
    found = re.findall(r"\[ *\d+\] (\S+) +\w+ +[0-9a-f]+ [0-9a-f]+ ([0-9a-f]+) [0-9a-f]+ +(\w*)", said("readelf", "-SW", archive))
    return [name for name, size, flags in found if "W" in flags and "A" in flags and int(size, 16) and not name.startswith(".data.rel.ro")]


def functions(archive):
    """Each function's frame, the functions that it calls, and what it should not have."""
    frame, calls, odd = defaultdict(int), defaultdict(set), []
    name = last = ""
    for line in said("objdump", "-dr", "--no-show-raw-insn", archive).splitlines():
        start = re.match(r"[0-9a-f]+ <(.+)>:$", line)
        moved = re.match(r"\s+[0-9a-f]+: (R_X86_64_\w+)\s+(.+?)(?:[-+]0x[0-9a-f]+)?$", line)
        code = re.match(r"\s+[0-9a-f]+:\s+(\S+)\s*(.*)", line)
        if start:
            name = start[1]
            frame[name] += 0
        elif moved:
            if moved[1] in ("R_X86_64_32", "R_X86_64_32S", "R_X86_64_64"):
                odd.append(f"{name}: a fixed address, {moved[1]}")
            if re.match(r"(call|j)", last):
                calls[name].add(re.sub(r"^\.text\.(unlikely\.)?", "", moved[2]))
        elif code:
            last, rest = code[1], code[2]
            if last.startswith("push"):
                frame[name] += 8
            elif last[:3] in ("sub", "add", "lea") and rest.endswith(",%rsp"):
                taken = re.match(r"\$0x([0-9a-f]+),%rsp", rest)
                if not taken:
                    odd.append(f"{name}: a frame of no fixed size")
                else:
                    by = int(taken[1], 16)
                    by = by - 2**64 if by >= 2**63 else by
                    frame[name] += max(by if last.startswith("sub") else -by, 0)
            elif last.startswith("and") and rest.endswith(",%rsp"):
                frame[name] += 64
            elif last.startswith("call"):
                inside = re.search(r"<([^+>]+)>$", rest)
                if "*" in rest:
                    odd.append(f"{name}: a call through a pointer")
                elif inside and inside[1] != name:
                    calls[name].add(inside[1])
            elif re.match(r"f|vfn?m", last) or last in ("ldmxcsr", "vldmxcsr", "xrstor"):
                odd.append(f"{name}: {last}")
    return frame, calls, odd


def bound(name, frame, calls, chain=()):
    """The most stack from a function's entry on, its return address included."""
    if name in chain:
        raise RecursionError(name)
    below = [bound(callee, frame, calls, (*chain, name)) if callee in frame else 8 for callee in calls[name]]
    return 8 + frame[name] + max(below, default=128)


def main():
    archive = sys.argv[1] if len(sys.argv) > 1 else "target/staticlib/libcapi.a"
    exported, asked = symbols(archive)
    frame, calls, odd = functions(archive)
    odd += [f"writable data in {name}" for name in writable(archive)]
    called = {callee for callees in calls.values() for callee in callees}
    odd += [f"a call of {name}, which is not here" for name in sorted(called - set(frame) - asked)]
    print("asks of the linker: " + (", ".join(sorted(asked)) or "nothing"))
    for name in sorted(exported):
        try:
            print(f"{name}: at most {bound(name, frame, calls)} bytes of stack")
        except RecursionError as back:
            odd.append(f"{name}: a chain of calls that comes back to {back}")
    print("\n".join(odd) or "no writable data, no call through a pointer, no chain that comes back, no fixed address, no x87, nothing fused, MXCSR left alone")
    sys.exit(1 if odd else 0)


if __name__ == "__main__":
    main()
