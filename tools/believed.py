#!/usr/bin/env python3
"""believed.py [--heads|--page] [FILE..]: what a reader of the contracts must believe, found in the tree.

It starts from what the contracts of the public calls import (`ghost use` in the sources of geomcore, capi and answer), or from the files of
definitions named, and follows the `use` lines of every definition reached. It prints, as tables: the project's files of definitions with
their lines (all lines of the file, blank ones and imports among them); the structs and enums of the code that they speak of; the kit's
modules that they use, with the names used. Files under specs/ that are not reached are named last. --heads prints the first sentence of each
file instead; --page puts the tables into docs/TRUST.md, between the two marks there.
"""
import glob
import re
import sys
from collections import defaultdict
from pathlib import Path

PUBLIC = ["geomcore", "capi", "answer"]
MARKS = "<!-- tools/believed.py --page writes from here -->", "<!-- to here -->"
USED_FOR = {
    "Prim.Native.Nat": "whole numbers from 0, computed by the prover's own machine code",
    "Rattle.std.specs.Float": "binary64 as a format, the value that is no number",
    "Rattle.std.specs.Float.Ieee": "binary64: its operations with their rounding, its comparisons, its bits",
    "Rattle.std.specs.Float.Ieee.Scale": "whether a number is finite",
    "Rattle.std.specs.Int.Bits": "bitwise and, or: the fields of a number's bits",
    "Rattle.std.specs.Prelude": "equality, and, or, truth values; whole numbers and comparisons of them, numbers with a sign; binary64's values; lists, by index too",
}
USE = re.compile(r"^(?:ghost |pub )?use ([^\s{;]+?)\.?(?:\{([^}]*)\})?(?: as (\S+))?;?\s*(?:--.*)?$", re.M)


def imports(path):
    """The modules that a file imports, each with the names: those listed, or those written behind the name that it is given."""
    text = Path(path).read_text(encoding="utf-8")
    for module, names, given in USE.findall(text):
        behind = re.findall(rf"\b{re.escape(given)}\.([^\s(){{}};,.]+)", text) if given else []
        yield module, {name.strip() for name in names.split(",") if name.strip()} | set(behind)


def place(module):
    """The file of a module of ours, or the type of the code that it declares: ('file', path), ('type', name); None for the kit's."""
    ours = re.fullmatch(r"Rattle\.(\w+)\.(specs|proofs)\.(.+)", module)
    if not ours or not Path("crates", ours[1]).is_dir():
        return None
    crate, part, path = ours.groups()
    if path.startswith("declared."):
        words = path.split(".")[1:]
        return "type", "::".join([crate] + (words[:words.index("TheVariants")] if "TheVariants" in words else words))
    file = Path(f"crates/{crate}/{part}/{path.replace('.', '/')}.antt")
    if not file.is_file():
        sys.exit(f"believed.py: {module} has no file {file}")
    return "file", str(file)


def reached(named):
    """Files, types and the kit's modules (module: names, and the files that use it) that the files named reach, or the public contracts."""
    files, types, kit = set(named), set(), defaultdict(lambda: (set(), set()))
    todo = list(named) or [path for crate in PUBLIC for path in sorted(glob.glob(f"crates/{crate}/src/*.rt"))]
    while todo:
        path = todo.pop()
        for module, names in imports(path):
            if not re.match(r"Rattle\.|lib\.|mathlib\.|Prim\.", module):
                continue  # an import of the code, not of the contract
            found = place(module)
            if found is None:
                kit[module][0].update(names)
                kit[module][1].add(path)
            elif found[0] == "type":
                types.add(found[1])
            elif found[1] not in files:
                files.add(found[1])
                todo.append(found[1])
    return files, types, kit


def lines(path):
    return len(Path(path).read_text(encoding="utf-8").splitlines())


def head(path):
    """The first sentence of a file, without 'Definitions only'."""
    first = Path(path).read_text(encoding="utf-8").splitlines()[0].removeprefix("-- ")
    return first.split(" Definitions only.")[0]


def crates_in_order():
    text = Path("crates.txt").read_text(encoding="utf-8")
    return [line.split(":")[0].split()[0] for line in text.splitlines() if ":" in line and not line.startswith("#")]


def tables(files, types, kit):
    """The tables, as lines."""
    by_crate = defaultdict(list)
    for path in sorted(files):
        by_crate[path.split("/")[1]].append(path)
    yield "| crate | files and lines |\n|---|---|"
    for crate in [c for c in crates_in_order() if c in by_crate]:
        short = [path.removeprefix(f"crates/{crate}/").removeprefix("specs/").removesuffix(".antt") for path in by_crate[crate]]
        yield f"| `{crate}` | " + ", ".join(f"{name} {lines(path)}" for name, path in zip(short, by_crate[crate])) + " |"
    yield f"\nTogether {len(files)} files and {sum(map(lines, files)):,} lines."
    yield "\nStructs and enums of the code that they speak of: " + ", ".join(f"`{name}`" for name in sorted(types)) + "."
    yield "\n| the kit's module | used for | names | files that use it |\n|---|---|---|---|"
    for module in sorted(kit):
        names, users = kit[module]
        yield f"| `{module}` | {USED_FOR.get(module, '')} | {' '.join(f'`{n}`' for n in sorted(names))} | {len(users)} |"
    every = {path for path in glob.glob("crates/*/specs/*.antt") if not path.endswith("/Lib.antt")}
    yield "\nNot reached: " + ", ".join(path.removeprefix("crates/") for path in sorted(every - files)) + "."


def put_into_page(text):
    page = Path("docs/TRUST.md")
    old = page.read_text(encoding="utf-8")
    start, end = (old.index(mark) for mark in MARKS)
    page.write_text(old[:start] + MARKS[0] + "\n\n" + text + "\n\n" + old[end:], encoding="utf-8")


def main():
    options, named = [w for w in sys.argv[1:] if w.startswith("--")], [w for w in sys.argv[1:] if not w.startswith("--")]
    if options not in ([], ["--heads"], ["--page"]) or not all(Path(word).is_file() for word in named):
        sys.exit(__doc__)
    files, types, kit = reached(named)
    if options == ["--heads"]:
        print("\n".join(f"{path} ({lines(path)}): {head(path)}" for path in sorted(files)))
    elif options == ["--page"]:
        put_into_page("\n".join(tables(files, types, kit)))
    else:
        print("\n".join(tables(files, types, kit)))


if __name__ == "__main__":
    main()
