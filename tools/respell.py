#!/usr/bin/env python3
"""Spells the definitions and lemmas of specs/ and proofs/ as today's Rattle does: words in snake case, types and modules in camel case.

usage: respell.py [--check]     at the top of the repository

A name is one that a file of specs/ or proofs/ declares: a definition, a lemma, a field, a constructor. `sumOf` and `sum-of` become `sum_of`;
names of types keep their capitals. Answers to goals, which Rattle names, stay. It turns .antt files, the clauses and comments of .rt files, and
the lines of must-fail edits. A name whose new spelling stands already in a file that has the old one is listed; lemmas that would have their function's name get `_lem`.
--check writes nothing.
"""
import collections
import glob
import re
import sys

TOKEN = re.compile(r'[^\s(){}.;,@"«»`\[\]]+')
SIGNED = re.compile(r"(?m)^( *)((?:(?:abbrev|unfoldable|pub) )*)([^\s(){}]+)((?: \{[^{}\n]*\})*) :(?: (.*))?$")
# Lemmas whose new spelling their function has: those get `_lem`.
LEMMAS = """after-trials all-finite all-passed came-round checked-word chord-fits claim-fits closed-forward cos-series fit-a fit-b header-fits is-own
last-test most-points point-from point-on refused-line row-eliminated sin-series traced-word with-a with-parameter written-word with-b is-nan
row-of own-of both-halves""".split()
MEETS = {it: it.replace("-", "_") + "_lem" for it in LEMMAS}
# A name of the C that comments quote, and one that a comment still has.
OF_C = {"aT"}
SAID = {"halfStep": "half_step", "-threeHalves": "-three_halves", "toBits": "to_bits"}
# Lemmas that are spelled so already, in the files that have them; elsewhere the name is a function's of src/.
SPELLED = {
    "count_fits": ("crates/groups/proofs/Groups.antt", "crates/certificate/proofs/Passed.antt", "crates/trace_file/proofs/Fitness.antt", "crates/boxes/proofs/Counted.antt"),
    "back_from": ("crates/walk/proofs/Lines.antt", "crates/walk/proofs/Lists.antt"),
}


def spelled(name):
    words = re.sub(r"(?<=[a-zA-Z0-9])([A-Z])", lambda m: "_" + m[1].lower(), name)
    return re.sub(r"(?<=[\w'])-(?=\w)", "_", words)


def files():
    for kind in ("specs", "proofs"):
        yield from sorted(glob.glob(f"crates/*/{kind}/**/*.antt", recursive=True))


def names():
    """Each declared name that is spelled otherwise, with its new spelling."""
    found = {}
    for path in files():
        of_a_function = path.endswith(("/Proof.antt", "/Answers.antt", "/Invariants.antt"))
        for m in SIGNED.finditer(open(path, encoding="utf-8").read()):
            name, says = m[3], m[5] or ""
            if of_a_function and re.match(r"(tie|goal)\.|\{M : Type 1\} → statement", says):
                continue
            if name[0].isupper() or not re.match(r"[A-Za-z]", name) or "." in name:
                continue
            new = MEETS.get(name, spelled(name))
            if new != name:
                found[name] = new
    return found


def turned(text, table, dotted=None):
    """dotted: what a name behind a dot becomes, where it may be a step of a function, which keeps the function's name."""

    def one(m):
        behind_dot = dotted is not None and m.start() and text[m.start() - 1] == "."
        return (dotted if behind_dot else table).get(m[0], m[0])

    return TOKEN.sub(one, text)


def turned_antt(text, table, dotted):
    """Code; of a comment only names in camel case and code spans."""
    camel = {a: b for a, b in table.items() if "-" not in a and a not in OF_C}
    out = []
    for line in text.split("\n"):
        at = re.search(r"(^|\s)--(\s|$)", line)
        cut = at.start() if at else len(line)
        note = re.sub(r"`[^`]*`", lambda m: turned(m[0], table), line[cut:])
        out.append(turned(line[:cut], table, dotted) + turned(note, camel))
    return "\n".join(out)


def main():
    table = names() | SAID
    back = collections.defaultdict(list)
    for old, new in table.items():
        back[new].append(old)
    for new, olds in sorted(back.items()):
        if len(olds) > 1:
            print(f"fall together: {' '.join(sorted(olds))} -> {new}")
    paths = list(files()) + sorted(glob.glob("crates/*/src/**/*.rt", recursive=True)) + sorted(glob.glob("crates/*/must-fail/*.edit"))
    for path in paths:
        text = open(path, encoding="utf-8").read()
        have = set(TOKEN.findall(text))
        for old in sorted(have & set(table)):
            if table[old] in have:
                print(f"meets: {path}: {old} -> {table[old]}")
        own = table | {a: a + "_lem" for a, its in SPELLED.items() if path in its}
        plain = {it: spelled(it) for it in table} if path.endswith("/Proof.antt") else None
        if path.endswith(".edit"):
            own |= {it: spelled(it) for it in have if re.match(r"[a-z]+[A-Z]", it)}
        new = turned_antt(text, own, plain) if path.endswith(".antt") else turned(text, own)
        if new != text and "--check" not in sys.argv:
            open(path, "w", encoding="utf-8").write(new)
    print(f"{len(table)} names")


main()
