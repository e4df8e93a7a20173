#!/usr/bin/env python3
"""places.py [FOLDER]: the places in crates/*/src of FOLDER (here, where none is named) that look like one of the first seven points of
docs/DESIGN-PASS.md, one a line, and how many of each. It goes by text alone: what it finds is to be read, and the page says what became of it.

1 enums with a case that carries nothing or a refusal beside one that carries a value; whole-number parameters and fields whose name says that
  they stand for a kind (kind, what, code, closing, marks, pin, quadrant, sign, m); a bool parameter behind the value that it speaks of
2 functions and types whose names differ in a number, or whose texts differ in numbers, types and the names of one another alone
3 `while`, and `for k in a..b` whose body indexes or calls by k
4 functions that are named as a comparison (same_, equal), and those that take a number apart into digits
5 a fact of a `requires` that stands in three functions or more of a crate; three parameters or more that stand together in three functions or more
6 a slice and beside it the number of its items that count (n, count, size, len)
7 a parameter that is compared with three numbers or more, one after the other or by a `match`, each with a call of its own
"""
import collections
import glob
import re
import sys

root = sys.argv[1] if len(sys.argv) > 1 else '.'
KINDS = r'(?:kind|what|code|closing|marks|pin|quadrant|sign|y_sign|x_sign|m)'
found = collections.defaultdict(list)


def functions(text):
    """Each function: name, signature, clauses, body."""
    for start in re.finditer(r'^( *)(?:pub(?:\(crate\))? )?(?:const )?(?:extern "C" )?fn (\w+)', text, re.M):
        indent = start.group(1)
        end = re.search(r'^' + indent + r'\}', text[start.end():], re.M)
        whole = text[start.start():start.end() + (end.end() if end else 0)]
        head, _, body = whole.partition('\n' + indent + '{\n')
        signature = re.split(r'\n\s*(?:requires|ensures)', head)[0]
        yield start.group(2), ' '.join(signature.split()), ' '.join(head[len(signature):].split()), body


def parameters(signature):
    signature = signature.replace('pub(crate) ', '', 1)
    inside = signature[signature.index('('):]
    depth, at, out = 0, '', []
    for c in inside[1:]:
        if c in '([<':
            depth += 1
        elif c in ')]>':
            depth -= 1
        if depth < 0:
            break
        if c == ',' and depth == 0:
            out.append(at.strip())
            at = ''
        else:
            at += c
    return [p for p in out + [at.strip()] if ':' in p]


def shape(name, text):
    """The text without comments, numbers, types and digits in names."""
    text = re.sub(r'//[^\n]*', '', text)
    text = re.sub(r'\b(?:f64|u64|usize|u8|Point3D|Vector3D|Solution\d|Solved\d)\b', 'T', text)
    text = text.replace(name, 'F')
    return re.sub(r'\d[\d_.e+-]*', '0', re.sub(r'(\w*?[A-Za-z_])\d+\b', r'\1', text))


shapes = collections.defaultdict(list)
names = collections.defaultdict(set)
for path in sorted(glob.glob(f'{root}/crates/*/src/**/*.rt', recursive=True)):
    where = path.removeprefix(f'{root}/crates/').replace('/src/', '/').removesuffix('.rt')
    crate = where.split('/')[0]
    text = open(path, encoding='utf-8').read()
    plain = re.sub(r'//[^\n]*', '', text)
    for e in re.finditer(r'enum (\w+) \{\n(.*?)\n\}', plain, re.S):
        cases = [c.strip() for c in re.split(r',\n(?=    \w)', e.group(2)) if c.strip()]
        bare = [c for c in cases if re.fullmatch(r'\w+,?', c)]
        refused = [c for c in cases if re.match(r'\w+\((?:Refusal|u64)\)', c)]
        if len(cases) <= 3 and (len(bare) + len(refused)) and len(bare) + len(refused) < len(cases) + (1 if refused and bare else 0):
            found[1].append(f'{where}: enum {e.group(1)}')
    for s in re.finditer(r'struct (\w+) \{\n(.*?)\n\}', plain, re.S):
        for f in re.finditer(rf'\b({KINDS}): (?:u64|usize)', s.group(2)):
            found[1].append(f'{where}: {s.group(1)}.{f.group(1)}')
    for t in re.finditer(r'(?:enum|struct|const) (\w+?)(\d+)\b', plain):
        names[crate, t.group(1)].add(t.group(0))
    facts = collections.Counter()
    for name, signature, clauses, body in functions(plain):
        ps = parameters(signature)
        for p in ps:
            if re.fullmatch(rf'{KINDS}: (?:u64|usize)', p):
                found[1].append(f'{where}: {name}({p})')
            if re.fullmatch(r'\w+: bool', p) and len(ps) > 2:
                found[1].append(f'{where}: {name}({p})')
        m = re.fullmatch(r'([a-z_]*?)_?(\d(?:x\d)?)', name)
        if m:
            names[crate, m.group(1)].add('fn ' + name)
        if body.count('\n') > 3:
            shapes[shape(name, signature + body)].append(f'{where}: {name}')
        for loop in re.finditer(r'for (\w+) in [^\n{]*\.\.[^\n{]*\{(.*?)\n    \}', body, re.S):
            k = loop.group(1)
            if k != '_' and re.search(rf'\[[^\]\n]*\b{k}\b|\([^()\n]*\b{k}\b', loop.group(2)):
                found[3].append(f'{where}: {name}')
        if re.search(r'\bwhile\b', body):
            found[3].append(f'{where}: {name} (while)')
        if re.match(r'(?:same|equal|eq)_', name) or re.search(r'% 10\b', body):
            found[4].append(f'{where}: {name}')
        slices = [p for p in ps if re.search(r'&(?:mut )?\[(?:f64|u8)\]', p)]
        counts = [p for p in ps if re.fullmatch(r'(?:n|count|size|len): usize', p)]
        if slices and counts:
            found[6].append(f'{where}: {name}({slices[0]}, {counts[0]})')
        for p in ps:
            v = p.split(':')[0].split()[-1]
            tests = re.findall(rf'if {v} == \d+ \{{\s*return \w+(?:::\w+)*\(', body)
            arms = re.search(rf'match {v} \{{(.*?)\n    \}}', body, re.S)
            if len(tests) >= 3 or arms and len(re.findall(r'^\s*\d+ => [\w:]+\(', arms.group(1), re.M)) >= 3:
                found[7].append(f'{where}: {name}({v})')
for (crate, stem), group in names.items():
    if len(group) > 1:
        found[2].append(f'{crate}: {", ".join(sorted(group))}')
for group in shapes.values():
    if len(group) > 1:
        found[2].append('; '.join(group))
facts, groups = collections.defaultdict(list), collections.defaultdict(list)
for path in sorted(glob.glob(f'{root}/crates/*/src/**/*.rt', recursive=True)):
    where = path.removeprefix(f'{root}/crates/').replace('/src/', '/').removesuffix('.rt')
    for name, signature, clauses, body in functions(re.sub(r'//[^\n]*', '', open(path, encoding='utf-8').read())):
        for clause in re.findall(r'requires(?: \w+)? \{ (.*?) \}', clauses):
            for fact in re.split(r' × ', clause):
                facts[where.split('/')[0], fact.strip('() ')].append(name)
        ps = [p for p in parameters(signature) if not p.startswith('self')]
        for k in range(len(ps) - 2):
            groups[', '.join(ps[k:k + 3])].append(f'{where}: {name}')
for (crate, fact), users in facts.items():
    if len(users) >= 3:
        found[5].append(f'{crate}: `{fact}` in {len(users)} functions')
for group, users in groups.items():
    if len(users) >= 3:
        found[5].append(f'({group}) in {len(users)} functions')
for point in range(1, 8):
    for place in found[point]:
        print(f'{point} {place}')
print(', '.join(f'point {point}: {len(found[point])}' for point in range(1, 8)))
