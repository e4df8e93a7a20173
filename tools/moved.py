#!/usr/bin/env python3
"""moved.py OLD [NEW]: the public functions with their clauses, the types and the ghost members of crates/*/src, and the definitions of
crates/*/specs, of commit OLD beside those of commit NEW (the tree as it is, where none is named), old and new line by line: what a landing's note
lists. A line in both is not repeated. By text alone: whether a changed line says less is for a reader.
"""
import collections
import glob
import re
import subprocess
import sys


def files(commit, pattern):
    """path, text of the files under crates that match."""
    if commit is None:
        names = [n for n in glob.glob('crates/**/*.*', recursive=True) if re.match(pattern, n)]
        return [(n, open(n).read()) for n in sorted(names)]
    listed = subprocess.run(['git', 'ls-tree', '-r', '--name-only', commit, 'crates'], capture_output=True, text=True, check=True).stdout
    names = [n for n in listed.split('\n') if re.match(pattern, n)]
    return [(n, subprocess.run(['git', 'show', commit + ':' + n], capture_output=True, text=True, check=True).stdout) for n in names]


def place(path):
    parts = path.split('/')
    return parts[1] + '/' + '/'.join(parts[3:]).rsplit('.', 1)[0]


def code(path, text):
    """name -> lines, of a file of src/."""
    text = re.sub(r'^\s*(//|#\[).*\n', '', text, flags=re.M)
    found, owner, lines, k = {}, '', text.split('\n'), 0
    while k < len(lines):
        line = lines[k]
        if not line.startswith(' '):
            head = re.match(r'(?:unsafe )?impl(?:<[^>]*>)? (.*?) ?\{', line)
            named = re.match(r'(?:pub )?trait (\w+)', line)
            owner = head[1] + '.' if head else named[1] + '.' if named else '' if line.strip() not in ('', '}') else owner
        kind = re.match(r'\s*pub (?:struct|enum) (\w+)', line)
        fn = re.match(r'(\s*)(?:pub )(?:const )?(?:extern "C" )?fn (\w+)', line) or (owner and re.match(r'(\s+)fn (\w+)', line) if ' for ' in owner or '.' in owner else None)
        if kind:
            whole = line.strip()
            while whole.count('{') > whole.count('}') or not re.search(r'[};]$', whole):
                k += 1
                whole += ' ' + lines[k].strip()
            found[kind[1]] = [re.sub(r'\s+', ' ', whole)]
        elif fn and (line.lstrip().startswith('pub') or ' for ' in owner):
            head = line.strip()
            while not re.search(r'(\{|;)$', head) and not re.match(r'\s*(requires|ensures|\{)', lines[k + 1]):
                k += 1
                head += ' ' + lines[k].strip()
            out = [re.sub(r'\s+', ' ', head).replace('( ', '(').replace(', )', ')').removeprefix('pub ').removesuffix(' {')]
            while k + 1 < len(lines) and re.match(r'\s*(requires|ensures)', lines[k + 1]):
                k += 1
                out.append(lines[k].strip())
            found[owner + fn[2]] = out
        elif re.match(r'\s+ghost (\w+)', line):
            found[owner + re.match(r'\s+ghost (?:pub )?(\w+)', line)[1]] = [line.strip()]
        k += 1
    return found


def definitions(path, text):
    """name -> lines, of a file of specs/."""
    found, name = {}, None
    for line in text.split('\n'):
        if re.match(r'\s*--', line) or not line.strip() or line.startswith('use ') or line.startswith('pub mod'):
            continue
        head = re.match(r'(?:unfoldable |abbrev |pub |data |record )+([^\s:]+)', line)
        if head:
            name = head[1]
            found[name] = []
        if name:
            found[name].append(re.sub(r'\s+', ' ', line.strip()))
    return found


def table(commit, pattern, parts):
    out = collections.OrderedDict()
    for path, text in files(commit, pattern):
        for name, lines in parts(path, text).items():
            out[(place(path), name)] = lines
    return out


def paired(old, new):
    """Each old key with its new one: at its place, else by its name where its crate has it once in both."""
    pairs = {k: k for k in old if k in new}
    at = lambda t: collections.Counter((k[0].split('/')[0], k[1]) for k in t)
    once = {n for n, c in at(old).items() if c == 1} & {n for n, c in at(new).items() if c == 1}
    there = {(k[0].split('/')[0], k[1]): k for k in new}
    for k in old:
        n = (k[0].split('/')[0], k[1])
        if k not in pairs and n in once:
            pairs[k] = there[n]
    return pairs


def said(title, old, new):
    pairs = paired(old, new)
    changed = [(k, pairs[k]) for k in old if k in pairs and old[k] != new[pairs[k]]]
    gone = [k for k in old if k not in pairs]
    come = [k for k in new if k not in pairs.values()]
    print(f'### {title}\n\n{len(changed)} changed, {len(gone)} no longer there under the name, {len(come)} new; {len(pairs) - len(changed)} as they were.\n')
    print('```diff')
    for k, m in changed:
        print(f'@ {m[0]}: {m[1]}')
        for line in old[k]:
            if line not in new[m]:
                print('-', line)
        for line in new[m]:
            if line not in old[k]:
                print('+', line)
    for keys, t, sign in ((gone, old, '-'), (come, new, '+')):
        for k in keys:
            print(f'@ {k[0]}: {k[1]}')
            for line in t[k]:
                print(sign, line)
    print('```\n')


then, now = sys.argv[1], sys.argv[2] if len(sys.argv) > 2 else None
said('Public functions, types, ghost members', table(then, r'crates/[^/]*/src/.*\.rt$', code), table(now, r'crates/[^/]*/src/.*\.rt$', code))
said('Definitions', table(then, r'crates/[^/]*/specs/.*\.antt$', definitions), table(now, r'crates/[^/]*/specs/.*\.antt$', definitions))
