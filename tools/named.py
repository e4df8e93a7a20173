#!/usr/bin/env python3
"""Looks up what the documents name, in the tree. Ends non-zero where something named is not there.

  paths            every path of the tree, in or out of backquotes: from the root, from crates/, from a crate or from oracle/src
  names            every word of a name in backquotes is a word of the code, the definitions, the proofs or the tools
  `name` (a/b)     the name is defined in crates/a/specs/b.antt, or is a function of crates/a/src/b.rt
  `name` of PATH   the name stands in that file, and likewise PATH: `name`
  crate: x, y      in docs/RULES.md's last column: each is a wrong answer of crates/CRATE/must-fail; what stands there in
                   quotation marks is a slip of oracle/slips.txt

Of docs/CHANGES.md only the words of the newest note are looked up.

It cannot tell whether what is said of a name is true.
"""
import glob
import os
import re
import sys

# (docs/PORT.md, docs/DESIGN-PASS.md and docs/LOOK-BACK.md set old names beside new ones.)
DOCUMENTS = ['README.md', 'NOTICE', *sorted({*glob.glob('docs/*.md')} - {'docs/PORT.md', 'docs/DESIGN-PASS.md', 'docs/LOOK-BACK.md'}), *sorted(glob.glob('docs/parts/*.md'))]
PATH = re.compile(r'(?<![\w/.-])((?:[\w.-]+/)+[\w.-]*\w)')
WORD = re.compile(r"[A-Za-z_][\w'′]*(?:-[\w→]+)*\??")
# Words of the Rust, of fdlibm's C, of a usage line, of a foreign command, of a verdict or of an older kit that need not be in the tree.
FOREIGN = set('rattle-kit-5b-plain marching_intersection aabb march valgrind tool callgrind axioms libraries-built libc cpu rattle_errno __xpg_strerror_r'.split())


def tree_words():
    """Every word of the files that are no documents."""
    words = set(WORD.findall(open('toolchain', encoding='utf-8').read()))
    for top in ('crates', 'oracle', 'tools', 'include', 'wrapper', 'bench', 'examples-c', '.ci'):
        for folder, folders, files in os.walk(top):
            folders[:] = [name for name in folders if name not in ('out', 'target')]
            for path in [f'{folder}/{name}' for name in files if name not in ('stdin', 'stdout')]:
                with open(path, encoding='utf-8', errors='replace') as file:
                    text = file.read()
                words |= set(WORD.findall(text)) | set(re.findall(r'\w+', text))
                words |= set(re.findall(r'\w+', path))
    return words


def found(path):
    """The places in the tree that a document's path may mean."""
    tops = ['', 'crates/', 'crates/*/', 'oracle/', 'oracle/src/', 'docs/', 'docs/parts/']
    return [place for top in tops for place in glob.glob(top + glob.escape(path))]


def missing_paths(text):
    """Paths that look like the tree's own and are not there."""
    own = re.compile(r'^(crates|docs|oracle|tools|include|wrapper|bench|examples-c|target)/|\.(antt|rt|md|rs|sh|py|edit|c|h)$')
    for path in PATH.findall(text):
        if own.search(path) and not path.startswith('target/') and not found(path) and 'CRATE' not in path and 'PLACE' not in path:
            yield path


def missing_names(text, words):
    """Words in backquotes that no file of the tree has."""
    known = words | FOREIGN
    for span in re.findall(r'`([^`\n]+)`', re.sub(r'```.*?```', '', text, flags=re.S)):
        if '/' in span or re.search(r'\.\w+$', span) or span.startswith('rt '):
            continue
        for word in WORD.findall(span):
            if len(word) > 2 and not word.isupper() and not {word, word.strip('_')} & known:
                yield f'`{span}`' if word == span else f'{word} in `{span}`'


def missing_places(text):
    """`name`, `name` (crate/file) where the file has no such definition or function."""
    for names, crate, file in re.findall(r'((?:`[^`]+`(?:, | and )?)+) \((\w+)/(\w+)\)', text):
        specs, source = f'crates/{crate}/specs/{file}.antt', f'crates/{crate}/src/{file}.rt'
        said = ''.join(open(path, encoding='utf-8').read() for path in (specs, source) if os.path.exists(path))
        if not said:
            yield f'({crate}/{file})'
        for name in re.findall(r'`([^` ]+)`', names):
            if not re.search(r'(^|\s|fn )' + re.escape(name) + r'[\s(:<]', said):
                yield f'`{name}` ({crate}/{file})'


def missing_there(text):
    """`name`, `name` of PATH (or in it, or before it), and PATH: `name`, `name`, where the file has no such word."""
    names, path = r'((?:`[^`]+`(?:, | and )?)+)', r'`?((?:[\w.-]+/)+[\w-]+\.(?:antt|rt|rs|py|c|h))\b`?'
    pairs = re.findall(names + r'(?: of | in |, | \()' + path, text)
    pairs += [(there, place) for place, there in re.findall(path + ': ' + names, text)]
    for there, place in pairs:
        said = ''.join(open(file, encoding='utf-8').read() for file in found(place))
        for name in re.findall(r'`([^` /]+)`', there):
            word = re.split(r'::|\.', name.strip('()'))[-1]
            if said and not re.search(r'(?<![\w-])' + re.escape(word) + r'(?![\w-])', said):
                yield f'`{name}` of {place}'


def missing_answers(text):
    """Wrong answers of docs/RULES.md that no edit makes, and slips that are not in the list."""
    slips = re.findall(r'^slip: (.*)$', open('oracle/slips.txt', encoding='utf-8').read(), re.M)
    for row in re.findall(r'^\|.*\|$', text, re.M):
        noticed = row.rsplit(' | ', 1)[-1]
        for crate, names in re.findall(r'(?:^|; |\| )(\w+): ([a-z][\w]*(?:, [a-z]\w*)*)', noticed):
            if os.path.isdir(f'crates/{crate}'):
                edits = ''.join(open(path, encoding='utf-8').read() for path in glob.glob(f'crates/{crate}/must-fail/*.edit'))
                for name in names.split(', '):
                    if '_' in name and not re.search(rf'^wrong: {name}$', edits, re.M):
                        yield f'{crate}: {name}'
        for slip in re.findall(r'"([^"]+)"', noticed):
            if slip not in slips:
                yield f'"{slip}"'


def main():
    os.chdir(os.path.dirname(os.path.dirname(os.path.abspath(__file__))))
    words, bad = tree_words(), 0
    for path in DOCUMENTS:
        with open(path, encoding='utf-8') as file:
            text = file.read()
        if path == 'docs/CHANGES.md':
            # an older note speaks of its own tree, and the tables of before and after of two
            newest = '\n## '.join(text.split('\n## ')[:2])
            text = '\n'.join(line for line in newest.split('\n') if not line.startswith('|'))
        gone = [*missing_paths(text), *missing_names(text, words), *missing_places(text), *missing_there(text)]
        if path == 'docs/RULES.md':
            gone += missing_answers(text)
        for what in dict.fromkeys(gone):
            print(f'{path}: {what}')
        bad += len(set(gone))
    print(f'{bad} names are not those of the tree')
    return bad > 0


if __name__ == '__main__':
    sys.exit(main())
