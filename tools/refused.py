#!/usr/bin/env python3
"""refused.py SAID: reads what `rt ci` printed of each must-fail edit, and asks that each is refused on its own account.
refused.py --try [CRATE ..]: tries the edits of these crates (of all, where none is named) once more and reads all that the prover says of each.

An edit of crates/CRATE/must-fail makes one wrong answer or several, each in a function, a definition or a law of its own:

    wrong: NAME        what is wrong
    proof: PLACE       where the prover must refuse it: in crates/CRATE/proofs/PLACE/Answers.antt, Invariants.antt or Proof.antt, in PLACE.antt
                       for a law, or at a goal of the function PLACE that the search does not close
    file: .. old: .. new: ..

A function's proof speaks of that function's code and of the contracts that it calls, so an error there is that function's own. A refusal is
an error of one of the kinds below: not that a declaration was not checked (what it rests on was refused), and not that a name or a goal is
missing (the code has another shape). No edit changes a proof: a wrong answer stands in the code, in a definition or in a contract.

`rt ci` prints the first error of an edit and keeps no more. Of that, SAID is asked for: each edit was tried and is refused by an error of a kind
below, and not only by a limit of the prover or by a proof that names what the edit took away; and where an edit changes code alone, the error
stands in a proof that it names. (Where a definition changes, the laws about it are refused before any function's proof.)

With --try the prover's whole words are asked, and of each wrong answer: it is refused in its own proof, among the others of its edit, or alone
where theirs hide it; and every public function with an `ensures` has two refusals at least, in it or in what carries its contract: functions of
its crate that it calls. Which of them have fewer than two strong ones is said and fails nothing: a proof that the search finds has no words of
its own, and a goal that it does not close shows nothing unequal. That takes a check for each edit, and one for each wrong answer that has to be
tried alone; what was said is left in target/must-fail/CRATE/.
"""
import collections
import concurrent.futures
import glob
import hashlib
import json
import os
import re
import shutil
import subprocess
import sys
import tempfile
import threading

# Strong: the prover shows what is unequal, what is left to prove, or that values break it.
STRONG = {
    'unequal goal': re.compile(r'the two (?:types|sides) (?:first differ|differ only|are)\b|≟ `.*`:? does not hold'),
    'unequal type': re.compile(r'expected type `(?!goal\.(?!the-asks-))'),
    'goal left by rewriting': re.compile(r'give a proof of that as the last argument'),
    'counterexample': re.compile(r'All of that holds, and (?:the goal|the part|it) fails|the facts known there allow values'),
}
# Weak: what can happen to a right program too.
WEAK = {
    '"no occurrence"': re.compile(r'no occurrence of|no part of the goal'),
    'search without result': re.compile(r'`(?:search|omega|grind)`|it is not proved that|stopped at a bound|gave up'),
}
# Not a refusal of the wrong answer: what it rests on was refused, or a name is gone.
GONE = re.compile(r'has no field|is not in scope|has no `|was not admitted|was not checked')
# rt prints so much of an error; of one that is longer the kind may not show.
PRINTED = 160
CUT = 'an error too long to show its kind'
FUNCTION = re.compile(r'^( *)(pub )?(?:const )?(?:extern "C" )?fn (\w+)', re.M)
PLACE = re.compile(r'(?:\./)?proofs/(.+?)(?:/(?:Answers|Invariants|Proof))?\.antt$')
POSITION = re.compile(r'(?:note: )?(?:\./)?(\S+?):(\d+):\d+: (?:error: )?(.*)')


def read(edit):
    """The wrong answers of an edit, each with the place of the proof that must refuse it and its changes, as (file, old, new)."""
    answers, path, old = [], None, None
    for line in open(edit, encoding='utf-8'):
        word, _, rest = line.rstrip('\n').partition(':')
        rest = rest.removeprefix(' ')
        if word == 'wrong':
            answers.append([rest, None, []])
        elif word == 'proof' and answers:
            answers[-1][1] = rest
        elif word == 'file':
            path = rest
        elif word == 'old':
            old = rest
        elif word == 'new' and answers:
            answers[-1][2].append((path, old, rest))
    return answers


def fault(answers):
    """What is wrong with an edit itself, or None."""
    places = [proof for _, proof, _ in answers]
    if not places or None in places or len(set(places)) < len(places):
        return 'it names no wrong answer, one without its proof, or two for one proof'
    if any(path.startswith('proofs/') for _, _, changes in answers for path, _, _ in changes):
        return 'it changes a proof'
    return None


def kind_of(words):
    """The kind of a refusal in the prover's words, or None."""
    if GONE.search(words.split('\n')[0]):
        return None
    return next((kind for kinds in (STRONG, WEAK) for kind, said in kinds.items() if said.search(words)), None)


def place_of(crate, path, line):
    """The place of the proof that an error of this file and line stands in: of a source line, the function around it."""
    proof = PLACE.match(path)
    if proof:
        return proof.group(1)
    source = f'crates/{crate}/{path}'
    if not path.startswith('src/') or not os.path.exists(source):
        return path
    lines = open(source, encoding='utf-8').readlines()
    while line < len(lines) and lines[line - 1].startswith('#['):
        line += 1
    text = ''.join(lines[:line])
    found = [item for item in FUNCTION.finditer(text)]
    if not found:
        return path
    module = path.removeprefix('src/').removesuffix('.rt').removesuffix('/mod')
    inside = re.findall(r'^impl(?:<.*?>)? (?:.* for )?(\w+)', text[:found[-1].start()], re.M)[-1:] if found[-1].group(1) else []
    return '/'.join(([] if module in ('lib', 'main') else [module]) + inside + [found[-1].group(3)])


# ---- what `rt ci` printed

def first_error(crate, label, answers, said):
    """Of the first error of an edit: its kind, place and words; or what is missing."""
    told = said.get(f'{crate}/{label}')
    if told is None:
        return None, 'rt ci says nothing of it'
    refused = re.match(r'refused, as it must be(?:: (.*))?$', told)
    if not refused:
        return None, told[:200]
    position = POSITION.match(refused.group(1) or '')
    if not position:
        return None, f'it is refused by no error of a place: {told[:200]}'
    path, line, words = position.groups()
    place, kind = place_of(crate, path, int(line)), kind_of(words)
    if not kind and len(refused.group(1)) >= PRINTED and not GONE.search(words):
        kind = CUT
    if not kind:
        return None, f'its first error, in {place}, shows nothing of a contract: {words}'
    named, code = {proof for _, proof, _ in answers}, all(path.startswith('src/') for _, _, changes in answers for path, _, _ in changes)
    if code and place not in named:
        return None, f'it is refused in {place} first, which it does not name: {words}'
    return (kind, place, words), None


def read_said(path):
    """What rt ci printed of the edits, by CRATE/LABEL."""
    found = (re.match(r'rt: must-fail (\S+)\.edit: (.*)', line.rstrip('\n')) for line in open(path, encoding='utf-8', errors='replace'))
    return {line.group(1): line.group(2) for line in found if line}


def of_first_errors(said):
    """Asks of the first errors; gives what is missing, and the refusals counted by kind."""
    missing, counted, elsewhere = [], collections.Counter(), 0
    for edit in sorted(glob.glob('crates/*/must-fail/*.edit')):
        crate, label, answers = edit.split('/')[1], os.path.basename(edit)[:-len('.edit')], read(edit)
        wrong = fault(answers)
        found, wrong = (None, wrong) if wrong else first_error(crate, label, answers, said)
        if wrong:
            missing.append(f'{crate}/{label}: {wrong}')
            continue
        kind, place, words = found
        print(f'{crate}/{label}: {len(answers)} wrong answers: {kind} in {place}: {words[:150]}')
        counted[kind] += 1
        elsewhere += place not in {proof for _, proof, _ in answers}
    print(f'{sum(counted.values())} edits refused: ' + ', '.join(f'{counted[kind]} by {kind}' for kind in [*STRONG, *WEAK, CUT])
          + f'; {elsewhere} of them first in a proof that rests on a definition changed')
    return missing


# ---- what the prover says of a wrong answer

def errors_of(log, crate):
    """What the prover says in each proof, and of each function's goals: (place, words). A line further in belongs to the line before it."""
    lines, found, waiting = [], [], []
    for line in log.split('\n'):
        if line.startswith('  ') and lines:
            lines[-1] += '\n' + line.strip()
        else:
            lines.append(line)
    for line in lines:
        error = re.match(r'(?:\./)?(proofs/\S+?\.antt):\d+:\d+: error: (.*)', line, re.S)
        goal = re.match(r'(?:so far: )?note: (?:\./)?src/\S+?:\d+:\d+: (.*)', line, re.S)
        function = re.match(r'fn ' + crate + r'::(\S+): (?:not proved|no proof)', line)
        if error:
            found.append((PLACE.match(error.group(1)).group(1), error.group(2)))
        elif goal:
            waiting.append(goal.group(1))
        elif function:
            found += [(function.group(1).replace('::', '/'), words) for words in waiting]
        if re.match(r'fn ', line):
            waiting = []
    return found


def refusal(log, crate, proof):
    """The kind and the words of an error that the log has in a proof, of a strong one if there is one; or None."""
    known = [(kind_of(words), words) for place, words in errors_of(log, crate) if place == proof and kind_of(words)]
    return min(known, key=lambda found: found[0] not in STRONG, default=None)


def refused_with(log, function):
    """The functions that are not proved because this one is not, and itself."""
    calls = [re.match(r'fn (\S+): no[t ].*?; it calls (.*)', line) or re.match(r'fn (\S+): no proof: it calls (.*)', line) for line in log.split('\n')]
    callers = [(line.group(1), re.findall(r'`([^`]*)`', line.group(2))) for line in calls if line]
    reached, more = {function}, True
    while more:
        more = {caller for caller, called in callers if caller not in reached and reached & set(called)}
        reached |= more
    return reached


def public_functions(crate):
    """The functions of a library that other crates can call and that have an `ensures`."""
    found = []
    root = open(f'crates/{crate}/src/lib.rt', encoding='utf-8').read()
    for path in sorted(glob.glob(f'crates/{crate}/src/*.rt')):
        module = os.path.basename(path)[:-len('.rt')]
        text = open(path, encoding='utf-8').read()
        for item in FUNCTION.finditer(text):
            handed_on = module == 'lib' or f'pub mod {module};' in root or f'pub use {module}::{item.group(3)};' in root
            head = text[item.start():item.start() + re.search(r'\{$', text[item.start():], re.M).start()]
            if item.group(2) and handed_on and 'ensures' in head:
                inside = re.findall(r'^impl (\w+)', text[:item.start()], re.M)[-1:] if item.group(1) else []
                found.append('::'.join([crate] + ([] if module == 'lib' else [module]) + inside + [item.group(3)]))
    return found


def checked(copy, crate, changes, log):
    """What the prover says of a crate of the copy with these changes, kept in a log; None where they can't be made."""
    was, said = {}, None
    for path, old, new in changes:
        file = f'{copy}/crates/{crate}/{path}'
        text = open(file, encoding='utf-8').read() if os.path.exists(file) else ''
        was.setdefault(file, text)
        if text.count(old) != 1:
            break
        with open(file, 'w', encoding='utf-8') as it:
            it.write(text.replace(old, new))
    else:
        said = subprocess.run(['rt', 'check'], cwd=f'{copy}/crates/{crate}', stdin=subprocess.DEVNULL, stdout=subprocess.PIPE,
                              stderr=subprocess.STDOUT, text=True, errors='replace').stdout
        os.makedirs(os.path.dirname(log), exist_ok=True)
        with open(log, 'w', encoding='utf-8') as it:
            it.write(said)
    for file, text in was.items():
        if text:
            with open(file, 'w', encoding='utf-8') as it:
                it.write(text)
    return said


class Tried:
    """What came of the edits of a crate: the lines to print, what is missing, the refusals by kind, those of a function, the strong ones."""

    def __init__(self):
        self.lines, self.missing = [], []
        self.counted, self.refusals, self.strong = collections.Counter(), collections.Counter(), collections.Counter()

    def edit(self, copy, crate, label, answers):
        """Tries an edit, and alone each wrong answer whose refusal the others hide."""
        logs = f'target/must-fail/{crate}/{label}'
        log = checked(copy, crate, [change for _, _, changes in answers for change in changes], f'{logs}.log')
        if log is None:
            self.missing.append(f'{crate}/{label}: an `old:` text does not stand once in its file')
            return
        for name, proof, changes in answers:
            function, said = '::'.join([crate] + proof.split('/')), log
            found = refusal(said, crate, proof)
            if len(answers) > 1 and not (found and found[0] in STRONG):
                alone = checked(copy, crate, changes, f'{logs}.{name}.log') or ''
                if refusal(alone, crate, proof):
                    said, found = alone, refusal(alone, crate, proof)
            if not found:
                self.missing.append(f'{crate}/{label}: {name} is not refused in {proof}')
                continue
            self.lines.append(f'{crate}/{label}: {name}: {found[0]} in {proof}: {found[1].splitlines()[0][:150]}')
            self.counted[found[0]] += 1
            reached = refused_with(said, function)
            self.refusals.update(reached)
            self.strong.update(reached if found[0] in STRONG else [])

    def crate(self, copy, crate):
        """Tries the edits of a crate."""
        edits = sorted(glob.glob(f'crates/{crate}/must-fail/*.edit'))
        if edits and 'logic=proved' not in checked(copy, crate, [], f'target/must-fail/{crate}/.log'):
            self.missing.append(f'{crate} is not proved as it stands')
            return self
        for edit in edits:
            label, answers = os.path.basename(edit)[:-len('.edit')], read(edit)
            if fault(answers):
                self.missing.append(f'{crate}/{label}: {fault(answers)}')
            else:
                self.edit(copy, crate, label, answers)
        if os.path.exists(f'crates/{crate}/src/lib.rt'):
            self.missing += [f'{function}: {self.strong[function]} strong refusals of {self.refusals[function]}, and a public function has two'
                             for function in public_functions(crate) if self.strong[function] < 2]
        return self


def sum_of(crate, uses):
    """The checksum of all that the trial of a crate reads: its files and those of the crates below it, its edits, the kit, this tool."""
    reached, more = set(), {crate}
    while more:
        reached |= more
        more = {name for it in more for name in uses.get(it, ())} & set(uses) - reached
    paths = [path for it in reached for part in ('src', 'specs', 'proofs') for path in glob.glob(f'crates/{it}/{part}/**/*', recursive=True)]
    paths += [*glob.glob(f'crates/{crate}/must-fail/*.edit'), 'crates.txt', 'tools/refused.py']
    made = hashlib.sha256(subprocess.run(['rt', 'version'], stdout=subprocess.PIPE, check=True).stdout)
    for path in sorted(path for path in paths if os.path.isfile(path)):
        with open(path, 'rb') as file:
            made.update(path.encode() + b'\0' + hashlib.sha256(file.read()).digest())
    return made.hexdigest()


def copy_of_crates(folder):
    """A copy of the crates to change and check, of a worker's own: checks in one tree wait for one another. What the check before kept in
    their `out` goes with them, so that a trial proves what its edit touches and not every crate below."""
    copy = tempfile.mkdtemp(dir=folder)
    shutil.copytree('crates', f'{copy}/crates', ignore=shutil.ignore_patterns('must-fail'))
    for file in ('crates.txt', 'HANDLES'):
        if os.path.exists(file):
            shutil.copy(file, copy)
    return copy


def of_whole_words(crates, uses):
    """Tries the edits of these crates, but of those that passed on this machine with all that they read; gives what is missing."""
    kept = os.path.join(os.environ.get('XDG_CACHE_HOME') or os.path.expanduser('~/.cache'), 'geomcore-refused')
    os.makedirs(kept, exist_ok=True)
    mine = threading.local()

    def one(crate):
        file = f'{kept}/{sum_of(crate, uses)}'
        if os.path.exists(file):
            counted = json.load(open(file, encoding='utf-8'))
            print(f'{crate} is kept: an earlier run on this machine tried the same edits of the same files', flush=True)
            return [], collections.Counter(counted)
        if not hasattr(mine, 'copy'):
            mine.copy = copy_of_crates(folder)
        came = Tried().crate(mine.copy, crate)
        print('\n'.join(came.lines), flush=True)
        if not came.missing:
            with open(f'{file}.{os.getpid()}', 'w', encoding='utf-8') as it:
                json.dump(came.counted, it)
            os.replace(f'{file}.{os.getpid()}', file)
        return came.missing, came.counted

    with tempfile.TemporaryDirectory() as folder, concurrent.futures.ThreadPoolExecutor(os.cpu_count() or 2) as workers:
        came = list(workers.map(one, crates))
    counted = sum((it[1] for it in came), collections.Counter())
    print(f'{sum(counted.values())} wrong answers refused: ' + ', '.join(f'{counted[kind]} by {kind}' for kind in [*STRONG, *WEAK]))
    return [line for it in came for line in it[0]]


def main():
    words = sys.argv[1:]
    if not words or (words[0] != '--try' and len(words) > 1):
        sys.exit('usage: tools/refused.py SAID | tools/refused.py --try [CRATE ..]')
    said = None if words[0] == '--try' else read_said(words[0])
    os.chdir(os.path.join(os.path.dirname(os.path.abspath(__file__)), '..'))
    lines = [line for line in open('crates.txt', encoding='utf-8') if ':' in line and not line.startswith('#')]
    uses = {line.split(':')[0].split()[0]: line.split(':')[1].split() for line in lines}
    missing = of_first_errors(said) if said is not None else of_whole_words(words[1:] or list(uses), uses)
    for line in missing:
        print(f'MISSING: {line}')
    return 1 if missing else 0


if __name__ == '__main__':
    sys.exit(main())
