#!/usr/bin/env python3
"""gate_times.py LOG: the table of docs/PROOFS.md, "How long the gate takes", from what `.ci/run` printed (`time .ci/run > LOG 2>&1`).

`rt ci` prints no times but those of the whole run, and nothing of a crate that it kept from an earlier run (`functions` is empty then).
gate_times.py LOG --alone: proves each crate from nothing besides, one after the other (`rt verdict`), and says how long each took.
"""
import glob
import os
import re
import subprocess
import sys
import time


def proved(said):
    """How many functions the run proved in each crate that it did not keep."""
    parts = re.split(r'^== ', said, flags=re.M)[1:]
    found = ((part.split('\n')[0].split()[0], re.search(r'^logic=proved functions=(\d+)', part, re.M)) for part in parts)
    return {crate: line.group(1) for crate, line in found if line}


def alone(crate):
    """The seconds of a verdict on the crate alone."""
    start = time.monotonic()
    ended = subprocess.run(['rt', 'verdict'], cwd=f'crates/{crate}', stdout=subprocess.PIPE, stderr=subprocess.STDOUT, check=False)
    return f'{time.monotonic() - start:.0f}' if ended.returncode == 0 else 'not proved'


def main():
    words = [word for word in sys.argv[1:] if word != '--alone']
    if len(words) != 1:
        sys.exit(__doc__)
    with open(words[0], encoding='utf-8', errors='replace') as log:
        said = log.read()
    os.chdir(os.path.dirname(os.path.dirname(os.path.abspath(__file__))))
    functions, timed = proved(said), '--alone' in sys.argv
    refused = re.findall(r'^rt: must-fail (\w+)/\S+\.edit: refused, as it must be', said, re.M)
    print('| crate | functions | edits | wrong answers |' + (' alone, s |' if timed else ''))
    print('|---|---|---|---|' + ('---|' if timed else ''))
    answers = 0
    for crate in re.findall(r'^(\w+)(?: staticlib)?:', open('crates.txt', encoding='utf-8').read(), re.M):
        edits = ''.join(open(path, encoding='utf-8').read() for path in glob.glob(f'crates/{crate}/must-fail/*.edit'))
        wrong = len(re.findall(r'^wrong: ', edits, re.M))
        answers += wrong
        print(f'| `{crate}` | {functions.get(crate, "")} | {refused.count(crate) or ""} | {wrong or ""} |' + (f' {alone(crate)} |' if timed else ''), flush=True)
    last = re.findall(r'^(\d+ passed, \d+ failed|(?:real|user|sys)\s.*)$', said, re.M)
    kept = len(re.findall(r'^rt: \w+ is kept', said, re.M))
    print(f'\n{len(functions)} crates proved, {kept} kept, {answers} wrong answers in {len(refused)} edits; ' + ', '.join(last[-4:]))


if __name__ == '__main__':
    main()
