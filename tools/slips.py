#!/usr/bin/env python3
"""slips.py SEED COUNT [PART]: whether the comparisons would notice. Puts each slip of oracle/slips.txt, one wrong line, into a copy of the
oracle, compares that with the proved code as tools/compare.sh does, COUNT cases of SEED, and prints a table of the differences found. Ends
non-zero where a slip does not show. With PART only the slips of that comparison. A slip takes some seconds to build.
"""
import os
import re
import shutil
import subprocess
import sys

ROOT = os.path.dirname(os.path.dirname(os.path.abspath(__file__)))
COPY = 'target/slips/oracle'
# Quick builds: no link-time optimisation, which changes no result.
QUICK = {'CARGO_TARGET_DIR': f'{ROOT}/target/slips/build', 'CARGO_PROFILE_RELEASE_LTO': 'off',
         'CARGO_PROFILE_RELEASE_CODEGEN_UNITS': '16', 'CARGO_PROFILE_RELEASE_INCREMENTAL': 'true'}


def slips():
    """The slips of the list, each a dictionary of its lines."""
    for block in open('oracle/slips.txt', encoding='utf-8').read().split('\n\n'):
        lines = dict(line.partition(': ')[::2] for line in block.strip('\n').split('\n'))
        if 'slip' in lines:
            yield lines


def slipped(text, slip):
    """The file with the slip in it."""
    before = text.split(slip['old'])
    place = int(slip.get('occurrence', 1))
    if len(before) <= place or ('occurrence' not in slip and len(before) > 2):
        sys.exit(f"{slip['slip']}: {slip['file']} has its line {len(before) - 1} times")
    return slip['old'].join(before[:place]) + slip['new'] + slip['old'].join(before[place:])


def differences(part, seed, count):
    """How many differences the comparison with the slip shows."""
    build = ['cargo', 'build', '--quiet', '--release', '--offline', '--manifest-path', f'{COPY}/Cargo.toml', '--bin', 'compare']
    subprocess.run(build, check=True, env={**os.environ, **QUICK, 'RUSTFLAGS': '-Awarnings'})
    said = subprocess.run([f"{QUICK['CARGO_TARGET_DIR']}/release/compare", part, seed, count], capture_output=True, text=True).stdout
    return sum(int(number) for number in re.findall(r'^\w.*?(\d+) differ', said, re.M))


def main():
    os.chdir(ROOT)
    if len(sys.argv) not in (3, 4):
        sys.exit('usage: tools/slips.py SEED COUNT [PART]')
    seed, count, only = sys.argv[1], sys.argv[2], sys.argv[3:]
    subprocess.run(['tools/build_oracle.sh'], check=True)
    shutil.rmtree(COPY, ignore_errors=True)
    shutil.copytree('oracle', COPY, ignore=shutil.ignore_patterns('target'))
    os.makedirs('target/slips/target', exist_ok=True)
    if not os.path.exists('target/slips/target/staticlib'):
        os.symlink('../../staticlib', 'target/slips/target/staticlib')
    made = subprocess.run(['tools/made.sh'], check=True, capture_output=True, text=True).stdout.strip()
    print(f"`tools/slips.py {' '.join(sys.argv[1:])}`, {made}:\n\n| slip | of | differences |\n|---|---|---|", flush=True)
    unseen = 0
    for slip in slips():
        if only and slip['part'] not in only:
            continue
        path = f"{COPY}/{slip['file']}"
        with open(path, encoding='utf-8') as file:
            text = file.read()
        with open(path, 'w', encoding='utf-8') as file:
            file.write(slipped(text, slip))
        found = differences(slip['part'], seed, count)
        with open(path, 'w', encoding='utf-8') as file:
            file.write(text)
        print(f"| {slip['slip']} | {slip['part']} | {found:,} |", flush=True)
        unseen += found == 0
    return unseen > 0


if __name__ == '__main__':
    sys.exit(main())
