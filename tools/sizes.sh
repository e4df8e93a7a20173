#!/usr/bin/env bash
# sizes.sh: how much text the crates have: lines of code, definitions and proofs, edits, wrong answers, the longest line of a proof.
set -euo pipefail
cd "$(dirname "$0")/.."
export LC_ALL=C.UTF-8
lines() { git ls-files "$@" | xargs cat | wc -l; }
proofs() { git ls-files 'crates/*.antt' | grep /proofs/ | xargs cat; }
echo "crates                     $(grep -cE '^[a-z_0-9]+( staticlib)?:' crates.txt)"
echo "lines of code              $(lines 'crates/*.rt')"
echo "lines of definitions       $(lines 'crates/*/specs/*.antt')"
echo "lines of proofs            $(proofs | wc -l)"
echo "characters of proofs       $(proofs | wc -m)"
echo "longest line of a proof    $(proofs | awk '{ if (length($0) > m) m = length($0) } END { print m }')"
echo "lines of proofs over 200   $(proofs | awk 'length($0) > 200' | wc -l)"
echo "edits, wrong answers       $(git ls-files 'crates/*/must-fail/*.edit' | wc -l), $(git ls-files 'crates/*/must-fail/*.edit' | xargs grep -h '^wrong:' | wc -l)"
