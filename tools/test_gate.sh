#!/usr/bin/env bash
# Tries the gate itself (.ci/run, tools/refused.py) in seconds, over a small repository and a stand-in for rt that prints what it is told to.
# Each case says how the run must end: its exit status and its last line. The last line of this test is `gate: N cases as they must be`.
set -euo pipefail
cd "$(dirname "$0")/.."
gate=$PWD
room=$(mktemp -d)
trap 'rm -rf "$room"' EXIT
export PATH="$room/bin:$PATH" ROOM="$room" XDG_CACHE_HOME="$room/kept"

# The stand-in: `ci` prints $ROOM/ci and ends with the status in $ROOM/status; `check` prints $ROOM/check-N where the function divides by N.
mkdir "$room/bin"
cat >"$room/bin/rt" <<'RT'
#!/bin/sh
case $1 in
version) cat "$ROOM/version" ;;
ci)
    if [ $# -ne 1 ] || [ ! -f crates.txt ]; then exit 3; fi
    cat "$ROOM/ci"
    exit "$(cat "$ROOM/status")"
    ;;
check) cat "$ROOM/check-$(sed -n 's/^ *x . //p' src/lib.rt)" ;;
esac
RT
chmod +x "$room/bin/rt"

unequal='computed as far as they go, the two types are a and b'

# refused EDIT ERROR: what rt ci prints of an edit that the prover refuses.
refused() {
    echo "rt: must-fail number/$1.edit: refused, as it must be${2:+: $2}"
}

# prints_of ONE TWO: what rt ci prints, given its lines on the two edits.
prints_of() {
    printf '%s\n' 'logic=proved functions=1 sum=0123 logic-built=trusted' "$1" "$2" \
        'rt: ok; handles allowed: none; must-fail edits: 2 refused; every proof and must-fail edit was done in this run' \
        '3 passed, 0 failed' >"$room/ci"
}

# says N WORDS: what the prover says of the function that divides by N, in its proof.
says() {
    printf './proofs/half/Answers.antt:1:1: error: %s\nfn number::half: not proved\nlogic=not-proved\n' "$2" >"$room/check-$1"
}

# A repository of one public function with two wrong answers, both refused as they must be.
repository() {
    rm -rf "$room/repository" "$room/kept"
    mkdir -p "$room/repository/.ci" "$room/repository/tools" "$room/repository/crates/number/src" "$room/repository/crates/number/must-fail"
    cp "$gate/.ci/run" "$room/repository/.ci/run"
    cp "$gate/tools/refused.py" "$room/repository/tools/refused.py"
    echo 'kit logic 0123' | tee "$room/repository/toolchain" >"$room/version"
    echo 0 >"$room/status"
    echo 'number:' >"$room/repository/crates.txt"
    printf 'pub fn half(x: u64) -> u64\n    ensures { r }\n{\n    x / 2\n}\n' >"$room/repository/crates/number/src/lib.rt"
    printf 'wrong: one\nproof: half\nfile: src/lib.rt\nold: 2\nnew: 3\n' >"$room/repository/crates/number/must-fail/one.edit"
    printf 'wrong: two\nproof: half\nfile: src/lib.rt\nold: 2\nnew: 4\n' >"$room/repository/crates/number/must-fail/two.edit"
    prints_of "$(refused one "./proofs/half/Answers.antt:1:1: error: \`returns\`: $unequal")" \
        "$(refused two 'note: src/lib.rt:1:1: it is not proved that what the function ensures holds when it returns (`returns`)')"
    echo 'logic=proved functions=1' >"$room/check-2"
    says 3 "$unequal"
    says 4 "$unequal"
}

# ends CASE STATUS LAST [COMMAND]: runs the gate, or the command; STATUS is 0 or not, LAST a pattern for its last line.
cases=0
ends() {
    local status=0
    (cd "$room/repository" && ${4:-./.ci/run}) >"$room/out" 2>"$room/errors" || status=$?
    if [ $((status != 0)) -ne "$2" ] || ! tail -n 1 "$room/out" | grep -Eqx "$3"; then
        cat "$room/out" "$room/errors"
        echo "gate: $1: status $status, and the last line is not as it must be"
        exit 1
    fi
    cases=$((cases + 1))
}

# prints WORDS: what the output must hold besides.
prints() {
    if ! grep -qF -- "$1" "$room/out"; then
        cat "$room/out"
        echo "gate: it does not print: $1"
        exit 1
    fi
}

repository
ends 'all is well' 0 '3 passed, 0 failed'
prints '2 edits refused: 1 by unequal goal'
prints '1 by search without result'
if grep warning "$room/out"; then exit 1; fi

repository
echo 2 >"$room/status"
ends 'rt ci fails and counts no failure' 1 'THE GATE FAILED: rt ci'

repository
echo 1 >"$room/status"
printf '2 passed, 1 failed\n' >"$room/ci"
ends 'rt ci fails' 1 'THE GATE FAILED: rt ci'

repository
printf 'rt: ok\n' >"$room/ci"
ends 'no count' 1 'THE GATE FAILED: rt ci: its last line.*'

repository
printf '2 passed, 1 failed\n' >"$room/ci"
ends 'a failure counted with status 0' 1 'THE GATE FAILED: rt ci: its last line.*'

repository
printf '3 passed, 0 failed (number and the crates below alone: not the gate)\n' >"$room/ci"
ends 'some crates alone' 1 'THE GATE FAILED: rt ci: its last line.*'

repository
sed -i '/^rt: ok/d' "$room/ci"
ends 'all is not said to be well' 1 'THE GATE FAILED: rt ci: it does not say.*'

repository
sed -i 's/2 refused;/1 refused, 1 of them only by a limit, 1 bad;/' "$room/ci"
ends 'a bad edit' 1 'THE GATE FAILED: rt ci: .* counts a bad edit'

for word in cache incremental crate-checked; do
    repository
    sed -i "s/logic-built/$word/" "$room/ci"
    ends "$word=trusted" 1 'THE GATE FAILED: a verdict.*'
done

repository
prints_of "$(refused one './proofs/half/Answers.antt:1:1: error: `double` was not admitted')" "$(refused two "./proofs/half/Answers.antt:1:1: error: $unequal")"
ends 'not refused on its own account' 1 'THE GATE FAILED: tools/refused.py.*'
prints 'number/one: its first error, in half, shows nothing of a contract'

repository
prints_of "$(refused one "./proofs/third/Answers.antt:1:1: error: $unequal")" "$(refused two "./proofs/half/Answers.antt:1:1: error: $unequal")"
ends 'refused in another proof' 1 'THE GATE FAILED: tools/refused.py.*'
prints 'number/one: it is refused in third first, which it does not name'

repository
sed -i 's,two.edit: refused\, as it must be.*,two.edit: refused\, as it must be (only because a proof file names what the edit took away),' "$room/ci"
ends 'refused only by a name' 1 'THE GATE FAILED: tools/refused.py.*'
prints 'number/two: refused, as it must be (only because'

repository
sed -i '/two.edit/d' "$room/ci"
ends 'not tried' 1 'THE GATE FAILED: tools/refused.py.*'
prints 'number/two: rt ci says nothing of it'

repository
sed -i 's,file: src/lib.rt,file: proofs/half/Answers.antt,' "$room/repository/crates/number/must-fail/two.edit"
ends 'an edit of a proof' 1 'THE GATE FAILED: tools/refused.py.*'
prints 'it changes a proof'

repository
echo 'kit logic 4567' >"$room/version"
ends 'another toolchain' 0 '3 passed, 0 failed'
prints 'warning: the figures in the documents were made with kit logic 0123'

repository
sed -i 's/sum=0123/sum=4567/' "$room/ci"
ends 'another logic' 0 '3 passed, 0 failed'
prints 'warning: the figures in the documents were made with kit logic 0123'

repository
ends 'the whole words: all is well' 0 '2 wrong answers refused: 2 by unequal goal.*' 'python3 tools/refused.py --try'
ends 'the whole words: kept' 0 '2 wrong answers refused: 2 by unequal goal.*' 'python3 tools/refused.py --try number'
prints 'number is kept'
says 3 '`one` was not admitted'
sed -i 's/wrong: one/wrong: uno/' "$room/repository/crates/number/must-fail/one.edit"
ends 'the whole words: an edit that changed is tried again' 1 'MISSING: number::half: 1 strong refusals of 1.*' 'python3 tools/refused.py --try'

repository
says 4 '`rw`: no occurrence of the left endpoint'
ends 'the whole words: one strong refusal' 1 'MISSING: number::half: 1 strong refusals of 2.*' 'python3 tools/refused.py --try number'

repository
says 4 '`one` was not admitted'
ends 'the whole words: not refused in its own proof' 1 'MISSING: number::half: 1 strong refusals of 1.*' 'python3 tools/refused.py --try'
prints 'two is not refused in half'
ends 'the gate: not refused in its own proof' 1 'THE GATE FAILED: tools/refused.py --try.*'

repository
printf 'note: src/lib.rt:1:1: `search` found no proof (`returns`); the facts known there allow values at which this goal is false\nfn number::half: no proof: x\n' >"$room/check-4"
ends 'the whole words: a goal that is false' 0 '2 wrong answers refused: 1 by unequal goal.* 1 by counterexample.*' 'python3 tools/refused.py --try'

repository
says 2 "$unequal"
ends 'the whole words: not proved as it stands' 1 'MISSING: number is not proved as it stands' 'python3 tools/refused.py --try'

echo "gate: $cases cases as they must be"
