#!/usr/bin/env bash
# compare_all.sh SEED COUNT: builds the archives and the oracle and compares everything that is compared with the outside, COUNT cases of
# each function or kind and ten times as many of the square root, sine, cosine and arc tangents. Prints date, commit and table as
# docs/COMPARED.md has them; what each comparison writes, kind by kind, is kept under target/compare_all. Ends non-zero on any difference.
set -euo pipefail
cd "$(dirname "$0")/.."
if [ $# -ne 2 ]; then
    echo "usage: tools/compare_all.sh SEED COUNT" >&2
    exit 2
fi
seed=$1 count=$2 out=target/compare_all status=0
mkdir -p "$out"
tools/build_oracle.sh
echo "\`tools/compare_all.sh $seed $count\`, $(tools/made.sh):"
printf '\n| what | compared | differ | of them |\n|---|---|---|---|\n'

# run NAME COMMAND...: the rows of a comparison; one that fails without a row of its own still shows.
run() {
    name=$1
    shift
    "$@" > "$out/$name" 2>&1 || { status=1; failed=" (failed)"; }
    awk -v name="$name" '
        function grouped(text,   done, n, digits) {
            while (match(text, /[0-9][0-9][0-9][0-9]+/)) {
                digits = substr(text, RSTART, RLENGTH)
                done = done substr(text, 1, RSTART - 1)
                text = substr(text, RSTART + RLENGTH)
                n = (length(digits) - 1) % 3 + 1
                done = done substr(digits, 1, n)
                for (; n < length(digits); n += 3) done = done "," substr(digits, n + 1, 3)
            }
            return done text
        }
        function row(what, compared, differ, notes) {
            print "| " what " | " grouped(compared) " | " grouped(differ) " | " grouped(notes) " |"
            rows++
        }
        match($0, /: [0-9]+ ([a-z]+ )?compared, [0-9]+ differ/) && !/^ / {
            what = substr($0, 1, RSTART - 1)
            words = split(substr($0, RSTART + 2, RLENGTH - 2), word, " ")
            rest = substr($0, RSTART + RLENGTH)
            row(what, word[1], word[words - 1], match(rest, /\(.*\)/) ? substr(rest, RSTART + 1, RLENGTH - 2) : "")
        }
        name == "strictmath" && NF == 4 && $2 ~ /^[0-9]+$/ { row($1 " against StrictMath", $2, $4, $3 > 0 ? $3 " large angles" : "") }
        END { if (!rows) { print "| " name " | none | - | |"; exit 1 } }' "$out/$name" || status=1
    [ -z "${failed:-}" ] || echo "$name failed: see $out/$name"
    failed=
}

for part in fdlibm solve surface patch marching crossing explain trace check; do
    run "$part" oracle/target/release/compare "$part" "$seed" "$count"
done
run file tools/compare_file.sh "$seed" "$count"
run sqrt tools/compare_sqrt.sh "$seed" $((10 * count))
run strictmath tools/compare_fdlibm.sh "$seed" $((10 * count))
exit $status
