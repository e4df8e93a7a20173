#!/usr/bin/env bash
# changed.sh OLD SEED COUNT: which answers of generated jobs another build gives otherwise. OLD is its archive (of a clone of another commit, by
# `tools/staticlib.sh capi` there: target/staticlib/libcapi.a). COUNT jobs of `compare jobs`, traced by both with a cap of 60 at most
# (tools/changed.c); the answers that differ are counted by what both say, apart for the jobs with a large angle in guess or window and those
# without. A line's points count too.
set -euo pipefail
old=$(realpath "$1")
cd "$(dirname "$0")/.."
tools/build_oracle.sh
cc -O2 -Wall -Wextra -Iinclude tools/changed.c "$old" -lm -o target/changed_old
cc -O2 -Wall -Wextra -Iinclude tools/changed.c target/staticlib/libcapi.a -lm -o target/changed_new
oracle/target/release/compare jobs "$2" "$3" > target/changed_jobs
target/changed_old < target/changed_jobs > target/changed_old.txt
target/changed_new < target/changed_jobs > target/changed_new.txt
paste -d ' ' target/changed_old.txt target/changed_new.txt | awk '
    function say(refused, count) { return refused ? refused : "line" }
    { group = $3 ? "a large angle in guess or window" : "none"; jobs[group]++ }
    $6 != $13 || $7 != $14 {
        differ[group]++
        what = say($4) " to " say($11)
        if ($4 == 0 && $11 == 0) what = what ($12 < $5 ? ", shorter" : $12 > $5 ? ", longer" : ", as long")
        changed[group, what]++
        seen[what] = 1
    }
    END {
        for (group in jobs) {
            printf "%s: %d jobs, %d differ\n", group, jobs[group], differ[group]
            for (what in seen) if ((group, what) in changed) printf "  %s: %d\n", what, changed[group, what] | "sort"
            close("sort")
        }
    }'
