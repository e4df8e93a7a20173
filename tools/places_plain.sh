#!/usr/bin/env bash
# places_plain.sh [FOLDER]: counts the places of docs/DESIGN-PASS.md a second time, in crates/*/src of FOLDER (here, where none is named), by
# patterns of one line each that know nothing of tools/places.py. Each finds too much in its own way; the page has the counts before and after.
set -euo pipefail
cd "${1:-.}"
code() { find crates/*/src -name '*.rt' | sort | xargs cat | sed 's://.*$::'; }
one() { code | tr '\n' ' ' | sed 's/  */ /g'; }
functions() { one | grep -oE 'fn [a-z_0-9]+(<[^>]*>)?\([^()]*\)'; }
say() { printf '| %s | %s | %s |\n' "$1" "$2" "$(cat)"; }
count() { wc -l | tr -d ' '; }

code | awk '/enum [A-Za-z0-9]+ \{/{b=0;v=0;r=0;c=0;on=1;next} on&&/^\}/{if(c<=3&&v>0&&(b>0||r>0))k++;on=0}
    on&&/^    [A-Z]/{c++; if($0~/\((Refusal|u64|usize|bool)\)/)r++; else if($0~/[({]/)v++; else b++} END{print k+0}' |
    say 1 'enums of at most three cases, one with a value and one bare or of a refusal'
code | { grep -oE '\b(kind|what|code|closing|marks|pin|quadrant|[xy]_sign|sign|dir|size|k|tail|closed|removed|turn|angle): (u64|usize|f64|bool)\b' || true; } |
    count | say 1 'parameters and fields with the name of a kind or a flag'
code | { grep -E '\b(if|&&|\|\|) [a-z_.]+ (==|<) [0-9](\.0)? (\{|&&)' || true; } | count | say 1 'tests of a name against one digit'
code | { grep -E '^\s*[0-9]+ => ' || true; } | count | say 1 'arms of a match on a number'
code | { grep -oE '(\?;|\?$|\)\?)' || true; } | count | say 1 '`?` (wanted)'
code | { grep -oE '\b(fn|enum|struct) [A-Za-z_]*[0-9][A-Za-z_0-9]*' || true; } |
    { grep -vE '(Point|Vector|Frame)3D|_(c?d[01]|v1)$|atan2' || true; } | sort -u | count | say 2 'names with a digit, but for those of the C and of the Rust'
code | { grep -E 'for [a-z]+ in .*\.\.' || true; } | count | say 3 'loops over a range with a named index'
code | { grep -E '\bwhile\b' || true; } | count | say 3 '`while`'
code | { grep -E '\[[a-z]* ?\+? ?[0-9]\] = ' || true; } | count | say 3 'stores at a place that is a number'
code | { grep -oE '\b([a-z]+) != \1\b' || true; } | count | say 4 '`x != x`'
code | { grep -oE '[01]\.0 / 0\.0' || true; } | count | say 4 '0/0, 1/0'
code | { grep -E 'fn (same|eq|equal|cmp|compare)_' || true; } | count | say 4 'functions with the name of a comparison'
one | { grep -oE '&(mut )?\[(u8|f64)(; [A-Z0-9]+)?\], at: usize' || true; } | count | say 5 'a slice and a place in it'
find crates/*/src -name '*.rt' | xargs cat | { grep -E 'requires.*at \+ [^}]*≤ length' || true; } | count | say 5 'that a place has so many behind it'
functions | awk '{n=gsub(/: /,": ");if(n>=6)k++}END{print k+0}' | say 5 'functions of six parameters or more'
find crates/*/src -name '*.rt' | xargs cat | { grep -E '^\s*requires' || true; } | count | say 5 'lines of `requires`'
functions | { grep -E '&(mut )?\[(f64|u8)\]' || true; } | { grep -E '\b(n|count|len|size): (usize|u64)' || true; } | count | say 6 'functions of a slice and a number of its items'
code | { grep -E '\.len\(\) < [a-zA-Z0-9]+( \+ 1)? \{' || true; } | count | say 6 'tests that a slice is too short'
code | { grep -E '^\s*[0-9]+ => [a-z_:]+(::<[0-9]>)?\(' || true; } | count | say 7 'arms of a number that call'
code | { grep -oE '\b(Fn|FnMut|FnOnce)\b' || true; } | count | say 7 'bounds by a closure (wanted)'
