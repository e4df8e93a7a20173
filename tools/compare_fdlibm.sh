#!/usr/bin/env bash
# compare_fdlibm.sh [SEED [COUNT]]: COUNT random arguments of each function (10,000,000 if none is said), worked out through the
# static libraries and compared in bits with Java's StrictMath. Writes a table; fails on any difference.
set -euo pipefail
cd "$(dirname "$0")/.."
seed=${1:-1}
count=${2:-10000000}
out=target/compare_fdlibm
mkdir -p "$out"
tools/staticlib.sh capi
cc -O2 -o "$out/compare" tools/compare_fdlibm.c target/staticlib/libcapi.a
javac -d "$out" tools/StrictMathAnswers.java
printf '%-8s %12s %12s %12s\n' function compared 'large angles' differ
status=0
for function in sin cos atan atan2; do
    java -cp "$out" StrictMathAnswers stream "$function" "$seed" "$count" 2> /dev/null | "$out/compare" "$function" || status=1
done
exit $status
