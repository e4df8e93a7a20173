#!/usr/bin/env bash
# Times our square root against the hardware's: builds the archive of the C interface and the driver, and runs it. CC names the C compiler.
set -eu
cd "$(dirname "$0")/.."
tools/staticlib.sh capi
"${CC:-cc}" -O2 -o target/bench_sqrt bench/sqrt.c target/staticlib/libcapi.a
tools/made.sh
target/bench_sqrt
