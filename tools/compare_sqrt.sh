#!/usr/bin/env bash
# compare_sqrt.sh [SEED [COUNT]]: compares our square root with the hardware's at COUNT arguments of each of three kinds; fails where one differs.
set -eu
cd "$(dirname "$0")/.."
tools/staticlib.sh capi
"${CC:-cc}" -O2 -o target/compare_sqrt tools/compare_sqrt.c target/staticlib/libcapi.a
exec target/compare_sqrt "${1:-1}" "${2:-10000000}"
