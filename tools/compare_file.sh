#!/usr/bin/env bash
# compare_file.sh [SEED [COUNT]]: compares the trace file's writer and reader with a second reading of request A1 over Python's struct
# (tools/compare_file.py): COUNT random calls of each, and every fixed case. Fails where one differs.
set -eu
cd "$(dirname "$0")/.."
tools/staticlib.sh capi
"${CC:-cc}" -shared -Wl,-z,defs -Wl,--whole-archive target/staticlib/libcapi.a -Wl,--no-whole-archive -o target/libgeomcore.so
exec python3 -B tools/compare_file.py target/libgeomcore.so "${1:-1}" "${2:-1000000}"
