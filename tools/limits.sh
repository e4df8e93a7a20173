#!/usr/bin/env bash
# limits.sh [SEED COUNT]: shows what docs/TRUST.md, "Limits", says of the archive: built twice it is the same; it links into a program that
# is loaded anywhere and into a shared library, with no relocation of its code; it has no state (tools/archive.py); what stack and time calls
# take on COUNT generated jobs with the greatest cap (tools/limits.c; 10,000 if none is said), and what stack the first calls take where the
# loader looks up memcpy only then.
set -eu
cd "$(dirname "$0")/.."
archive=target/staticlib/libcapi.a
tools/build_oracle.sh
cp "$archive" target/once.a
tools/staticlib.sh capi
cmp target/once.a "$archive" && echo "built twice: the same bytes, sha256 $(sha256sum < "$archive" | cut -c1-16)"
python3 tools/archive.py
cc -O2 -Wall -Wextra -Iinclude -pie -fPIE -Wl,-z,now,-z,text tools/limits.c "$archive" -o target/limits
cc -shared -Wl,-z,text,-z,defs -Wl,--whole-archive "$archive" -Wl,--no-whole-archive -o target/libgeomcore.so
echo "links as a position-independent program and as a shared library"
oracle/target/release/compare jobs "${1:-1}" "${2:-10000}" | target/limits
cc -O2 -Iinclude -Wl,-z,lazy tools/limits.c "$archive" -o target/limits_lazy
echo "the first calls, C's functions looked up late:"
oracle/target/release/compare jobs 1 1 | target/limits_lazy
