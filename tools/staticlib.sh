#!/usr/bin/env bash
# staticlib.sh NAME..: proves the static library NAME_c (capi or probe), which exports the crate NAME to C, and puts its archive at
# target/staticlib/libNAME.a, for every x86-64 (the kit's default asks for x86-64-v2). What rt says of it is left in target/staticlib.log, and its end is shown where it is refused.
set -eu
cd "$(dirname "$0")/.."
mkdir -p target/staticlib
for name in "$@"; do
    (cd "crates/${name}_c" && rt lib --cpu x86-64) > target/staticlib.log 2>&1 || { tail -n 20 target/staticlib.log; exit 1; }
    cp "crates/${name}_c/out/lib${name}_c.a" "target/staticlib/lib$name.a"
done
