#!/usr/bin/env bash
# The speed of sine, cosine, arc tangent and arc tangent of two, beside a C build of the same algorithms and the C library.
set -euo pipefail
cd "$(dirname "$0")/.."
out=target/speed_fdlibm
mkdir -p "$out"
tools/staticlib.sh capi
# No fused multiply-add: each operation rounds once, as the algorithms ask.
flags='-O3 -ffp-contract=off'
cc $flags -c -o "$out/fdlibm.o" bench/fdlibm.c
cc $flags -fno-builtin -o "$out/speed" bench/speed_fdlibm.c "$out/fdlibm.o" target/staticlib/libcapi.a -lm
tools/made.sh
grep -m1 'model name' /proc/cpuinfo | sed 's/.*: //'
cc --version | head -n 1
echo "cc $flags"
"$out/speed"
