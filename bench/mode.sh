#!/usr/bin/env bash
# mode.sh: what a look at the thread's floating-point mode costs a call: the header's guard (bench/mode.c) and the Rust package's
# (wrapper/examples/guard.rs). Figures: docs/TRUST.md.
set -eu
cd "$(dirname "$0")/.."
tools/staticlib.sh capi
cc -O2 -Wall -Wextra -Iinclude bench/mode.c target/staticlib/libcapi.a -o target/mode
grep -m1 'model name' /proc/cpuinfo | sed 's/.*: //'
target/mode
cargo run --quiet --release --offline --manifest-path wrapper/Cargo.toml --example guard
