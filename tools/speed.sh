#!/usr/bin/env bash
# speed.sh [ROUNDS]: times the proved functions beside the Rust, both in release builds and on the same inputs, the least of ROUNDS rounds
# (50 if none is said). Prints the tables of docs/SPEED.md, "The public functions beside the Rust".
set -eu
cd "$(dirname "$0")/.."
tools/build_oracle.sh
tools/made.sh
grep -m1 'model name' /proc/cpuinfo | sed 's/.*: //'
rustc --version
exec oracle/target/release/speed "${1:-50}"
