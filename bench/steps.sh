#!/usr/bin/env bash
# steps.sh ROUNDS: times the solvers, the surfaces and the steps of the walk against the Rust of `oracle/`, both called in turn in one run.
set -eu
cd "$(dirname "$0")/.."
tools/staticlib.sh probe capi
tools/made.sh
for part in solve surface marching; do
    cargo run --quiet --release --offline --manifest-path oracle/Cargo.toml --bin speed -- $part "${1:-200}"
done
