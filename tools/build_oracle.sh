#!/usr/bin/env bash
# build_oracle.sh: builds the archives of the proved code and the oracle over them, and runs the oracle's tests.
set -eu
cd "$(dirname "$0")/.."
mkdir -p target
tools/staticlib.sh probe capi
cargo test --quiet --release --offline --manifest-path oracle/Cargo.toml > target/oracle.log 2>&1 || { cat target/oracle.log; exit 1; }
cargo build --quiet --release --offline --manifest-path oracle/Cargo.toml
