#!/usr/bin/env bash
# compare.sh PART SEED COUNT: builds the archives of the proved code and the oracle, and compares them. Ends non-zero on any difference.
# Parts: fdlibm, solve, surface, patch, marching, crossing, explain, trace, check; modes: what other floating-point modes change (docs/TRUST.md).
set -eu
cd "$(dirname "$0")/.."
if [ $# -ne 3 ]; then
    echo "usage: tools/compare.sh PART SEED COUNT" >&2
    exit 2
fi
tools/build_oracle.sh
exec oracle/target/release/compare "$@"
