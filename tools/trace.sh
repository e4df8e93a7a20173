#!/usr/bin/env bash
# trace.sh TEXT: proves and builds the job program, and answers the job that a readable text describes (tools/job.py).
set -eu
root="$(cd "$(dirname "$0")/.." && pwd)"
job="$(mktemp)"
trap 'rm -f "$job"' EXIT
python3 "$root/tools/job.py" "$1" "$job"
(cd "$root/crates/tracer" && rt run < "$job")
