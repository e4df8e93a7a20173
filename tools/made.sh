#!/usr/bin/env bash
# made.sh: the date, the tree's commit and whether tracked files differ from it, as a table of figures names them.
set -eu
cd "$(dirname "$0")/.."
state=unchanged
[ -z "$(git status --porcelain --untracked-files=no)" ] || state=changed
echo "$(date -u '+%-d %B %Y'), commit $(git rev-parse --short HEAD), the tree $state"
