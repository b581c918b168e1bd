#!/usr/bin/env bash
# The program `mend` against a reading of the request alone, over damaged trees, and what it writes against Git.
# Needs python3 and git.
#   run.sh [COUNT [MEND...]]    default 20000 trees, tools/run.sh mend
set -euo pipefail
cd "$(dirname "$0")/../.."
count=${1:-20000}
[ $# -gt 1 ] || set -- "$count" tools/run.sh mend
shift
python3 tests/salvage/judge.py "$count" 1 "$@"
python3 tests/salvage/git.py $((count / 40 + 1)) 2 "$@"
