#!/usr/bin/env bash
# The proved program `mend` against a reading of the rules in Python, over damaged trees of both widths, and what it writes against Git.
set -euo pipefail
cd "$(dirname "$0")/../.."
if command -v git > /dev/null; then
  tests/salvage/run.sh 200
else
  echo "no git: the mended trees are held to the reading in Python alone"
  python3 tests/salvage/judge.py 200 1 tools/run.sh mend
fi
