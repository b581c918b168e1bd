#!/usr/bin/env bash
# The stored cases of crates/test_git are what Git says: they are made anew by the installed Git and compared.
set -euo pipefail
cd "$(dirname "$0")/.."
python3 tests/git/git_vectors.py --check
