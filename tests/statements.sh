#!/usr/bin/env bash
# The list of public calls that the theorems of crates/theorems speak of says of each call what its contract says.
set -euo pipefail
cd "$(dirname "$0")/.."
python3 tests/same_statements.py
