#!/usr/bin/env bash
# Damaged stores in number: what the proved check of a store says, against tests/stores/stores.py.
#   compare_stores.sh [COUNT [SEED]]             the program test_stores, proved and built; 110,000 stores, ten in eleven damaged
#   compare_stores.sh COUNT SEED PROGRAM...      another program that reads stores and prints a line for each
set -euo pipefail
cd "$(dirname "$0")/../.."
count=${1:-110000} seed=${2:-1}
shift $(($# < 2 ? $# : 2))
[ $# -gt 0 ] || set -- tools/run.sh test_stores
python3 tests/stores/stores.py compare --seed "$seed" --count "$count" -- "$@"
