#!/usr/bin/env bash
# The original and ours side by side: instructions (callgrind, x86-64), times, memory. Prints the tables of docs/FIGURES.md and the bounds.
#   bench/run.sh [REPS]    repetitions of the longer pieces of work, default 101; the shorter ones are done twenty times as often
# Needs cargo, cc, valgrind and python3. Status 1 where other bounds are missed than docs/FIGURES.md says.
set -euo pipefail
cd "$(dirname "$0")/.."
TREE_EDITOR_LIB=$(tools/library.sh)
export TREE_EDITOR_LIB
work=target/bench
mkdir -p $work
(cd bench && CARGO_TARGET_DIR=../$work cargo build --offline --release -q -j1)
bench=$work/release/tree-editor-bench
$bench times "${1:-101}" > $work/times
$bench heap > $work/heap
valgrind --tool=callgrind --callgrind-out-file=$work/callgrind.out $bench count > $work/symbols 2> $work/valgrind.log
callgrind_annotate --inclusive=yes --threshold=100 --show-percs=no $work/callgrind.out > $work/count
nm -u "$TREE_EDITOR_LIB" | awk 'NF == 2 && $1 == "U" && !/tree_editor_/ { print $2 }' | sort -u > $work/needs
size "$TREE_EDITOR_LIB" | awk 'NR > 1 { n += $1 } END { print n }' > $work/code
FUZZ_FLAGS=-DMEASURE_STACK=1 tests/fuzz/run.sh 1 20000 > $work/fuzz.log
grep '^stack ' target/fuzz/counts > $work/stack
python3 bench/report.py $work
