#!/usr/bin/env bash
# Instructions an entry (callgrind) of the check of a store, and of loading a raw tree, by the sort of the names; status 1 where a bound is passed.
# The bounds are of x86-64. Needs valgrind and cc, and the library that tools/library.sh names.
set -euo pipefail
cd "$(dirname "$0")/.."
library=$(tools/library.sh)
mkdir -p target/bench
cc -std=c11 -Wall -Wextra -Werror -O2 -Iinclude -o target/bench/names bench/names.c "$library"
passed=0

# counted WORK SORT FUNCTION
counted() {
  valgrind --tool=callgrind --toggle-collect="$3" --callgrind-out-file=target/bench/names.out target/bench/names "$1" "$2" 2> target/bench/names.log
  sed -n 's/^totals: *//p' target/bench/names.out
}

empty=$(counted check none tree_editor_holds)
nothing=$(counted load none tree_editor_new)
echo "| Names | entries | the check, an entry | at most | loading, an entry |"
echo "|---|---|---|---|---|"

# row SORT TEXT [MOST] : tenths of instructions, beyond those of no entry
row() {
  local n check load most=${3:--}
  n=$(target/bench/names entries "$1")
  check=$((10 * ($(counted check "$1" tree_editor_holds) - empty) / n))
  load=$((10 * ($(counted load "$1" tree_editor_new) - nothing) / n))
  printf '| %s | %d | %d.%d | %s | %d.%d |\n' "$2" "$n" $((check / 10)) $((check % 10)) "$most" $((load / 10)) $((load % 10))
  [ "$most" = - ] || [ "$check" -le $((10 * most)) ] || passed=1
}

row 6 "6 bytes" 113
row 12 "12 bytes, 6 shared"
row 16 "16 bytes, 9 shared" 71
row 28 "28 bytes, 24 shared" 115
row 200 "200 bytes, 190 shared"
echo
echo "the check of an empty root: $empty, the making of an editor without entries: $nothing"
exit $passed
