#!/usr/bin/env bash
# Instructions (callgrind, x86-64) of the check of a store, and of an upsert that inserts at its front, with its check and without; status 1 where a
# bound is passed. Needs valgrind and cc, and the library that tools/library.sh names.
set -euo pipefail
cd "$(dirname "$0")/.."
library=$(tools/library.sh)
mkdir -p target/bench
cc -std=c11 -Wall -Wextra -Werror -O2 -Iinclude -o target/bench/store bench/store.c "$library"
passed=0

# counted WORK FUNCTION
counted() {
  valgrind --tool=callgrind --toggle-collect="$2" --callgrind-out-file=target/bench/store.out target/bench/store "$1" 2> target/bench/store.log
  sed -n 's/^totals: *//p' target/bench/store.out
}

# bound TEXT COUNT MOST
bound() {
  printf '%-80s %9d, at most %9d\n' "$1" "$2" "$3"
  [ "$2" -le "$3" ] || passed=1
}

# measure STORE TEXT MOST : the check of the full store; the upsert that fills it, and what it takes besides the check of what it was lent
measure() {
  local check upsert insert=insert
  [ "$1" = full ] || insert=insert-$1
  target/bench/store "$insert" and-check
  check=$(counted "$1" tree_editor_holds)
  bound "check, $2" "$check" "$3"
  check=$(counted "$insert" tree_editor_holds)
  upsert=$(counted "$insert" tree_editor_upsert)
  bound "upsert at the front of the first tree" "$upsert" 400000
  bound "of it besides the check" $((upsert - check)) 150000
}

measure full "64 trees of 16 entries, names of 16 bytes sharing 12" 300000
measure one "one tree of 1,024 such entries" 400000
exit $passed
