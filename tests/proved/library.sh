#!/usr/bin/env bash
# The library for C and Rust, built once (tools/library.sh): the C example, the Rust wrapper's tests, random calls over good and damaged
# stores, and slips that such calls notice. What needs cargo says so where it is left out.
set -euo pipefail
cd "$(dirname "$0")/../.."
TREE_EDITOR_LIB=$(tools/library.sh)
export TREE_EDITOR_LIB
examples/c/run.sh
if command -v cargo > /dev/null; then
  bindings/rust/run.sh > target/bindings.log 2>&1 || { cat target/bindings.log; exit 1; }
  awk '/^test result: ok/ { n += $4 } END { printf "Rust wrapper: %d tests passed\n", n; exit n == 0 }' target/bindings.log
else
  echo "no cargo: the Rust wrapper is not tested"
fi
tests/fuzz/run.sh 1 20000
tests/fuzz/slips.sh
