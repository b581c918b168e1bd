#!/usr/bin/env bash
# Slips put into the library's functions and into the check, one by one: a short run has to notice each.
#   tests/fuzz/slips.sh [COUNT]    calls for each slip, default 20,000
set -euo pipefail
cd "$(dirname "$0")/../.."
count=${1:-20000} noticed=0 missed=0
# try NAME FLAGS...
try() {
  local name=$1
  shift
  if FUZZ_FLAGS="$*" tests/fuzz/run.sh 1 "$count" > target/fuzz/slip.log 2>&1; then
    echo "not noticed: $name"
    missed=$((missed + 1))
  elif ! grep -q '^seed ' target/fuzz/slip.log; then
    echo "$name: the run itself failed"
    tail -5 target/fuzz/slip.log
    missed=$((missed + 1))
  else
    noticed=$((noticed + 1))
  fi
}
mkdir -p target/fuzz
functions=(upsert upsert upsert upsert get holds request fail upsert answer_and_request upsert get)
for k in "${!functions[@]}"; do
  try "library $((k + 1)), ${functions[$k]}" -DLIBRARY_SLIP=$((k + 1)) tests/fuzz/slips.c -Wl,--wrap=tree_editor_"${functions[$k]}"
done
for k in 1 2 3 4; do
  try "check $k" -DCHECK_SLIP=$k
done
echo "slips: $noticed noticed, $missed not"
[ "$missed" -eq 0 ]
