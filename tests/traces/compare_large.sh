#!/usr/bin/env bash
# The large comparison: 25,000 seeded traces of all kinds, every sequence of three calls over three alphabets, 20,000
# inputs of the small program. A minute or two of one core for tests/traces/model01.py.
#   compare_large.sh                          the oracle against tests/traces/model01.py
#   compare_large.sh PROGRAM... -- SMALL...   against another program and its small program
set -euo pipefail
cd "$(dirname "$0")/../.."
(cd tests/oracle && cargo build --offline --release -q -j1)
mkdir -p target
other=(python3 tests/traces/model01.py) small=(model)
if [ $# -gt 0 ]; then
  other=() small=()
  while [ $# -gt 0 ] && [ "$1" != -- ]; do other+=("$1"); shift; done
  [ $# -gt 0 ] && shift
  small=("$@")
fi
all=()
for seed in 201 202 203 204 205; do
  for kind in normal:2500 write:2000 limits:500; do
    file=target/large-$seed-${kind%:*}.txt
    python3 tests/traces/traces.py --seed $seed --kind "${kind%:*}" --count "${kind#*:}" --length 25 > "$file"
    all+=("$file")
  done
done
python3 tests/traces/compare_traces.py --need 0,1,2,3,4,5,6,7,8,9,10,11,12,13,none "${all[@]}" \
  -- tests/oracle/target/release/oracle-trace -- "${other[@]}"
rm -f "${all[@]}"
for alphabet in edits cursors writes; do
  echo "== every sequence of three calls: $alphabet"
  python3 tests/traces/enumerate_traces.py --alphabet $alphabet --length 3 > target/enumerated.txt
  python3 tests/traces/compare_traces.py target/enumerated.txt -- tests/oracle/target/release/oracle-trace -- "${other[@]}"
done
rm -f target/enumerated.txt
[ ${#small[@]} -eq 0 ] || python3 tests/small/compare_small.py --seed 201 --count 19000 -- tests/oracle/target/release/oracle-small -- "${small[@]}"
