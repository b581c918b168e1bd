#!/usr/bin/env bash
# The compiled port, called from C, gives the Rust's recorded answers, the rules' cases and edges among them, and leaves the same trees after
# each call; slips in the driver are noticed; where cargo is at hand, some fresh traces are compared with the Rust itself.
set -euo pipefail
cd "$(dirname "$0")/../.."
library=$(tools/library.sh)
tests/driver/build.sh "$library"
for mode in "" --roomy --probe --next "--next --probe"; do
  python3 tests/traces/compare_traces.py --quiet --need 0,1,2,3,4,5,6,7,8,9,10,11,12,13,none \
    --replay tests/data/oracle-answers.txt -- target/driver/trace $mode
done
for case in case-1-2 case-{3..10} case-11-first case-11-second case-12 edge-{names,paths,prefix,trees,entries,name-bytes,path-bytes}; do
  grep -qx "trace $case" tests/data/oracle-answers.txt || { echo "$case is not among the recorded answers"; exit 1; }
done
python3 tests/traces/driver_slips.py --library "$library" tree-for-file path-cut first-answer-for-all damaged-as-not-found refusal-changes-spare-byte \
  byte-before count-off short-array-taken request-before-answer answer-undone-when-short
if ! command -v cargo > /dev/null; then
  echo "no cargo: no fresh comparison with the Rust"
  exit 0
fi
(cd tests/oracle && cargo build --offline --release -q -j1)
for kind in normal:200 write:200 limits:20; do
  python3 tests/traces/traces.py --kind "${kind%:*}" --seed 3 --count "${kind#*:}" --length 20 |
    python3 tests/traces/compare_traces.py --quiet - -- tests/oracle/target/release/oracle-trace -- target/driver/trace
done
for mode in "" --next; do
  python3 tests/traces/enumerate_traces.py --alphabet writes --start cached --length 2 |
    python3 tests/traces/compare_traces.py --quiet - -- tests/oracle/target/release/oracle-trace -- target/driver/trace $mode
done
