#!/usr/bin/env bash
# Makes tests/data/oracle-answers.txt and small-answers.txt anew: the oracle's answers to fixed lists of calls and inputs.
# Needs cargo; everything else in the gate replays the files without Rust.
set -euo pipefail
cd "$(dirname "$0")/../.."
(cd tests/oracle && cargo build --offline --release -q -j1)
mkdir -p target
shows() {  # sums of dumps, in full at some calls only, to keep the file small
  awk '/^trace /{print; print "dump sum"; next} /^dump/{next} {print} NR % 12 == 0 && !/^object|^table/{print "show"}'
}
{
  python3 tests/traces/cases.py | grep -v '^#' | grep .
  python3 tests/traces/traces.py --seed 2026 --count 260 --kind normal --length 16 --most 3000 | shows
  python3 tests/traces/traces.py --seed 2026 --count 150 --kind write --length 16 --most 4000 | shows
  python3 tests/traces/traces.py --seed 2026 --count 60 --kind limits --length 20 --most 12000 | grep -v '^show'
} > target/fixed-list.txt
python3 tests/traces/compare_traces.py --record tests/data/oracle-answers.txt \
  --header "The answers of the oracle (tests/oracle/README.md) to a fixed list of calls.|Made by tests/traces/record_answers.sh; read and replayed by tests/traces/compare_traces.py --replay." \
  target/fixed-list.txt -- tests/oracle/target/release/oracle-trace
python3 tests/small/compare_small.py --record tests/data/small-answers.txt -- tests/oracle/target/release/oracle-small
