#!/usr/bin/env bash
# The original is unchanged; the rules as a program (tests/traces/model01.py) give the oracle's recorded answers, and the recorded list notices
# slips; where cargo and git are at hand, the oracle itself is built and compared with it and with Git.
set -euo pipefail
cd "$(dirname "$0")/.."
sha256sum -c --quiet tests/oracle/original.sha256
python3 tests/traces/compare_traces.py --quiet --need 0,1,2,3,4,5,6,7,8,9,10,11,12,13,none \
  --replay tests/data/oracle-answers.txt -- python3 tests/traces/model01.py
python3 tests/small/compare_small.py --replay tests/data/small-answers.txt -- model
python3 tests/traces/slips.py
if ! command -v cargo > /dev/null; then
  echo "no cargo: the oracle itself is not run"
  exit 0
fi
(cd tests/oracle && cargo build --offline --release -q -j1 && cargo test --offline -q -j1 --release -p oracle > /dev/null)
oracle=tests/oracle/target/release
mkdir -p target
python3 tests/traces/traces.py --seed 1 --count 100 --length 20 > target/gate-traces.txt
python3 tests/traces/compare_traces.py --quiet target/gate-traces.txt -- $oracle/oracle-trace -- python3 tests/traces/model01.py
python3 tests/traces/enumerate_traces.py --alphabet edits --length 2 > target/gate-traces.txt
python3 tests/traces/compare_traces.py --quiet target/gate-traces.txt -- $oracle/oracle-trace -- python3 tests/traces/model01.py
rm target/gate-traces.txt
python3 tests/small/compare_small.py --step 10 -- $oracle/oracle-small -- model
if command -v git > /dev/null; then
  python3 tests/git/git_check.py --count 100 -- $oracle/oracle-trace
fi
