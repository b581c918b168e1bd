#!/usr/bin/env bash
# The small program against the oracle: 20,045 inputs, and a part of them in transfers of several sizes. Needs cargo.
# Some minutes of one core.
#   compare_small.sh [SMALL]
set -euo pipefail
cd "$(dirname "$0")/../.."
small=${1:-tools/run.sh small}
(cd tests/oracle && cargo build --offline --release -q -j1)
python3 tests/small/compare_small.py --seed 201 --count 19000 -- tests/oracle/target/release/oracle-small -- $small
for n in 1 2 3 7 511 512; do
  echo "== transfers of $n bytes"
  python3 tests/small/compare_small.py --seed 201 --count 19000 --step 10 --transfer $n -- tests/oracle/target/release/oracle-small -- $small
done
