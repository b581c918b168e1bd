#!/usr/bin/env bash
# The stored answers of crates/test_stores are what the check of tests/stores/stores.py says of the stored stores; stores made good
# pass that check, and made stores notice slips in it.
set -euo pipefail
cd "$(dirname "$0")/.."
python3 tests/stores/stores.py check < crates/test_stores/stdin | cmp - crates/test_stores/stdout
python3 tests/stores/stores.py compare --seed 2 --count 1100 | tail -1
python3 tests/stores/store_slips.py --count 2500
