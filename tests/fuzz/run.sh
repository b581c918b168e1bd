#!/usr/bin/env bash
# Random calls of the C functions over good and damaged stores; see tests/fuzz/fuzz.c for what is checked of each.
#   tests/fuzz/run.sh [SEED [COUNT]]    default: seed 1, 1,000,000 calls, in parts of 50,000 with seeds from SEED on
# Answers on good stores are compared with the original's (oracle/, needs cargo). FUZZ_UNDER: a command to run under, as valgrind.
# FUZZ_FLAGS: more words for cc, as a slip of tests/fuzz/slips.sh.
set -euo pipefail
cd "$(dirname "$0")/../.."
seed=${1:-1} count=${2:-1000000} part=50000
library=$(tools/library.sh)
work=target/fuzz
mkdir -p $work
# shellcheck disable=SC2086
cc -std=c11 -Wall -Wextra -Werror -O2 -g -Iinclude -Itests/driver -o $work/fuzz tests/fuzz/fuzz.c tests/fuzz/check.c tests/fuzz/make.c tests/fuzz/stack.c ${FUZZ_FLAGS:-} "$library"
if command -v cargo > /dev/null; then
  (cd tests/oracle && cargo build --offline --release -q -j1)
else
  echo "no cargo: the answers are not compared with the original's"
fi

# same WHO FILE ANSWERS
same() {
  cmp -s "$2" "$3" && return
  echo "seed $seed: $1 answers otherwise:"
  diff "$2" "$3" | head -4 | cut -c 1-400
  exit 1
}

rm -f $work/counts
compared=0
done=0
while [ "$done" -lt "$count" ]; do
  n=$((count - done < part ? count - done : part))
  python3 tests/stores/stores.py make --seed "$seed" --count $((n / 100 < 20 ? 20 : n / 100)) > $work/stores
  ${FUZZ_UNDER:-} $work/fuzz "$seed" $n $work $work/stores
  python3 tests/fuzz/held.py $work/held < $work/held-calls > $work/held-model
  same "the rules as a program" $work/held-model $work/held-answers
  if command -v cargo > /dev/null; then
    tests/oracle/target/release/oracle-trace --brief < $work/calls > $work/oracle
    same "the original" $work/oracle $work/answers
  fi
  compared=$((compared + $(grep -c '^store$' $work/held-answers)))
  done=$((done + n)) seed=$((seed + 1))
done
awk '$1 == "stack" { next }
  { n[$1]++; all += $4; kind[$1] += $4; by[$1, $3] += $4 }
  END {
    for (k in kind) {
      line = ""
      for (i = 0; i <= 15; i++) { key = i == 15 ? "found" : i == 14 ? 255 : i; if (by[k, key]) line = line "  " key ": " by[k, key] }
      printf "%-8s %9d calls  %s\n", k, kind[k], line
    }
    printf "%d calls: no touch beside a lent buffer, no byte changed by a refusal, numbers as the check and the original say\n", all
  }' $work/counts
echo "of the calls on damaged and made stores that hold an editor, $compared answers and states compared with the rules as a program"
