#!/usr/bin/env bash
# The comparison of the compiled port with the Rust: every call's answer, and the whole state after it.
#   compare_port.sh [PROGRAM [PERCENT]]    PROGRAM: tests/driver/trace.c over a library; without, it is built over the proved one. PERCENT of each
#                                          count (100). The small program has tests/small/compare_small.sh.
# 200,000 seeded traces of edits, lookups and cursors (184,000 normal, 16,000 near the limits), 110,000 of writes, every sequence of three
# calls over three alphabets, every sequence of four over the alphabet of writes. The driver runs as it is, with arrays longer than needed
# (--roomy), with one call for an answer and the next request (--next) and with probes (--probe), by turns. About twenty minutes of one core.
# KEEP=DIR in the environment keeps the traces (some gigabytes) and digests of the Rust's answers there; where they stand, the Rust runs only to
# show a difference. Not to be used again once generator or oracle have changed.
set -euo pipefail
cd "$(dirname "$0")/../.."
program=${1:-target/driver/trace} percent=${2:-100}
[ $# -gt 0 ] || tests/driver/build.sh
(cd tests/oracle && cargo build --offline --release -q -j1)
oracle=tests/oracle/target/release/oracle-trace
counts=target/port-counts
mkdir -p target
rm -f $counts-*.json
[ -z "${KEEP-}" ] || mkdir -p "$KEEP"
modes=("" --roomy --next --probe)

# compare COUNTS WHAT NAME MODE < TRACES
compare() {
  local said args=(--quiet --counts "$counts-$1.json" ${KEEP:+--digests "$KEEP/$3.sha256"})
  if ! said=$(python3 tests/traces/compare_traces.py "${args[@]}" - -- $oracle -- "$program" ${4:+"$4"}); then
    printf '== %s\n%s\n' "$2 ${4:-plain}" "$said"
    exit 1
  fi
  echo "== $2 ${4:-plain}: $said"
}

# made KIND SEED COUNT LENGTH : traces, from KEEP where they stand
made() {
  local file=${KEEP-}/$1-$2-$3
  if [ -z "${KEEP-}" ]; then
    python3 tests/traces/traces.py --kind "$1" --seed "$2" --count "$3" --length "$4"
  elif [ -e "$file" ]; then
    cat "$file"
  else
    python3 tests/traces/traces.py --kind "$1" --seed "$2" --count "$3" --length "$4" | tee "$file.part"
    mv "$file.part" "$file"
  fi
}

# seeded KIND COUNT SEED... : so many traces for each seed; of 25 calls besides their set-up for one half, of 12 for the other
seeded() {
  local kind=$1 count=$(($2 * percent / 100)) seed
  shift 2
  for seed in "$@"; do
    made "$kind" "$seed" "$count" $((seed % 8 < 4 ? 25 : 12)) |
      compare "$kind" "$kind, seed $seed" "$kind-$seed-$count" "${modes[seed % 4]}"
  done
}

# enumerated ALPHABET LENGTH START
enumerated() {
  python3 tests/traces/enumerate_traces.py --alphabet "$1" --length "$2" --start "$3" |
    compare enumerated "$1, every sequence of $2 calls" "$1-$2-$3" ""
}

python3 tests/traces/cases.py | compare cases "cases and edges" cases ""
seeded write 10000 {1201..1211}
seeded normal 8000 {1001..1023}
seeded limits 2000 {1101..1108}
for alphabet in edits cursors writes; do
  enumerated $alphabet 3 all
done
[ "$percent" -lt 100 ] || enumerated writes 4 cached
for kind in normal limits write enumerated; do
  echo "== $kind"
  need=0
  [ $kind != normal ] || need=0,1,2,3,4,5,6,7,8,9,10,11,12,13,none
  python3 tests/traces/compare_traces.py --need $need --counts $counts-$kind.json /dev/null -- true -- true | tail -n +2
done
