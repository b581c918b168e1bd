#!/usr/bin/env bash
# tools/run.sh NAME [WORD...]: runs the proved program NAME with these arguments, proving and building it first where that has not been done. Its status is the program's
# own: 1 where a read or a write failed, which the program tells on standard error.
set -euo pipefail
top=$(cd "$(dirname "$0")/.." && pwd)
name=$1
shift
program=$top/crates/$name/out/$name
if [ ! -e "$program" ]; then
  mkdir -p "$top/target"
  # which proves it, builds it, and runs it once on no input
  (cd "$top/crates/$name" && rt run < /dev/null) > "$top/target/run.log" 2>&1 || true
  [ -e "$program" ] || { tail -n 40 "$top/target/run.log" >&2; exit 1; }
fi
exec "$program" "$@"
