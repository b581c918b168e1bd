#!/usr/bin/env bash
# The proved small program against the oracle's recorded answers, whole and in transfers of several sizes, and Git's judgement
# of the trees that it writes for the sample. Runs after `rt ci`, which leaves the program in crates/small/out.
set -euo pipefail
cd "$(dirname "$0")/../.."
small='tools/run.sh small'
python3 tests/small/compare_small.py --replay tests/data/small-answers.txt -- $small
for n in 1 2 3 7 511 512; do
  python3 tests/small/compare_small.py --replay tests/data/small-answers.txt --step 10 --transfer $n -- $small
done
# a read or a write that fails: a status other than 0, a line on standard error, and nothing that looks whole
if $small < . > target/small.out 2> target/small.err || [ -s target/small.out ] || ! grep -q 'cannot be read' target/small.err; then
  echo "a failed read is not told"; exit 1
fi
if $small < samples/lesson.records > /dev/full 2> target/small.err || ! grep -q 'cannot be written' target/small.err; then
  echo "a failed write is not told"; exit 1
fi
if command -v git > /dev/null; then
  repository=$(mktemp -d)
  trap 'rm -rf "$repository"' EXIT
  $small < samples/lesson.records | python3 tools/into_git.py "$repository"
else
  echo "no git: the sample's trees are not put into a repository"
fi
