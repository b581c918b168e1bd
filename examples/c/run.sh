#!/usr/bin/env bash
# Builds and runs the C examples, and compares what they print with lesson.expected and again.expected; where git is at hand, the id of the
# last root that each writes is also compared with the one that Git gives to the same files.
set -euo pipefail
cd "$(dirname "$0")/../.."
library=$(tools/library.sh)
mkdir -p target/example
work=$(mktemp -d)
trap 'rm -rf "$work"' EXIT

# put PATH TEXT : a file in the repository
put() {
  mkdir -p "$(dirname "$work/$1")"
  printf '%b' "$2" > "$work/$1"
}

# compared NAME : the example's output, and the last root that it wrote with the one that Git gives to the files that were put
compared() {
  cc -std=c11 -Wall -Wextra -Werror -O2 -Iinclude -o "target/example/$1" "examples/c/$1.c" "$library"
  "target/example/$1" > "target/example/$1.out"
  diff "examples/c/$1.expected" "target/example/$1.out"
  command -v git > /dev/null || return 0
  git init -q --object-format=sha1 "$work"
  git -C "$work" config core.autocrlf false
  git -C "$work" add -A
  local root wrote
  root=$(git -C "$work" write-tree)
  wrote=$(grep "^tree ''" "target/example/$1.out" | tail -1)
  [ "$wrote" = "tree '', $(git -C "$work" cat-file -s "$root") bytes: $root" ] || { echo "$1: Git gives the root $root"; exit 1; }
  rm -rf "$work"
  mkdir "$work"
}

put README 'Lesson 9: semihosting\n'
put src/main.c 'int main(void) { return 0; }\n'
put src/board/led.c 'void led(int on) { (void)on; }\n'
put src/board/led.h '#pragma once\n'
put src.mk 'SRC = src\n'
put flash.sh '#!/bin/sh\n'
chmod +x "$work/flash.sh"
put "notes/$(printf '\303\251')tude.txt" 'fini\n'
compared lesson

put hand-in/one.c 'int one = 1;\n'
put hand-in/two.c 'int two;\n'
put tests/one.txt '1\n'
compared again
echo "C examples: as expected"
