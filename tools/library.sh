#!/usr/bin/env bash
# Prints the path of the library for C and Rust. It is proved and built first where it isn't there or is older than the sources; TREE_EDITOR_LIB names another
# one. The toolchain writes archives for x86-64. For another machine, the one that TREE_EDITOR_MACHINE names or else this one, the very module that it hands to
# its compiler is compiled for that machine, by the same compiler: the code is the proved one, its translation is another.
#   library.sh             builds it by `rt lib`, over what earlier checks kept
#   library.sh --over-ci   builds it over the libraries that `rt ci` has just proved in a clean checkout, and proves the crate adapter alone again
set -euo pipefail
cd "$(dirname "$0")/.."
if [ -n "${TREE_EDITOR_LIB:-}" ]; then
  realpath "$TREE_EDITOR_LIB"
  exit 0
fi
top=$PWD
machine=${TREE_EDITOR_MACHINE:-$(uname -m)}
library=crates/adapter/out/libadapter.a
[ "$machine" = x86_64 ] || library=target/$machine/libadapter.a
log=target/library.log

fresh() { [ -e "$library" ] && [ -z "$(find crates crates.txt -name out -prune -o -newer "$library" -type f -print -quit)" ]; }

# build TOOLCHAIN ARCHIVE : the crate adapter proved and built over the libraries that stand in crates/*/out, with the compiler of that toolchain
build() {
  local kit words=() name
  kit=$(dirname "$(rt doc)")
  for name in $(sed -n 's/^adapter staticlib: *//p' crates.txt); do words+=(--extern "$name=$top/crates/$name/out/rlib/$name.rlib"); done
  for name in crates/*/out/rlib; do words+=(-L "dependency=$top/$name"); done
  mkdir -p crates/adapter/out "$(dirname "$2")"
  (cd crates/adapter && "$kit/bin/rattle" build --crate-name adapter src/lib.rt --extern "std=$kit/rlibs/std.rlib" -L "dependency=$kit/rlibs" "${words[@]}" \
    --antt-project "$kit/rattle/logic/antt-project.json" --logic-built "$kit/logic_built" --jobs 2 --crate-type staticlib --toolchain "${1:-$kit/toolchain}" \
    --backend llvm -o "$top/$2")
}

# the module of the crate adapter: its library's build, with a compiler in the toolchain's place that keeps a copy of what it is given
module() {
  local kit wrap=$top/target/$machine/wrap tool
  kit=$(dirname "$(rt doc)")
  rm -rf "$wrap"
  mkdir -p "$wrap/bin"
  ln -s "$kit/toolchain/lib" "$wrap/lib"
  for tool in "$kit"/toolchain/bin/*; do ln -s "$tool" "$wrap/bin/"; done
  rm "$wrap/bin/clang"
  printf '#!/bin/sh\nfor a in "$@"; do case $a in *.bc) cp "$a" "%s" ;; esac; done\nexec "%s" "$@"\n' "$top/target/$machine/adapter.bc" "$kit/toolchain/bin/clang" > "$wrap/bin/clang"
  chmod +x "$wrap/bin/clang"
  build "$wrap" "target/$machine/libx86.a"
  rm -rf "$wrap"
  clang=$kit/toolchain/bin/clang ar=$kit/toolchain/bin/llvm-ar
}

# the module for that machine: its triple and layout; a large struct that C passes by value comes as a pointer to a copy, and one that C gets back
# goes to where a pointer of its own says
native() {
  local triple=$machine-unknown-linux-gnu layout folder=target/$machine
  layout=$("$clang" --no-default-config --target="$triple" -S -emit-llvm -x c /dev/null -o - | grep '^target datalayout')
  "$clang" --no-default-config -S -emit-llvm -O0 -x ir "$folder/adapter.bc" -o "$folder/adapter.ll"
  sed -E -e "s/^target triple = .*/target triple = \"$triple\"/" -e "s/^target datalayout = .*/$layout/" \
    -e 's/ "(probe-stack|stack-probe-size|target-cpu)"="[^"]*"//g; s/ byval\(\[[0-9]* x i8\]\)//g; s/ byval\(%[^)]*\)//g' \
    "$folder/adapter.ll" |
    awk '/^define .*ptr @tree_editor_/ { sub(/noundef ptr @/, "void @"); sub(/\(ptr noundef %a0/, "(ptr noundef sret(i8) align 8 %a0"); inside = 1 }
      inside && /^ *ret ptr/ { $0 = "  ret void" }
      /^}/ { inside = 0 }
      { print }' > "$folder/native.ll"
  "$clang" --no-default-config --target="$triple" -O3 -fPIE -ffunction-sections -fdata-sections -Wno-override-module -c -x ir "$folder/native.ll" -o "$folder/adapter.o"
  rm -f "$library"
  "$ar" rcs "$library" "$folder/adapter.o"
}

mkdir -p target
if ! fresh && [ "${1:-}" = --over-ci ]; then
  # what stands elsewhere than `rt ci` leaves it is no failure: the next call builds it by `rt lib`
  build "" crates/adapter/out/libadapter.a > $log 2>&1 || true
fi
if ! fresh; then
  { (cd crates/adapter && rt lib) && { [ "$machine" = x86_64 ] || { module && native; }; }; } > $log 2>&1 || { tail -n 40 $log >&2; exit 1; }
fi
realpath "$library"
