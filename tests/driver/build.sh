#!/usr/bin/env bash
# Builds the driver over a library with the functions of include/tree_editor.h: tests/driver/build.sh [LIBRARY [PROGRAM [SOURCE]]]
# The default library is the proved one (tools/library.sh). CFLAGS are handed on.
set -euo pipefail
cd "$(dirname "$0")/../.."
library=${1:-$(tools/library.sh)} program=${2:-target/driver/trace} source=${3:-tests/driver/trace.c}
mkdir -p "$(dirname "$program")"
# shellcheck disable=SC2086
cc -std=c11 -D_DEFAULT_SOURCE -O2 -Wall -Wextra -Iinclude -Itests/driver ${CFLAGS-} -o "$program" "$source" "$library"
