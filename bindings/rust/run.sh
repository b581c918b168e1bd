#!/usr/bin/env bash
# The Rust wrapper's tests, over the library that tools/library.sh names. No crate of a registry is needed.
set -euo pipefail
cd "$(dirname "$0")/../.."
TREE_EDITOR_LIB=$(tools/library.sh)
export TREE_EDITOR_LIB
cd bindings/rust
CARGO_TARGET_DIR=../../target/bindings-rust cargo test --offline -q -j1 "$@"
