#!/bin/sh
# The fuzzer's inputs without a fuzzer: writes the first ones to build/fuzz/corpus, and runs every input that stands there.
set -eu
cd "$(dirname "$0")/../.."
: "${CARGO_TARGET_DIR:=$PWD/build/cargo}"
export CARGO_TARGET_DIR
cargo build --offline --release --quiet --bin plain --manifest-path tests/fuzz/Cargo.toml
"$CARGO_TARGET_DIR/release/plain" seeds build/fuzz/corpus 2000
"$CARGO_TARGET_DIR/release/plain" replay build/fuzz/corpus
