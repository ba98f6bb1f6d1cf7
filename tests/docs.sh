#!/bin/sh
# Runs the byte examples of the documents by the second program and the archive: each must draw what it says.
set -eu
cd "$(dirname "$0")/.."
: "${CARGO_TARGET_DIR:=$PWD/build/cargo}"
export CARGO_TARGET_DIR
cargo build --offline --release --quiet --manifest-path tests/differential/Cargo.toml
exec "$CARGO_TARGET_DIR/release/differential" docs examples docs/FORMAT.md docs/ANSWERS.md
