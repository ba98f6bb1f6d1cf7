#!/bin/sh
# The archive against the second program: run.sh [COUNT [SEED]], or run.sh case HEX for one case again. Before a run, the
# self-test: a judge that is wrong on purpose must be found out, and the difference made small.
set -eu
cd "$(dirname "$0")/../.."
: "${CARGO_TARGET_DIR:=$PWD/build/cargo}"
export CARGO_TARGET_DIR
cargo build --offline --release --quiet --manifest-path tests/differential/Cargo.toml
differential=$CARGO_TARGET_DIR/release/differential
[ "${1:-}" = case ] || "$differential" self-test
exec "$differential" "$@"
