#!/bin/sh
# Makes the run cases and the lines that answer them, by the second program; with --check, only compares them with what is
# committed. A case has a name that says what would go wrong; the generated ones are named by seed and number.
set -eu
cd "$(dirname "$0")/.."
: "${CARGO_TARGET_DIR:=$PWD/build/cargo}"
export CARGO_TARGET_DIR
cargo build --offline --release --quiet --manifest-path tests/second/Cargo.toml
second=$CARGO_TARGET_DIR/release/second
new=$(mktemp -d)
trap 'rm -rf "$new"' EXIT
{ "$second" named | "$second" only 0 1 2; "$second" gen 1 2100 tables; "$second" gen 2 100 names; "$second" gen 3 3000 findings; } > "$new/stdin"
"$second" answers < "$new/stdin" > "$new/stdout"
if [ "${1:-}" = --check ]; then
    cmp "$new/stdin" crates/runs/stdin
    cmp "$new/stdout" crates/runs/stdout
else
    cp "$new/stdin" "$new/stdout" crates/runs/
fi
