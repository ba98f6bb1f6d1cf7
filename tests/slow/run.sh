#!/bin/sh
# The slow test: run.sh, or run.sh --write to write tests/slow/counts.txt anew. The inputs that cost most, cut to a size that
# runs in seconds, are answered by both sides alike; then the instructions of the archive's calls are counted with valgrind and
# compared with the committed counts. Where valgrind is missing and cannot be installed, times are compared instead.
set -eu
cd "$(dirname "$0")/../.."
: "${CARGO_TARGET_DIR:=$PWD/build/cargo}"
export CARGO_TARGET_DIR
cargo build --offline --release --quiet --manifest-path tests/slow/Cargo.toml
slow=$CARGO_TARGET_DIR/release/slow
counts=tests/slow/counts.txt
dumps=build/slow

# Whether valgrind runs here; it is installed from the system's packages where it is missing and that can be done.
has_valgrind() {
    command -v valgrind > /dev/null || timeout 120 apt-get install -y valgrind > build/slow-install.log 2>&1 || true
    valgrind -q --tool=none true > /dev/null 2>&1
}

# One dump for each call of the archive, with the instructions between its entry and its return.
count() {
    rm -rf "$dumps"
    mkdir -p "$dumps"
    valgrind --tool=callgrind --toggle-collect='plaitcrumb_*' --dump-after=plaitcrumb_check_table \
        --dump-after=plaitcrumb_check_finding --dump-after=plaitcrumb_name --callgrind-out-file="$dumps/dump" \
        "$slow" calls > "$dumps/log" 2>&1 || { tail -n 20 "$dumps/log"; exit 1; }
}

mkdir -p build
"$slow" alike
if [ "${1:-}" = --write ]; then
    has_valgrind || { echo "slow: counts are written with valgrind alone, and there is none" >&2; exit 2; }
    count
    "$slow" write "$counts" "$dumps"
elif has_valgrind; then
    count
    "$slow" judge "$counts" "$dumps"
else
    "$slow" times "$counts"
fi
