#!/bin/sh
# Times the archive beside the second program and measures its stack, on an idle machine. Prints one table, and writes it to
# bench/results.md (or to the file that is named) with the machine and the commit. run.sh --slow [WORD] prints the table of the
# slow inputs alone, or of those with the word in their name, and writes nothing.
set -eu
cd "$(dirname "$0")/.."
: "${CARGO_TARGET_DIR:=$PWD/build/cargo}"
export CARGO_TARGET_DIR
cargo build --offline --release --quiet --manifest-path bench/Cargo.toml
[ "${1:-}" != --slow ] || exec "$CARGO_TARGET_DIR/release/bench" "$@"
to=${1:-bench/results.md}
mkdir -p build
tests/host/stack.sh > build/stack.log || true # over a limit: it says so, and the gate refuses it
commit=$(git log -1 --format='%h of %cs')
git diff --quiet HEAD -- . ':!bench/results.md' || commit="$commit, with changes"
{
    cat <<END
# Speed and stack

Written by \`make bench\`. Both sides in one run, in turn, medians; every table keeps every rule, every clearance is accepted and the
witness has its select met, so that the whole check runs. *archive* is the proved code, *second* the second program
(\`tests/second\`, plain Rust, built for release), *ratio* the one by the other. For a table in a checked book the second program
has the book read and laid out before; the archive keeps nothing of it.

The rows that begin with *slow* are the inputs that cost most, each kind as large as it can be (\`tests/slow\`): CPU time, the quickest
of as many calls as take a fifth of a second, and of one call where that takes longer. One that would take the archive over a minute is
cut, and named behind the table.

- Machine: $(sed -n 's/^model name[^:]*: //p' /proc/cpuinfo | sort -u | head -n 1), $(nproc) cores, $(awk '/^MemTotal/ { printf "%.0f GiB", $2 / 1048576 }' /proc/meminfo), $(uname -sm)
- Commit: $commit
- Built by: $(rt version), $(rustc --version)
- Load when it began: $(cut -d' ' -f1 /proc/loadavg)

END
    "$CARGO_TARGET_DIR/release/bench"
    echo
    echo "Stack, measured on a painted stack by \`tests/host/stack.c\`:"
    echo
    sed -n 's/^stack: /- /p' build/stack.log
} > build/bench.md
cp build/bench.md "$to"
cat "$to"
