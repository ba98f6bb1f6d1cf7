#!/bin/sh
# A coverage-guided fuzz of the archive's functions, the second program being the judge: run.sh [SECONDS [SEED]]. Every
# answer, name and byte of both rooms must be the same on both sides. libFuzzer drives it, by the branches of both: the
# archive is built once more from the same proved code by the same compiler, with counters in its branches, and so is the
# judge. A difference is shrunk and shown, and its input kept in build/fuzz.
set -eu
cd "$(dirname "$0")/../.."
seconds=${1:-60} seed=${2:-1}
out=$PWD/build/fuzz
mkdir -p "$out"
counters=-fsanitize-coverage=inline-8bit-counters,pc-table,trace-cmp

# What this needs beyond the rest of the tests.
echo 'int LLVMFuzzerTestOneInput(const unsigned char *d, unsigned long n) { return n && *d == 7 ? 0 : 0; }' > "$out/empty.c"
if ! clang -fsanitize=fuzzer "$out/empty.c" -o "$out/empty" 2> "$out/clang.log"; then
    echo "make afl needs clang with libFuzzer: Debian's packages clang and libclang-rt-14-dev" >&2
    echo "(without them: tests/fuzz/run.sh's inputs under a plain driver, tests/fuzz/plain.sh)" >&2
    exit 2
fi

# A kit for rt that is the kit itself but for its clang, which adds the counters. rt takes the kit that it lies in, so its own files are copied, and the rest
# are links. Only the archive is built with it, and that is moved away at once, so that no archive with counters stands below crates.
kit=$(dirname "$(dirname "$(readlink -f "$(command -v rt)")")")
own=$(mktemp -d)
trap 'rm -rf "$own"' EXIT
trap 'exit 1' HUP INT TERM
# links FROM TO NAMES: links to all in the folder but the names.
links() {
    mkdir -p "$2"
    for file in "$1"/*; do
        case " $3 " in *" ${file##*/} "*) ;; *) ln -s "$file" "$2/" ;; esac
    done
}
links "$kit" "$own/kit" "bin toolchain"
links "$kit/bin" "$own/kit/bin" "rt rtlib.py"
cp "$kit/bin/rt" "$kit/bin/rtlib.py" "$own/kit/bin/"
links "$kit/toolchain" "$own/kit/toolchain" bin
links "$kit/toolchain/bin" "$own/kit/toolchain/bin" clang
printf '#!/bin/sh\nexec "%s" %s "$@"\n' "$kit/toolchain/bin/clang" "$counters" > "$own/kit/toolchain/bin/clang"
chmod +x "$own/kit/toolchain/bin/clang"
(cd crates/plaitcrumb && "$own/kit/bin/rt" lib) > "$out/lib.log" 2>&1 || { tail -n 20 "$out/lib.log"; exit 1; }
mv crates/plaitcrumb/out/libplaitcrumb.a "$out/"
nm "$out/libplaitcrumb.a" | grep -q __sanitizer_cov || { echo "the archive has no counters" >&2; exit 1; }

# The judge with counters too, and both in one program. A folder of its own, so that nothing else is built again.
host=x86_64-unknown-linux-gnu
PLAITCRUMB_LIB=build/fuzz/libplaitcrumb.a CARGO_TARGET_DIR=$out/cargo RUSTFLAGS="-Cpasses=sancov-module \
    -Cllvm-args=-sanitizer-coverage-level=3 -Cllvm-args=-sanitizer-coverage-inline-8bit-counters \
    -Cllvm-args=-sanitizer-coverage-pc-table" \
    cargo build --offline --release --quiet --lib --target "$host" --manifest-path tests/fuzz/Cargo.toml
clang -fsanitize=fuzzer -Wl,-u,LLVMFuzzerTestOneInput "$out/cargo/$host/release/libfuzz.a" -lpthread -ldl -lm -o "$out/fuzz"

tests/fuzz/plain.sh
echo "libFuzzer for $seconds s, seed $seed:"
status=0
"$out/fuzz" -max_total_time="$seconds" -seed="$seed" -max_len=4096 -timeout=30 -print_final_stats=1 \
    -artifact_prefix="$out/found-" "$out/corpus" > "$out/fuzz.log" 2>&1 || status=$?
grep -E 'INITED|^Done|^stat::(number_of|average)' "$out/fuzz.log" || true
if [ "$status" -ne 0 ]; then
    grep -A 12 DIFFERENCE "$out/fuzz.log" || tail -n 30 "$out/fuzz.log"
    exit 1
fi
printf 'fuzz: %s s, seed %s, %s: no difference\n' "$seconds" "$seed" "$(grep -oE 'cov: [0-9]+' "$out/fuzz.log" | tail -n 1)"
