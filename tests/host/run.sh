#!/bin/sh
# The archive from C: the header alone, the host under the sanitizers, the stack, and what the archive needs and holds.
# Every part is run; the end is non-zero if one failed. The parts are called through `part`:
# shellcheck disable=SC2317
set -eu
cd "$(dirname "$0")/../.."
. tests/host/archive.sh
strict="-Wall -Wextra -Wpedantic -Werror"
status=0
part() { if "$@"; then :; else echo "FAILED: $*" >&2; status=1; fi; }

# The header alone is C99 and C++98 without a warning, for every compiler that is here.
header() {
    echo '#include <plaitcrumb.h>' > "$out/header.c"
    by=
    for compiler in "gcc -std=c99" "g++ -x c++ -std=c++98" "clang -std=c99" "clang++ -x c++ -std=c++98" "clang++ -x c++ -std=c++17"; do
        command -v "${compiler%% *}" > /dev/null || continue
        # shellcheck disable=SC2086
        $compiler $strict -Wshadow -Wconversion -Wsign-conversion -Iinclude -fsyntax-only "$out/header.c" || return 1
        by="$by${by:+, }$compiler"
    done
    echo "header: alone and without a warning by $by"
}

# Good and bad bytes. Rounds of random bytes: the first word, or 30,000.
host() {
    # shellcheck disable=SC2086
    gcc -g -O1 -fsanitize=address,undefined -fno-sanitize-recover -std=c99 $strict -Iinclude \
        tests/host/host.c "$lib" -pthread -o "$out/host" &&
        "$out/host" "${1:-30000}"
}

# No heap and no state of its own: it asks for no function but the C library's five on bytes, and has nothing that
# can be written to. And it exports what the header says.
contents() {
    due="plaitcrumb_check_book plaitcrumb_check_finding plaitcrumb_check_table plaitcrumb_check_table_in plaitcrumb_name plaitcrumb_name_in"
    has=$(nm -g --defined-only "$lib" | awk 'NF == 3 { print $3 }' | sort | tr '\n' ' ')
    asks=$(nm "$lib" | awk '$2 ~ /[A-TV-Z]/ { own[$3] } $1 ~ /^[Uw]$/ { ask[$2] }
        END { for (name in ask) if (!(name in own) && name !~ /^(memcpy|memmove|memset|memcmp|bcmp)$/) print name }' |
        sort | tr '\n' ' ')
    holds=$(size -A "$lib" | awk '$1 ~ /^\.(data|bss|tdata|tbss)/ && $1 !~ /^\.data\.rel\.ro/ && $2 > 0 {
        print $1, $2 }' | tr '\n' ' ')
    good=0
    [ "$has" = "$due " ] || { echo "archive: exports '$has', should export '$due '"; good=1; }
    [ -z "$asks" ] || { echo "archive: asks for other functions: $asks"; good=1; }
    [ -z "$holds" ] || { echo "archive: has sections that can be written to: $holds"; good=1; }
    [ "$good" -ne 0 ] || echo "archive: exports $has; no heap, nothing that can be written to"
    return "$good"
}

part header
part host "$@"
part tests/host/stack.sh
part contents
part tests/host/install.sh
exit "$status"
