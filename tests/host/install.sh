#!/bin/sh
# `make install` into a folder of its own, and the example host built with nothing but what pkg-config says of it.
set -eu
cd "$(dirname "$0")/../.."
. tests/host/archive.sh
prefix=$PWD/$out/prefix
rm -rf "$prefix"
make -s install PREFIX="$prefix"
if ! command -v pkg-config > /dev/null; then
    echo "install: pkg-config is not here, so its file is NOT tried"
    exit 0
fi
export PKG_CONFIG_PATH="$prefix/lib/pkgconfig"
# shellcheck disable=SC2046
gcc -std=c99 -Wall -Wextra -Werror examples/host.c $(pkg-config --cflags --libs plaitcrumb) -o "$out/installed-host"
examples/bytes.sh examples/clock.hex > "$out/clock"
examples/bytes.sh examples/clock-refused.hex > "$out/clock-refused"
drawn=$("$out/installed-host" "$out/clock" "$out/clock-refused")
[ "$drawn" = "11 1 65535 TICK" ] || { echo "install: drew '$drawn'" >&2; exit 1; }
echo "install: $(cd "$prefix" && find . -type f | sort | tr '\n' ' ')and a host by pkg-config $(pkg-config --modversion plaitcrumb): $drawn"
