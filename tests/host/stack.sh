#!/bin/sh
# Builds and runs the stack measurement.
set -eu
cd "$(dirname "$0")/../.."
. tests/host/archive.sh
gcc -O2 -std=c99 -Wall -Wextra -Wpedantic -Werror -Iinclude tests/host/stack.c "$lib" -Wl,-z,now -o "$out/stack"
"$out/stack"
