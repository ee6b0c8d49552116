#!/usr/bin/env bash
# Compares examples/ddk.layout with what a compiler makes of the DDK's headers.
# Usage: bash tests/outside/layout.sh [--print]
# Needs MinGW's compiler for i386 (Debian: gcc-mingw-w64-i686), whose headers these are. With --print
# it prints the lines of a layout file. Else it says whether those of examples/ddk.layout are the same.
set -eu
top=$(cd "$(dirname "$0")/../.." && pwd)
headers=$(mktemp -d)
trap 'rm -r "$headers"' EXIT
options=$(bash "$top/examples/ddk-headers.sh" "$headers")
lines() {
    # shellcheck disable=SC2086
    i686-w64-mingw32-gcc -std=gnu11 -O1 $options -S -o - "$top/tests/outside/layout.c" \
        | sed -n 's/^[[:space:]]*-> \([a-z_]*\) \([0-9]*\)$/\1 = \2/p'
}
if [ "${1:-}" = --print ]; then
    lines
elif diff <(lines) <(grep -v '^#' "$top/examples/ddk.layout"); then
    echo 'the same'
else
    exit 1
fi
