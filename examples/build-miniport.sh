#!/usr/bin/env bash
# Builds the driver image of examples/miniport.c, or of another miniport in C of one file, against the
# headers of the DDK.
# Usage: bash examples/build-miniport.sh SYS [C source [more import libraries]]
# Needs MinGW's compiler for i386 (Debian: gcc-mingw-w64-i686), which brings the headers.
set -eu
here=$(cd "$(dirname "$0")" && pwd)
headers=$(mktemp -d)
trap 'rm -r "$headers"' EXIT
options=$(bash "$here/ddk-headers.sh" "$headers")
# shellcheck disable=SC2086
bash "$here/build-entry.sh" "$1" "${2:-$here/miniport.c}" -std=gnu11 $options "${@:3}"
