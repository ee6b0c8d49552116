#!/usr/bin/env bash
# Makes headers of the DDK that compile: a folder with MinGW's ndis.h, mended.
# Usage: bash examples/ddk-headers.sh FOLDER
# Prints the options for the compiler. Needs Debian's gcc-mingw-w64-i686, whose ndis.h (10.0.0) states
# an enumeration of ntddndis.h a second time and lacks a comma in a prototype. Its other headers are
# taken as they are.
set -eu
mkdir -p "$1"
ddk=$(echo '#include <ddk/ndis.h>' | i686-w64-mingw32-gcc -E -M -MG -x c - | tr ' ' '\n' | grep '/ddk/ndis\.h$')
sed -e '/^typedef enum _NDIS_REQUEST_TYPE {/,/^}/d' \
    -e '/^NdisMWanIndicateReceiveComplete(/,/);/s/MiniportAdapterHandle$/&,/' "$ddk" > "$1/ndis.h"
echo "-isystem $1 -isystem $(dirname "$ddk")"
