#!/usr/bin/env bash
# Builds the driver image of examples/entry.c, or of another C source of one file.
# Usage: bash examples/build-entry.sh SYS [C source [more import libraries]]
# Needs MinGW's compiler for i386 (Debian: gcc-mingw-w64-i686), which brings the import libraries of
# NDIS.SYS, HAL.dll and ntoskrnl.exe. The image keeps its relocations (--dynamicbase): it is loaded
# elsewhere than at 0x10000, and without them it would be refused (`image relocs-stripped`).
# -march=i686 leaves SSE out, and so do -mno-mmx and -mno-80387 the rest that docs/INSTRUCTIONS.md leaves out.
set -eu
here=$(cd "$(dirname "$0")" && pwd)
i686-w64-mingw32-gcc -std=c11 -O2 -Wall -Wextra -ffreestanding -fno-asynchronous-unwind-tables \
    -march=i686 -mno-80387 -mno-mmx -mno-sse \
    -nostdlib -s -Wl,--subsystem,native -Wl,--entry,_DriverEntry@8 \
    -Wl,--image-base,0x10000 -Wl,--dynamicbase \
    -o "$1" "${2:-$here/entry.c}" "${@:3}" -lndis -lhal -lntoskrnl
