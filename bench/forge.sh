#!/usr/bin/env bash
# Times the image of a source of 20,000 lines: labels, jumps to them, loads from them, arithmetic, calls of
# 2,000 imports, data; 8,000 of its words are relocated.
# Usage: bash bench/forge.sh    (after `rt run` built crates/forge_source/out/forge_source)
set -eu
top=$(cd "$(dirname "$0")/.." && pwd)
work=$(mktemp -d)
trap 'rm -rf "$work"' EXIT
awk 'BEGIN {
    for (n = 0; n < 2000; n++) {
        printf "l%d:\n mov eax, dword [l%d]\n add eax, 5\n cmp byte [ebx+ecx*4+16], 7\n jne l%d\n", n, n, n
        printf " call @Import%d\n dd l%d\n push l%d\n movzx edx, al\n ret 8\n", n, n, n
    }
}' > "$work/source.s"
wc -lc "$work/source.s"
for _ in 1 2 3; do
    time "${FORGE_SOURCE:-$top/crates/forge_source/out/forge_source}" "$work/source.s" l0 "$work/image.sys"
done
wc -c "$work/image.sys"
