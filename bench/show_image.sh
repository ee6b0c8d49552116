#!/usr/bin/env bash
# Times show-image over an image of 4 MiB with 4,096 imports and 100,000 relocations.
# Usage: bash bench/show_image.sh    (after `rt run` or `rt lib` built crates/hedzvaki/out/hedzvaki)
set -eu
top=$(cd "$(dirname "$0")/.." && pwd)
work=$(mktemp -d)
trap 'rm -rf "$work"' EXIT
python3 - "$work/big.sys" <<'PYTHON'
import struct, sys
IMPORTS, RELOCATIONS = 4096, 100_000
code, tables, blocks = 0x1000, 0x201000, 0x301000
image = bytearray(0x400000)
thunks, names = tables + 64, tables + 64 + 8 * (IMPORTS + 1)
struct.pack_into('<5I', image, tables, thunks, 0, 0, tables + 48, thunks + 4 * (IMPORTS + 1))
image[tables + 48:tables + 56] = b'ndis.sys'
for n in range(IMPORTS):
    struct.pack_into('<I', image, thunks + 4 * n, names + 16 * n)
    struct.pack_into('<I', image, thunks + 4 * (IMPORTS + 1 + n), names + 16 * n)
    image[names + 16 * n + 2:names + 16 * n + 11] = b'Import%03x' % n
at, left = blocks, RELOCATIONS
for page in range(code, tables, 0x1000):
    count = min(left, 512)
    struct.pack_into('<2I', image, at, page, 8 + 2 * count)
    struct.pack_into('<%dH' % count, image, at + 8, *(0x3000 + 8 * k for k in range(count)))
    at, left = at + 8 + 2 * count, left - count
assert left == 0 and names + 16 * IMPORTS < blocks and at < 0x400000
image[0:2] = b'MZ'
struct.pack_into('<I', image, 0x3C, 64)
struct.pack_into('<4s2H3I2H', image, 64, b'PE\0\0', 0x14C, 3, 0, 0, 0, 224, 0x102)
struct.pack_into('<H', image, 88, 0x10B)
struct.pack_into('<I', image, 88 + 16, code)
struct.pack_into('<I', image, 88 + 28, 0x10000)
struct.pack_into('<2I', image, 88 + 56, 0x400000, 0x1000)
struct.pack_into('<I', image, 88 + 92, 16)
struct.pack_into('<2I', image, 88 + 96 + 8, tables, 40)
struct.pack_into('<2I', image, 88 + 96 + 40, blocks, at - blocks)
for n, (name, rva, size, kind) in enumerate(((b'.text', code, 0x200000, 0x60000020), (b'.idata', tables, 0x100000, 0xC0000040), (b'.reloc', blocks, 0xFF000, 0x42000040))):
    struct.pack_into('<8s4I12xI', image, 312 + 40 * n, name, size, rva, size, rva, kind)
open(sys.argv[1], 'wb').write(image)
PYTHON
time "$top/crates/hedzvaki/out/hedzvaki" show-image "$work/big.sys" > "$work/lines"
wc -lc "$work/lines"
