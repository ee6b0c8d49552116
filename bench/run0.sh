#!/usr/bin/env bash
# Times run0 over a driver that jumps to itself until its 4,000,000 instructions are spent.
# Usage: bash bench/run0.sh    (after `rt run` or `rt lib` built crates/hedzvaki/out/hedzvaki)
set -eu
top=$(cd "$(dirname "$0")/.." && pwd)
work=$(mktemp -d)
trap 'rm -rf "$work"' EXIT
cp "$top/crates/hedzvaki/data/driver.sys" "$work/loop.sys"
printf '\xEB\xFE' | dd of="$work/loop.sys" bs=1 seek=512 conv=notrunc status=none
time "$top/crates/hedzvaki/out/hedzvaki" run0 "$work/loop.sys" "$work/loop.log" || true
wc -lc "$work/loop.log"
