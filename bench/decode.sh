#!/usr/bin/env bash
# Times decode over the first megabyte of the .text of a linked 32-bit or 64-bit image, one
# instruction behind the other; a byte that begins none is skipped. Prints the instructions, the bytes
# skipped and the seconds of 20 rounds.
# Usage: bash bench/decode.sh [FILE]    (FILE: /usr/bin/objdump's library libbfd, if left out)
set -eu
top=$(cd "$(dirname "$0")/.." && pwd)
file=${1:-$(ls /usr/lib/x86_64-linux-gnu/libbfd-*.so | head -1)}
work=$(mktemp -d)
trap 'rm -rf "$work"' EXIT
objcopy -O binary --only-section=.text "$file" "$work/all"
head -c 1048576 "$work/all" > "$work/text"
mkdir -p "$work/repo/crates/decode_bench/src"
cp -r "$top/crates/codes" "$top/crates/ia32_decode" "$work/repo/crates"
rm -rf "$work"/repo/crates/*/out
echo 'Handles allowed: none.' > "$work/repo/HANDLES"
printf 'codes:\nia32_decode: codes\ndecode_bench: ia32_decode\n' > "$work/repo/crates.txt"
cat > "$work/repo/crates/decode_bench/src/main.rt" <<'RATTLE'
//! Decodes standard input, a megabyte at most, 20 times.
#![tactic(auto)]

use ia32_decode::{Decoded, decode};
use std::io::{self, Read};

/// Instructions, and bytes that begin none.
fn counts(bytes: &[u8]) -> (u32, u32) {
    let mut found = 0u32;
    let mut skipped = 0u32;
    let mut rest = bytes;
    for _ in 0..1_048_576u32 {
        if rest.is_empty() {
            break;
        }
        let size = match decode(rest) {
            Decoded::One(_, size) => usize::from(size),
            Decoded::Outside(_) | Decoded::More => 0,
        };
        if size == 0 || size > rest.len() {
            skipped = skipped.wrapping_add(1);
            rest = &rest[1..];
        } else {
            found = found.wrapping_add(1);
            rest = &rest[size..];
        }
    }
    (found, skipped)
}

fn main(rt: HostRuntime) -> io::Result<()> {
    let mut bytes = Vec::new(rt.alloc());
    rt.reader().read_to_end(&mut bytes)?;
    for _ in 0..20 {
        let (found, skipped) = counts(&bytes);
        println!(rt; "{found} instructions, {skipped} bytes skipped")?;
    }
    Ok(())
}
RATTLE
(cd "$work/repo/crates/decode_bench" && rt run < /dev/null > "$work/log" 2>&1) || { cat "$work/log"; exit 1; }
wc -c "$work/text"
time "$work/repo/crates/decode_bench/out/decode_bench" < "$work/text" | sort | uniq -c
