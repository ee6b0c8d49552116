#!/usr/bin/env bash
# Assembles each mnemonic with each form of its operands, a line at a time, and compares what objdump makes of the bytes
# with what it makes of nasm's bytes of the same line.
# Usage: bash tests/outside/assembler.sh    (needs nasm and objdump)
set -eu
top=$(cd "$(dirname "$0")/../.." && pwd)
work=$(mktemp -d)
trap 'rm -rf "$work"' EXIT
mkdir -p "$work/repo/crates/forge_lines/src"
for name in nd_base codes ia32_decode ia32_fields asm_lines asm_encode line_bytes sys_forge; do
    mkdir "$work/repo/crates/$name"
    for part in src specs proofs; do
        if [ -d "$top/crates/$name/$part" ]; then cp -r "$top/crates/$name/$part" "$work/repo/crates/$name"; fi
    done
    grep "^$name:" "$top/crates.txt" >> "$work/repo/crates.txt"
done
echo 'forge_lines: nd_base sys_forge' >> "$work/repo/crates.txt"
echo 'Handles allowed: none.' > "$work/repo/HANDLES"
cat > "$work/repo/crates/forge_lines/src/main.rt" <<'RATTLE'
//! Assembles each line of the standard input alone, and prints its bytes.
#![tactic(auto)]

use std::io;
use sys_forge::{ForgeRefusal, assemble};

fn main(rt: HostRuntime) -> io::Result<()> {
    for line in rt.lines(rt.alloc()) {
        let line = line?;
        match assemble(rt.alloc(), line.as_str().as_bytes()) {
            Ok(bytes) => {
                let shown = bytes.as_slice();
                println!(rt; "{shown:?}")?;
            }
            Err(ForgeRefusal::Line(_)) => println!(rt; "line")?,
            Err(ForgeRefusal::Range(_)) => println!(rt; "range")?,
            Err(ForgeRefusal::OutOfMemory) => println!(rt; "memory")?,
        }
    }
    Ok(())
}
RATTLE
python3 "$top/tests/outside/assembler.py" lines > "$work/repo/crates/forge_lines/stdin"
(cd "$work/repo/crates/forge_lines" && rt try --steps 20000000000 --seconds 600 < stdin > "$work/ours" 2> "$work/log") || { tail -20 "$work/log"; exit 1; }
python3 "$top/tests/outside/assembler.py" compare "$work/repo/crates/forge_lines/stdin" "$work/ours"
