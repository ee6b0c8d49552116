#!/usr/bin/env bash
# Times reading scripts of about 1 MiB, each with one driver and lines of one kind: `hold`, `query`, `set`,
# and `send` of 1,514 bytes. Each three times. Prints bytes, lines and microseconds.
# Usage: bash bench/script.sh
set -eu
top=$(cd "$(dirname "$0")/.." && pwd)
work=$(mktemp -d)
trap 'rm -rf "$work"' EXIT
bench="$work/repo/crates/script_bench"
mkdir -p "$bench/src"
cp -r "$top/crates/nd_base" "$top/crates/log_fields" "$top/crates/driver_script" "$work/repo/crates"
rm -rf "$work"/repo/crates/*/out
echo 'Handles allowed: none.' > "$work/repo/HANDLES"
printf 'nd_base: thiserror\nlog_fields: nd_base itoa\ndriver_script: nd_base log_fields hex arrayvec thiserror\nscript_bench: nd_base driver_script\n' > "$work/repo/crates.txt"
cat > "$bench/src/main.rt" <<'RATTLE'
//! Reads scripts of about 1 MiB, and prints how long it took.
#![tactic(auto)]

use driver_script::Script;
use nd_base::BindingNo;
use std::alloc::Global;
use std::io;
use std::time::Instant;

/// A line that sends so many bytes.
fn send_line(alloc: Global, count: u16) -> Option<Vec<u8>> {
    let mut line = Vec::new(alloc);
    line.extend_from_slice(b"send ").ok()?;
    for _ in 0..count {
        line.extend_from_slice(b"5A").ok()?;
    }
    line.push(b'\n').ok()?;
    Some(line)
}

/// A script of one driver whose section is this line, so many times.
fn repeated(alloc: Global, line: &[u8], count: u32) -> Option<Vec<u8>> {
    let mut text = Vec::new(alloc);
    text.extend_from_slice(b"adapter 0 x port 0300 irq 5 mac 020000000001\ndriver 0 on 0\n")
        .ok()?;
    for _ in 0..count {
        text.extend_from_slice(line).ok()?;
    }
    Some(text)
}

fn measure(rt: &HostRuntime, line: &[u8], count: u32) -> io::Result<()> {
    let Some(text) = repeated(rt.alloc(), line, count) else {
        return println!(rt; "no memory");
    };
    let start = Instant::now(rt)?;
    let read = match Script::read(rt.alloc(), &text) {
        Ok(script) => script.lines(BindingNo(0)),
        Err(_) => 0,
    };
    let took = start.elapsed(rt)?.as_micros();
    let size = text.len();
    println!(rt; "{size} bytes, {read} lines: read and freed in {took} us")
}

fn measure_sends(rt: &HostRuntime, count: u32) -> io::Result<()> {
    match send_line(rt.alloc(), 1514) {
        Some(line) => measure(rt, &line, count),
        None => println!(rt; "no memory"),
    }
}

fn main(rt: HostRuntime) -> io::Result<()> {
    for _ in 0..3u8 {
        measure(&rt, b"hold\n", 20_000)?;
        measure(&rt, b"hold\n", 209_700)?;
        measure(&rt, b"query 0001010e 4\n", 61_600)?;
        measure(&rt, b"set 0001010e 0d000000\n", 47_600)?;
        measure_sends(&rt, 345)?;
    }
    Ok(())
}
RATTLE
(cd "$bench" && rt run < /dev/null > "$work/log" 2>&1) || { cat "$work/log"; exit 1; }
"$bench/out/script_bench"
