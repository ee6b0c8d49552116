#!/usr/bin/env bash
# Times writing and reading a log of 100,000 and of 1,000,000 lines (turn, port, hand, complete in turn),
# each twice. Prints lines, bytes and microseconds.
# Usage: bash bench/log.sh
set -eu
top=$(cd "$(dirname "$0")/.." && pwd)
work=$(mktemp -d)
trap 'rm -rf "$work"' EXIT
mkdir -p "$work/repo/crates/log_bench/src"
cp -r "$top/crates/nd_base" "$top/crates/log_fields" "$top/crates/call_log" "$work/repo/crates"
rm -rf "$work"/repo/crates/*/out
echo 'Handles allowed: none.' > "$work/repo/HANDLES"
printf 'nd_base: thiserror\nlog_fields: nd_base itoa\ncall_log: nd_base log_fields\nlog_bench: nd_base call_log\n' > "$work/repo/crates.txt"
cat > "$work/repo/crates/log_bench/src/main.rt" <<'RATTLE'
//! Writes logs and reads them, and prints how long it took.
#![tactic(auto)]

ghost use Rattle.std.specs.Prelude.{IfSome, IfOk};
ghost use Rattle.call_log.specs.Lines.{InRange};

use call_log::{Direction, Entry, Log, put_line, read_log};
use nd_base::{AdapterNo, Bytes, CtxNo, OutOfMemory, PacketNo, Status};
use std::alloc::Global;
use std::io;
use std::time::Instant;

/// A port's read of one byte.
fn port(alloc: Global) -> Result<Entry, OutOfMemory>
    ensures { IfOk result (λ e. InRange e) }
{
    let bytes = Bytes::copy(alloc, &[0x80])?;
    Ok(Entry::Port {
        adapter: AdapterNo(0),
        direction: Direction::In,
        width: 1,
        port: 7,
        bytes,
    })
}

/// Entry i of a log.
fn entry_of(alloc: Global, i: u64) -> Result<Entry, OutOfMemory>
    ensures { IfOk result (λ e. InRange e) }
{
    match i % 4 {
        0 => Ok(Entry::Turn {
            context: CtxNo(0),
            count: 64,
        }),
        1 => port(alloc),
        2 => Ok(Entry::Hand {
            packet: PacketNo(i),
        }),
        _ => Ok(Entry::Complete {
            packet: PacketNo(i),
            status: Status(0),
        }),
    }
}

fn fill(alloc: Global, log: &mut Log, count: u64) -> bool {
    for i in 0..count {
        let Ok(entry) = entry_of(alloc, i) else {
            return false;
        };
        if log.push(entry).is_err() {
            return false;
        }
    }
    true
}

fn write(log: &Log, text: &mut Bytes) -> bool {
    for i in 0..log.len() {
        let Some(entry) = log.entry(i) else {
            return false;
        };
        if put_line(text, entry).is_err() {
            return false;
        }
    }
    true
}

fn lines_read(alloc: Global, text: &[u8]) -> u64 {
    match read_log(alloc, text) {
        Ok(log) => log.len(),
        Err(_) => 0,
    }
}

fn measure(rt: &HostRuntime, count: u64) -> io::Result<()> {
    let alloc = rt.alloc();
    let mut log = Log::new(alloc);
    let filled = fill(alloc, &mut log, count);
    let mut text = Bytes::new(alloc);
    let start = Instant::now(rt)?;
    let written = write(&log, &mut text);
    let writing = start.elapsed(rt)?.as_micros();
    let size = text.len();
    let start = Instant::now(rt)?;
    let lines = lines_read(alloc, text.as_slice());
    let reading = start.elapsed(rt)?.as_micros();
    println!(rt;
        "{count} {filled} {written} {size} bytes: written in {writing} us, {lines} lines read in {reading} us"
    )
}

fn main(rt: HostRuntime) -> io::Result<()> {
    measure(&rt, 100_000)?;
    measure(&rt, 1_000_000)?;
    measure(&rt, 100_000)?;
    measure(&rt, 1_000_000)
}
RATTLE
(cd "$work/repo/crates/log_bench" && rt run < /dev/null > "$work/log" 2>&1) || { cat "$work/log"; exit 1; }
"$work/repo/crates/log_bench/out/log_bench"
