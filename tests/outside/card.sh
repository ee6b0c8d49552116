#!/usr/bin/env bash
# Builds the program that card.py drives beside QEMU's card: it keeps one card, and answers each line of its
# standard input by a line. Then runs the comparison.
# Usage: bash tests/outside/card.sh [LISTS]    (needs qemu-system-i386)
set -eu
top=$(cd "$(dirname "$0")/../.." && pwd)
work=$(mktemp -d)
trap 'rm -rf "$work"' EXIT
mkdir -p "$work/repo/crates/card_replay/src"
cp -r "$top/crates/nd_base" "$top/crates/dp8390" "$work/repo/crates"
rm -rf "$work"/repo/crates/*/out
echo 'Handles allowed: none.' > "$work/repo/HANDLES"
printf 'nd_base: thiserror\ndp8390: nd_base\ncard_replay: nd_base dp8390\n' > "$work/repo/crates.txt"
cat > "$work/repo/crates/card_replay/src/main.rt" <<'RATTLE'
//! Keeps one card, and answers accesses of its ports and arrivals.
#![tactic(auto)]

use dp8390::Card;
use nd_base::Bytes;
use std::alloc::Global;
use std::io;

/// The numbers of a line.
fn numbers(alloc: Global, line: &str) -> Option<Bytes> {
    let mut found = Bytes::new(alloc);
    for word in line.split_whitespace() {
        if let Ok(value) = word.parse::<u8>() {
            if found.push(value).is_err() {
                return None;
            }
        }
    }
    Some(found)
}

/// A byte is read.
fn read_byte(card: &mut Card, port: u8) -> u8 {
    let mut out = [0];
    if port < 0x20 {
        card.read(port, &mut out);
    }
    out[0]
}

/// A word is read.
fn read_word(card: &mut Card, port: u8) -> [u8; 2] {
    let mut out = [0, 0];
    if port < 0x20 {
        card.read(port, &mut out);
    }
    out
}

/// Bytes are written; the frame that was sent, if one was.
fn write(alloc: Global, card: &mut Card, port: u8, bytes: &[u8]) -> Option<Bytes> {
    let Ok(_) = card.take_sent(alloc) else {
        return None;
    };
    if port < 0x20 && !bytes.is_empty() && bytes.len() <= 2 {
        card.write(port, bytes);
    }
    match card.take_sent(alloc) {
        Ok(frame) => frame,
        Err(_) => None,
    }
}

fn answer_read(rt: &HostRuntime, card: &mut Card, data: &[u8]) -> io::Result<()> {
    if data.len() < 2 {
        return println!(rt; "bad");
    }
    if data[1] == 1 {
        let value = read_byte(card, data[0]);
        println!(rt; "{value}")
    } else {
        let value = read_word(card, data[0]);
        let low = value[0];
        let high = value[1];
        println!(rt; "{low} {high}")
    }
}

fn answer_write(rt: &HostRuntime, card: &mut Card, data: &[u8]) -> io::Result<()> {
    if data.is_empty() {
        return println!(rt; "bad");
    }
    match write(rt.alloc(), card, data[0], &data[1..]) {
        Some(frame) => {
            let bytes = frame.as_slice();
            println!(rt; "sent {bytes:?}")
        }
        None => println!(rt; "none"),
    }
}

fn answer_arrival(rt: &HostRuntime, card: &mut Card, frame: &[u8]) -> io::Result<()> {
    card.arrive(frame);
    let up = card.line();
    println!(rt; "line {up}")
}

fn answer(rt: &HostRuntime, card: &mut Card, line: &str) -> io::Result<()> {
    let Some(found) = numbers(rt.alloc(), line) else {
        return println!(rt; "bad");
    };
    let data = found.as_slice();
    if line.starts_with("r") {
        answer_read(rt, card, data)
    } else if line.starts_with("w") {
        answer_write(rt, card, data)
    } else {
        answer_arrival(rt, card, data)
    }
}

fn main(rt: HostRuntime) -> io::Result<()> {
    let Ok(mut card) = Card::new(rt.alloc(), [0x52, 0x54, 0x00, 0x12, 0x34, 0x56]) else {
        return Ok(());
    };
    for line in rt.lines(rt.alloc()) {
        let line = line?;
        answer(&rt, &mut card, line.as_str())?;
    }
    Ok(())
}
RATTLE
(cd "$work/repo/crates/card_replay" && rt run < /dev/null > "$work/log" 2>&1) || { cat "$work/log"; exit 1; }
python3 "$top/tests/outside/card.py" "$(command -v qemu-system-i386)" "$work/repo/crates/card_replay/out/card_replay" "${1:-1000}"
