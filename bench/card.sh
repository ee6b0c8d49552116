#!/usr/bin/env bash
# Times the card: frames of 1,514 bytes are stored in the ring and read by words from the data port, 10,000 of
# them three times. Prints the microseconds of each 10,000, and the sum of the bytes that were read.
# Usage: bash bench/card.sh
set -eu
top=$(cd "$(dirname "$0")/.." && pwd)
work=$(mktemp -d)
trap 'rm -rf "$work"' EXIT
mkdir -p "$work/repo/crates/card_bench/src"
cp -r "$top/crates/nd_base" "$top/crates/dp8390" "$work/repo/crates"
rm -rf "$work"/repo/crates/*/out
echo 'Handles allowed: none.' > "$work/repo/HANDLES"
printf 'nd_base: thiserror\ndp8390: nd_base\ncard_bench: dp8390\n' > "$work/repo/crates.txt"
cat > "$work/repo/crates/card_bench/src/main.rt" <<'RATTLE'
//! Stores frames of 1,514 bytes and reads them by words, and prints how long it took.
#![tactic(auto)]

use dp8390::Card;
use std::io;
use std::time::Instant;

/// The accesses that set up the card: the ring from page 0x46 to 0x80, broadcast frames taken.
const SETUP: [(u8, u8); 14] = [
    (0x00, 0x21),
    (0x01, 0x46),
    (0x02, 0x80),
    (0x03, 0x46),
    (0x0C, 0x04),
    (0x0D, 0x00),
    (0x00, 0x61),
    (0x07, 0x47),
    (0x00, 0x22),
    (0x07, 0xFF),
    (0x0F, 0x00),
    (0x0E, 0x49),
    (0x0A, 0x00),
    (0x0B, 0x00),
];

/// A byte is written to a register, where no frame waits.
fn write(rt: &HostRuntime, card: &mut Card, port: u8, byte: u8) {
    if card.take_sent(rt.alloc()).is_ok() && port < 0x20 {
        card.write(port, &[byte]);
    }
}

fn set_up(rt: &HostRuntime, card: &mut Card) {
    for (port, byte) in SETUP {
        write(rt, card, port, byte);
    }
}

/// The data port is read by words; the sum of the bytes.
fn read_words(card: &mut Card, words: u16) -> u32 {
    let mut sum = 0u32;
    for _ in 0..words {
        let mut out = [0, 0];
        card.read(0x10, &mut out);
        sum = sum
            .wrapping_add(u32::from(out[0]))
            .wrapping_add(u32::from(out[1]));
    }
    sum
}

/// A remote read from a page on, of 1,518 bytes: the header and the frame.
fn begin_read(rt: &HostRuntime, card: &mut Card, page: u8) {
    write(rt, card, 0x08, 0);
    write(rt, card, 0x09, page);
    write(rt, card, 0x0A, 0xEE);
    write(rt, card, 0x0B, 0x05);
    write(rt, card, 0x00, 0x0A);
}

/// A frame arrives at a page and is read; the sum of its bytes. Six pages are freed.
fn round(rt: &HostRuntime, card: &mut Card, frame: &[u8], page: u8) -> u32 {
    card.arrive(frame);
    begin_read(rt, card, page);
    let sum = read_words(card, 759);
    let next = if page < 0x7B { page + 5 } else { page - 53 };
    write(rt, card, 0x03, next);
    sum
}

/// The page behind six others, in the ring.
fn page_behind(page: u8) -> u8 {
    if page < 0x7A { page + 6 } else { page - 52 }
}

fn rounds(rt: &HostRuntime, card: &mut Card, frame: &[u8], count: u32) -> u32 {
    let mut page = 0x47;
    let mut sum = 0u32;
    for _ in 0..count {
        sum = sum.wrapping_add(round(rt, card, frame, page));
        page = page_behind(page);
    }
    sum
}

fn measure(rt: &HostRuntime, card: &mut Card) -> io::Result<()> {
    set_up(rt, card);
    let frame = [0xFF; 1514];
    let start = Instant::now(rt)?;
    let sum = rounds(rt, card, &frame, 10_000);
    let time = start.elapsed(rt)?.as_micros();
    println!(rt; "10000 frames in {time} us, sum {sum}")
}

fn main(rt: HostRuntime) -> io::Result<()> {
    let Ok(mut card) = Card::new(rt.alloc(), [0x52, 0x54, 0x00, 0x12, 0x34, 0x56]) else {
        return Ok(());
    };
    for _ in 0..3 {
        measure(&rt, &mut card)?;
    }
    Ok(())
}
RATTLE
(cd "$work/repo/crates/card_bench" && rt run < /dev/null > "$work/log" 2>&1) || { cat "$work/log"; exit 1; }
"$work/repo/crates/card_bench/out/card_bench"
