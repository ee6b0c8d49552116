#!/usr/bin/env bash
# Times the book of owners: sends, and each packet's enter, hand, leave and completion, 10,000 and 1,000,000
# entries, with one packet outstanding at a time and in batches of 256, each twice. Prints microseconds, and
# the bytes of a packet's row.
# Usage: bash bench/book.sh
set -eu
top=$(cd "$(dirname "$0")/.." && pwd)
work=$(mktemp -d)
trap 'rm -rf "$work"' EXIT
bench="$work/repo/crates/book_bench"
mkdir -p "$bench/src"
for name in nd_base log_fields call_log owner_machine owner_rows owner_rules owner_book; do
    cp -r "$top/crates/$name" "$work/repo/crates"
done
rm -rf "$work"/repo/crates/*/out
echo 'Handles allowed: none.' > "$work/repo/HANDLES"
grep -E '^(nd_base|log_fields|call_log|owner_machine|owner_rows|owner_rules|owner_book):' "$top/crates.txt" > "$work/repo/crates.txt"
echo 'book_bench: nd_base call_log owner_machine owner_book' >> "$work/repo/crates.txt"
cat > "$bench/src/main.rt" <<'RATTLE'
//! Admits sends and completions to a book, and prints how long it took.
#![tactic(auto)]

use call_log::{Entry, Handler, Words, Writes};
use nd_base::{AdapterNo, BindingNo, Bytes, CtxNo, PacketNo, Status};
use owner_book::Book;
use owner_machine::Packet;
use std::alloc::Global;
use std::io;
use std::mem::size_of;
use std::time::Instant;

/// A frame's first 14 bytes.
const FRAME: [u8; 14] = [0xFF, 0xFF, 0xFF, 0xFF, 0xFF, 0xFF, 2, 0, 0, 0, 0, 1, 8, 0];

fn takes(book: &mut Book, entry: &Entry) -> bool {
    book.admit(entry).is_ok()
}

fn enters(alloc: Global, book: &mut Book, handler: Handler) -> bool {
    match Words::copy(alloc, &[0, 0, 0]) {
        Ok(words) => takes(
            book,
            &Entry::Enter {
                adapter: Some(AdapterNo(0)),
                context: CtxNo(0),
                handler,
                words,
                writes: Writes::new(alloc),
            },
        ),
        Err(_) => false,
    }
}

fn leaves(book: &mut Book) -> bool {
    takes(
        book,
        &Entry::Leave {
            context: CtxNo(0),
            eax: 0,
        },
    )
}

/// Whether adapter 0 runs, and driver 0 is bound to it.
fn starts(alloc: Global, book: &mut Book) -> bool {
    enters(alloc, book, Handler::Initialize)
        && leaves(book)
        && takes(
            book,
            &Entry::Bind {
                driver: BindingNo(0),
                adapter: AdapterNo(0),
            },
        )
}

fn sends(alloc: Global, book: &mut Book, k: u64) -> bool {
    match Bytes::copy(alloc, &FRAME) {
        Ok(bytes) => takes(
            book,
            &Entry::Send {
                driver: BindingNo(0),
                packet: PacketNo(k),
                bytes,
            },
        ),
        Err(_) => false,
    }
}

fn ends(alloc: Global, book: &mut Book, k: u64) -> bool {
    enters(alloc, book, Handler::Send)
        && takes(book, &Entry::Hand { packet: PacketNo(k) })
        && leaves(book)
        && takes(
            book,
            &Entry::Complete {
                packet: PacketNo(k),
                status: Status(0),
            },
        )
}

/// Sends and ends packets, `batch` at a time; how many were ended.
fn run(alloc: Global, book: &mut Book, packets: u64, batch: u64) -> u64 {
    let mut first = 0;
    for _ in 0..packets {
        if first >= packets {
            break;
        }
        let next = first.saturating_add(batch);
        for k in first..next {
            if !sends(alloc, book, k) {
                return first;
            }
        }
        for k in first..next {
            if !ends(alloc, book, k) {
                return k;
            }
        }
        first = next;
    }
    first
}

fn measure(rt: &HostRuntime, packets: u64, batch: u64) -> io::Result<()> {
    let alloc = rt.alloc();
    let Ok(mut book) = Book::new(alloc, 1, &[AdapterNo(0)]) else {
        return println!(rt; "no memory");
    };
    if !starts(alloc, &mut book) {
        return println!(rt; "no adapter");
    }
    let begin = Instant::now(rt)?;
    let done = run(alloc, &mut book, packets, batch);
    let took = begin.elapsed(rt)?.as_micros();
    let entries = done.saturating_mul(5);
    println!(rt; "{entries} entries, {batch} packets at a time: {took} us")
}

fn main(rt: HostRuntime) -> io::Result<()> {
    let bytes = size_of::<Packet>();
    println!(rt; "{bytes} bytes a packet")?;
    for _ in 0..2u8 {
        measure(&rt, 2_000, 1)?;
        measure(&rt, 200_000, 1)?;
        measure(&rt, 2_048, 256)?;
        measure(&rt, 200_192, 256)?;
    }
    Ok(())
}
RATTLE
(cd "$bench" && rt run < /dev/null > "$work/log" 2>&1) || { cat "$work/log"; exit 1; }
"$bench/out/book_bench"
