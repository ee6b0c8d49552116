#!/usr/bin/env bash
# Times calls of imports in a world with one adapter: 1,000,000 reads of a port, 1,000,000 writes, 1,000 reads of
# 759 words into a buffer, 100,000 reads of a parameter, each three times. Before each call its context is closed and
# opened anew, as the tests of guest_calls do, whose source it takes for that. Prints the microseconds with the
# contexts, and those of as many contexts alone.
# Usage: bash bench/calls.sh
set -eu
top=$(cd "$(dirname "$0")/.." && pwd)
work=$(mktemp -d)
trap 'rm -rf "$work"' EXIT
bench="$work/repo/crates/calls_bench"
tests="$top/crates/guest_calls_tests"
mkdir -p "$work/repo/crates"
cp "$top/HANDLES" "$work/repo"
for name in $(sed -n 's/^\([a-z0-9_]*\)\( .*\)\?:.*/\1/p' "$top/crates.txt"); do
  case $name in
    *_tests) ;;
    *) mkdir "$work/repo/crates/$name"
       for part in src specs proofs; do
         if [ -d "$top/crates/$name/$part" ]; then cp -r "$top/crates/$name/$part" "$work/repo/crates/$name"; fi
       done ;;
  esac
done
grep -v '^[a-z0-9_]*_tests:' "$top/crates.txt" > "$work/repo/crates.txt"
sed -n 's/^guest_calls_tests:/calls_bench:/p' "$top/crates.txt" >> "$work/repo/crates.txt"
mkdir -p "$bench/src" "$bench/proofs"
cp -r "$tests/specs" "$bench"
cp "$tests/src/asking.rt" "$tests/src/worlds.rt" "$bench/src"
cp "$tests"/proofs/*.antt "$bench/proofs"
for part in asking worlds; do
  if [ -d "$tests/proofs/$part" ]; then cp -r "$tests/proofs/$part" "$bench/proofs"; fi
done
find "$bench" -type f -exec sed -i 's/guest_calls_tests/calls_bench/g' {} +
cat > "$bench/src/main.rt" <<'RATTLE'
//! Makes calls of one adapter, and prints how long they took.
#![tactic(auto)]

ghost use Rattle.guest_calls.specs.Rows.{IsCall};

mod asking;
mod worlds;

use asking::{asked, call_of, ready};
use guest_world::World;
use import_table::Call;
use log_fields::Handler;
use nd_base::Addr;
use std::alloc::Global;
use std::io;
use std::time::Instant;
use worlds::{AREA, STATUS, VALUE, world};

/// Makes a call so often. How often it was answered.
fn answered(alloc: Global, world: &mut World, call: &Call, count: u32) -> u32
    requires { IsCall call.now }
{
    let mut good = 0u32;
    for _ in 0..count {
        if ready(alloc, world, 0, false)
            && asked(alloc, world, Handler::Initialize, call).is_ok()
        {
            good = good.wrapping_add(1);
        }
    }
    good
}

/// Makes the context ready so often.
fn readied(alloc: Global, world: &mut World, count: u32) -> u32 {
    let mut good = 0u32;
    for _ in 0..count {
        if ready(alloc, world, 0, false) {
            good = good.wrapping_add(1);
        }
    }
    good
}

fn measure(
    rt: &HostRuntime,
    world: &mut World,
    import: u8,
    words: &[u32],
    count: u32,
) -> io::Result<()> {
    let Some(call) = call_of(import, words) else {
        return Ok(());
    };
    let begin = Instant::now(rt)?;
    let idle = readied(rt.alloc(), world, count);
    let apart = begin.elapsed(rt)?.as_micros();
    let begin = Instant::now(rt)?;
    let good = answered(rt.alloc(), world, &call, count);
    let took = begin.elapsed(rt)?.as_micros();
    println!(rt; "import {import}: {good} calls in {took} us with their contexts; {idle} contexts alone in {apart} us")
}

/// Puts the counted string of a keyword, and its characters behind it.
fn put_keyword(world: &mut World) -> bool {
    world
        .memory
        .write(Addr(AREA), &[10, 0, 0, 0, 0x10, 0x90, 0, 0x82])
        .is_ok()
        && world
            .memory
            .write(Addr(AREA + 16), b"S\0p\0e\0e\0d\0")
            .is_ok()
}

fn measure_all(rt: &HostRuntime, world: &mut World) -> io::Result<()> {
    measure(rt, world, 53, &[0x307], 1_000_000)?;
    measure(rt, world, 55, &[0x303, 0x46], 1_000_000)?;
    measure(rt, world, 58, &[0x310, AREA, 759], 1_000)?;
    measure(rt, world, 7, &[STATUS, VALUE, 0xE000_1000], 1)?;
    if put_keyword(world) {
        measure(rt, world, 8, &[STATUS, VALUE, 0xE000_2000, AREA, 0], 100_000)?;
    }
    Ok(())
}

fn run(rt: &HostRuntime) -> io::Result<()> {
    match world(rt.alloc(), b"") {
        Some(mut world) => measure_all(rt, &mut world),
        None => Ok(()),
    }
}

fn main(rt: HostRuntime) -> io::Result<()> {
    for _ in 0..3u8 {
        run(&rt)?;
    }
    Ok(())
}
RATTLE
(cd "$bench" && rt run < /dev/null > "$work/log" 2>&1) || { cat "$work/log"; exit 1; }
"$bench/out/calls_bench"
