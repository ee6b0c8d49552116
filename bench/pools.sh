#!/usr/bin/env bash
# Times 1,000 and 100,000 blocks of 16 to 80 bytes that are allocated, then 100,000 times a block that is
# freed, in mixed order, and one of another length that is allocated, and then all freed. Each twice.
# Prints counts and microseconds.
# Usage: bash bench/pools.sh
set -eu
top=$(cd "$(dirname "$0")/.." && pwd)
work=$(mktemp -d)
trap 'rm -rf "$work"' EXIT
bench="$work/repo/crates/pools_bench"
mkdir -p "$bench/src"
for crate in nd_base nd_mem guest_map free_ranges packet_pool; do
    cp -r "$top/crates/$crate" "$work/repo/crates"
done
rm -rf "$work"/repo/crates/*/out
echo 'Handles allowed: none.' > "$work/repo/HANDLES"
printf 'nd_base: thiserror\nnd_mem: nd_base\nguest_map: nd_base nd_mem\nfree_ranges:\npacket_pool: nd_base nd_mem guest_map free_ranges\npools_bench: nd_base nd_mem guest_map packet_pool\n' > "$work/repo/crates.txt"
cat > "$bench/src/main.rt" <<'RATTLE'
//! Allocates and frees blocks, and prints how long it took.
#![tactic(auto)]

use nd_base::Addr;
use packet_pool::Pools;
use std::io;
use std::time::Instant;

/// How often a block is freed and another allocated.
const TURNS: u32 = 100_000;

/// The bytes of the block that is allocated in this turn: 16 to 80, in mixed order.
fn length(turn: u32) -> u32 {
    16 + (turn.wrapping_mul(2_654_435_761) >> 16) % 5 * 16
}

/// Allocates a block and keeps its address at a place.
fn allocate(pools: &mut Pools, blocks: &mut [u32], place: usize, turn: u32) -> bool {
    match pools.alloc_block(length(turn)) {
        Ok(block) => {
            if place < blocks.len() {
                blocks[place] = block.0;
            }
            true
        }
        Err(_) => false,
    }
}

fn fill(pools: &mut Pools, blocks: &mut [u32], count: u32) -> u32 {
    let mut done = 0u32;
    for turn in 0..count {
        if allocate(pools, blocks, turn as usize, turn) {
            done = done.wrapping_add(1);
        }
    }
    done
}

fn free(pools: &mut Pools, blocks: &[u32], place: usize) -> bool {
    match blocks.get(place) {
        Some(block) => pools.free_block(Addr(*block)).is_ok(),
        None => false,
    }
}

/// Frees a block and allocates one, in a mixed order of the places.
fn mix(pools: &mut Pools, blocks: &mut [u32]) -> u32 {
    let mut done = 0u32;
    for turn in 0..TURNS {
        let place = turn.wrapping_mul(7919) as usize % blocks.len().max(1);
        if free(pools, blocks, place) && allocate(pools, blocks, place, turn) {
            done = done.wrapping_add(1);
        }
    }
    done
}

fn free_all(pools: &mut Pools, blocks: &[u32]) -> u32 {
    let mut done = 0u32;
    for place in 0..blocks.len() {
        if free(pools, blocks, place) {
            done = done.wrapping_add(1);
        }
    }
    done
}

fn measure(rt: &HostRuntime, count: u32) -> io::Result<()> {
    let Ok(mut pools) = Pools::new(rt.alloc()) else {
        return Ok(());
    };
    let mut blocks = vec![in rt.alloc(); 0u32; count as usize]?;
    let start = Instant::now(rt)?;
    let filled = fill(&mut pools, &mut blocks, count);
    let filling = start.elapsed(rt)?.as_micros();
    let start = Instant::now(rt)?;
    let mixed = mix(&mut pools, &mut blocks);
    let mixing = start.elapsed(rt)?.as_micros();
    let start = Instant::now(rt)?;
    let freed = free_all(&mut pools, &blocks);
    let freeing = start.elapsed(rt)?.as_micros();
    println!(rt; "{count} blocks: {filled} allocated in {filling} us, {mixed} freed and allocated in {mixing} us, {freed} freed in {freeing} us")
}

fn main(rt: HostRuntime) -> io::Result<()> {
    for _ in 0..2u8 {
        measure(&rt, 1_000)?;
        measure(&rt, 100_000)?;
    }
    Ok(())
}
RATTLE
(cd "$bench" && rt run < /dev/null > "$work/log" 2>&1) || { cat "$work/log"; exit 1; }
"$bench/out/pools_bench"
