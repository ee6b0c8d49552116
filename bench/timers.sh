#!/usr/bin/env bash
# Times 1,000 and 10,000 timers that are armed, in three orders of their moments, and then taken as they
# come due; and 1,000 and 100,000 locks, each acquired by one context, asked for by another, which spins,
# and released. Each twice. Prints counts and microseconds.
# Usage: bash bench/timers.sh
set -eu
top=$(cd "$(dirname "$0")/.." && pwd)
work=$(mktemp -d)
trap 'rm -rf "$work"' EXIT
bench="$work/repo/crates/timers_bench"
mkdir -p "$bench/src"
cp -r "$top/crates/nd_base" "$top/crates/dpc_timer" "$top/crates/irql_lock" "$work/repo/crates"
rm -rf "$work"/repo/crates/*/out
echo 'Handles allowed: none.' > "$work/repo/HANDLES"
printf 'nd_base: thiserror\ndpc_timer: nd_base\nirql_lock: nd_base\ntimers_bench: nd_base dpc_timer irql_lock\n' > "$work/repo/crates.txt"
cat > "$bench/src/main.rt" <<'RATTLE'
//! Arms and takes timers, acquires and releases locks, and prints how long it took.
#![tactic(auto)]

ghost use Rattle.std.specs.Prelude.{◌≡◌};
ghost use Rattle.dpc_timer.specs.ClockState.{start};
ghost use Rattle.irql_lock.specs.LockState.{nothing, IsOpen};

use dpc_timer::Clock;
use irql_lock::{Levels, Took};
use nd_base::{Addr, CtxNo};
use std::io;
use std::time::Instant;

/// In which order of their moments timers are armed.
#[derive(Clone, Copy)]
enum Order {
    Rising,
    Falling,
    Mixed,
}

fn name(order: Order) -> &'static str {
    match order {
        Order::Rising => "rising",
        Order::Falling => "falling",
        Order::Mixed => "mixed",
    }
}

fn moment(order: Order, n: u32, count: u32) -> u32 {
    match order {
        Order::Rising => n,
        Order::Falling => count.saturating_sub(n),
        Order::Mixed => n.wrapping_mul(7919) % count.max(1),
    }
}

fn address(n: u32) -> Addr {
    Addr(n.wrapping_mul(16).wrapping_add(0x8100_0000))
}

fn arm(clock: &mut Clock, order: Order, count: u32) -> bool {
    for n in 0..count {
        let due = u64::from(moment(order, n, count));
        if clock.set_timer(address(n), due, 0).is_err() {
            return false;
        }
    }
    true
}

fn take(clock: &mut Clock, count: u32) -> u32 {
    let mut taken = 0u32;
    for _ in 0..count {
        if clock.take_due().is_some() {
            taken = taken.wrapping_add(1);
        }
    }
    taken
}

fn risen(clock: &mut Clock, by: u32)
    requires { clock.old ≡ start }
{
    clock.rise(u64::from(by));
}

fn measure_timers(rt: &HostRuntime, order: Order, count: u32) -> io::Result<()> {
    let mut clock = Clock::new(rt.alloc());
    risen(&mut clock, count);
    let start = Instant::now(rt)?;
    let armed = arm(&mut clock, order, count);
    let arming = start.elapsed(rt)?.as_micros();
    let start = Instant::now(rt)?;
    let taken = take(&mut clock, count);
    let taking = start.elapsed(rt)?.as_micros();
    let order = name(order);
    println!(rt; "{count} timers {order} {armed}: armed in {arming} us, {taken} taken in {taking} us")
}

/// What is done with each lock.
#[derive(Clone, Copy)]
enum Step {
    Make,
    Hold,
    Spin,
    Release,
}

fn begin(levels: &mut Levels)
    requires { levels.old ≡ nothing }
    ensures first { IsOpen levels.new (record { 0 = 0 }) }
    ensures last { IsOpen levels.new (record { 0 = 15 }) }
{
    levels.begin(CtxNo(0), 2);
    levels.begin(CtxNo(15), 2);
}

/// Context 15 acquires and releases, and context 0 spins. Whether the answer is the one that is due.
fn act(levels: &mut Levels, step: Step, lock: Addr) -> bool
    requires first { IsOpen levels.old (record { 0 = 0 }) }
    requires last { IsOpen levels.old (record { 0 = 15 }) }
    ensures first { IsOpen levels.new (record { 0 = 0 }) }
    ensures last { IsOpen levels.new (record { 0 = 15 }) }
{
    match step {
        Step::Make => levels.make(lock).is_ok(),
        Step::Hold => levels.acquire(CtxNo(15), lock, true) == Ok(Took::Got),
        Step::Spin => levels.acquire(CtxNo(0), lock, true) == Ok(Took::Spin(CtxNo(15))),
        Step::Release => levels.release(CtxNo(15), lock, true).is_ok(),
    }
}

/// Goes over the locks in a mixed order, and counts the answers that are due.
fn act_on_all(levels: &mut Levels, step: Step, count: u32) -> u32
    requires first { IsOpen levels.old (record { 0 = 0 }) }
    requires last { IsOpen levels.old (record { 0 = 15 }) }
    ensures first { IsOpen levels.new (record { 0 = 0 }) }
    ensures last { IsOpen levels.new (record { 0 = 15 }) }
{
    let mut done = 0u32;
    for n in 0..count {
        let lock = address(moment(Order::Mixed, n, count));
        if act(levels, step, lock) {
            done = done.wrapping_add(1);
        }
    }
    done
}

fn measure_step(rt: &HostRuntime, levels: &mut Levels, step: Step, count: u32) -> io::Result<()>
    requires first { IsOpen levels.old (record { 0 = 0 }) }
    requires last { IsOpen levels.old (record { 0 = 15 }) }
    ensures first { IsOpen levels.new (record { 0 = 0 }) }
    ensures last { IsOpen levels.new (record { 0 = 15 }) }
{
    let start = Instant::now(rt)?;
    let done = act_on_all(levels, step, count);
    let took = start.elapsed(rt)?.as_micros();
    let word = match step {
        Step::Make => "made",
        Step::Hold => "acquired",
        Step::Spin => "spun on",
        Step::Release => "released",
    };
    println!(rt; "{count} locks: {done} {word} in {took} us")
}

fn measure_locks(rt: &HostRuntime, count: u32) -> io::Result<()> {
    let mut levels = Levels::new(rt.alloc());
    begin(&mut levels);
    measure_step(rt, &mut levels, Step::Make, count)?;
    measure_step(rt, &mut levels, Step::Hold, count)?;
    measure_step(rt, &mut levels, Step::Spin, count)?;
    measure_step(rt, &mut levels, Step::Release, count)
}

fn main(rt: HostRuntime) -> io::Result<()> {
    for _ in 0..2u8 {
        measure_timers(&rt, Order::Rising, 1_000)?;
        measure_timers(&rt, Order::Falling, 1_000)?;
        measure_timers(&rt, Order::Mixed, 1_000)?;
        measure_timers(&rt, Order::Rising, 10_000)?;
        measure_timers(&rt, Order::Falling, 10_000)?;
        measure_timers(&rt, Order::Mixed, 10_000)?;
        measure_locks(&rt, 1_000)?;
        measure_locks(&rt, 100_000)?;
    }
    Ok(())
}
RATTLE
mkdir -p "$bench/proofs/act_on_all"
cat > "$bench/proofs/act_on_all/Invariants.antt" <<'ANTT'
use Rattle.irql_lock.specs.LockState.{IsOpen}
use Rattle.timers_bench.proofs.act_on_all.Given as goal

abbrev pub invariant-loop-n : goal.invariant-loop-n
invariant-loop-n l = IsOpen l.levels (record { 0 = 0 }) × IsOpen l.levels (record { 0 = 15 })
ANTT
(cd "$bench" && rt run < /dev/null > "$work/log" 2>&1) || { cat "$work/log"; exit 1; }
"$bench/out/timers_bench"
