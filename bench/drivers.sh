#!/usr/bin/env bash
# Times drivers with a script, told by hand that each command is done: sections of 6,160 and of 61,600 `query`
# lines, of 20,000 and of 209,700 `hold` lines, and 10 and 100 lines `burst 10000 60`. Each three times. Prints
# lines, commands and microseconds.
# Usage: bash bench/drivers.sh
set -eu
top=$(cd "$(dirname "$0")/.." && pwd)
work=$(mktemp -d)
trap 'rm -rf "$work"' EXIT
bench="$work/repo/crates/drivers_bench"
mkdir -p "$bench/src"
cp -r "$top/crates/nd_base" "$top/crates/log_fields" "$top/crates/driver_script" "$top/crates/binding" "$work/repo/crates"
rm -rf "$work"/repo/crates/*/out
echo 'Handles allowed: none.' > "$work/repo/HANDLES"
printf 'nd_base: thiserror\nlog_fields: nd_base itoa\ndriver_script: nd_base log_fields hex arrayvec thiserror\nbinding: nd_base log_fields driver_script\ndrivers_bench: nd_base driver_script binding\n' > "$work/repo/crates.txt"
cat > "$bench/src/main.rt" <<'RATTLE'
//! Makes drivers with a script do all their lines, and prints how long it took.
#![tactic(auto)]

use binding::{Act, Command, Loan, Outcome, Protocol, ScriptDriver};
use driver_script::{Script, scripts_are_sound};
use nd_base::{BindingNo, PacketNo, RequestNo};
use std::alloc::Global;
use std::io;
use std::time::Instant;

/// A script of one driver whose section is this line, so many times.
fn repeated(alloc: Global, line: &[u8], count: u32) -> Option<Vec<u8>> {
    let mut text = Vec::new(alloc);
    text.extend_from_slice(b"adapter 0 x port 0300 irq 5 mac 020000000001\ndriver 0 on 0\n")
        .ok()?;
    for _ in 0..count {
        text.extend_from_slice(line).ok()?;
    }
    Some(text)
}

/// The driver of a script's first section.
fn driver_of(alloc: Global, text: &[u8]) -> Option<ScriptDriver> {
    scripts_are_sound();
    let script = Script::read(alloc, text).ok()?;
    if script.drivers().is_empty() {
        return None;
    }
    ScriptDriver::of_script(alloc, &script, BindingNo(0)).ok()
}

/// What a command that is done is answered with.
fn answer(command: Command) -> Option<Outcome> {
    match command {
        Command::Send(packet) => {
            drop(packet.spend());
            Some(Outcome::Sent(PacketNo(0)))
        }
        Command::Ask(_) => Some(Outcome::Asked(RequestNo(0))),
        Command::Await(_) => Some(Outcome::Met),
        Command::Return(loan) => {
            let Loan { driver: _, number } = loan;
            Some(Outcome::Returned(number))
        }
        Command::Bind | Command::Unbind | Command::Done => None,
    }
}

/// Does the next command. Whether there was one.
fn is_done(driver: &mut ScriptDriver) -> bool {
    match driver.next() {
        Ok(Act::Do(command)) => match answer(command) {
            Some(outcome) => match driver.told(outcome) {
                Ok(()) => true,
                Err(back) => {
                    if let Some(loan) = back.into_loan() {
                        let Loan {
                            driver: _,
                            number: _,
                        } = loan;
                    }
                    false
                }
            },
            None => false,
        },
        Ok(Act::Finish) => false,
        Err(_) => false,
    }
}

/// Does all commands, at most 4,000,000. Their number.
fn commands(driver: &mut ScriptDriver) -> u32 {
    let mut count = 0u32;
    for _ in 0..4_000_000u32 {
        if !is_done(driver) {
            return count;
        }
        count = count.wrapping_add(1);
    }
    count
}

fn end(driver: ScriptDriver) {
    let mut last = driver;
    while let Some(loan) = last.give_up() {
        let Loan {
            driver: _,
            number: _,
        } = loan;
    }
    last.close();
}

fn measure(rt: &HostRuntime, line: &[u8], count: u32) -> io::Result<()> {
    let Some(text) = repeated(rt.alloc(), line, count) else {
        return println!(rt; "no memory");
    };
    let begin = Instant::now(rt)?;
    let Some(mut driver) = driver_of(rt.alloc(), &text) else {
        return println!(rt; "no driver");
    };
    let done = commands(&mut driver);
    end(driver);
    let took = begin.elapsed(rt)?.as_micros();
    println!(rt; "{count} lines: {done} commands in {took} us, with the reading of the script")
}

fn main(rt: HostRuntime) -> io::Result<()> {
    for _ in 0..3u8 {
        measure(&rt, b"query 0001010e 4\n", 6_160)?;
        measure(&rt, b"query 0001010e 4\n", 61_600)?;
        measure(&rt, b"hold\n", 20_000)?;
        measure(&rt, b"hold\n", 209_700)?;
        measure(&rt, b"burst 10000 60\n", 10)?;
        measure(&rt, b"burst 10000 60\n", 100)?;
    }
    Ok(())
}
RATTLE
mkdir -p "$bench/proofs/end"
cat > "$bench/proofs/end/Invariants.antt" <<'ANTT'
use Rattle.std.proofs.Common.{length}
use Rattle.drivers_bench.proofs.end.Given as goal

abbrev pub decreases-loop-loan : goal.decreases-loop-loan
decreases-loop-loan l = length l.last.kept
ANTT
(cd "$bench" && rt run < /dev/null > "$work/log" 2>&1) || { cat "$work/log"; exit 1; }
"$bench/out/drivers_bench"
