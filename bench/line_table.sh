#!/usr/bin/env bash
# Prints what the calls of a table of lines cost with 100 lines of three places and with 50,000, in
# processor time of the thread, the least of several rounds. Wants `rt` and some minutes, most of them
# for the proofs.
#
#   bench/line_table.sh [FOLDER]     FOLDER keeps the work for another run; without it a temporary one is used
set -euo pipefail
cd "$(dirname "$0")/.."
folder=${1:-}
if [ -z "$folder" ]; then
    folder=$(mktemp -d)
    trap 'rm -rf "$folder"' EXIT
fi
mkdir -p "$folder/crates/line_bench/src"
for crate in ground_model predicates page_vec page_index line_table; do
    mkdir -p "$folder/crates/$crate"
    for part in src specs proofs; do
        rm -rf "$folder/crates/$crate/$part"
        cp -r "crates/$crate/$part" "$folder/crates/$crate/$part"
    done
done
cat > "$folder/crates.txt" <<'END'
ground_model:
predicates: ground_model
page_vec:
page_index:
line_table: ground_model predicates page_vec page_index
line_bench: ground_model line_table
END

cat > "$folder/crates/line_bench/src/main.rt" <<'END'
//! What the calls of a table of lines cost.
#![tactic(auto)]

use ground_model::{LineId, LineKind, Place, Places};
use line_table::Lines;
use std::alloc::{AllocError, Global};
use std::io;
use std::rt::CpuClock;

const ROUNDS: u32 = 5;

const CALLS: u32 = 2_000;

/// The least time of a round of each call.
#[derive(Clone, Copy)]
struct Least {
    share: u64,
    add: u64,
    take: u64,
    get: u64,
    holding: u64,
    walk: u64,
}

fn now(rt: &HostRuntime) -> io::Result<u64> {
    Ok(u64::try_from(rt.thread_cpu_time()?.as_nanos()).unwrap_or(u64::MAX))
}

fn since(rt: &HostRuntime, start: u64) -> io::Result<u64> {
    Ok(now(rt)?.saturating_sub(start))
}

fn next(x: u64) -> u64 {
    x.wrapping_mul(6364136223846793005)
        .wrapping_add(1442695040888963407)
}

/// The place of this number on a grid.
fn place(k: u32) -> Option<Place> {
    Place::new((k % 1024) as i32, ((k / 1024) % 262_144) as i32)
}

/// Three places of their own for each line.
fn places(alloc: Global, line: u32) -> Result<Places, AllocError> {
    let mut list = Vec::new(alloc);
    for k in 0..3u32 {
        if let Some(place) = place(line.wrapping_mul(3).wrapping_add(k)) {
            list.push(place)?;
        }
    }
    Places::from_slice(alloc, list.as_slice())
}

fn add(alloc: Global, lines: &mut Lines, line: u32) -> Result<(), AllocError> {
    let places = places(alloc, line)?;
    if lines.len() < 65_535 && lines.next().0 < u32::MAX && places.len() < 1_000 {
        match lines.add(LineKind::Breakline, places) {
            Ok(_) => {}
            Err(_) => return Err(AllocError),
        }
    }
    Ok(())
}

fn fill(alloc: Global, count: u32) -> Result<Lines, AllocError> {
    let mut lines = Lines::empty(alloc);
    for line in 0..count {
        add(alloc, &mut lines, line)?;
    }
    Ok(lines)
}

fn shares(lines: &Lines) -> Result<(), AllocError> {
    for _i in 0..CALLS {
        let other = lines.share()?;
        drop(other);
    }
    Ok(())
}

/// Each line is added to a version of its own.
fn additions(alloc: Global, lines: &Lines) -> Result<(), AllocError> {
    for i in 0..CALLS {
        let mut other = lines.share()?;
        add(alloc, &mut other, 60_000u32.wrapping_add(i))?;
        drop(other);
    }
    Ok(())
}

/// Each line is taken out of a version of its own.
fn removals(lines: &Lines, count: u32) -> Result<(), AllocError> {
    let mut x: u64 = 5;
    for _i in 0..CALLS {
        x = next(x);
        let id = (((x >> 33) % (count.max(1) as u64)) as u32).wrapping_add(1);
        let mut other = lines.share()?;
        other.take(LineId(id))?;
        drop(other);
    }
    Ok(())
}

fn gets(lines: &Lines, count: u32) -> u32 {
    let mut found: u32 = 0;
    let mut x: u64 = 5;
    for _i in 0..CALLS {
        x = next(x);
        let id = (((x >> 33) % (count.max(1) as u64)) as u32).wrapping_add(1);
        match lines.get(LineId(id)) {
            Some(_) => found = found.wrapping_add(1),
            None => {}
        }
    }
    found
}

/// Half of the places are on a line.
fn holdings(lines: &Lines, count: u32) -> u32 {
    let mut found: u32 = 0;
    let mut x: u64 = 5;
    for _i in 0..CALLS {
        x = next(x);
        let k = ((x >> 33) % (count.max(1).saturating_mul(6) as u64)) as u32;
        if let Some(place) = place(k) {
            match lines.holding(place) {
                Some(_) => found = found.wrapping_add(1),
                None => {}
            }
        }
    }
    found
}

fn walk(lines: &Lines) -> u32 {
    let mut sum: u32 = 0;
    for (id, _) in lines.iter() {
        sum = sum.wrapping_add(id.0);
    }
    sum
}

fn measure(rt: &HostRuntime, lines: &Lines, count: u32) -> io::Result<Least> {
    let mut least = Least {
        share: u64::MAX,
        add: u64::MAX,
        take: u64::MAX,
        get: u64::MAX,
        holding: u64::MAX,
        walk: u64::MAX,
    };
    let mut seen: u32 = 0;
    for _i in 0..ROUNDS {
        let start = now(rt)?;
        shares(lines)?;
        least.share = least.share.min(since(rt, start)?);
        let start = now(rt)?;
        additions(rt.alloc(), lines)?;
        least.add = least.add.min(since(rt, start)?);
        let start = now(rt)?;
        removals(lines, count)?;
        least.take = least.take.min(since(rt, start)?);
        let start = now(rt)?;
        seen = seen.wrapping_add(gets(lines, count));
        least.get = least.get.min(since(rt, start)?);
        let start = now(rt)?;
        seen = seen.wrapping_add(holdings(lines, count));
        least.holding = least.holding.min(since(rt, start)?);
        let start = now(rt)?;
        seen = seen.wrapping_add(walk(lines));
        least.walk = least.walk.min(since(rt, start)?);
    }
    if seen == 1 {
        println!(rt; "one line was seen")?;
    }
    Ok(least)
}

fn row(rt: &HostRuntime, name: &str, ns: u64, count: u32) -> io::Result<()> {
    let tenths = if count == 0 { 0 } else { ns.saturating_mul(10) / (count as u64) };
    println!(rt; "{name} | {}.{} ns", tenths / 10, tenths % 10)
}

fn main(rt: HostRuntime) -> io::Result<()> {
    for count in [100u32, 50_000] {
        let start = now(&rt)?;
        let lines = fill(rt.alloc(), count)?;
        let filled = since(&rt, start)?;
        println!(rt; "{count} lines |")?;
        row(&rt, "add, unshared", filled, count)?;
        let least = measure(&rt, &lines, count)?;
        row(&rt, "share", least.share, CALLS)?;
        row(&rt, "add, on a shared version", least.add, CALLS)?;
        row(&rt, "take, on a shared version", least.take, CALLS)?;
        row(&rt, "get", least.get, CALLS)?;
        row(&rt, "holding", least.holding, CALLS)?;
        row(&rt, "a whole walk, a line", least.walk, count)?;
    }
    Ok(())
}
END

cd "$folder/crates/line_bench"
if ! rt run > "$folder/log" 2>&1; then
    tail -40 "$folder/log" >&2
    exit 1
fi
grep '|' "$folder/log"
