#!/usr/bin/env bash
# Prints what the calls of a persistent vector cost beside those of a plain array, in the same run:
# for 20,000, 200,000 and 2,000,000 slots of 60 bytes, in processor time of the thread, the least of
# several rounds. Wants `rt` and some minutes, most of them for the proofs.
#
#   bench/page_vec.sh [FOLDER]     FOLDER keeps the work for another run; without it a temporary one is used
set -euo pipefail
cd "$(dirname "$0")/.."
folder=${1:-}
if [ -z "$folder" ]; then
    folder=$(mktemp -d)
    trap 'rm -rf "$folder"' EXIT
fi
mkdir -p "$folder/crates/page_bench/src" "$folder/crates/page_bench/proofs/main"
mkdir -p "$folder/crates/page_vec"
for part in src specs proofs; do
    rm -rf "$folder/crates/page_vec/$part"
    cp -r "crates/page_vec/$part" "$folder/crates/page_vec/$part"
done
printf 'page_vec:\npage_bench: page_vec\n' > "$folder/crates.txt"

cat > "$folder/crates/page_bench/proofs/main/Invariants.antt" <<'EOF'
use Rattle.page_bench.proofs.main.Given as goal

abbrev pub ghosts-measure_all : goal.ghosts-measure_all
ghosts-measure_all a = record { name = a.blank.name; parts = a.blank.parts }
EOF

cat > "$folder/crates/page_bench/src/main.rt" <<'EOF'
//! What the calls of a persistent vector cost beside those of a plain array.
#![tactic(auto)]

ghost use Rattle.std.specs.Prelude.{◌≡◌, ◌<◌};

use page_vec::{PageVec, Steps};
use std::alloc::{AllocError, Global};
use std::fs;
use std::io;
use std::marker::Brand;
use std::sync::ledger::{Blank, Ledger};
use std::rt::CpuClock;

const ROUNDS: u32 = 25;

const READS: u32 = 200_000;

const EDITS: u32 = 2_000;

const LIMIT: u32 = 1_073_741_824;

#[derive(Clone, Copy)]
struct Slot {
    words: [u32; 15],
}

/// The least time of a round, on a plain array and on pages.
#[derive(Clone, Copy)]
struct Least {
    plain: u64,
    pages: u64,
}

const NONE_YET: Least = Least {
    plain: u64::MAX,
    pages: u64::MAX,
};

fn slot_of(k: u32) -> Slot {
    Slot { words: [k; 15] }
}

fn next(x: u64) -> u64 {
    x.wrapping_mul(6364136223846793005)
        .wrapping_add(1442695040888963407)
}

fn within(x: u64, span: u32) -> u32 {
    if span == 0 {
        0
    } else {
        ((x >> 33) % (span as u64)) as u32
    }
}

fn far_indices(alloc: Global, span: u32, count: u32) -> Result<Vec<u32>, AllocError> {
    let mut x: u64 = 88172645463325252;
    let mut indices = Vec::new(alloc);
    for _i in 0..count {
        x = next(x);
        indices.push(within(x, span))?;
    }
    Ok(indices)
}

/// Indices within 512 of one another, for 2,048 reads at a time.
fn near_indices(alloc: Global, span: u32, count: u32) -> Result<Vec<u32>, AllocError> {
    let mut x: u64 = 88172645463325252;
    let mut base: u32 = 0;
    let mut indices = Vec::new(alloc);
    for i in 0..count {
        x = next(x);
        if i % 2048 == 0 {
            base = within(x, span.saturating_sub(512));
            x = next(x);
        }
        indices.push(base.saturating_add(within(x, 512)))?;
    }
    Ok(indices)
}

/// Eight indices in a row from each start.
fn rows_of_eight(alloc: Global, starts: &Vec<u32>) -> Result<Vec<u32>, AllocError> {
    let mut indices = Vec::new(alloc);
    for k in starts {
        for j in 0..8u32 {
            indices.push(k.saturating_add(j))?;
        }
    }
    Ok(indices)
}

fn now(rt: &HostRuntime) -> io::Result<u64> {
    Ok(u64::try_from(rt.thread_cpu_time()?.as_nanos()).unwrap_or(u64::MAX))
}

fn since(rt: &HostRuntime, start: u64) -> io::Result<u64> {
    Ok(now(rt)?.saturating_sub(start))
}

/// A tenth of a nanosecond of each of `count` parts.
fn tenths(ns: u64, count: u32) -> u64 {
    if count == 0 {
        0
    } else {
        ns.saturating_mul(10) / (count as u64)
    }
}

fn row(rt: &HostRuntime, name: &str, least: Least, count: u32) -> io::Result<()> {
    let plain = tenths(least.plain, count);
    let pages = tenths(least.pages, count);
    let ratio = if plain == 0 { 0 } else { pages.saturating_mul(10) / plain };
    println!(rt; "{name} | {}.{} ns | {}.{} ns | {}.{}", plain / 10, plain % 10, pages / 10, pages % 10, ratio / 10, ratio % 10)?;
    Ok(())
}

fn lone_row(rt: &HostRuntime, name: &str, ns: u64, count: u32) -> io::Result<()> {
    let pages = tenths(ns, count);
    println!(rt; "{name} | | {}.{} ns |", pages / 10, pages % 10)?;
    Ok(())
}

fn read_plain(slots: &Vec<Slot>, indices: &Vec<u32>) -> u32 {
    let mut sum: u32 = 0;
    for k in indices {
        match slots.get(*k as usize) {
            Some(slot) => sum = sum.wrapping_add(slot.words[7]),
            None => {}
        }
    }
    sum
}

fn read_pages<L: Ledger>(slots: &PageVec<Slot>, indices: &Vec<u32>, steps: &mut Steps<L>) -> u32 {
    let mut sum: u32 = 0;
    for k in indices {
        match slots.get(*k, steps) {
            Some(slot) => sum = sum.wrapping_add(slot.words[7]),
            None => {}
        }
    }
    sum
}

fn write_plain(slots: &mut Vec<Slot>, indices: &Vec<u32>) {
    for k in indices {
        let index = *k as usize;
        if index < slots.len() {
            slots[index] = slot_of(*k);
        }
    }
}

fn write_pages<L: Ledger>(
    slots: &mut PageVec<Slot>,
    indices: &Vec<u32>,
    steps: &mut Steps<L>,
) -> Result<(), AllocError> {
    for k in indices {
        if *k < slots.len() {
            slots.set(*k, slot_of(*k), steps)?;
        }
    }
    Ok(())
}

/// Before every eight writes the version is shared, and the share before it is let go.
fn write_shared<L: Ledger>(
    slots: &mut PageVec<Slot>,
    indices: &Vec<u32>,
    steps: &mut Steps<L>,
) -> Result<(), AllocError> {
    let mut i: u32 = 0;
    let mut held = slots.share()?;
    for k in indices {
        if i % 8 == 0 {
            held = slots.share()?;
        }
        i = i.wrapping_add(1);
        if *k < slots.len() {
            slots.set(*k, slot_of(*k), steps)?;
        }
    }
    drop(held);
    Ok(())
}

fn push_plain(slots: &mut Vec<Slot>, count: u32) -> Result<(), AllocError> {
    for k in 0..count {
        slots.push(slot_of(k))?;
    }
    Ok(())
}

fn push_pages<L: Ledger>(
    slots: &mut PageVec<Slot>,
    count: u32,
    steps: &mut Steps<L>,
) -> Result<(), AllocError> {
    for k in 0..count {
        if slots.len() < LIMIT {
            slots.push(slot_of(k), steps)?;
        }
    }
    Ok(())
}

fn measure_reads<L: Ledger>(
    rt: &HostRuntime,
    name: &str,
    plain: &Vec<Slot>,
    pages: &PageVec<Slot>,
    indices: &Vec<u32>,
    steps: &mut Steps<L>,
) -> io::Result<()> {
    let mut least = NONE_YET;
    let mut agree = true;
    for _i in 0..ROUNDS {
        let start = now(rt)?;
        let wanted = read_plain(plain, indices);
        least.plain = least.plain.min(since(rt, start)?);
        let start = now(rt)?;
        let found = read_pages(pages, indices, steps);
        least.pages = least.pages.min(since(rt, start)?);
        agree = agree && wanted == found;
    }
    if !agree {
        println!(rt; "the reads differ")?;
    }
    row(rt, name, least, READS)
}

fn measure_writes<L: Ledger>(
    rt: &HostRuntime,
    name: &str,
    plain: &mut Vec<Slot>,
    pages: &mut PageVec<Slot>,
    indices: &Vec<u32>,
    steps: &mut Steps<L>,
) -> io::Result<()> {
    let mut least = NONE_YET;
    for _i in 0..ROUNDS {
        let start = now(rt)?;
        write_plain(plain, indices);
        least.plain = least.plain.min(since(rt, start)?);
        let start = now(rt)?;
        write_pages(pages, indices, steps)?;
        least.pages = least.pages.min(since(rt, start)?);
    }
    row(rt, name, least, EDITS)
}

fn measure_shared<L: Ledger>(
    rt: &HostRuntime,
    name: &str,
    pages: &mut PageVec<Slot>,
    indices: &Vec<u32>,
    steps: &mut Steps<L>,
) -> io::Result<()> {
    let mut least = u64::MAX;
    for _i in 0..ROUNDS {
        let start = now(rt)?;
        write_shared(pages, indices, steps)?;
        least = least.min(since(rt, start)?);
    }
    lone_row(rt, name, least, EDITS)
}

/// The bytes that the process has in memory.
fn resident(rt: &HostRuntime) -> io::Result<u64> {
    let text = fs::read_to_string(rt, "/proc/self/statm")?;
    let pages = text.split(' ').nth(1).unwrap_or("0");
    Ok(pages.parse::<u64>().unwrap_or(0).saturating_mul(4096))
}

/// What a version costs that is held while the newest changes at these indices, eight at a time.
fn measure_memory<L: Ledger>(
    rt: &HostRuntime,
    name: &str,
    pages: &mut PageVec<Slot>,
    indices: &Vec<u32>,
    steps: &mut Steps<L>,
) -> io::Result<()> {
    let mut held = Vec::new(rt.alloc());
    let before = resident(rt)?;
    let mut i: u32 = 0;
    for k in indices {
        if i % 8 == 0 {
            held.push(pages.share()?)?;
        }
        i = i.wrapping_add(1);
        if *k < pages.len() {
            pages.set(*k, slot_of(*k), steps)?;
        }
    }
    let bytes = resident(rt)?.saturating_sub(before) / (EDITS as u64);
    println!(rt; "{name} | | {bytes} bytes |")?;
    drop(held);
    Ok(())
}

fn measure_pushes<L: Ledger>(
    rt: &HostRuntime,
    count: u32,
    steps: &mut Steps<L>,
) -> io::Result<(Vec<Slot>, PageVec<Slot>)> {
    let mut least = NONE_YET;
    let mut plain = Vec::new(rt.alloc());
    let mut pages = PageVec::empty(rt.alloc());
    for _i in 0..3u32 {
        plain = Vec::new(rt.alloc());
        let start = now(rt)?;
        push_plain(&mut plain, count)?;
        least.plain = least.plain.min(since(rt, start)?);
        pages = PageVec::empty(rt.alloc());
        let start = now(rt)?;
        push_pages(&mut pages, count, steps)?;
        least.pages = least.pages.min(since(rt, start)?);
    }
    row(rt, "push", least, count)?;
    Ok((plain, pages))
}

fn measure<L: Ledger>(rt: &HostRuntime, count: u32, steps: &mut Steps<L>) -> io::Result<()> {
    println!(rt; "{count} slots | plain array | pages | times")?;
    let (mut plain, mut pages) = measure_pushes(rt, count, steps)?;
    let near = near_indices(rt.alloc(), count, READS)?;
    measure_reads(rt, "read, nearby", &plain, &pages, &near, steps)?;
    let far = far_indices(rt.alloc(), count, READS)?;
    measure_reads(rt, "read, far apart", &plain, &pages, &far, steps)?;
    let starts = far_indices(rt.alloc(), count.saturating_sub(8), EDITS)?;
    let one = rows_of_eight(rt.alloc(), &starts)?;
    let eight = far_indices(rt.alloc(), count, 8 * EDITS)?;
    measure_writes(rt, "edit of 8 in a row, in place", &mut plain, &mut pages, &one, steps)?;
    measure_writes(rt, "edit of 8 far apart, in place", &mut plain, &mut pages, &eight, steps)?;
    measure_shared(rt, "edit of 8 in a row, on a shared version", &mut pages, &one, steps)?;
    measure_shared(rt, "edit of 8 far apart, on a shared version", &mut pages, &eight, steps)?;
    measure_memory(rt, "a version held over an edit of 8 in a row", &mut pages, &one, steps)?;
    measure_memory(rt, "a version held over an edit of 8 far apart", &mut pages, &eight, steps)
}

fn measure_all<L: Ledger>(rt: &HostRuntime, blank: Blank) -> io::Result<()>
    requires name { blank.name ≡ L.name }
    requires parts { blank.parts ≡ L.parts }
    requires writable { 0 < L.parts }
{
    let mut steps = Steps::<L>::new(blank);
    for count in [20_000u32, 200_000, 2_000_000] {
        measure(rt, count, &mut steps)?;
    }
    Ok(())
}

fn main(rt: HostRuntime) -> io::Result<()> {
    measure_all::<Brand>(&rt, Blank::new(1))
}
EOF

cd "$folder/crates/page_bench"
if ! rt run > "$folder/log" 2>&1; then
    tail -40 "$folder/log" >&2
    exit 1
fi
grep '|' "$folder/log"
