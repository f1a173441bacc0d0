#!/usr/bin/env bash
# Prints what the calls of a persistent ordered index cost beside those of std's ordered map, in the same
# run: for 10,000, 100,000 and 1,000,000 keys, in random order and in rows, in processor time of the
# thread, the least of several rounds. Wants `rt` and some minutes, most of them for the proofs.
#
#   bench/page_index.sh [FOLDER]     FOLDER keeps the work for another run; without it a temporary one is used
set -euo pipefail
cd "$(dirname "$0")/.."
folder=${1:-}
if [ -z "$folder" ]; then
    folder=$(mktemp -d)
    trap 'rm -rf "$folder"' EXIT
fi
mkdir -p "$folder/crates/index_bench/src" "$folder/crates/page_index"
for part in src specs proofs; do
    rm -rf "$folder/crates/page_index/$part"
    cp -r "crates/page_index/$part" "$folder/crates/page_index/$part"
done
printf 'page_index:\nindex_bench: page_index\n' > "$folder/crates.txt"

cat > "$folder/crates/index_bench/src/main.rt" <<'EOF'
//! What the calls of a persistent ordered index cost beside those of std's ordered map.
#![tactic(auto)]

use page_index::PageIndex;
use std::alloc::{AllocError, Global};
use std::collections::BTreeMap;
use std::fs;
use std::io;
use std::rt::CpuClock;

const ROUNDS: u32 = 5;

const EDITS: u32 = 2_000;

const LIMIT: u32 = 16_777_216;

/// The least time of a round, of the map and of the index.
#[derive(Clone, Copy)]
struct Least {
    map: u64,
    index: u64,
}

const NONE_YET: Least = Least {
    map: u64::MAX,
    index: u64::MAX,
};

fn next(x: u64) -> u64 {
    x.wrapping_mul(6364136223846793005)
        .wrapping_add(1442695040888963407)
}

/// Codes of places in a square, in random order.
fn random_keys(alloc: Global, count: u32) -> Result<Vec<u64>, AllocError> {
    let mut x: u64 = 88172645463325252;
    let mut keys = Vec::new(alloc);
    for _i in 0..count {
        x = next(x);
        keys.push(x >> 8)?;
    }
    Ok(keys)
}

/// Codes of the places of a grid, row by row.
fn keys_in_rows(alloc: Global, count: u32) -> Result<Vec<u64>, AllocError> {
    let mut keys = Vec::new(alloc);
    for i in 0..count {
        let n = (i / 1000) as u64;
        let e = (i % 1000) as u64;
        keys.push((n << 30) + (e << 3))?;
    }
    Ok(keys)
}

fn now(rt: &HostRuntime) -> io::Result<u64> {
    Ok(u64::try_from(rt.thread_cpu_time()?.as_nanos()).unwrap_or(u64::MAX))
}

fn since(rt: &HostRuntime, start: u64) -> io::Result<u64> {
    Ok(now(rt)?.saturating_sub(start))
}

/// A tenth of a nanosecond of each of `count` parts.
fn tenths(ns: u64, count: u32) -> u64 {
    if count == 0 {
        0
    } else {
        ns.saturating_mul(10) / (count as u64)
    }
}

fn row(rt: &HostRuntime, name: &str, least: Least, count: u32) -> io::Result<()> {
    let map = tenths(least.map, count);
    let index = tenths(least.index, count);
    let ratio = if map == 0 { 0 } else { index.saturating_mul(10) / map };
    println!(rt; "{name} | {}.{} ns | {}.{} ns | {}.{}", map / 10, map % 10, index / 10, index % 10, ratio / 10, ratio % 10)?;
    Ok(())
}

fn fill_map(map: &mut BTreeMap<u64, u32>, keys: &Vec<u64>) -> Result<(), AllocError> {
    for key in keys {
        match map.insert(*key, 1) {
            Ok(_) => {}
            Err(_) => return Err(AllocError),
        }
    }
    Ok(())
}

fn fill_index(index: &mut PageIndex<u32>, keys: &Vec<u64>) -> Result<(), AllocError> {
    for key in keys {
        if index.len() < LIMIT {
            index.set(*key, 1)?;
        }
    }
    Ok(())
}

fn read_map(map: &BTreeMap<u64, u32>, keys: &Vec<u64>) -> u32 {
    let mut sum: u32 = 0;
    for key in keys {
        sum = sum.wrapping_add(map.get(key).copied().unwrap_or(0));
    }
    sum
}

fn read_index(index: &PageIndex<u32>, keys: &Vec<u64>) -> u32 {
    let mut sum: u32 = 0;
    for key in keys {
        sum = sum.wrapping_add(index.get(*key).copied().unwrap_or(0));
    }
    sum
}

fn next_of_map(map: &BTreeMap<u64, u32>, keys: &Vec<u64>) -> u64 {
    let mut sum: u64 = 0;
    for key in keys {
        match map.range(key.wrapping_add(1)..).next() {
            Some((found, _)) => sum = sum.wrapping_add(*found),
            None => {}
        }
    }
    sum
}

fn next_of_index(index: &PageIndex<u32>, keys: &Vec<u64>) -> u64 {
    let mut sum: u64 = 0;
    for key in keys {
        match index.next(key.wrapping_add(1)) {
            Some((found, _)) => sum = sum.wrapping_add(*found),
            None => {}
        }
    }
    sum
}

fn walk_map(map: &BTreeMap<u64, u32>) -> u64 {
    let mut sum: u64 = 0;
    for (key, value) in map {
        sum = sum.wrapping_add(*key).wrapping_add(*value as u64);
    }
    sum
}

fn add_pairs(pairs: &[(u64, u32)]) -> u64 {
    let mut sum: u64 = 0;
    for pair in pairs {
        sum = sum.wrapping_add(pair.0).wrapping_add(pair.1 as u64);
    }
    sum
}

fn walk_index(index: &PageIndex<u32>) -> u64 {
    let mut sum: u64 = 0;
    let mut from: u64 = 0;
    for _i in 0..index.len() {
        let run = index.run(from);
        match run.last() {
            Some(last) => {
                sum = sum.wrapping_add(add_pairs(run));
                from = last.0.wrapping_add(1);
            }
            None => return sum,
        }
    }
    sum
}

fn ranks_of_index(index: &PageIndex<u32>, count: u32) -> u64 {
    let mut sum: u64 = 0;
    let mut x: u64 = 5;
    for _i in 0..count {
        x = next(x);
        match index.at(((x >> 33) % (count.max(1) as u64)) as u32) {
            Some((key, _)) => sum = sum.wrapping_add(*key),
            None => {}
        }
    }
    sum
}

/// Each edit is made on a version that is shared before it.
fn set_shared(index: &mut PageIndex<u32>, keys: &Vec<u64>) -> Result<(), AllocError> {
    let mut left = EDITS;
    for key in keys {
        if left == 0 {
            return Ok(());
        }
        left -= 1;
        let held = index.share()?;
        if index.len() < LIMIT {
            index.set(*key, 2)?;
        }
        drop(held);
    }
    Ok(())
}

fn empty_map(map: &mut BTreeMap<u64, u32>, keys: &Vec<u64>) {
    for key in keys {
        map.remove(key);
    }
}

fn empty_index(index: &mut PageIndex<u32>, keys: &Vec<u64>) -> Result<(), AllocError> {
    for key in keys {
        index.remove(*key)?;
    }
    Ok(())
}

/// The bytes that the process has in memory.
fn resident(rt: &HostRuntime) -> io::Result<u64> {
    let text = fs::read_to_string(rt, "/proc/self/statm")?;
    let pages = text.split(' ').nth(1).unwrap_or("0");
    Ok(pages.parse::<u64>().unwrap_or(0).saturating_mul(4096))
}

fn measure_reads(rt: &HostRuntime, map: &BTreeMap<u64, u32>, index: &PageIndex<u32>, keys: &Vec<u64>, count: u32) -> io::Result<()> {
    let mut get = NONE_YET;
    let mut above = NONE_YET;
    let mut walk = NONE_YET;
    let mut rank = NONE_YET;
    let mut agree = true;
    for _i in 0..ROUNDS {
        let start = now(rt)?;
        let wanted = read_map(map, keys);
        get.map = get.map.min(since(rt, start)?);
        let start = now(rt)?;
        let found = read_index(index, keys);
        get.index = get.index.min(since(rt, start)?);
        agree = agree && wanted == found;
        let start = now(rt)?;
        let wanted = next_of_map(map, keys);
        above.map = above.map.min(since(rt, start)?);
        let start = now(rt)?;
        let found = next_of_index(index, keys);
        above.index = above.index.min(since(rt, start)?);
        agree = agree && wanted == found;
        let start = now(rt)?;
        let wanted = walk_map(map);
        walk.map = walk.map.min(since(rt, start)?);
        let start = now(rt)?;
        let found = walk_index(index);
        walk.index = walk.index.min(since(rt, start)?);
        agree = agree && wanted == found;
        let start = now(rt)?;
        agree = agree && ranks_of_index(index, count) != 1;
        rank.index = rank.index.min(since(rt, start)?);
    }
    if !agree {
        println!(rt; "the reads differ")?;
    }
    row(rt, "get", get, count)?;
    row(rt, "next", above, count)?;
    row(rt, "a whole walk, a key", walk, count)?;
    rank.map = 0;
    row(rt, "at (the map has none)", rank, count)
}

fn measure_keys(rt: &HostRuntime, name: &str, keys: &Vec<u64>, count: u32) -> io::Result<()> {
    println!(rt; "{count} keys {name} | std's map | index | times")?;
    let mut set = NONE_YET;
    let before = resident(rt)?;
    let mut index = PageIndex::empty(rt.alloc());
    let start = now(rt)?;
    fill_index(&mut index, keys)?;
    set.index = since(rt, start)?;
    let between = resident(rt)?;
    let mut map = BTreeMap::new(rt.alloc());
    let start = now(rt)?;
    fill_map(&mut map, keys)?;
    set.map = since(rt, start)?;
    let after = resident(rt)?;
    row(rt, "set, unshared", set, count)?;
    measure_reads(rt, &map, &index, keys, count)?;
    let start = now(rt)?;
    set_shared(&mut index, keys)?;
    row(rt, "set, on a shared version", Least { map: 0, index: since(rt, start)? }, EDITS)?;
    let mut taken = NONE_YET;
    let start = now(rt)?;
    empty_map(&mut map, keys);
    taken.map = since(rt, start)?;
    let start = now(rt)?;
    empty_index(&mut index, keys)?;
    taken.index = since(rt, start)?;
    row(rt, "remove", taken, count)?;
    let count = (count as u64).max(1);
    println!(rt; "bytes a key | {} | {} |", after.saturating_sub(between) / count, between.saturating_sub(before) / count)?;
    Ok(())
}

fn main(rt: HostRuntime) -> io::Result<()> {
    for count in [10_000u32, 100_000, 1_000_000] {
        let random = random_keys(rt.alloc(), count)?;
        measure_keys(&rt, "in random order", &random, count)?;
        let rows = keys_in_rows(rt.alloc(), count)?;
        measure_keys(&rt, "in rows", &rows, count)?;
    }
    Ok(())
}
EOF

cd "$folder/crates/index_bench"
if ! rt run > "$folder/log" 2>&1; then
    tail -40 "$folder/log" >&2
    exit 1
fi
grep '|' "$folder/log"
