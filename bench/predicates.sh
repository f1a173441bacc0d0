#!/usr/bin/env bash
# Prints how many million calls of `orientation` and `is_inside` a second this machine makes, over random places
# and over cocircular ones, and how many of `side` and `in_circle` over corners that are places. The program that
# times them is made in a folder of its own, from the text below over copies of the crates, proved, built and run;
# it stays no longer than the script.
set -eu
top=$(cd "$(dirname "$0")/.." && pwd)
work=$(mktemp -d)
trap 'rm -rf "$work"' EXIT

mkdir -p "$work/crates/predicates_bench/src"
cp -a "$top/crates/ground_model" "$top/crates/predicates" "$work/crates/"
cat > "$work/crates.txt" <<'CRATES'
ground_model:
predicates: ground_model
predicates_bench: ground_model predicates
CRATES

cat > "$work/crates/predicates_bench/src/main.rt" <<'MAIN'
// Times the predicates.
#![tactic(auto)]

mod cases;

use cases::{Four, Three};
use ground_model::Place;
use predicates::{Corner, orientation, side};
use std::alloc::{AllocError, Global};
use std::io;
use std::rt::Runtime;
use std::time::Instant;

const CASES: usize = 65536;

const ROUNDS: usize = 400;

// A congruential generator's next number.
fn next(state: u64) -> u64 {
    state.wrapping_mul(6364136223846793005).wrapping_add(1442695040888963407)
}

// A coordinate from the upper bits.
fn coordinate(state: u64) -> i32 {
    (state >> 34) as i32 - 536_870_912
}

fn random_fours(alloc: Global, seed: u64) -> Result<Vec<Four>, AllocError> {
    let mut fours = Vec::new(alloc);
    let mut s = seed;
    for _ in 0..CASES {
        let mut at = [0i32; 8];
        for x in at.iter_mut() {
            s = next(s);
            *x = coordinate(s);
        }
        let [ae, an, be, bn, ce, cn, de, dn] = at;
        if let Some(four) = cases::make_four(Place::new(ae, an), Place::new(be, bn), Place::new(ce, cn), Place::new(de, dn)) {
            fours.push(four)?;
        }
    }
    Ok(fours)
}

// The corners of rectangles.
fn cocircular_fours(alloc: Global, seed: u64) -> Result<Vec<Four>, AllocError> {
    let mut fours = Vec::new(alloc);
    let mut s = seed;
    for _ in 0..CASES {
        let mut at = [0i32; 4];
        for x in at.iter_mut() {
            s = next(s);
            *x = coordinate(s);
        }
        let [w, e, south, north] = at;
        if let Some(four) = cases::make_four(Place::new(w, south), Place::new(e, south), Place::new(e, north), Place::new(w, north)) {
            fours.push(four)?;
        }
    }
    Ok(fours)
}

fn threes(alloc: Global, fours: &[Four]) -> Result<Vec<Three>, AllocError> {
    let mut found = Vec::new(alloc);
    for f in fours {
        found.push(Three { a: f.a, b: f.c, c: f.d })?;
    }
    Ok(found)
}

// Collinear places.
fn flat_threes(alloc: Global, fours: &[Four]) -> Result<Vec<Three>, AllocError> {
    let mut found = Vec::new(alloc);
    for f in fours {
        found.push(Three { a: f.a, b: f.b, c: f.a })?;
    }
    Ok(found)
}

#[inline(never)]
fn left_turns(threes: &[Three]) -> u64 {
    let mut count: u64 = 0;
    for t in threes {
        count = count.wrapping_add(u64::from(orientation(t.a, t.b, t.c).is_positive()));
    }
    count
}

#[inline(never)]
fn insides(fours: &[Four]) -> u64 {
    let mut count: u64 = 0;
    for f in fours {
        count = count.wrapping_add(u64::from(f.is_inside()));
    }
    count
}

#[inline(never)]
fn left_corners(threes: &[Three]) -> u64 {
    let mut count: u64 = 0;
    for t in threes {
        let sign = side(Corner::At(t.a), Corner::At(t.b), Corner::At(t.c));
        count = count.wrapping_add(u64::from(sign.is_positive()));
    }
    count
}

#[inline(never)]
fn corners_inside(fours: &[Four]) -> u64 {
    let mut count: u64 = 0;
    for f in fours {
        count = count.wrapping_add(u64::from(f.corner_is_inside()));
    }
    count
}

fn time_corners<R: Runtime>(rt: &R, threes: &[Three], fours: &[Four]) -> io::Result<()> {
    let start = Instant::now(rt)?;
    let mut left: u64 = 0;
    let mut calls: u64 = 0;
    for round in 0..ROUNDS {
        if let Some(part) = threes.get(round % 8..) {
            left = left.wrapping_add(left_corners(part));
            calls = calls.wrapping_add(part.len() as u64);
        }
    }
    let micros = start.elapsed(rt)?.as_micros();
    println!(rt; "side, random places: {} million calls a second ({left} of {calls} positive)", u128::from(calls) / micros.max(1))?;
    time_corner_circles(rt, fours)
}

fn time_corner_circles<R: Runtime>(rt: &R, fours: &[Four]) -> io::Result<()> {
    let start = Instant::now(rt)?;
    let mut inside: u64 = 0;
    let mut calls: u64 = 0;
    for round in 0..ROUNDS {
        if let Some(part) = fours.get(round % 8..) {
            inside = inside.wrapping_add(corners_inside(part));
            calls = calls.wrapping_add(part.len() as u64);
        }
    }
    let micros = start.elapsed(rt)?.as_micros();
    println!(rt; "in_circle, random places: {} million calls a second ({inside} of {calls} inside)", u128::from(calls) / micros.max(1))
}

fn time_sides<R: Runtime>(rt: &R, name: &str, threes: &[Three]) -> io::Result<()> {
    let start = Instant::now(rt)?;
    let mut left: u64 = 0;
    let mut calls: u64 = 0;
    for round in 0..ROUNDS {
        if let Some(part) = threes.get(round % 8..) {
            left = left.wrapping_add(left_turns(part));
            calls = calls.wrapping_add(part.len() as u64);
        }
    }
    let micros = start.elapsed(rt)?.as_micros();
    println!(rt; "orientation, {name}: {} million calls a second ({left} of {calls} positive)", u128::from(calls) / micros.max(1))
}

fn time_circles<R: Runtime>(rt: &R, name: &str, fours: &[Four]) -> io::Result<()> {
    let start = Instant::now(rt)?;
    let mut inside: u64 = 0;
    let mut calls: u64 = 0;
    for round in 0..ROUNDS {
        if let Some(part) = fours.get(round % 8..) {
            inside = inside.wrapping_add(insides(part));
            calls = calls.wrapping_add(part.len() as u64);
        }
    }
    let micros = start.elapsed(rt)?.as_micros();
    println!(rt; "is_inside, {name}: {} million calls a second ({inside} of {calls} inside)", u128::from(calls) / micros.max(1))
}

fn main(rt: HostRuntime) -> io::Result<()> {
    let random = random_fours(rt.alloc(), 1)?;
    let cocircular = cocircular_fours(rt.alloc(), 2)?;
    let corners = threes(rt.alloc(), random.as_slice())?;
    let flat = flat_threes(rt.alloc(), random.as_slice())?;
    time_sides(&rt, "random places", corners.as_slice())?;
    time_sides(&rt, "collinear places", flat.as_slice())?;
    time_circles(&rt, "random places", random.as_slice())?;
    time_circles(&rt, "cocircular places", cocircular.as_slice())?;
    time_corners(&rt, corners.as_slice(), random.as_slice())
}
MAIN

cat > "$work/crates/predicates_bench/src/cases.rt" <<'CASES'
// The places of one call.

ghost use Rattle.std.specs.Prelude.{◌≡◌, IsTrue};
ghost use Rattle.ground_model.specs.Side.{is_left};

use ground_model::Place;
use predicates::{Corner, in_circle, is_inside, orientation};

#[derive(Clone, Copy)]
pub struct Three {
    pub a: Place,
    pub b: Place,
    pub c: Place,
}

#[derive(Clone, Copy)]
pub struct Four {
    pub a: Place,
    pub b: Place,
    pub c: Place,
    pub d: Place,
    ghost turns: { IsTrue (is_left a b c) },
}

impl Four {
    #[inline(always)]
    pub fn is_inside(&self) -> bool {
        is_inside(self.a, self.b, self.c, self.d)
    }

    #[inline(always)]
    pub fn corner_is_inside(&self) -> bool {
        in_circle(Corner::At(self.a), Corner::At(self.b), Corner::At(self.c), Corner::At(self.d))
    }
}

fn turns_left(a: Place, b: Place, c: Place) -> bool
    ensures { result ≡ is_left a b c }
{
    orientation(a, b, c).is_positive()
}

// The four, the first three counterclockwise, where these are not collinear.
pub fn make_four(a: Option<Place>, b: Option<Place>, c: Option<Place>, d: Option<Place>) -> Option<Four> {
    let (a, b, c, d) = (a?, b?, c?, d?);
    if turns_left(a, b, c) {
        Some(Four { a, b, c, d })
    } else if turns_left(a, c, b) {
        Some(Four { a, b: c, c: b, d })
    } else {
        None
    }
}
CASES

cd "$work/crates/predicates_bench"
rt fmt > /dev/null
rt run 2> "$work/log" || { cat "$work/log" >&2; exit 1; }
