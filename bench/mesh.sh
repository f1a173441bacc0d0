#!/usr/bin/env bash
# Prints what it costs to insert points one by one into a mesh by `locate`, `split` and `legalize` alone, in processor
# time and memory, beside CGAL's constrained Delaunay triangulation with exact predicates over the same points in the
# same order, in the same run: random points along a space-filling curve and in random order with a grid of hints, an
# exact grid along the curve, and one point a version. Then what it costs to take points out again: every tenth of
# random points, and every tenth row of a grid. Ours looks for each point from the last one and asks whether it can be
# taken out; CGAL is handed its vertices. Wants `rt`, and for CGAL g++ and Debian's libcgal-dev, without which its
# columns stay empty.
#
#   bench/mesh.sh [FOLDER]     FOLDER keeps the work for another run; without it a temporary one is used
set -euo pipefail
cd "$(dirname "$0")/.."
folder=${1:-}
if [ -z "$folder" ]; then
    folder=$(mktemp -d)
    trap 'rm -rf "$folder"' EXIT
fi
mkdir -p "$folder/crates/mesh_bench/src"
for crate in ground_model page_vec tri_pages predicates cdt_law mesh locate point_edit; do
    mkdir -p "$folder/crates/$crate"
    for part in src specs proofs; do
        rm -rf "$folder/crates/$crate/$part"
        cp -r "crates/$crate/$part" "$folder/crates/$crate/$part"
    done
done
cat > "$folder/crates.txt" <<'EOF'
ground_model:
page_vec:
tri_pages: ground_model page_vec
predicates: ground_model
cdt_law: ground_model predicates
mesh: ground_model page_vec tri_pages smallvec predicates cdt_law
locate: ground_model tri_pages predicates mesh
point_edit: ground_model tri_pages predicates cdt_law mesh locate
mesh_bench: ground_model tri_pages predicates mesh locate point_edit
EOF

cat > "$folder/crates/mesh_bench/src/main.rt" <<'EOF'
//! Inserts points into a mesh, one by one, and prints the processor time.
#![tactic(auto)]

mod grow;
mod points;
mod thin;

use grow::{grow, grow_by_grid, grow_shared, grown};
use points::{along_curve, grid_points, random_points, rows_of, tenths_of};
use thin::thin;
use ground_model::Place;
use std::env;
use std::io;
use std::rt::CpuClock;

// The processor time of this thread, in microseconds.
fn now(rt: &HostRuntime) -> io::Result<u64> {
    Ok(u64::try_from(rt.thread_cpu_time()?.as_micros()).unwrap_or(u64::MAX))
}

// The points of a way of inserting them, in their order.
fn points_of(rt: &HostRuntime, way: &str, count: u32) -> io::Result<Vec<Place>> {
    if way == "grid" || way == "rows" {
        let points = grid_points(rt.alloc(), count)?;
        return Ok(along_curve(rt.alloc(), &points)?);
    }
    let points = random_points(rt.alloc(), count)?;
    if way == "random" {
        return Ok(points);
    }
    Ok(along_curve(rt.alloc(), &points)?)
}

// Takes a tenth of the points out of the mesh of all.
fn run_thin(rt: &HostRuntime, way: &str, count: u32) -> io::Result<()> {
    let points = points_of(rt, way, count)?;
    let chosen = if way == "rows" {
        rows_of(rt.alloc(), &points)?
    } else {
        tenths_of(rt.alloc(), &points)?
    };
    let (spent, slots) = thinned(rt, &points, &chosen)?;
    println!(rt; "{spent} {slots}")?;
    Ok(())
}

fn thinned(rt: &HostRuntime, points: &[Place], chosen: &[Place]) -> io::Result<(u64, u32)> {
    let mut mesh = grown(rt.alloc(), points)?;
    let start = now(rt)?;
    thin(rt.alloc(), &mut mesh, chosen)?;
    let spent = now(rt)?.saturating_sub(start);
    Ok((spent, mesh.pages().len()))
}

fn run(rt: &HostRuntime, way: &str, count: u32) -> io::Result<()> {
    if way == "tenths" || way == "rows" {
        return run_thin(rt, way, count);
    }
    let points = points_of(rt, way, count)?;
    let start = now(rt)?;
    let slots = if way == "random" {
        grow_by_grid(rt.alloc(), &points)?
    } else if way == "shared" {
        grow_shared(rt.alloc(), &points)?
    } else {
        grow(rt.alloc(), &points)?
    };
    let spent = now(rt)?.saturating_sub(start);
    println!(rt; "{spent} {slots}")?;
    Ok(())
}

fn main(rt: HostRuntime) -> io::Result<()> {
    let mut way = String::new(rt.alloc());
    let mut count: u32 = 0;
    for word in env::args(&rt)?.skip(1) {
        match word.parse::<u32>() {
            Ok(number) => count = number,
            Err(_) => way = word,
        }
    }
    run(&rt, &way, count)
}
EOF

cat > "$folder/crates/mesh_bench/src/points.rt" <<'EOF'
//! Points, and their order along a curve.

use ground_model::Place;
use std::alloc::{AllocError, Global};

const HALF: i32 = 536_870_912;

const CELL_BITS: u32 = 20;

const CELL_MASK: u32 = 1_048_575;

fn next(state: u64) -> u64 {
    state.wrapping_mul(6364136223846793005).wrapping_add(1442695040888963407)
}

fn coordinate(state: u64) -> i32 {
    (state >> 34) as i32 - HALF
}

pub fn random_points(alloc: Global, count: u32) -> Result<Vec<Place>, AllocError> {
    let mut points = Vec::new(alloc);
    let mut state: u64 = 88172645463325252;
    for _ in 0..count {
        state = next(state);
        let e = coordinate(state);
        state = next(state);
        let n = coordinate(state);
        if let Some(p) = Place::new(e, n) {
            points.push(p)?;
        }
    }
    Ok(points)
}

// The first points of a grid of 1,000 by 1,000, 1,000 apart.
pub fn grid_points(alloc: Global, count: u32) -> Result<Vec<Place>, AllocError> {
    let mut points = Vec::new(alloc);
    for k in 0..count.min(1_000_000) {
        let e = (k / 1_000) as i32;
        let n = (k % 1_000) as i32;
        if let Some(p) = Place::new(e.wrapping_mul(1_000), n.wrapping_mul(1_000)) {
            points.push(p)?;
        }
    }
    Ok(points)
}

// Every tenth of the points.
pub fn tenths_of(alloc: Global, points: &[Place]) -> Result<Vec<Place>, AllocError> {
    let mut found = Vec::new(alloc);
    let mut k: u32 = 0;
    for p in points {
        if k % 10 == 0 {
            found.push(*p)?;
        }
        k = k.wrapping_add(1);
    }
    Ok(found)
}

// The points of every tenth row of the grid.
pub fn rows_of(alloc: Global, points: &[Place]) -> Result<Vec<Place>, AllocError> {
    let mut found = Vec::new(alloc);
    for p in points {
        if p.n() % 10_000 == 0 {
            found.push(*p)?;
        }
    }
    Ok(found)
}

// The cell of a coordinate, of 2^20.
fn cell(x: i32) -> u32 {
    u32::try_from(x.wrapping_add(HALF)).unwrap_or(0) >> 10
}

// How far along the Hilbert curve a cell is.
fn along(east: u32, north: u32) -> u64 {
    let mut x = east;
    let mut y = north;
    let mut distance: u64 = 0;
    for k in 0..CELL_BITS {
        let bit = 19u32.wrapping_sub(k) & 31;
        let right = (x >> bit) & 1;
        let up = (y >> bit) & 1;
        let quarter = right.wrapping_mul(3) ^ up;
        distance = distance.wrapping_mul(4).wrapping_add(quarter as u64);
        if up == 0 {
            if right == 1 {
                x = CELL_MASK ^ x;
                y = CELL_MASK ^ y;
            }
            let old = x;
            x = y;
            y = old;
        }
    }
    distance
}

pub fn along_curve(alloc: Global, points: &[Place]) -> Result<Vec<Place>, AllocError> {
    let mut keys: Vec<u64> = Vec::new(alloc);
    let mut index: u64 = 0;
    for p in points {
        let distance = along(cell(p.e()), cell(p.n()));
        keys.push(distance.wrapping_mul(1_048_576).wrapping_add(index))?;
        index = index.wrapping_add(1);
    }
    keys.sort_unstable();
    let mut found = Vec::new(alloc);
    for key in &keys {
        if let Some(p) = points.get((*key & 1_048_575) as usize) {
            found.push(*p)?;
        }
    }
    Ok(found)
}
EOF

cat > "$folder/crates/mesh_bench/src/grow.rt" <<'EOF'
//! Meshes that grow point by point.

ghost use Rattle.std.specs.Prelude.{IfOk, OnOk};
ghost use Rattle.predicates.specs.Sheet.{IsLocallyDelaunay};
ghost use Rattle.mesh.specs.Sheets.{IsSheetMesh, net_in};
ghost use Rattle.mesh.specs.Suspects.{KeepsSuspects};

use ground_model::Place;
use locate::{Spot, locate};
use mesh::{Mesh, Script};
use std::alloc::{AllocError, Global};

const CELLS: u32 = 256;

// Splits where the place lies, and answers a slot at it.
fn split_at(mesh: &mut Mesh, place: Place, hint: u32, script: &mut Script) -> Result<u32, AllocError>
    requires { IsSheetMesh mesh.old.slots }
    ensures sheet { OnOk result (IsSheetMesh mesh.new.slots) }
    ensures suspects { OnOk result (KeepsSuspects mesh.old.slots mesh.new.slots script.old script.new) }
{
    match locate(mesh, place, hint) {
        Spot::Inside(slot) => {
            mesh.split(slot, place, script)?;
            Ok(slot)
        }
        Spot::OnEdge(slot, edge) => {
            mesh.split_edge(slot, edge, place, script)?;
            Ok(slot)
        }
        Spot::Corner(slot, _) => Ok(slot),
    }
}

fn insert(mesh: &mut Mesh, place: Place, hint: u32, alloc: Global) -> Result<u32, AllocError>
    requires sheet { IsSheetMesh mesh.old.slots }
    requires local { IsLocallyDelaunay (net_in mesh.old.slots) }
    ensures sheet { OnOk result (IsSheetMesh mesh.new.slots) }
    ensures local { OnOk result (IsLocallyDelaunay (net_in mesh.new.slots)) }
{
    let mut script = Script::new(alloc);
    let slot = split_at(mesh, place, hint, &mut script)?;
    mesh.legalize(&mut script)?;
    Ok(slot)
}

// Each walk begins where the last point was inserted.
pub fn grown(alloc: Global, points: &[Place]) -> Result<Mesh, AllocError>
    ensures sheet { IfOk result (λ mesh. IsSheetMesh mesh.slots) }
    ensures local { IfOk result (λ mesh. IsLocallyDelaunay (net_in mesh.slots)) }
{
    let mut mesh = Mesh::empty(alloc)?;
    let mut hint = 0;
    for p in points {
        hint = insert(&mut mesh, *p, hint, alloc)?;
    }
    Ok(mesh)
}

// How many slots the mesh has then.
pub fn grow(alloc: Global, points: &[Place]) -> Result<u32, AllocError> {
    let mesh = grown(alloc, points)?;
    Ok(mesh.pages().len())
}

// The cell of a place in a grid of 256 by 256.
fn cell(place: Place) -> u32 {
    let e = (place.e().wrapping_add(536_870_912) as u32) >> 22;
    let n = (place.n().wrapping_add(536_870_912) as u32) >> 22;
    (e & 255).wrapping_mul(256).wrapping_add(n & 255)
}

fn hint_at(hints: &[u32], k: u32, last: u32) -> u32 {
    match hints.get(k as usize) {
        Some(hint) => {
            if *hint == u32::MAX { last } else { *hint }
        }
        None => last,
    }
}

fn set_hint(hints: &mut Vec<u32>, k: u32, slot: u32) {
    if let Some(hint) = hints.get_mut(k as usize) {
        *hint = slot;
    }
}

// Each walk begins at the last point of the place's cell of a grid.
pub fn grow_by_grid(alloc: Global, points: &[Place]) -> Result<u32, AllocError> {
    let mut mesh = Mesh::empty(alloc)?;
    let mut hints: Vec<u32> = Vec::new(alloc);
    for _ in 0..CELLS * CELLS {
        hints.push(u32::MAX)?;
    }
    let mut last = 0;
    for p in points {
        let k = cell(*p);
        last = insert(&mut mesh, *p, hint_at(&hints, k, last), alloc)?;
        set_hint(&mut hints, k, last);
    }
    Ok(mesh.pages().len())
}

// One point a version: the version before is held while the next is made.
pub fn grow_shared(alloc: Global, points: &[Place]) -> Result<u32, AllocError> {
    let mut mesh = Mesh::empty(alloc)?;
    let mut held = mesh.share()?;
    let mut hint = 0;
    for p in points {
        held = mesh.share()?;
        hint = insert(&mut mesh, *p, hint, alloc)?;
    }
    drop(held);
    Ok(mesh.pages().len())
}
EOF

cat > "$folder/crates/mesh_bench/src/thin.rt" <<'EOF'
//! Points are taken out of a mesh.

ghost use Rattle.std.specs.Prelude.{OnOk};
ghost use Rattle.predicates.specs.Sheet.{IsLocallyDelaunay};
ghost use Rattle.mesh.specs.Sheets.{IsSheetMesh, net_in};
ghost use Rattle.point_edit.specs.Removals.{IsLivePoint};

use ground_model::Place;
use locate::{Spot, locate};
use mesh::{Mesh, PointId, Script};
use point_edit::{is_removable, number_of, remove_point};
use std::alloc::{AllocError, Global};

// The slot that a script names last.
fn last_of(script: &Script, slot: u32) -> u32 {
    match script.get(script.len().wrapping_sub(1)) {
        Some(last) => *last,
        None => slot,
    }
}

fn remove_at(mesh: &mut Mesh, point: PointId, slot: u32, alloc: Global) -> Result<u32, AllocError>
    requires sheet { IsSheetMesh mesh.old.slots }
    requires local { IsLocallyDelaunay (net_in mesh.old.slots) }
    requires live { IsLivePoint mesh.old.slots point.0 }
    ensures sheet { OnOk result (IsSheetMesh mesh.new.slots) }
    ensures local { OnOk result (IsLocallyDelaunay (net_in mesh.new.slots)) }
{
    if !is_removable(mesh, point) {
        return Ok(slot);
    }
    let script = remove_point(alloc, mesh, point)?;
    Ok(last_of(&script, slot))
}

fn remove(mesh: &mut Mesh, place: Place, hint: u32, alloc: Global) -> Result<u32, AllocError>
    requires sheet { IsSheetMesh mesh.old.slots }
    requires local { IsLocallyDelaunay (net_in mesh.old.slots) }
    ensures sheet { OnOk result (IsSheetMesh mesh.new.slots) }
    ensures local { OnOk result (IsLocallyDelaunay (net_in mesh.new.slots)) }
{
    match locate(mesh, place, hint) {
        Spot::Corner(slot, corner) => {
            let point = number_of(mesh, slot, corner, place);
            remove_at(mesh, point, slot, alloc)
        }
        Spot::Inside(slot) => Ok(slot),
        Spot::OnEdge(slot, _) => Ok(slot),
    }
}

// Each walk begins where the last point was taken out.
pub fn thin(alloc: Global, mesh: &mut Mesh, points: &[Place]) -> Result<(), AllocError>
    requires sheet { IsSheetMesh mesh.old.slots }
    requires local { IsLocallyDelaunay (net_in mesh.old.slots) }
{
    let mut hint = 0;
    for p in points {
        hint = remove(mesh, *p, hint, alloc)?;
    }
    Ok(())
}
EOF

proofs=$folder/crates/mesh_bench/proofs/grow
mkdir -p "$proofs/insert"
cat > "$proofs/insert/Answers.antt" <<'EOF'
use Rattle.std.proofs.Common.{inl}
use Rattle.mesh.proofs.DelaunayNets.{delaunay_legal}
use Rattle.mesh_bench.proofs.grow.insert.Goals as goal

pub legalize-requires-clause-suspects : goal.legalize-requires-clause-suspects
legalize-requires-clause-suspects c = c.in_ok-slot.ensures.suspects (λ s k n x. inl (delaunay_legal c.args.mesh.now.slots c.requires.sheet c.requires.local s k n x))
EOF
for way in grown grow_by_grid grow_shared; do
    mkdir -p "$proofs/$way"
    cat > "$proofs/$way/Invariants.antt" <<EOF
use Rattle.predicates.specs.Sheet.{IsLocallyDelaunay}
use Rattle.mesh.specs.Sheets.{IsSheetMesh, net_in}
use Rattle.mesh_bench.proofs.grow.$way.Given as goal

abbrev pub invariant-loop-p : goal.invariant-loop-p
invariant-loop-p l = IsSheetMesh l.mesh.slots × IsLocallyDelaunay (net_in l.mesh.slots)
EOF
done

mkdir -p "$folder/crates/mesh_bench/proofs/thin/thin"
cat > "$folder/crates/mesh_bench/proofs/thin/thin/Invariants.antt" <<'EOF'
use Rattle.predicates.specs.Sheet.{IsLocallyDelaunay}
use Rattle.mesh.specs.Sheets.{IsSheetMesh, net_in}
use Rattle.mesh_bench.proofs.thin.thin.Given as goal

abbrev pub invariant-loop-p : goal.invariant-loop-p
invariant-loop-p l = IsSheetMesh l.mesh.slots × IsLocallyDelaunay (net_in l.mesh.slots)
EOF

cat > "$folder/peer.cpp" <<'EOF'
// Inserts the same points one by one into CGAL's constrained Delaunay triangulation, or takes the same ones out of it,
// and prints the processor time.
#include <CGAL/Constrained_Delaunay_triangulation_2.h>
#include <CGAL/Exact_predicates_inexact_constructions_kernel.h>
#include <algorithm>
#include <cstdint>
#include <cstdio>
#include <cstdlib>
#include <ctime>
#include <string>
#include <vector>

typedef CGAL::Exact_predicates_inexact_constructions_kernel Kernel;
typedef CGAL::Constrained_Delaunay_triangulation_2<Kernel> Triangulation;
struct Place { int32_t e, n; };

static const int32_t HALF = 536870912;

static uint64_t next(uint64_t state) { return state * 6364136223846793005ull + 1442695040888963407ull; }
static int32_t coordinate(uint64_t state) { return (int32_t)(state >> 34) - HALF; }
static uint32_t cell(int32_t x) { return (uint32_t)(x + HALF) >> 10; }

static uint64_t along(uint32_t x, uint32_t y) {
    uint64_t distance = 0;
    for (int bit = 19; bit >= 0; bit--) {
        const uint32_t right = (x >> bit) & 1, up = (y >> bit) & 1;
        distance = distance * 4 + ((right * 3) ^ up);
        if (up == 0) {
            if (right == 1) { x ^= 1048575; y ^= 1048575; }
            std::swap(x, y);
        }
    }
    return distance;
}

static std::vector<Place> points_of(const std::string& way, uint32_t count) {
    std::vector<Place> points;
    if (way == "grid" || way == "rows") {
        for (int32_t e = 0; e < 1000; e++)
            for (int32_t n = 0; n < 1000; n++)
                if ((uint32_t)(e * 1000 + n) < count) points.push_back({ e * 1000, n * 1000 });
    } else {
        uint64_t state = 88172645463325252ull;
        for (uint32_t k = 0; k < count; k++) {
            state = next(state);
            const int32_t e = coordinate(state);
            state = next(state);
            points.push_back({ e, coordinate(state) });
        }
    }
    if (way == "random") return points;
    std::vector<uint64_t> keys;
    for (uint64_t k = 0; k < points.size(); k++) keys.push_back(along(cell(points[k].e), cell(points[k].n)) * 1048576 + k);
    std::sort(keys.begin(), keys.end());
    std::vector<Place> sorted;
    for (uint64_t key : keys) sorted.push_back(points[key & 1048575]);
    return sorted;
}

static double now() { timespec t; clock_gettime(CLOCK_PROCESS_CPUTIME_ID, &t); return t.tv_sec * 1e6 + t.tv_nsec / 1e3; }

static int thin(const std::string& way, const std::vector<Place>& points) {
    Triangulation mesh;
    Triangulation::Vertex_handle last;
    std::vector<Triangulation::Vertex_handle> chosen;
    for (size_t k = 0; k < points.size(); k++) {
        const Place& p = points[k];
        last = mesh.insert(Kernel::Point_2(p.e, p.n), last == Triangulation::Vertex_handle() ? Triangulation::Face_handle() : last->face());
        if (way == "rows" ? p.n % 10000 == 0 : k % 10 == 0) chosen.push_back(last);
    }
    const double start = now();
    for (auto vertex : chosen) mesh.remove(vertex);
    printf("%.0f %zu\n", now() - start, (size_t)mesh.number_of_faces());
    return 0;
}

int main(int, char** words) {
    const std::string way = words[1];
    const std::vector<Place> points = points_of(way, (uint32_t)atoi(words[2]));
    if (way == "tenths" || way == "rows") return thin(way, points);
    std::vector<Triangulation::Vertex_handle> hints(65536);
    const double start = now();
    Triangulation mesh;
    Triangulation::Vertex_handle last;
    for (const Place& p : points) {
        size_t k = 0;
        Triangulation::Vertex_handle near = last;
        if (way == "random") {
            k = ((uint32_t)(p.e + HALF) >> 22) * 256 + ((uint32_t)(p.n + HALF) >> 22);
            if (hints[k] != Triangulation::Vertex_handle()) near = hints[k];
        }
        const auto face = near == Triangulation::Vertex_handle() ? Triangulation::Face_handle() : near->face();
        last = mesh.insert(Kernel::Point_2(p.e, p.n), face);
        hints[k] = last;
    }
    printf("%.0f %zu\n", now() - start, (size_t)mesh.number_of_faces());
}
EOF

peer=
if g++ -O2 -o "$folder/peer" "$folder/peer.cpp" -lgmp > "$folder/peer.log" 2>&1; then
    peer=$folder/peer
else
    echo "CGAL's columns stay empty: g++ and libcgal-dev are not here" >&2
fi
(
    cd "$folder/crates/mesh_bench"
    rt run -- curve 10 > "$folder/log" 2>&1 || { tail -40 "$folder/log" >&2; exit 1; }
)
ours=$folder/crates/mesh_bench/out/mesh_bench
[ -x "$ours" ] || ours=$(find "$folder/crates/mesh_bench/out" -type f -name mesh_bench -perm -u+x | head -1)

python3 - "$ours" "$peer" <<'EOF'
# Each case is run three times in turn by both, and the least time counts.
# MESH_BENCH_ONLY has the ways to run, all without it.
import os
import sys

def run(program, way, count):
    read, write = os.pipe()
    child = os.fork()
    if child == 0:
        os.dup2(write, 1)
        os.execv(program, [program, way, str(count)])
    os.close(write)
    with os.fdopen(read) as pipe:
        text = pipe.read()
    _, status, usage = os.wait4(child, 0)
    if status != 0 or not text.split():
        sys.exit("%s failed over %s %d" % (program, way, count))
    return float(text.split()[0]) / (count // 10 if way in THINNED else count), usage.ru_maxrss / 1024

THINNED = ("tenths", "rows")
CASES = [("curve", 10_000), ("curve", 100_000), ("curve", 1_000_000), ("random", 10_000), ("random", 100_000),
         ("random", 1_000_000), ("grid", 1_000_000), ("shared", 10_000), ("shared", 100_000), ("shared", 1_000_000), ("tenths", 100_000), ("rows", 100_000)]

ours, peer = sys.argv[1:3]
print("| order | points | a point, in microseconds | CGAL | ratio | memory, in megabytes | CGAL |")
print("|---|---|---|---|---|---|---|")
only = os.environ.get("MESH_BENCH_ONLY", "").split()
for way, count in CASES:
    if only and way not in only:
        continue
    other = "curve" if way == "shared" else way
    rounds = [(run(ours, way, count), run(peer, other, count) if peer else None) for _ in range(3)]
    time, memory = min(mine for mine, _ in rounds)
    row = [way, "{:,}".format(count), "%.2f" % time, "", "", "%.0f" % memory, ""]
    if peer:
        their_time, their_memory = min(their for _, their in rounds)
        row[3], row[4], row[6] = "%.2f" % their_time, "%.1f" % (time / their_time), "%.0f" % their_memory
    print("| " + " | ".join(row) + " |", flush=True)
EOF
