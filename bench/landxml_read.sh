#!/usr/bin/env bash
# Prints the processor time and the peak of memory of reading documents of 100,000 and 1,000,000 points beside those of
# `xmllint --stream --noout` on the same files, in the same run: of five rounds the least, for one run. The documents are made
# here from a seed: survey points, about twice as many faces, and ten breaklines. A reader is fed pieces of 64 KiB.
# Wants `rt`, `xmllint` (of libxml2-utils), GNU time and some minutes, most of them for the proofs.
#
#   bench/landxml_read.sh [FOLDER]     FOLDER keeps the work for another run; without it a temporary one is used
set -euo pipefail
cd "$(dirname "$0")/.."
folder=${1:-}
if [ -z "$folder" ]; then
    folder=$(mktemp -d)
    trap 'rm -rf "$folder"' EXIT
fi
mkdir -p "$folder/crates/read_bench/src" "$folder/crates/read_bench/proofs/read_all"
for crate in ground_num landxml_read; do
    mkdir -p "$folder/crates/$crate"
    for part in src specs proofs; do
        rm -rf "$folder/crates/$crate/$part"
        cp -r "crates/$crate/$part" "$folder/crates/$crate/$part"
    done
done
printf 'ground_num: bstr thiserror itoa\nlandxml_read: ground_num\nread_bench: ground_num landxml_read\n' > "$folder/crates.txt"

# A document of $1 points from a seed. A face joins neighbours of a grid, whose ids are counted from 1.
document() {
    awk -v points="$1" -v state=20240305 '
        function draw(span) { state = (state * 16807) % 2147483647; return state % span }
        function place(k) { return sprintf("%d.%06d %d.%06d %d.%06d", 4512000 + int(k / side) * 5, draw(1000000), 512000 + (k % side) * 5, draw(1000000), 100 + draw(50), draw(1000000)) }
        BEGIN {
            side = int(sqrt(points))
            print "<?xml version=\"1.0\" encoding=\"UTF-8\"?>"
            print "<LandXML xmlns=\"http://www.landxml.org/schema/LandXML-1.2\" version=\"1.2\">"
            print "<Units><Metric areaUnit=\"squareMeter\" linearUnit=\"meter\"/></Units>"
            print "<Surfaces><Surface name=\"survey\"><SourceData><Breaklines>"
            for (line = 0; line < 10; line++) {
                printf "<Breakline brkType=\"standard\"><PntList3D>"
                for (k = 0; k < 100; k++) printf " %s", place(draw(points))
                print "</PntList3D></Breakline>"
            }
            print "</Breaklines></SourceData><Definition surfType=\"TIN\"><Pnts>"
            for (k = 0; k < points; k++) printf "<P id=\"%d\">%s</P>\n", k + 1, place(k)
            print "</Pnts><Faces>"
            for (k = 1; k + side < points; k++) if (k % side) {
                printf "<F>%d %d %d</F>\n", k, k + 1, k + side
                printf "<F>%d %d %d</F>\n", k + 1, k + side + 1, k + side
            }
            print "</Faces></Definition></Surface></Surfaces></LandXML>"
        }'
}

cat > "$folder/crates/read_bench/proofs/read_all/Invariants.antt" <<'EOF'
use Rattle.std.proofs.Common.{◌≡◌}
use Rattle.landxml_read.specs.Reader.{fed}
use Rattle.read_bench.proofs.read_all.Given as goal

abbrev pub invariant-loop-i : goal.invariant-loop-i
invariant-loop-i g l = fed l.reader ≡ l.fed
EOF

cat > "$folder/crates/read_bench/src/main.rt" <<'EOF'
//! Reads a document from the input in pieces of 64 KiB, and prints how many triples, ids and faces it has, and the bytes of its lists.
#![tactic(auto)]

ghost use Rattle.std.specs.Prelude.{◌≡◌};
ghost use Rattle.landxml_read.specs.Reader.{fed};

use landxml_read::{RawDoc, RawFace, RawId, RawSurface, Reader, Triple};
use std::io;
use std::io::Read;
use std::mem::size_of;

const PIECE: usize = 65_536;

const LIMIT: usize = 4_294_967_296;

fn read_all<R: Read>(reader: &mut Reader, input: &mut R, piece: &mut [u8]) -> io::Result<bool>
    requires { fed reader.old ≡ 0 }
{
    let mut fed: usize = 0;
    for _i in 0..u64::MAX {
        let count = input.read(piece)?;
        if count == 0 || count > piece.len() || fed.saturating_add(count) >= LIMIT {
            break;
        }
        match reader.feed(&piece[..count]) {
            Ok(()) => fed = fed.saturating_add(count),
            Err(_) => return Ok(false),
        }
    }
    Ok(true)
}

fn names_of(surface: &RawSurface) -> usize {
    let mut bytes: usize = 0;
    for k in 0..surface.ids.len() {
        if let Some(id) = surface.ids.get(k) {
            bytes = bytes.saturating_add(id.id.len());
        }
    }
    for k in 0..surface.faces.len() {
        if let Some(face) = surface.faces.get(k) {
            bytes = bytes.saturating_add(face.a.len()).saturating_add(face.b.len()).saturating_add(face.c.len());
        }
    }
    bytes
}

fn report(rt: &HostRuntime, doc: &RawDoc) -> io::Result<()> {
    let Some(surface) = doc.surfaces.get(0) else {
        return Ok(());
    };
    let triples = surface.triples.len();
    let ids = surface.ids.len();
    let faces = surface.faces.len();
    let lists = triples.saturating_mul(size_of::<Triple>()).saturating_add(ids.saturating_mul(size_of::<RawId>())).saturating_add(faces.saturating_mul(size_of::<RawFace>()));
    println!(rt; "{triples} triples, {ids} ids, {faces} faces, {} bytes", lists.saturating_add(names_of(surface)))
}

fn main(rt: HostRuntime) -> io::Result<()> {
    let mut piece = vec![in rt.alloc(); 0u8; PIECE]?;
    let mut input = rt.stdin();
    let mut reader = Reader::new(rt.alloc());
    if read_all(&mut reader, &mut input, &mut piece)? {
        match reader.finish() {
            Ok(doc) => report(&rt, &doc)?,
            Err(_) => println!(rt; "a fault at the end")?,
        }
    } else {
        println!(rt; "a fault")?;
    }
    Ok(())
}
EOF

(cd "$folder/crates/read_bench" && rt run < /dev/null > "$folder/log" 2>&1) || { tail -40 "$folder/log" >&2; exit 1; }
program=$folder/crates/read_bench/out/read_bench

# The least processor time of five rounds of so many runs ($1) of the command after the file $2, for one run, and its peak of memory.
measured() {
    local runs=$1 file=$2
    shift 2
    for _ in 1 2 3 4 5; do
        for _ in $(seq "$runs"); do
            command time -f '%U %S %M' -o "$folder/time" "$@" < "$file" > "$folder/said"
            cat "$folder/time"
        done | awk '{ spent += $1 + $2 } $3 > peak { peak = $3 } END { print spent / NR, peak }'
    done | awk 'NR == 1 || $1 < least { least = $1 } $2 > peak { peak = $2 } END { printf "%.3f s of processor time, %d MB at the peak\n", least, peak * 1.024 / 1000 }'
}

for points in 100000 1000000; do
    document "$points" > "$folder/document.xml"
    runs=$((1000000 / points))
    printf '%s points, %s bytes\n' "$points" "$(wc -c < "$folder/document.xml")"
    printf '  landxml_read: %s\n' "$(measured "$runs" "$folder/document.xml" "$program")"
    printf '    %s\n' "$(cat "$folder/said")"
    printf '  xmllint --stream --noout: %s\n' "$(measured "$runs" "$folder/document.xml" xmllint --stream --noout "$folder/document.xml")"
done
