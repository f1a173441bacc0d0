#!/usr/bin/env bash
# Processor time of an edit at 10, 40 and 100 points, by the program of these sources: a point is added and removed
# 100 times on a surface of so many points, and the time of the surface alone is taken off.
top=$(cd "$(dirname "$0")/.." && pwd) || exit 1
. "$top/tools/program.sh"
program=$(fresh_program) || { echo 'no program here is of these sources: run tools/prove first' >&2; exit 1; }
work=$(mktemp -d) || exit 1
trap 'rm -rf "$work"' EXIT
TIMEFORMAT=%U

# Points of a congruential generator, within 100 units.
points() {
    awk -v count="$1" 'BEGIN {
        for (k = 0; k < count; k++) {
            n = s = (s * 1103515245 + 12345) % 2147483648
            e = s = (s * 1103515245 + 12345) % 2147483648
            printf "do add %.3f %.3f %d\n", n / 21474837, e / 21474837, k % 10
        }
    }'
}

edits() {
    for k in {1..100}; do
        printf 'do add %d %d 1\ndo remove %d %d\n' $((200 + k)) $((3 * k)) $((200 + k)) $((3 * k))
    done
}

seconds() {
    { time "$program" talk <"$1" >"$work/out"; } 2>&1
}

for count in 10 40 100; do
    points "$count" >"$work/surface"
    { cat "$work/surface" && edits; } >"$work/edited"
    before=$(seconds "$work/surface")
    after=$(seconds "$work/edited")
    awk -v n="$count" -v a="$before" -v b="$after" 'BEGIN { printf "an edit at %d points: %.2f ms\n", n, (b - a) * 1000 / 200 }'
done
