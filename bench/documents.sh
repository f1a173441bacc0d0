#!/usr/bin/env bash
# What a document costs the program of these sources: of the largest surface of random points, of some sizes, that is
# loaded within a minute, the processor time of `check` and `rewrite` beside `cat` of the same bytes, and how many
# times a second `export` writes it.
top=$(cd "$(dirname "$0")/.." && pwd) || exit 1
. "$top/tools/program.sh"
program=$(fresh_program) || { echo 'no program here is of these sources: run tools/prove first' >&2; exit 1; }
work=$(mktemp -d) || exit 1
trap 'rm -rf "$work"' EXIT
TIMEFORMAT='%U %S'
exports=200

# Points of a congruential generator, within 100 units, a line each: N E Z.
points() {
    awk -v count="$1" 'BEGIN {
        for (k = 0; k < count; k++) {
            n = s = (s * 1103515245 + 12345) % 2147483648
            e = s = (s * 1103515245 + 12345) % 2147483648
            printf "%.3f %.3f %d.000\n", n / 21474837, e / 21474837, k % 10
        }
    }'
}

document() {
    printf '<LandXML><Surfaces><Surface name="site"><SourceData><DataPoints><PntList3D>\n'
    points "$1"
    printf '</PntList3D></DataPoints></SourceData></Surface></Surfaces></LandXML>\n'
}

# Seconds of processor time of a command over its input and output files.
seconds() {
    local from=$1 to=$2
    shift 2
    { time "$@" <"$from" >"$to"; } 2>&1 | awk '{ printf "%.3f", $1 + $2 }'
}

largest=0
for count in 25 50 100 200 400 800 1600 3200 6400 12800 25600 51200 102400 204800 409600 819200; do
    document "$count" >"$work/next.xml"
    timeout 60 "$program" check --origin 0 0 <"$work/next.xml" >/dev/null || break
    largest=$count
    mv "$work/next.xml" "$work/site.xml"
done
[ "$largest" -gt 0 ] || { echo 'no surface is loaded within a minute' >&2; exit 1; }

check=$(seconds "$work/site.xml" "$work/report" "$program" check --origin 0 0)
rewrite=$(seconds "$work/site.xml" "$work/written.xml" "$program" rewrite --origin 0 0)
cat=$(seconds "$work/written.xml" "$work/copy.xml" cat)
points "$largest" | sed 's/^/do add /' >"$work/alone"
{ cat "$work/alone"; yes export | head -n "$exports"; } >"$work/exporting"
alone=$(seconds "$work/alone" "$work/out" "$program" talk)
exporting=$(seconds "$work/exporting" "$work/out" "$program" talk)
printf '%s points, %s bytes written: check %s s, rewrite %s s, cat %s s\n' \
    "$largest" "$(wc -c <"$work/written.xml")" "$check" "$rewrite" "$cat"
awk -v count="$exports" -v alone="$alone" -v all="$exporting" 'BEGIN {
    spent = all - alone
    if (spent <= 0) printf "export: too quick for %d of them to be timed\n", count
    else printf "export: %.0f a second\n", count / spent
}'
