#!/bin/sh
# Processor time of a million `stat` lines and a million faulty lines, from a file to a file, by the program of these sources.
top=$(cd "$(dirname "$0")/.." && pwd) || exit 1
. "$top/tools/program.sh"
program=$(fresh_program) || { echo 'no program here is of these sources: run tools/prove first' >&2; exit 1; }
work=$(mktemp -d) || exit 1
trap 'rm -rf "$work"' EXIT
count=1000000
for line in 'stat' 'do add 1.2345 0 0' 'do move' 'plan line break 0 0 1 1 2 x'; do
    yes "$line" | head -n "$count" >"$work/in"
    /usr/bin/env bash -c 'TIMEFORMAT="%U user, %S system"; time "$0" talk <"$1" >"$2"' "$program" "$work/in" "$work/out" 2>"$work/time"
    printf '%s lines of "%s": %s, %s replies\n' "$count" "$line" "$(cat "$work/time")" "$(wc -l <"$work/out")"
done
