# shellcheck shell=sh
# Which program is of the sources that stand here. Sourced by the scripts, with the checkout's folder in $top.
# Beside a program P stand P.sources, the sum of the sources that it was built from, and P.sha256, its own.
# So a program that something else put in its place counts for nothing, whatever its times.

# The program that the repository carries, and the one that was built here.
# shellcheck disable=SC2154
carried=$top/dist/terrain-x86_64-linux
built=$top/crates/terrain_main/out/terrain_main

# Prints the sum of what a program is made of: the path and the content of each file that the proof and the
# compiler read, and the toolchain's line. No time, no locale and no place of the checkout comes into it.
sources_sum() (
    LC_ALL=C
    export LC_ALL
    cd "$top" || exit 1
    {
        printf '%s\0' HANDLES TOOLCHAIN crates.txt
        find crates -regex 'crates/[^/]*/\(out\|must-fail\)' -prune -o -type f \
            -regex 'crates/[^/]*/\(src\|specs\|proofs\)/.*\.\(rt\|antt\)' -print0 | sort -z
    } | xargs -0 sha256sum | sha256sum | cut -d ' ' -f 1
)

# Whether the program at $1 is whole and was built from the sources of the sum $2.
is_of() {
    [ -x "$1" ] && [ -s "$1.sources" ] && [ "$(cat "$1.sources")" = "$2" ] && is_whole "$1"
}

# Whether the program at $1 is the one that its sum was taken of.
is_whole() {
    [ "$(sha256sum <"$1" | cut -d ' ' -f 1)" = "$(cut -d ' ' -f 1 "$1.sha256")" ]
}

# Notes beside the program at $1 that it was built from the sources of the sum $2. Cut off halfway, it leaves a
# program that counts for nothing.
note_sums() (
    cd "$(dirname "$1")" && name=$(basename "$1") && rm -f "$name.sources" &&
        sha256sum "$name" >"$name.sha256" && printf '%s\n' "$2" >"$name.sources"
)

# Prints which program is of the sources that stand here, the carried one first. Fails where neither is.
fresh_program() {
    sum=$(sources_sum)
    for program in "$carried" "$built"; do
        if is_of "$program" "$sum"; then
            printf '%s\n' "$program"
            return 0
        fi
    done
    return 1
}
