#!/bin/sh
# How much stack the cases of crates/tests_rows/data/hostile need, and how their work grows, by the built program tests_rows: each case
# alone, with its bases.
#
# stack.sh [PROGRAM..] runs each case but those of failures.txt with a stack of 8 MiB, as a main thread has, and then with half as
# much again and again, down to 64 KiB: each run is to come to what the case wants. It prints how many cases there are, with which
# stack all came to that, and the cases that needed the most. Without a name it takes what both compilers built.
#
# stack.sh twice [PROGRAM] counts instructions with valgrind for each case that has a recipe of a thousand pieces or more, at a
# quarter and at a half of the length, and prints how many times as many the longer one took, the greatest last.
# usage: tools/stack.sh [twice] [PROGRAM..]
set -eu
cd "$(dirname "$0")/.."
data=$PWD/crates/tests_rows/data/hostile
room=$(mktemp -d)
trap 'rm -rf "$room"' EXIT
mkdir "$room/hostile"

# Leaves the case of a number in the place of the files, with the recipes of so long texts shortened by a divisor.
leave() {
    for other in policies metadata licences words failures; do
        : >"$room/hostile/$other.txt"
    done
    awk -v wanted="$2" -v divisor="$3" '
        /^(base|case) / { on = /^base / || ++number == wanted }
        /^[*@]/ && match($0, /[0-9]+/) && substr($0, RSTART, RLENGTH) >= 1000 {
            short = int(substr($0, RSTART, RLENGTH) / divisor)
            $0 = substr($0, 1, RSTART - 1) short substr($0, RSTART + RLENGTH)
        }
        on' "$data/$1" >"$room/hostile/$1"
}

# The numbers and names of the cases of a file; of those that are long alone, where this is asked for.
cases() {
    awk -v long="${2:-}" '
        function put() { if (name != "" && (long == "" || is_long)) print number " " name }
        /^(base|case) / { put(); name = "" }
        /^case / { name = substr($0, 6); number++; is_long = 0 }
        /^[*@]/ && match($0, /[0-9]+/) && substr($0, RSTART, RLENGTH) >= 1000 { is_long = 1 }
        END { put() }' "$data/$1"
}

# Whether the program comes to what is wanted with so many KiB of stack.
is_right() {
    (
        cd "$room"
        ulimit -s "$1"
        exec env -i "$program" hostile
    ) >/dev/null 2>&1
}

least_stack() {
    tried=0
    for file in policies.txt metadata.txt licences.txt words.txt; do
        cases "$file" >"$room/cases"
        while read -r number name; do
            leave "$file" "$number" 1
            tried=$((tried + 1))
            least=0
            for stack in 8192 4096 2048 1024 512 256 128 64; do
                is_right "$stack" || break
                least=$stack
            done
            echo "$least $file: $name"
        done <"$room/cases"
    done >"$room/told"
    sort -n "$room/told" >"$room/sorted"
    if grep '^0 ' "$room/sorted"; then
        echo "$1: these do not come to what is wanted with 8192 KiB" >&2
        exit 1
    fi
    most=$(tail -n 1 "$room/sorted")
    echo "$1: $tried cases, all as wanted with ${most%% *} KiB. Those that needed the most:"
    tail -n 5 "$room/sorted"
}

# The instructions of a run.
counted() {
    (cd "$room" && valgrind --tool=callgrind --callgrind-out-file=/dev/null --main-stacksize=8388608 "$program" hostile) 2>&1 |
        awk '/Collected : / { print $NF }'
}

growth() {
    for file in policies.txt metadata.txt licences.txt words.txt; do
        cases "$file" long >"$room/cases"
        while read -r number name; do
            leave "$file" "$number" 4
            quarter=$(counted)
            leave "$file" "$number" 2
            half=$(counted)
            echo "$quarter $half $file: $name"
        done <"$room/cases"
    done | awk '{ ratio = $2 / $1; $1 = sprintf("%.2f", ratio); $2 = "of " int($2 / 1000000) " million,"; print }' | sort -n
}

word=${1:-}
if [ "$word" = twice ]; then
    program=$(realpath "${2:-crates/tests_rows/out/tests_rows}")
    growth
    exit 0
fi
[ "$#" -gt 0 ] || set -- crates/tests_rows/out/tests_rows crates/tests_rows/out/tests_rows.by-rattle
for name in "$@"; do
    program=$(realpath "$name")
    least_stack "$name"
done
