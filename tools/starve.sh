#!/bin/sh
# Runs while memory is wanting. Nothing but want of memory may be reported: each run says what it came to.
#
# starve.sh NAME [FIRST] compares the rows and cases of a folder of crates/tests_rows/data with one allocation that fails, at twenty
# numbers from the first on, each about twice the one before. A row whose input finds no memory can't be tried. A run takes minutes.
#
# starve.sh program [PROGRAM] runs the built program over the two workspaces of crates/tests_rows/data/hostile/failures.txt
# with less and less memory, in steps of 16 KiB, from enough down to where the system cannot start it. Each run answers as with
# enough, or ends with status 1 and `error: out of memory`, after a prefix of what it writes with enough.
#
# starve.sh growths [PROGRAM] lets each call of malloc, calloc, realloc and reallocarray fail in turn, over examples/first. It needs
# rustc, for tools/growths.rs.
# usage: tools/starve.sh NAME [FIRST] | program [PROGRAM] | growths [PROGRAM]
set -eu
name=${1:?the name of a folder of rows, or program, or growths}
cd "$(dirname "$0")/.."
top=$(pwd)
room=$(mktemp -d)
trap 'rm -rf "$room"' EXIT

# The files of a workspace of the cases, below a folder.
workspace() {
    cases=crates/tests_rows/data/hostile/failures.txt
    awk -v base="base $1" '/^(base|case) / { on = $0 == base } on && /^  file / { print $2 }' "$cases" |
        while read -r path; do
            mkdir -p "$2${path%/*}"
            : >"$2$path"
        done
    awk -v base="base $1" -v room="$2" '
        /^(base|case) / { on = $0 == base; path = "" }
        on && /^  / { path = "" }
        on && /^  let source = / { source = substr($0, 16) }
        on && /^  file / { path = room $2 }
        on && path != "" && /^[|:]/ {
            text = substr($0, 2)
            gsub(/[$]source[$]/, source, text)
            gsub(/"\/w/, "\"" room "/w", text)
            gsub(/"\/r\//, "\"" room "/r/", text)
            printf "%s%s", text, /^[|]/ ? "\n" : "" >path
        }' "$cases"
}

# Whether a file is a prefix of another one.
is_front() {
    head -c "$(wc -c <"$1")" "$2" | cmp -s - "$1"
}

# Whether a run came to what one with enough memory came to, or to want of memory: its line, perhaps cut, comes after a prefix.
is_right() {
    if [ "$status" = "$enough_status" ] && cmp -s "$room/out" "$room/enough.out" && cmp -s "$room/err" "$room/enough.err"; then
        right=$((right + 1))
        return 0
    fi
    sed '$ s/^error: out of memory$//' "$room/err" | head -c -1 >"$room/front"
    [ "$status" = 1 ] && is_front "$room/out" "$room/enough.out" && is_front "$room/front" "$room/enough.err" &&
        tail -n 1 "$room/err" | grep -qx 'error: out of memory' && wanting=$((wanting + 1))
}

# Runs the program in a workspace with so many KiB of memory, or with all that there is.
limited() {
    status=0
    (
        cd "$room/w"
        [ "$1" = all ] || ulimit -v "$1"
        exec "$program" --metadata-path m.json --config p.toml check licenses
    ) >"$room/out" 2>"$room/err" || status=$?
}

keep_enough() {
    enough_status=$status
    cp "$room/out" "$room/enough.out"
    cp "$room/err" "$room/enough.err"
}

# Whether the system can start a program of this size with so many KiB at all: the run writes something, or ends by itself.
started() {
    [ "$status" -lt 126 ] || [ -s "$room/out" ] || grep -q '^[a-z]*\[\|^error: \|^warning: ' "$room/err"
}

less_and_less() {
    rm -rf "$room/w" "$room/r"
    workspace "$1" "$room"
    limited all
    keep_enough
    memory=1024
    while limited "$memory" && ! { [ "$status" = "$enough_status" ] && cmp -s "$room/err" "$room/enough.err"; }; do
        memory=$((memory * 2))
    done
    tried=0
    right=0
    wanting=0
    least=$memory
    while limited "$memory" && started; do
        tried=$((tried + 1))
        before=$right
        if ! is_right; then
            echo "$1, $memory KiB: status $status" >&2
            tail -n 3 "$room/err" >&2
            exit 1
        fi
        [ "$right" = "$before" ] || least=$memory
        memory=$((memory - 16))
    done
    echo "$1: $tried runs, $right as with enough, $wanting out of memory; $least KiB were enough, and with $memory none starts"
}

# Runs the program with the growth of a number failing; at 0 none fails. How many there were is in a file.
growth() {
    status=0
    (
        cd "$room/w"
        GROWTH=$1 GROWTHS="$room/count" LD_PRELOAD="$room/growths.so" exec "$program" \
            --metadata-path m.json --config p.toml check licenses
    ) >"$room/out" 2>"$room/err" || status=$?
}

each_growth() {
    rm -rf "$room/w"
    mkdir "$room/w"
    cp examples/first/Cargo.toml "$room/w"
    cp examples/first/deny.toml "$room/w/p.toml"
    sed -e "s|\"/project|\"$room/w|g" -e "s|file:///project|file://$room/w|g" examples/first/metadata.json >"$room/w/m.json"
    rustc --edition 2024 -O --crate-type cdylib -o "$room/growths.so" tools/growths.rs
    growth 0
    keep_enough
    count=$(cat "$room/count")
    right=0
    wanting=0
    for number in $(seq 1 "$count"); do
        growth "$number"
        if ! is_right; then
            echo "growth $number of $count: status $status" >&2
            tail -n 3 "$room/err" >&2
            exit 1
        fi
    done
    echo "first: $count growths, $wanting out of memory, $right as with enough"
}

case $name in
program)
    program=$(realpath "${2:-crates/cargo_deny/out/cargo_deny}")
    less_and_less workspace
    less_and_less second
    exit 0
    ;;
growths)
    program=$(realpath "${2:-crates/cargo_deny/out/cargo_deny}")
    each_growth
    exit 0
    ;;
esac

number=${2:-1}
cd crates/tests_rows
set --
for file in "data/$name"/*; do
    set -- "$@" --data "$name/$(basename "$file")=$PWD/$file"
done
answer="$room/answer"
for turn in 1 2 3 4 5 6 7 8 9 10 11 12 13 14 15 16 17 18 19 20; do
    rt try --fail-alloc "$number" "$@" -- "$name" >"$answer" 2>&1 || true
    ended=$(grep '^run=' "$answer" || echo 'run=none')
    told=$(grep -c "^$name/[a-z_]*\.txt:[0-9]*:" "$answer" || true)
    of_memory=$(grep -ci "memory\|can't be tried" "$answer" || true)
    echo "$name, allocation $number fails: $ended; lines printed: $told; lines that speak of memory: $of_memory"
    if [ "$told" -gt 0 ] && [ "$of_memory" -eq 0 ]; then
        cat "$answer"
        exit 1
    fi
    number=$((number * 2 + turn))
done
