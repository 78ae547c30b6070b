#!/bin/sh
# Compares rows and cases with what the code answers, without a proof: what one runs between two changes. NAME is a folder of
# crates/tests_rows/data: text, spdx, diag, toml, graph, policy, check, start, run or hostile. Without a name it compares all
# folders, and runs the tests of crates/tests_code, two programs side by side: a program of whole runs takes 8 GB to build. What differs
# is printed with its file and line, and so is each count of rows, cases, lines or runs that the stored `stdout` does not have. An
# unproved program checks each access, and is some forty times as slow as the gate's: run and hostile take ten minutes and more.
#
# Where tools/build.sh or `rt ci` has built tests_rows and no code is newer, that program is run for a folder, which takes a second;
# --unproved asks for the other way all the same: a program of the folder that is built without a proof, in a copy.
# usage: tools/test.sh [--unproved] [NAME]
set -eu
cd "$(dirname "$0")/.."
top=$(pwd)
data=$top/crates/tests_rows/data
unproved=
if [ "${1:-}" = --unproved ]; then
    unproved=yes
    shift
fi
name=${1:-}
if [ -n "$name" ] && [ ! -d "$data/$name" ]; then
    echo "$name: no such folder; there are" "$(cd "$data" && echo *)" >&2
    exit 2
fi
room=$(mktemp -d)
trap 'rm -rf "$room"' EXIT

# The library that answers a folder, and its call.
library() {
    case $1 in
    run | start | hostile) echo tests_runner ;;
    *) echo "tests_$1" ;;
    esac
}
call() {
    case $1 in
    start | hostile) echo "tests_runner::compare_$1(&rt)" ;;
    *) echo "$(library "$1")::compare(&rt)" ;;
    esac
}

# A copy of a crate and of those below it, in the folder of a try.
copy_below() {
    awk -v name="$2" -f tools/below.awk "$1/all.txt" >"$1/crates.txt"
    cp HANDLES "$1/HANDLES"
    for crate in $(cut -d: -f1 "$1/crates.txt"); do
        [ -d "crates/$crate" ] || continue
        mkdir -p "$1/crates/$crate"
        for part in src specs proofs; do
            [ ! -d "crates/$crate/$part" ] || cp -R "crates/$crate/$part" "$1/crates/$crate/"
        done
    done
}

# Makes a program that compares some folders, and tries it: what it printed is in the file `said` of the try's folder.
try_folders() {
    try=$room/$1
    mkdir -p "$try/crates/folders/src"
    { cat crates.txt; printf 'folders: tests_files'; for folder in "$@"; do printf ' %s' "$(library "$folder")"; done; echo; } >"$try/all.txt"
    {
        echo '//! Compares the rows and cases of some folders.'
        echo '#![tactic(auto)]'
        echo
        echo 'use std::process::ExitCode;'
        echo 'use tests_files::exit_code;'
        echo
        echo 'fn main(rt: HostRuntime) -> ExitCode {'
        echo '    let mut is_as_wanted = true;'
        for folder in "$@"; do
            echo "    is_as_wanted = $(call "$folder") & is_as_wanted;"
        done
        echo '    exit_code(is_as_wanted)'
        echo '}'
    } >"$try/crates/folders/src/main.rt"
    copy_below "$try" folders
    folders=$*
    set --
    for folder in $folders; do
        for file in "$data/$folder"/*; do
            set -- "$@" --data "$folder/$(basename "$file")=$file"
        done
    done
    (cd "$try/crates/folders" && rt try --steps 1 --seconds 3600 "$@" >"$try/said" 2>&1) || true
}

# Tries the tests that no row can be.
try_tests() {
    try=$room/tests
    mkdir -p "$try"
    cp crates.txt "$try/all.txt"
    copy_below "$try" tests_code
    (cd "$try/crates/tests_code" && rt try --test --steps 1 --seconds 600 >"$try/said" 2>&1) || true
}

# Runs the built program for a folder, if there is one and no code is newer.
run_built() {
    program=$top/crates/tests_rows/out/tests_rows
    [ -z "$unproved" ] && [ -x "$program" ] || return 1
    [ -z "$(find crates/*/src -name '*.rt' -newer "$program" | head -n 1)" ] || return 1
    mkdir "$room/$1"
    status=0
    (cd "$data" && "$program" "$1") >"$room/$1/said" 2>&1 || status=$?
    echo "run=ended status=$status " >>"$room/$1/said"
}

counted='^.*: [0-9]+ (rows|cases|lines wanted|runs)$'

# Tells what a try reported; a line that is no count and not the toolchain's is of a row that differs.
tell() {
    said=$room/$1/said
    if ! grep -q '^run=ended ' "$said"; then
        tail -n 20 "$said" >&2
        echo "$1: the program was not built, or did not end" >&2
        return 1
    fi
    grep -Ev "$counted|^(interpreter|checked|run=|races|rt:)" "$said" | sed 's|^[a-z]*/[a-z_-]*\.txt:|crates/tests_rows/data/&|' >"$room/wrong" || true
    grep -E "$counted" "$said" | grep -Fxv -f crates/tests_rows/stdout | sed 's|^|crates/tests_rows/stdout has another count: |' >>"$room/wrong" || true
    cat "$room/wrong"
    grep -q '^run=ended status=0 ' "$said" && [ ! -s "$room/wrong" ]
}

tell_tests() {
    said=$room/tests/said
    grep -q '^run=ended status=0 ' "$said" || { cat "$said" >&2; return 1; }
}

if [ -n "$name" ]; then
    run_built "$name" || try_folders "$name"
    tell "$name"
    echo "$name: $(grep -Ec "$counted" "$room/$name/said") counts, all as wanted. Nothing was proved."
    exit 0
fi
(try_tests) &
try_folders text spdx diag toml graph policy check
wait
(try_folders run) &
try_folders hostile start
wait
is_right=0
for first in text run hostile; do
    tell "$first" || is_right=1
done
tell_tests || is_right=1
[ "$is_right" = 0 ] || exit 1
echo "$(cat "$room"/*/said | grep -Ec "$counted") counts, all as wanted, and the tests of tests_code. Nothing was proved."
