#!/bin/sh
# Proves and builds a program in a copy of its crates, as many side by side as there are processors and memory, and puts it to
# crates/NAME/out/NAME, and what Rattle's own compiler builds beside it, with the ending .by-rattle. The copy has no wrong bodies;
# what it proves is kept for the gate on the same machine.
# usage: tools/build.sh [NAME]
set -eu
name=${1:-cargo_deny}
here=$(cd "$(dirname "$0")/.." && pwd)
room=$(mktemp -d)
trap 'rm -rf "$room"' EXIT
mkdir "$room/crates"
awk -v name="$name" -f "$here/tools/below.awk" "$here/crates.txt" > "$room/crates.txt"
cp "$here/HANDLES" "$room/HANDLES"
for crate in $(cut -d: -f1 "$room/crates.txt"); do
    mkdir "$room/crates/$crate"
    (cd "$here/crates/$crate" && tar c --exclude=./out --exclude=./must-fail --exclude=./wrong .) | tar x -C "$room/crates/$crate"
done
(cd "$room" && rt ci)
mkdir -p "$here/crates/$name/out"
for built in "$name" "$name.by-rattle"; do
    cp "$room/crates/$name/out/$built" "$here/crates/$name/out/$built"
done
