#!/bin/sh
# Tries the wrong bodies of a crate, those of wrong/ and of must-fail/, in a copy: the checker is to refuse each, and each is printed.
# usage: tools/wrong.sh NAME
set -eu
name=${1:?the name of a crate}
here=$(cd "$(dirname "$0")/.." && pwd)
room=$(mktemp -d)
trap 'rm -rf "$room"' EXIT
mkdir "$room/crates"
awk -v name="$name" -f "$here/tools/below.awk" "$here/crates.txt" > "$room/crates.txt"
cp "$here/HANDLES" "$room/HANDLES"
for crate in $(cut -d: -f1 "$room/crates.txt"); do
    mkdir "$room/crates/$crate"
    (cd "$here/crates/$crate" && tar c --exclude=./out --exclude=./must-fail --exclude=./wrong .) | tar x -C "$room/crates/$crate"
done
mkdir "$room/crates/$name/must-fail"
for edit in "$here/crates/$name"/must-fail/*.edit "$here/crates/$name"/wrong/*.edit; do
    [ ! -f "$edit" ] || cp "$edit" "$room/crates/$name/must-fail/"
done
cd "$room"
rt ci
