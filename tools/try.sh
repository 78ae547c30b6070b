#!/bin/sh
# Checks the first example by an unproved build of the program: a first answer in minutes.
# usage: tools/try.sh
set -eu
here=$(cd "$(dirname "$0")/.." && pwd)
project=$here/examples/first
room=$(mktemp -d)
trap 'rm -rf "$room"' EXIT
sed -e "s|\"/project|\"$project|g" -e "s|file:///project|file://$project|g" "$project/metadata.json" > "$room/metadata.json"
cd "$here/crates/cargo_deny"
rt try cargo_deny -- --manifest-path "$project/Cargo.toml" --metadata-path "$room/metadata.json" check licenses
echo "Nothing was proved: this was a try of the code. 'make build' proves the program, 'make test' all there is."
