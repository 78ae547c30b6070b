#!/bin/sh
# Makes the archive that is handed out, and its SHA-256, in dist/. Of two builds of a commit only the programs in it can differ: its
# names are sorted, it has one date, that of the commit, and no owner.
# usage: tools/dist.sh
set -eu
here=$(cd "$(dirname "$0")/.." && pwd)
cd "$here"
version=$(sed -n 's/^static VERSION: &str = "\(.*\)";$/\1/p' crates/run_request/src/command.rt)
name="cargo-deny-$version-x86_64-linux"
date=$(git log -1 --format=%ct 2>/dev/null) || date=0
room=$(mktemp -d)
trap 'rm -rf "$room"' EXIT
sh tools/stage.sh "$room/$name"
mkdir -p dist
tar --create --sort=name --format=ustar --mtime="@$date" --owner=0 --group=0 --numeric-owner --mode='u=rwX,go=rX' \
    --directory="$room" "$name" | gzip -n -9 >"dist/$name.tar.gz"
(cd dist && sha256sum "$name.tar.gz" | tee "$name.tar.gz.sha256")
