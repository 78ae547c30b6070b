#!/bin/sh
# Times the lowest layers, and beside them the same work in plain Rust and xxhsum, where these are installed; and a listing of
# packages with all that cargo writes of them beside Python, which only reads their metadata: of each the least of five. Run it in
# the repository, by `make bench`, which proves and builds the programs where they are not there yet; others may be named:
# sh bench/compare.sh [BENCH [PROGRAM]].
set -e
root=$(pwd)
program=${1:-$root/crates/bench/out/bench}
deny=${2:-$root/crates/cargo_deny/out/cargo_deny}
[ -x "$program" ] || sh tools/build.sh bench
work=$(mktemp -d)
trap 'rm -rf "$work"' EXIT

# The least nanoseconds of a measure.
least() {
    for _ in 1 2 3 4 5; do
        "$program" "$@" | awk '{ print $3 }'
    done | sort -n | head -n 1
}

# 64 MiB; xxhsum tells millions of bytes a second.
least hash 1048576 | awk '{ printf "hash %d MiB/s\n", 64000000000 / $1 }'
if command -v xxhsum > /dev/null; then
    xxhsum -b1 -B67108864 2>&1 | sed -n 's/.*(\([0-9.]*\) MB\/s).*/\1/p' |
        awk '{ printf "xxhsum %d MiB/s\n", $1 * 1000000 / 1048576 }'
fi

if command -v rustc > /dev/null; then
    rustc -O -o "$work/yardstick" "$root/bench/yardstick.rs"
    "$work/yardstick" > "$work/plain"
else
    : > "$work/plain"
fi
while read -r name size; do
    echo "$name $(least "$name" "$size")"
done > "$work/ours" << 'END'
add-paths 20000
look-up 20000
look-up-absent 20000
places-on-many-lines 100000
places-on-one-line 100000
normal 270000
END
awk '
    NR == FNR { plain[$1] = $2; next }
    ($1 in plain) && plain[$1] > 0 {
        printf "%-20s %9d us, plain Rust %9d us, ratio %.2f\n", $1, $2 / 1000, plain[$1] / 1000, $2 / plain[$1]
        next
    }
    { printf "%-20s %9d us\n", $1, $2 / 1000 }
' "$work/plain" "$work/ours"

# The least of five whole runs in seconds, and the memory at its highest in KiB.
whole() {
    for _ in 1 2 3 4 5; do
        /usr/bin/time -f '%e %M' "$@" 2>&1 > /dev/null | tail -n 1
    done | sort -n | head -n 1
}

if command -v python3 > /dev/null && command -v rustc > /dev/null && [ -x /usr/bin/time ] && [ -x "$deny" ]; then
    rustc -O -o "$work/workspaces" "$root/bench/workspaces.rs"
    cd "$work"
    : > Cargo.toml
    for size in 5000 10000; do
        ./workspaces wide "$size"
        ours=$(whole "$deny" --metadata-path metadata.json --config deny.toml list)
        plain=$(whole python3 -c 'import json; json.load(open("metadata.json"))')
        echo "$size $(wc -c < metadata.json) $ours $plain" | awk '{
            printf "a listing of %d packages, %d bytes of metadata: %.2f s, %.2f of the time of Python'"'"'s json, ", $1, $2, $3, $3 / $5
            printf "memory %.1f times the text (Python %.1f)\n", $4 * 1024 / $2, $6 * 1024 / $2
        }'
    done
fi
