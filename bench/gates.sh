#!/bin/sh
# Counts the instructions of whole runs, and of the same runs of a gate in plain Rust over serde_json's value
# (bench/plain_gate.rs), which has to answer the same, and compares their memory at its highest. Run it in the repository, once `make
# build` has built the program: sh bench/gates.sh [PROGRAM [KIND..]]. With kinds (the first words of the rows below, whose
# workspaces bench/workspaces.rs makes) only these are run. It needs valgrind, time and cargo; serde_json is taken from REGISTRY,
# where Debian's librust-serde-json-dev puts it.
set -e
root=$(pwd)
program=${1:-$root/crates/cargo_deny/out/cargo_deny}
[ $# = 0 ] || shift
kinds=" $* "
registry=${REGISTRY:-/usr/share/cargo/registry}
work=$(mktemp -d)
trap 'rm -rf "$work"' EXIT

mkdir -p "$work/plain/src"
for name in plain_gate answers expressions licence_texts workspaces; do
    cp "$root/bench/$name.rs" "$work/plain/src/"
done
cp "$root/examples/lists/built-in.txt" "$work/plain/src/"
cat > "$work/plain/Cargo.toml" << 'END'
[package]
name = "plain_gate"
version = "0.1.0"
edition = "2021"

[[bin]]
name = "plain_gate"
path = "src/plain_gate.rs"

[[bin]]
name = "workspaces"
path = "src/workspaces.rs"

[dependencies]
serde_json = "1"
END
(
    cd "$work/plain"
    cargo build --quiet --release --offline --config 'source.crates-io.replace-with="debian"' \
        --config "source.debian.directory=\"$registry\""
)
plain=$work/plain/target/release/plain_gate

# The instructions of a run, whose answer and status go to a file.
count() {
    answer=$1
    shift
    status=0
    valgrind --tool=callgrind --callgrind-out-file="$work/out" --log-file="$work/log" "$@" > "$answer" 2>&1 || status=$?
    echo "status $status" >> "$answer"
    sed -n 's/.*Collected : \([0-9]*\).*/\1/p' "$work/log"
}

# The memory of a run at its highest, in KiB.
memory() {
    /usr/bin/time -o "$work/took" -f '%M' "$@" > "$work/said" 2>&1 || true
    tail -n 1 "$work/took"
}

# Makes the workspace of a kind and a size in the working folder.
workspace() {
    cp "$root/examples/lists/spdx.txt" catalog.txt
    "$work/plain/target/release/workspaces" "$1" "$2"
    # the manifest that the run looks at first
    : > Cargo.toml
}

# Prints a row: what it is of, then the words, which follow those that name the files.
compare() {
    row=$1
    shift
    ours=$(count "$work/ours" "$program" "$@")
    theirs=$(count "$work/theirs" "$plain" "$@")
    cmp -s "$work/ours" "$work/theirs" || echo "$row: the answers differ"
    echo "$ours $theirs $(memory "$program" "$@") $(memory "$plain" "$@")" | awk -v row="$row" '{
        printf "%s: %.1f M instructions, plain Rust %.1f, ratio %.2f; memory %.1f MiB, plain Rust %.1f, ratio %.2f\n",
            row, $1 / 1000000, $2 / 1000000, $1 / $2, $3 / 1024, $4 / 1024, $3 / $4
    }'
}

made=
while read -r kind size words; do
    case $kinds in "  " | *" $kind "*) ;; *) continue ;; esac
    if [ "$made" != "$kind $size" ]; then
        made="$kind $size"
        rm -rf "$work/$kind"
        mkdir "$work/$kind"
        cd "$work/$kind"
        [ "$kind" = sample ] || workspace $made
    fi
    case $kind in
    sample) compare "sample $size" sample "$size" ;;
    *) compare "$made, $words" --metadata-path "$work/$kind/metadata.json" --config "$work/$kind/deny.toml" $words ;;
    esac
done << 'END'
real 1430 check licenses
wide 5000 check licenses
one 150000 check licenses
small 5000 check licenses
small 20000 check licenses
bare 20000 check licenses
bare 20000 -f json check licenses
bare 20000 list
bare 20000 list -l crate
bare 20000 list -f json
bare 20000 list -f json -l crate
bare 20000 list -f tsv
named 5000 --catalog catalog.txt check licenses
named 5000 --catalog catalog.txt list
unused 100000 check licenses
unused 100000 check -A license-not-encountered licenses
sample 20000
END
