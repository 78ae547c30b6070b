#!/bin/sh
# Runs the program over COUNT workspaces that look drawn, those of the numbers from SEED on (bench/random_workspaces.rs says what they
# are), and prints a line for each: the number, the status, and why the run was refused, or the last line of what was written. Behind
# these stands how many ended with which status. It fails where a run ends by a signal, with a status that is not documented, or
# without a word. With KEEP=FOLDER the workspaces, and in each `out` and `err`, are left there. Run it in the repository, once
# `make build` has built the program: sh bench/random.sh [COUNT [SEED [PROGRAM]]]. It needs rustc.
set -eu
root=$(pwd)
count=${1:-1000}
seed=${2:-1}
program=$(realpath "${3:-$root/crates/cargo_deny/out/cargo_deny}")
work=$(mktemp -d)
trap 'rm -rf "$work"' EXIT
rustc -O -o "$work/random_workspaces" "$root/bench/random_workspaces.rs"
made=${KEEP:-$work/made}
mkdir -p "$made"
cd "$made"
"$work/random_workspaces" "$seed" "$count"

number=$seed
while [ "$number" -lt $((seed + count)) ]; do
    cd "$made/$number/w"
    status=0
    # (no word has a blank)
    timeout 60 "$program" --metadata-path ../m.json --config ../p.toml $(cat ../words) > ../out 2> ../err || status=$?
    echo "$number $status $({ grep -m 1 '^error: ' ../err || cat ../err ../out; } | tail -n 1)"
    case $status in
    0 | 1 | 4) [ -s ../out ] || [ -s ../err ] || echo "$number wrote nothing" >> "$work/wrong" ;;
    *) echo "$number ended with status $status" >> "$work/wrong" ;;
    esac
    number=$((number + 1))
done > "$work/lines"
cat "$work/lines"
awk '{ count[$2]++ } END { for (status in count) printf "status %d: %d\n", status, count[status] }' "$work/lines" | sort
if [ -s "$work/wrong" ]; then
    cat "$work/wrong" >&2
    exit 1
fi
