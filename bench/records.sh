#!/bin/sh
# Counts the instructions of `record` and `verify` over N crates and over twice as many, beside those of a check and of a listing that
# write as little, and the same of one crate whose field has 5 N and 10 N terms. Run it in the repository, once `make build` has built
# the program: sh bench/records.sh [N [PROGRAM]]. It needs valgrind.
set -e
size=${1:-10000}
program=${2:-$(pwd)/crates/cargo_deny/out/cargo_deny}
work=$(mktemp -d)
trap 'rm -rf "$work"' EXIT
cd "$work"
: > Cargo.toml
printf '[licenses]\nallow = ["MIT"]\n' > deny.toml

# Metadata of that many crates, each with a field of so many terms. Each crate leads to the next.
metadata() {
    awk -v n="$1" -v terms="$2" '
        function id(i) { return sprintf("c%d 1.0.0", i) }
        BEGIN {
            field = "MIT"
            for (t = 1; t < terms; t++) field = field " OR MIT"
            printf "{\"packages\":["
            for (i = 0; i < n; i++)
                printf "%s{\"name\":\"c%d\",\"version\":\"1.0.0\",\"id\":\"%s\",\"license\":\"%s\",\"manifest_path\":\"%s/c%d/Cargo.toml\"}", (i ? "," : ""), i, id(i), field, folder, i
            printf "],\"workspace_members\":[\"%s\"],\"workspace_root\":\"%s\",\"resolve\":{\"root\":\"%s\",\"nodes\":[", id(0), folder, id(0)
            for (i = 0; i < n; i++) {
                printf "%s{\"id\":\"%s\",\"deps\":[", (i ? "," : ""), id(i)
                if (i + 1 < n) printf "{\"pkg\":\"%s\",\"dep_kinds\":[{\"kind\":null}]}", id(i + 1)
                printf "]}"
            }
            printf "]}}"
        }' folder="$work" > metadata.json
}

# The instructions of a run with these words; what it writes stays in the file `said`.
count() {
    valgrind --tool=callgrind --callgrind-out-file=out "$program" --metadata-path metadata.json --config deny.toml "$@" \
        > said 2> counts || true
    sed -n 's/.*Collected : \([0-9]*\).*/\1/p' counts
}

ratio() {
    awk -v one="$1" -v other="$2" 'BEGIN { printf "%.2f\n", one / other }'
}

# All commands over what metadata.json has; the record's length and the four counts go to `check`, `list`, `record`, `verify`.
count_all() {
    check=$(count -L off check licenses)
    list=$(count list)
    record=$(count record)
    cp said verdicts.record
    length=$(wc -c < verdicts.record)
    verify=$(count verify verdicts.record)
    [ "$(cat said)" = verified ] || { echo "not verified" >&2; exit 1; }
}

metadata "$size" 1
count_all
echo "$size crates: check $check, list $list, record $record, verify $verify instructions; the record has $length bytes"
echo "record of check $(ratio "$record" "$check"), verify of check $(ratio "$verify" "$check"), verify of list $(ratio "$verify" "$list")"
one_record=$record one_verify=$verify
metadata "$((2 * size))" 1
count_all
echo "twice as many crates: record $(ratio "$record" "$one_record"), verify $(ratio "$verify" "$one_verify")"
metadata 1 "$((5 * size))"
count_all
one_record=$record one_verify=$verify
metadata 1 "$((10 * size))"
count_all
echo "a crate with twice as many terms: record $(ratio "$record" "$one_record"), verify $(ratio "$verify" "$one_verify")"
