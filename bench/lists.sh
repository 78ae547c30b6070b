#!/bin/sh
# Counts the instructions of checks by an organisation's own names and texts: with a catalogue of N licences and as many imprecise
# texts, and of twice as many; of 2 N crates by it and by the built-in names; and of 300 licence files among six stored texts and
# among 700, which begin alike and differ in their last word. Run it in the repository, once `make build` has built the program:
# sh bench/lists.sh [N [PROGRAM]]. It needs valgrind.
set -e
size=${1:-10000}
program=${2:-$(pwd)/crates/cargo_deny/out/cargo_deny}
work=$(mktemp -d)
trap 'rm -rf "$work"' EXIT
cd "$work"
: > Cargo.toml
printf '[licenses]\nallow = ["MIT"]\n' > deny.toml

# Metadata of so many crates, each with the field MIT, or without one and with a licence file.
metadata() {
    awk -v n="$1" -v field="$2" -v folder="$work" '
        BEGIN {
            printf "{\"packages\":["
            for (i = 0; i < n; i++)
                printf "%s{\"name\":\"c%d\",\"version\":\"1.0.0\",\"id\":\"c%d\",\"license\":%s,\"manifest_path\":\"%s/c%d/Cargo.toml\"}", (i ? "," : ""), i, i, field, folder, i
            printf "],\"workspace_members\":[\"c0\"],\"workspace_root\":\"%s\",\"resolve\":{\"root\":\"c0\",\"nodes\":[", folder
            for (i = 0; i < n; i++)
                printf "%s{\"id\":\"c%d\",\"deps\":[%s]}", (i ? "," : ""), i, (i + 1 < n) ? sprintf("{\"pkg\":\"c%d\"}", i + 1) : ""
            printf "]}}"
        }'
}

# A catalogue of MIT, so many further licences, and as many imprecise texts.
catalogue() {
    awk -v n="$1" 'BEGIN {
        print "license MIT 0 10"
        for (i = 0; i < n; i++) printf "license Own-%d %d 10\n", i, i + 1
        for (i = 0; i < n; i++) printf "imprecise Own-%d own licence %d\n", i, i
    }'
}

# A text whose last word alone is its own.
text() {
    awk -v last="$1" 'BEGIN { for (i = 0; i < 400; i++) printf "word%d ", i; print last }'
}

# A folder of so many texts; the last one is that of the licence files.
texts() {
    mkdir "$2"
    for i in $(seq 1 $(($1 - 1))); do text "other$i" > "$2/A-$i.txt"; done
    text here > "$2/MIT.txt"
}

# The instructions of a check with these words in front of it.
count() {
    valgrind --tool=callgrind --callgrind-out-file=out "$program" -L off --metadata-path metadata.json --config deny.toml "$@" check licenses > said 2> counts || true
    sed -n 's/.*Collected : \([0-9]*\).*/\1/p' counts
}

# Two counts, with their ratio.
told() {
    awk -v name="$1" -v one="$2" -v two="$3" 'BEGIN { printf "%s: %d and %d, ratio %.2f\n", name, one, two, two / one }'
}

double=$((2 * size))
catalogue "$size" > one
catalogue "$double" > two
metadata 1 '"MIT"' > metadata.json
told "a catalogue of $size and $double licences" "$(count --catalog "$work/one")" "$(count --catalog "$work/two")"
metadata "$double" '"MIT"' > metadata.json
told "$double crates by the built-in names and by $size of one's own" "$(count)" "$(count --catalog "$work/one")"

texts 6 few
texts 700 many
metadata 1 '"MIT"' > metadata.json
few=$(count --store "$work/few")
many=$(count --store "$work/many")
metadata 300 null > metadata.json
for i in $(seq 0 299); do mkdir "c$i"; : > "c$i/Cargo.toml"; text here > "c$i/LICENSE"; done
told "300 licence files among 6 and 700 texts, without reading these" "$(($(count --store "$work/few") - few))" "$(($(count --store "$work/many") - many))"
