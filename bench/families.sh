#!/bin/sh
# Counts the instructions of runs over N crates with a policy that names each of them, and of runs of twice that size: crates
# left out, exceptions and clarifications of one name, clarifications of the exceptions file (overlays), private registries, and
# addresses that are passed over; and last the overlays against as many clarifications of the policy. Run it in the repository,
# once `make build` has built the program: sh bench/families.sh [N [PROGRAM]]. It needs valgrind.
set -e
size=${1:-2000}
program=${2:-$(pwd)/crates/cargo_deny/out/cargo_deny}
work=$(mktemp -d)
trap 'rm -rf "$work"' EXIT
cd "$work"
: > Cargo.toml

# Metadata of a kind, of that many crates. Each leads to the next; those of one name differ by their versions.
metadata() {
    awk -v kind="$1" -v n="$2" '
        function name(i) { return (kind == "exceptions" || kind == "clarifications" || kind == "overlays") ? "a" : sprintf("c%d", i) }
        function id(i) { return sprintf("%s 1.0.%d", name(i), i) }
        function list(n,  i, s) { for (i = 0; i < n; i++) s = s (i ? "," : "") sprintf("\"r%d\"", i); return "[" s "]" }
        function more(i) {
            if (kind == "registries") return sprintf(",\"publish\":[\"r%d\"]", i)
            if (kind == "publish" && i == 0) return ",\"publish\":" list(n)
            if (kind == "addresses" && i) return sprintf(",\"source\":\"registry+https://h%d.example/i%d\"", i, i)
            return ""
        }
        BEGIN {
            crates = kind == "publish" ? 1 : n
            printf "{\"packages\":["
            for (i = 0; i < crates; i++)
                printf "%s{\"name\":\"%s\",\"version\":\"1.0.%d\",\"id\":\"%s\",\"license\":\"MIT\",\"manifest_path\":\"/w/c%d/Cargo.toml\"%s}", (i ? "," : ""), name(i), i, id(i), i, more(i)
            printf "],\"workspace_members\":[\"%s\"],\"workspace_root\":\"/w\",\"resolve\":{\"root\":\"%s\",\"nodes\":[", id(0), id(0)
            for (i = 0; i < crates; i++) {
                printf "%s{\"id\":\"%s\",\"deps\":[", (i ? "," : ""), id(i)
                if (i + 1 < crates) printf "{\"pkg\":\"%s\",\"dep_kinds\":[{\"kind\":null}]}", id(i + 1)
                printf "]}"
            }
            printf "]}}"
        }'
}

# A policy of a kind, with that many items.
policy() {
    awk -v kind="$1" -v n="$2" '
        function items(form,  i, s) { for (i = 0; i < n; i++) s = s (i ? ", " : "") sprintf(form, i, i); return s }
        BEGIN {
            if (kind == "excluded") print "[graph]\nexclude = [" items("\"x%d@1.0.%d\"") "]"
            print "[licenses]\nallow = [\"MIT\"]"
            if (kind == "exceptions") print "exceptions = [" items("{ crate = \"a@=1.0.%d\", allow = [\"ISC\"] }") "]"
            if (kind == "overlays") overlay = "deny.exceptions.toml"
            if (kind == "overlays") print "exceptions = []" > overlay
            if (kind == "clarifications" || kind == "overlays") {
                line = "clarify = [" items("{ crate = \"a@=1.0.%d\", expression = \"ISC\", license-files = [{ path = \"f%d\", hash = 1 }] }") "]"
                if (kind == "overlays") print line > overlay
                else print line
            }
            if (kind == "registries" || kind == "publish") print "[licenses.private]\nignore = true\nregistries = [" items("\"r%d\"") "]"
            if (kind == "addresses") print "[licenses.private]\nignore = true\nignore-sources = [" items("\"https://h%d.example/i%d\"") "]"
        }'
}

# The instructions of a run of a kind and a size.
count() {
    rm -f deny.exceptions.toml
    metadata "$1" "$2" > metadata.json
    policy "$1" "$2" > deny.toml
    valgrind --tool=callgrind --callgrind-out-file=out "$program" -L error \
        --metadata-path metadata.json --config deny.toml check licenses > said 2> counts || true
    grep -q '^licenses ' said || { echo "$1 $2: $(cat said counts)" >&2; exit 1; }
    sed -n 's/.*Collected : \([0-9]*\).*/\1/p' counts
}

for kind in none excluded exceptions clarifications overlays registries publish addresses; do
    once=$(count "$kind" "$size")
    twice=$(count "$kind" $((2 * size)))
    [ "$kind" = clarifications ] && own=$twice
    [ "$kind" = overlays ] && overlays=$twice
    awk -v kind="$kind" -v size="$size" -v once="$once" -v twice="$twice" 'BEGIN {
        printf "%s %d: %.0f, twice as many %.0f, ratio %.2f\n", kind, size, once, twice, twice / once
    }'
done
awk -v size=$((2 * size)) -v own="$own" -v overlays="$overlays" 'BEGIN {
    printf "overlays against clarifications %d: ratio %.3f\n", size, overlays / own
}'
