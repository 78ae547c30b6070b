#!/bin/sh
# Counts the instructions of `why` of one crate among N with a manifest each, of which the first needs two, each of these two, and so on,
# beside those of a check that prints nothing; of `why` without a name where all are rejected, beside those of a check that prints them;
# both over half as many; the same where each crate is a root; where each has a clarification that does not hold, as its file is not there;
# and of a crate whose field has N different terms, and half as many. Run it in the repository, once `make build` has built the program:
# sh bench/whys.sh [N [PROGRAM]]. It needs valgrind.
set -e
size=${1:-20000}
program=${2:-$(pwd)/crates/cargo_deny/out/cargo_deny}
work=$(mktemp -d)
trap 'rm -rf "$work"' EXIT
cd "$work"
: > Cargo.toml
: > clarify
half=$((size / 2))

# Metadata of that many crates, each with that many different terms: with `tree` each leads to two others, else all are roots.
metadata() {
    awk -v n="$1" -v terms="$2" -v form="$3" -v folder="$work" '
        function edge(n, before, j) { return j < n ? sprintf("%s{\"pkg\":\"c%d\",\"dep_kinds\":[{\"kind\":null}]}", before, j) : "" }
        BEGIN {
            field = "MIT"
            for (t = 1; t < terms; t++) field = field " AND LicenseRef-" t
            printf "{\"packages\":["
            for (i = 0; i < n; i++)
                printf "%s{\"name\":\"c%d\",\"version\":\"1.0.0\",\"id\":\"c%d\",\"license\":\"%s\",\"manifest_path\":\"%s/c%d/Cargo.toml\"}", (i ? "," : ""), i, i, field, folder, i
            printf "],\"workspace_members\":["
            for (i = 0; i < (form == "tree" ? 1 : n); i++) printf "%s\"c%d\"", (i ? "," : ""), i
            printf "],\"workspace_root\":\"%s\",\"resolve\":{\"root\":null,\"nodes\":[", folder
            for (i = 0; i < n; i++) {
                printf "%s{\"id\":\"c%d\",\"deps\":[", (i ? "," : ""), i
                if (form == "tree") printf "%s%s", edge(n, "", 2 * i + 1), edge(n, ",", 2 * i + 2)
                printf "]}"
            }
            printf "]}}"
        }' > metadata.json
}

# The key of a policy by which each of so many crates has a clarification.
clarify() {
    awk -v n="$1" 'BEGIN {
        print "clarify = ["
        for (i = 0; i < n; i++)
            printf "    { crate = \"c%d\", expression = \"MIT\", license-files = [{ path = \"LICENSE\", hash = 1 }] },\n", i
        print "]"
    }' > clarify
}

# The instructions of a run under a policy that allows one licence; what it writes stays in the files `said` and `err`.
count() {
    { printf '[licenses]\nallow = ["%s"]\n' "$1"; cat clarify; } > deny.toml
    shift
    valgrind --tool=callgrind --callgrind-out-file=out --log-file=counts "$program" --metadata-path metadata.json --config deny.toml "$@" \
        > said 2> err || true
    sed -n 's/.*Collected : \([0-9]*\).*/\1/p' counts
}

ratio() {
    awk -v one="$1" -v other="$2" 'BEGIN { printf "%.3f\n", one / other }'
}

# What `why` has to have said: that many crates with this verdict.
said_of() {
    has=$(grep -c "^  verdict: $2\$" said) || true
    [ "$has" = "$1" ] || { echo "$has crates are $2, and not $1" >&2; exit 1; }
}

seq -f 'c%.0f' 0 $((size - 1)) | xargs mkdir
seq -f 'c%.0f/Cargo.toml' 0 $((size - 1)) | while read -r path; do
    printf '[package]\nname = "c"\nversion = "1.0.0"\nlicense = "MIT"\n' > "$path"
done
for form in tree roots; do
    metadata "$half" 1 "$form"
    half_one=$(count MIT why "c$((half - 1))")
    half_all=$(count ISC why)
    metadata "$size" 1 "$form"
    check=$(count MIT -L off check licenses)
    one=$(count MIT why "c$((size - 1))")
    said_of 1 accepted
    printed=$(count ISC check licenses)
    length=$(wc -c < err)
    all=$(count ISC why)
    said_of "$size" rejected
    echo "$size crates, $form: check $check, why of one $one; check that prints $printed ($length bytes), why of all $all ($(wc -c < said) bytes)"
    echo "one of check $(ratio "$one" "$check"), of half as many crates $(ratio "$one" "$half_one")"
    echo "all of check $(ratio "$all" "$printed"), of half as many crates $(ratio "$all" "$half_all")"
done
clarify "$half"
metadata "$half" 1 roots
half_all=$(count ISC why)
clarify "$size"
metadata "$size" 1 roots
printed=$(count ISC check licenses)
all=$(count ISC why)
said_of "$size" rejected
echo "$size crates, each clarified: why of all $all, of check that prints $(ratio "$all" "$printed"), of half as many $(ratio "$all" "$half_all")"
: > clarify
metadata 1 "$half" tree
one=$(count MIT why)
metadata 1 "$size" tree
check=$(count MIT check licenses)
all=$(count MIT why)
said_of 1 rejected
echo "a crate with $size terms: why $all, of a check that prints $(ratio "$all" "$check"), of half as many terms $(ratio "$all" "$one")"
