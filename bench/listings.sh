#!/bin/sh
# Counts the instructions of listings of N crates in each form, and of twice as many, of a table with twice as many licences, of
# samples, and of a check of the same files as a sample has. Run it in the repository, once `make build` has built the program: sh bench/listings.sh [N [PROGRAM]]. It needs valgrind.
set -e
size=${1:-10000}
program=${2:-$(pwd)/crates/cargo_deny/out/cargo_deny}
work=$(mktemp -d)
trap 'rm -rf "$work"' EXIT
cd "$work"
: > Cargo.toml
printf '[licenses]\nallow = ["MIT"]\n' > deny.toml

# Metadata of that many crates, whose fields name so many licences one after the other. Each crate leads to the next.
metadata() {
    awk -v n="$1" -v kinds="$2" '
        function id(i) { return sprintf("c%d 1.0.0", i) }
        BEGIN {
            printf "{\"packages\":["
            for (i = 0; i < n; i++)
                printf "%s{\"name\":\"c%d\",\"version\":\"1.0.0\",\"id\":\"%s\",\"license\":\"MIT OR LicenseRef-l%d\",\"manifest_path\":\"/w/c%d/Cargo.toml\"}", (i ? "," : ""), i, id(i), i % kinds, i
            printf "],\"workspace_members\":[\"%s\"],\"workspace_root\":\"/w\",\"resolve\":{\"root\":\"%s\",\"nodes\":[", id(0), id(0)
            for (i = 0; i < n; i++) {
                printf "%s{\"id\":\"%s\",\"deps\":[", (i ? "," : ""), id(i)
                if (i + 1 < n) printf "{\"pkg\":\"%s\",\"dep_kinds\":[{\"kind\":null}]}", id(i + 1)
                printf "]}"
            }
            printf "]}}"
        }'
}

# The instructions of a run with these words.
count() {
    valgrind --tool=callgrind --callgrind-out-file=out "$program" "$@" > said 2> counts || true
    sed -n 's/.*Collected : \([0-9]*\).*/\1/p' counts
}

# The instructions of a listing of so many crates with so many licences, in a form.
listed() {
    metadata "$1" "$2" > metadata.json
    shift 2
    count --metadata-path metadata.json --config deny.toml list "$@"
}

# The files of a sample of that many crates, in a folder.
files_of_sample() {
    mkdir "$2"
    printf '[licenses]\nallow = ["MIT"]\n' > "$2/p.toml"
    awk -v n="$1" '
        function edge(n, before, j) { return j < n ? sprintf("%s{\"pkg\":\"c%d\"}", before, j) : "" }
        BEGIN {
            split("\"MIT\",\"MIT OR Apache-2.0\",\"GPL-3.0-only\",null", licences, ",")
            printf "{\"packages\":["
            for (i = 0; i < n; i++)
                printf "%s{\"name\":\"c%d\",\"version\":\"1.0.%d\",\"id\":\"c%d\",\"manifest_path\":\"FOLDER/c%d/Cargo.toml\",\"license\":%s}", (i ? "," : ""), i, i, i, i, licences[i % 4 + 1]
            printf "],\"workspace_members\":[\"c0\"],\"workspace_root\":\"FOLDER\",\"resolve\":{\"root\":\"c0\",\"nodes\":["
            for (i = 0; i < n; i++)
                printf "%s{\"id\":\"c%d\",\"deps\":[%s%s]}", (i ? "," : ""), i, edge(n, "", 2 * i + 1), edge(n, ",", 2 * i + 2)
            printf "]}}"
        }' | sed "s|FOLDER|$2|g" > "$2/m.json"
    seq 0 $(($1 - 1)) | sed "s|.*|$2/c&|" | xargs mkdir
    seq 0 $(($1 - 1)) | sed "s|.*|$2/c&/Cargo.toml|" | xargs touch
}

# The instructions of a check of these files.
checked() {
    files_of_sample "$1" "$work/files"
    count -L off --manifest-path "$work/files/c0/Cargo.toml" --metadata-path "$work/files/m.json" --config "$work/files/p.toml" check licenses
}

# Two counts, with their ratio.
told() {
    awk -v name="$1" -v one="$2" -v two="$3" 'BEGIN { printf "%s: %d and %d, ratio %.2f\n", name, one, two, two / one }'
}

double=$((2 * size))
for form in "-f human -l license" "-f human -l crate" "-f json -l license" "-f json -l crate" "-f tsv"; do
    told "list $form, $size and $double crates" "$(listed "$size" 1 $form)" "$(listed "$double" 1 $form)"
done
told "list -f tsv, $size crates with 30 and 60 licences" "$(listed "$size" 29 -f tsv)" "$(listed "$size" 59 -f tsv)"
told "sample $size and $double" "$(count sample "$size")" "$(count sample "$double")"
told "a check of files and sample $double" "$(checked "$double")" "$(count sample "$double")"
