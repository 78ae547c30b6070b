#!/bin/sh
# Counts the instructions of `notice` over N crates without a field, each with a licence file of 2 KiB, beside those of a check that
# writes as little, where the files are all the same and where no two are; over half as many; and over a crate whose field has N terms,
# and half as many. Run it in the repository, once `make build` has built the program: sh bench/notices.sh [N [PROGRAM]]. It needs
# valgrind.
set -e
size=${1:-20000}
program=${2:-$(pwd)/crates/cargo_deny/out/cargo_deny}
work=$(mktemp -d)
trap 'rm -rf "$work"' EXIT
cd "$work"
: > Cargo.toml
printf '[licenses]\nallow = ["MIT"]\n' > deny.toml

# Metadata of that many crates, each with a field of so many terms, or none. Each crate leads to the next.
metadata() {
    awk -v n="$1" -v terms="$2" -v folder="$work" '
        function id(i) { return sprintf("c%d 1.0.0", i) }
        BEGIN {
            field = terms ? "\"MIT" : "null"
            for (t = 1; t < terms; t++) field = field " AND MIT"
            if (terms) field = field "\""
            printf "{\"packages\":["
            for (i = 0; i < n; i++)
                printf "%s{\"name\":\"c%d\",\"version\":\"1.0.0\",\"id\":\"%s\",\"license\":%s,\"manifest_path\":\"%s/c%d/Cargo.toml\"}", (i ? "," : ""), i, id(i), field, folder, i
            printf "],\"workspace_members\":[\"%s\"],\"workspace_root\":\"%s\",\"resolve\":{\"root\":\"%s\",\"nodes\":[", id(0), folder, id(0)
            for (i = 0; i < n; i++) {
                printf "%s{\"id\":\"%s\",\"deps\":[", (i ? "," : ""), id(i)
                if (i + 1 < n) printf "{\"pkg\":\"%s\",\"dep_kinds\":[{\"kind\":null}]}", id(i + 1)
                printf "]}"
            }
            printf "]}}"
        }' > metadata.json
}

# A licence file of 2 KiB for each of that many crates, which is the text behind lines of copyright. With `each` no two are the same.
files() {
    awk -v n="$1" -v each="${2:-}" '
        { text = text $0 "\n" }
        END {
            for (i = 0; i < n; i++) {
                path = sprintf("c%d/LICENSE", i)
                head = "Copyright (c) 2024 " (each ? "c" i : "all") "\n"
                while (length(head text) < 2000) head = head "Copyright (c) 2024 the others\n"
                printf "%s", head text > path
                close(path)
            }
        }' text
}

# The instructions of a run with these words; what it writes stays in the file `said`.
count() {
    valgrind --tool=callgrind --callgrind-out-file=out "$program" --metadata-path metadata.json --config deny.toml "$@" \
        > said 2> counts || true
    sed -n 's/.*Collected : \([0-9]*\).*/\1/p' counts
}

ratio() {
    awk -v one="$1" -v other="$2" 'BEGIN { printf "%.2f\n", one / other }'
}

# The notice of what metadata.json has, which has to hold that many texts.
count_notice() {
    notice=$(count notice)
    length=$(wc -c < said)
    texts=$(awk '/^\[[0-9]+\]$/ && before == "" && NR > 1 { count++ } { before = $0 } END { print count + 0 }' said)
    [ "$texts" = "$1" ] || { echo "$texts texts, and not $1" >&2; exit 1; }
}

half=$((size / 2))
metadata 1 "$half"
count_notice 1
sed '1,/^\[1\]$/d' said > text
one=$notice
metadata 1 "$size"
count_notice 1
echo "a crate with twice as many terms, $size: notice $(ratio "$notice" "$one")"

seq -f 'c%.0f' 0 $((size - 1)) | xargs mkdir
for each in "" each; do
    files "$size" "$each"
    form=the-same
    [ -z "$each" ] || form=distinct
    metadata "$half" 0
    count_notice "$([ -z "$each" ] && echo 1 || echo "$half")"
    one=$notice
    metadata "$size" 0
    check=$(count -L off check licenses)
    count_notice "$([ -z "$each" ] && echo 1 || echo "$size")"
    echo "$size crates, texts $form: check $check, notice $notice instructions; the notice has $length bytes"
    echo "notice of check $(ratio "$notice" "$check"), of half as many crates $(ratio "$notice" "$one")"
done
