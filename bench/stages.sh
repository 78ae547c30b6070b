#!/bin/sh
# Counts the instructions of runs that are each about one stage, and of runs of twice that size: how they grow, what each further byte
# of the input takes, and, of some, the parts of the functions that the stage is about, with all that these call. The rows at the end
# name the stages, their sizes and these functions; a part is `-` where the compiler put the function into its caller. Other scripts
# show other stages: families.sh and policies.sh exceptions, small metadata and specs, gates.sh and lists.sh the names of a catalogue.
# Run it in the repository, once `make build` has built the program: sh bench/stages.sh [PROGRAM [STAGE..]]. With stages only these
# are run. It needs valgrind and rustc.
set -e
root=$(pwd)
program=$(realpath "${1:-$root/crates/cargo_deny/out/cargo_deny}")
[ $# = 0 ] || shift
stages=" $* "
work=$(mktemp -d)
trap 'rm -rf "$work"' EXIT
rustc -O -o "$work/workspaces" "$root/bench/workspaces.rs"

# A text so many times; %d in it is the number of the time.
repeat() {
    awk -v text="$2" -v n="$1" 'BEGIN { for (i = 0; i < n; i++) printf text, i, i }'
}

# Metadata of so many crates, whose fields are the lines of what is read, in turn.
metadata() {
    awk -v n="$1" -v folder="$work/made" '
        function list(form,  i) { for (i = 0; i < n; i++) printf "%s" form, (i ? "," : ""), i }
        { field[NR - 1] = $0 }
        END {
            printf "{\"packages\":["
            for (i = 0; i < n; i++)
                printf "%s{\"name\":\"c%d\",\"version\":\"1.0.0\",\"id\":\"c%d\",\"license\":%s,\"manifest_path\":\"%s/c%d/Cargo.toml\"}", (i ? "," : ""), i, i, field[i % NR], folder, i
            printf "],\"workspace_members\":["
            list("\"c%d\"")
            printf "],\"workspace_root\":\"%s\",\"resolve\":{\"root\":null,\"nodes\":[", folder
            list("{\"id\":\"c%d\",\"deps\":[]}")
            printf "]}}"
        }' > metadata.json
}

# Metadata of a crate with a field, which may be null, and a folder for its files.
one() {
    echo "$1" | metadata 1
    mkdir -p c0
}

# A field of a piece so many times, MIT, and a further piece as often.
nested() {
    one "\"$(repeat "$1" "$2")MIT$(repeat "$1" "$3")\""
}

# A policy of what is read, in a table that the gate passes over.
passed_over() {
    { cat deny.toml; echo "[bans]"; cat; } > policy
    mv policy deny.toml
    one '"MIT"'
}

ten_fields() {
    for field in MIT 'MIT OR Apache-2.0' Apache-2.0/MIT '(MIT OR Apache-2.0) AND Unicode-3.0' Apache-2.0 BSD-3-Clause \
        'Apache-2.0 WITH LLVM-exception OR Apache-2.0 OR MIT' 'Unlicense OR MIT' ISC MPL-2.0; do
        echo "\"$field\""
    done
}

# A policy that clarifies so many files of one crate, or of twenty: all are the same text of 64 KiB.
clarified_files() {
    echo '"MIT"' | metadata "$2"
    repeat 1024 "$(printf '%-63s' line)
" > file
    for crate in $(seq 0 $(($2 - 1))); do
        mkdir "c$crate"
        printf '[[licenses.clarify]]\ncrate = "c%d"\nexpression = "MIT"\nlicense-files = [' "$crate"
        repeat $(($1 / $2)) '{ path = "f%d", hash = 0x2888df0c }, '
        echo ']'
        (cd "c$crate" && seq 0 $(($1 / $2 - 1)) | sed 's/^/f/' | xargs -n 1 ln -s ../file)
    done >> deny.toml
}

# Allowed licences and exceptions, none of which is needed.
entries() {
    one '"MIT"'
    {
        echo '[licenses]'
        printf 'allow = ["MIT", '
        repeat $(($1 / 4)) '"0BSD", "ISC", "Zlib", "GPL-2.0-only", '
        printf ']\nexceptions = ['
        repeat "$1" '{ crate = "x%d", allow = ["NCSA"] }, '
        echo ']'
    } > deny.toml
}

# Makes in the working folder the workspace of a stage and a size, and the words of its run.
make_stage() {
    : > Cargo.toml
    echo check licenses > words
    printf '[licenses]\nallow = ["MIT"]\n' > deny.toml
    n=$2
    case $1 in
    crates) "$work/workspaces" small "$n" ;;
    metadata) "$work/workspaces" wide "$n" ;;
    files) clarified_files "$n" 1 ;;
    files-of-twenty) clarified_files "$n" 20 ;;
    entries) entries "$n" ;;
    wide) nested "$n" 'MIT OR X11 AND ' '' ;;
    deep) nested "$n" 'MIT AND (X11 OR (' '))' ;;
    parentheses) nested "$n" '(' ')' ;;
    fields) ten_fields | metadata "$n" ;;
    scan) one null && repeat "$n" 'Permission is hereby granted, free of charge, to any person who
' > c0/LICENSE ;;
    search) one '"ISC"' && repeat "$n" 'license ' > c0/Cargo.toml ;;
    search-equals) one '"ISC"' && repeat "$n" 'license=' > c0/Cargo.toml ;;
    excludes) one '"MIT"' && { repeat "$n" '--exclude=crate-%d@1.0.0 '; echo check licenses; } > words ;;
    checks) one '"MIT"' && { echo check; repeat "$n" 'licenses '; } > words ;;
    toml-inline) { echo 'clarify = ['; repeat "$n" '{ crate = "crate-%d", license-files = [{ path = "LICENSE", hash = 1 }] },
'; echo ']'; } | passed_over ;;
    toml-tables) repeat "$n" '[[bans.clarify]]
crate = "crate-%d"
license-files = [{ path = "LICENSE", hash = 1 }]
' | passed_over ;;
    toml-keys) repeat "$n" 'key-%d = %d
' | passed_over ;;
    toml-headers) repeat "$n" '[bans.k%d]
value = %d
' | passed_over ;;
    toml-sub-tables) repeat "$n" '[[bans.t]]
k = %d
[bans.t.u]
m = true
' | passed_over ;;
    toml-escapes) { printf 'text = "'; repeat "$n" 'abcdefgh\\\\n'; echo '"'; } | passed_over ;;
    *) echo "no such stage: $1" >&2 && exit 1 ;;
    esac
}

# Runs a stage of a size, and prints on a line the instructions, the bytes of the input, and the parts of the functions that are named.
count() {
    rm -rf "$work/made"
    mkdir "$work/made"
    cd "$work/made"
    make_stage "$1" "$2"
    bytes=$(find -L . -type f -exec cat {} + | wc -c)
    shift 2
    valgrind --tool=callgrind --callgrind-out-file="$work/out" --log-file="$work/log" "$program" --metadata-path metadata.json \
        --config deny.toml $(cat words) > "$work/said" 2> "$work/told" || true
    grep -q '^licenses ' "$work/said" || { cat "$work/log" "$work/told" >&2 && exit 1; }
    counted=$(sed -n 's/.*Collected : \([0-9]*\).*/\1/p' "$work/log")
    echo "$counted $bytes $([ $# = 0 ] || callgrind_annotate --inclusive=yes --threshold=100 "$work/out" | awk -v names="$*" '
        BEGIN { count = split(names, name, " ") }
        { for (at = 1; at <= count; at++) if (!(at in part) && $0 ~ ":" name[at] "(::<|$| \\[)") { gsub(",", "", $1); part[at] = $1 } }
        END { for (at = 1; at <= count; at++) printf "%s ", (at in part) ? part[at] : "-" }')"
}

while read -r stage size functions; do
    case $stages in "  " | *" $stage "*) ;; *) continue ;; esac
    once=$(count "$stage" "$size" $functions)
    twice=$(count "$stage" $((2 * size)) $functions)
    { echo "$once"; echo "$twice"; } | awk -v stage="$stage" -v size="$size" -v functions="$functions" '
        NR == 1 { split($0, once); next }
        {
            printf "%s %d: %.1f M, twice as many %.1f M, ratio %.2f, each further byte %.0f", stage, size, once[1] / 1e6, $1 / 1e6, \
                $1 / once[1], ($1 - once[1]) / ($2 - once[2])
            count = split(functions, name, " ")
            for (at = 1; at <= count; at++) {
                sub(/.*::/, "", name[at])
                if (once[at + 2] > 0) printf "; %s %.1f, %.1f M, %.2f", name[at], once[at + 2] / 1e6, $(at + 2) / 1e6, $(at + 2) / once[at + 2]
                else printf "; %s -", name[at]
            }
            print ""
        }'
done << 'END'
crates 1000 records Krates::build load Gatherer::gather judge_all print_packs
metadata 1000 records Krates::build Gatherer::gather judge_all
files 1000 load Gatherer::gather
files-of-twenty 1000 load Gatherer::gather
entries 10000 load judge_all print_packs
wide 50000 Gatherer::gather judge_all
deep 50000 Gatherer::gather judge_all
parentheses 50000 Gatherer::gather
fields 1000 Gatherer::gather
scan 10000 Gatherer::gather
search 1000000 print_packs
search-equals 1000000 print_packs
excludes 2500
checks 2500
toml-inline 10000 load
toml-tables 10000 load
toml-keys 20000 load
toml-headers 20000 load
toml-sub-tables 10000 load
toml-escapes 50000 load
END
