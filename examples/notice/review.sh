#!/bin/sh
# What a lawyer looks at beside a notice: texts without a copyright line, crates with a file NOTICE, and crates whose licence asks for
# the source to be offered. Nothing of this is proved.
# usage: review.sh METADATA NOTICE     METADATA is what `cargo metadata --format-version 1` printed; it needs jq and awk
set -eu
if [ $# -ne 2 ]; then
    echo "usage: $0 METADATA NOTICE" >&2
    exit 2
fi
# A line `[N]` behind an empty one begins the text of that number. What stands before the first of them are the lines of crates.
awk '
    /^\[[0-9]+\]$/ && (before == "" && NR > 1) { number = $0; if (!(number in has)) has[number] = 0; order[++count] = number; before = $0; next }
    { before = $0 }
    number == "" { if ($0 != "") crates[++lines] = $0; next }
    tolower($0) ~ /copyright +(\(c\)|c |[0-9])/ { has[number] = 1 }
    END {
        for (i = 1; i <= count; i++) {
            if (has[order[i]]) continue
            print "no copyright line: " order[i]
            for (k = 1; k <= lines; k++) if (index(crates[k], " " order[i])) print "  " crates[k]
        }
        for (k = 1; k <= lines; k++) if (crates[k] ~ /: .*(MPL|EPL|CDDL|LGPL|AGPL|GPL)-/) print "offers its source: " crates[k]
    }' "$2"
jq -r '.packages[].manifest_path' "$1" | while read -r manifest; do
    for file in "$(dirname "$manifest")"/NOTICE*; do
        [ -e "$file" ] && echo "has a notice of its own: $file"
    done
done || true
