#!/bin/sh
# Adds to a bill the package addresses (purls) by which scanners find vulnerabilities: of each crate of crates.io a line
# `ExternalRef: PACKAGE-MANAGER purl pkg:cargo/NAME@VERSION` behind its `PackageCopyrightText`, with `%2B` for a `+`. Which crates are
# of crates.io the metadata says. Nothing of this is proved. The result is for what is handed out: `bill --against` takes the bill
# without these lines.
# usage: purls.sh METADATA BILL > WITH-PURLS     METADATA is what `cargo metadata --format-version 1` printed; it needs jq and awk
set -eu
if [ $# -ne 2 ]; then
    echo "usage: $0 METADATA BILL" >&2
    exit 2
fi
known=$(mktemp)
trap 'rm -f "$known"' EXIT
jq -r '.packages[]
    | select(.source == "registry+https://github.com/rust-lang/crates.io-index"
        or .source == "sparse+https://index.crates.io/")
    | "\(.name)@\(.version)"' "$1" >"$known"
awk '
    NR == FNR { known[$0] = 1; next }
    /^PackageName: / { name = substr($0, 14) }
    /^PackageVersion: / { version = substr($0, 17) }
    { print }
    /^PackageCopyrightText: / {
        if ((name "@" version) in known) {
            gsub(/\+/, "%2B", version)
            print "ExternalRef: PACKAGE-MANAGER purl pkg:cargo/" name "@" version
        }
    }' "$known" "$2"
