#!/bin/sh
# A release that trusts the verifier alone. At build time the verdicts on all crates are recorded; at release time the record
# is verified over the policy, the metadata and the files as they are then. `verified` says that the record is right, also of a
# crate that was rejected or has no licence: so a record with such a crate is refused here, at both times, with status 4. Cargo's
# ids hold the path of the checkout, so both steps run under one path. A changed policy wants a new record. `verify` prints nothing of
# a licence file that could not be read, so the check is run before it, and what that finds goes to standard error.
# usage: release.sh record|verify, in the project's folder, with examples/ci/check.sh beside this script
# RECORD names the record's file, if not verdicts.record; CARGO_DENY the program and DENY_CONFIG the policy, as for check.sh, which
# makes the metadata with the policy's features.
set -eu
record=${RECORD:-verdicts.record}
check=$(dirname "$0")/check.sh
[ -e "$check" ] || check=$(dirname "$0")/../ci/check.sh

# Each crate of a record whose verdict is against it; an id may have any character, so it is passed over by its length. The status is
# 0 where there is one, 1 where there is none, and another where the record could not be searched.
against() {
    LC_ALL=C awk '
        { text = text $0 "\n" }
        END {
            at = index(text, "\n") + 1
            while (substr(text, at, 2) == "c ") {
                at += 2
                colon = index(substr(text, at, 24), ":")
                long = substr(text, at, colon - 1) + 0
                id = substr(text, at + colon, long)
                at += colon + long
                end = index(substr(text, at), "\n")
                verdict = substr(text, at + 1, 1)
                if (verdict == "r" || verdict == "u") { print id; found = 1 }
                at += end
            }
            if (substr(text, at) != "end\n") { print "release.sh: the record has no end"; exit 2 }
            exit !found
        }' "$1"
}

# Ends where a crate of the record is rejected or has no licence, or where that can't be known.
refuse_against() {
    found=0
    against "$record" >&2 || found=$?
    case $found in
        0)
            echo "release.sh: a crate is rejected or has no licence" >&2
            exit 4
            ;;
        1) ;;
        *)
            echo "release.sh: the record could not be searched" >&2
            exit 1
            ;;
    esac
}

case ${1:-} in
    record)
        sh "$check" . record >"$record"
        refuse_against
        ;;
    verify)
        refuse_against
        sh "$check" . check licenses >&2
        sh "$check" . verify "$record"
        ;;
    *)
        echo "usage: $0 record|verify" >&2
        exit 2
        ;;
esac
