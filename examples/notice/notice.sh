#!/bin/sh
# The notice that goes out with a release: makes it, or compares the kept one with the crates as they are now.
# usage: notice.sh make|compare, in the project's folder, with examples/ci/check.sh beside this script
# NOTICE names the file, if not NOTICE.txt, and TEXTS the folder of licence texts, if not texts; CARGO_DENY the program and DENY_CONFIG
# the policy, as for check.sh, which makes the metadata with the policy's features.
# Status 0: made, or the same; 4: another content than the kept one, which is shown; 1: a crate is not accepted or a text is missing.
set -eu
notice=${NOTICE:-NOTICE.txt}
texts=${TEXTS:-texts}
check=$(dirname "$0")/check.sh
[ -e "$check" ] || check=$(dirname "$0")/../ci/check.sh
room=$(mktemp -d)
trap 'rm -rf "$room"' EXIT

# What is written is taken at status 0 alone: where the run is refused the kept file stays.
sh "$check" . --store "$texts" notice >"$room/new"
case ${1:-} in
    make) cp "$room/new" "$notice" ;;
    compare) diff -u "$notice" "$room/new" || exit 4 ;;
    *)
        echo "usage: $0 make|compare" >&2
        exit 2
        ;;
esac
