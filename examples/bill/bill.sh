#!/bin/sh
# A bill of what is in a release, as SPDX 2.3, and whether it has changed: a pipeline stops where a dependency or a licence came in
# unseen. The moment is that of SOURCE_DATE_EPOCH (of the last commit, where that is not set and git is there), so the same content
# gives the same bill. A bill judges nothing: run the check beside it.
# usage: bill.sh make|compare NAME NAMESPACE, in the project's folder, with examples/ci/check.sh beside this script
# BILL names the bill's file, if not app.spdx; CARGO_DENY the program and DENY_CONFIG the policy, as for check.sh, which makes the
# metadata with the policy's features. `compare` needs the bill as `make` wrote it.
set -eu
bill=${BILL:-app.spdx}
check=$(dirname "$0")/check.sh
[ -e "$check" ] || check=$(dirname "$0")/../ci/check.sh
if [ $# -ne 3 ]; then
    echo "usage: $0 make|compare NAME NAMESPACE" >&2
    exit 2
fi
work=$1 name=$2 namespace=$3
seconds=${SOURCE_DATE_EPOCH:-$(git log -1 --format=%ct)}
moment=$(date -u -d "@$seconds" +%Y-%m-%dT%H:%M:%SZ 2>/dev/null || date -u -r "$seconds" +%Y-%m-%dT%H:%M:%SZ)
room=$(mktemp -d)
trap 'rm -rf "$room"' EXIT

# The bill of the crates as they are now.
new_bill() {
    sh "$check" . bill --name "$name" --namespace "$namespace" --created "$moment"
}

case $work in
    make)
        # Aside at first: where the run is refused the kept bill stays.
        new_bill >"$room/new"
        cp "$room/new" "$bill"
        ;;
    compare)
        changed=0
        new_bill >"$room/new"
        sh "$check" . bill --name "$name" --namespace "$namespace" --created "$moment" --against "$bill" || changed=$?
        if [ "$changed" -eq 4 ]; then
            grep -v '^Created: ' "$bill" >"$room/was" || true
            grep -v '^Created: ' "$room/new" >"$room/is" || true
            diff -u "$room/was" "$room/is" || true
        fi
        exit "$changed"
        ;;
    *)
        echo "usage: $0 make|compare NAME NAMESPACE" >&2
        exit 2
        ;;
esac
