#!/bin/sh
# Checks the licences of a cargo project, as a step of a pipeline does, and ends with the status of the check:
# 0 ok, 4 a finding is an error, 1 and 2 nothing was checked.
# usage: check.sh [FOLDER [WORD..]]     DENY_CONFIG names another policy, CARGO_DENY another program
# Other words than `check licenses` ask for another command, over the same metadata and policy, as `check.sh . list`.
#
# Features are cargo's to apply. Of the policy's table [graph] these three keys are read here, each by a line of sed, so each has to
# be in a line of its own: all-features, no-default-features, features. A policy that names one in another form is refused, since
# crates that only a feature needs would go unchecked.
set -fu
cd "${1:-.}" || exit 1
if [ $# -gt 0 ]; then shift; fi
if [ $# -eq 0 ]; then set -- check licenses; fi

# The policy, where the check looks for it: in this folder, or the nearest above.
policy=${DENY_CONFIG:-}
folder=$PWD
while [ -z "$policy" ]; do
    for name in deny.toml .deny.toml .cargo/deny.toml; do
        if [ -z "$policy" ] && [ -e "${folder%/}/$name" ]; then policy=${folder%/}/$name; fi
    done
    if [ "$folder" = / ]; then break; fi
    folder=$(dirname "$folder")
done
if [ -z "$policy" ]; then
    echo "check.sh: there is no deny.toml here or above" >&2
    exit 1
fi

# What a key of [graph] is.
graph_key() {
    sed -n "/^\[graph\]/,/^\[/s/^ *$1 *= *//p" "$policy" | sed 's/ *#.*//'
}
values=$(graph_key all-features; graph_key no-default-features; graph_key features)
named=$(sed 's/#.*//' "$policy" | grep -cE '(^|[^a-z-])(all-features|no-default-features|features)([^a-z-]|$)')
if [ "$named" -ne "$(printf '%s' "$values" | grep -c .)" ] || printf '%s' "$values" | grep -qvxE 'true|false|\[[^][]*\]'; then
    echo "check.sh: $policy names features in a form that is not read here; put each of all-features, no-default-features and features in a line of its own below [graph]" >&2
    exit 1
fi
options=
if [ "$(graph_key all-features)" = true ]; then options="$options --all-features"; fi
if [ "$(graph_key no-default-features)" = true ]; then options="$options --no-default-features"; fi
features=$(graph_key features | tr -d '[]" ')
if [ -n "$features" ]; then options="$options --features $features"; fi

# Where cargo fails it prints nothing, and the check refuses that with status 1.
# shellcheck disable=SC2086 # the options are words, and none of them has a blank
cargo metadata --format-version 1 $options |
    "${CARGO_DENY:-cargo-deny}" --metadata-path /dev/stdin --config "$policy" "$@"
