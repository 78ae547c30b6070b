#!/bin/sh
# Prints one of the texts that are made from the table of options: the completion for bash, zsh or fish, or the manual page. They
# are one after the other in the stored run of run_completions, which the gate compares; each begins with a line of its own.
# usage: tools/printed.sh bash|zsh|fish|man
set -eu
cd "$(dirname "$0")/.."
awk -v wanted="${1:?usage: tools/printed.sh bash|zsh|fish|man}" '
    $0 == "# Completes the words of cargo-deny in bash 4 and later." { text = "bash" }
    $0 == "#compdef cargo-deny" { text = "zsh" }
    $0 == "# Completes the words of cargo-deny in fish." { text = "fish" }
    $0 == ".\\\" The manual page of cargo-deny, made from the table of its options." { text = "man" }
    text == wanted { print; lines++ }
    END { exit !lines }' crates/run_completions/stdout
