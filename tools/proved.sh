#!/bin/sh
# Prints what a program that is handed out says of its proof: the commit, the toolchain, how many functions were proved, the
# sentence of README, and what is trusted. It names no machine and no time, so that two builds of a commit print the same.
# usage: tools/proved.sh
set -eu
cd "$(dirname "$0")/.."
# The paragraph of README that begins so, with the line that it ends at.
paragraph() {
    awk -v begin="$1" 'index($0, begin) == 1 { on = 1 } on && $0 == "" { exit } on { gsub(/[*`]/, ""); print; lines++ } END { exit !lines }' README.md
}
commit=$(git rev-parse HEAD 2>/dev/null) || commit="not known: made outside a checkout"
if [ -n "$(git status --porcelain 2>/dev/null)" ]; then
    commit="$commit, with changes that are not committed"
fi
crates=$(for name in cargo_deny licence_hash; do awk -v name="$name" -f tools/below.awk crates.txt; done | cut -d: -f1 | sort -u)
functions=$(for crate in $crates; do find "crates/$crate/src" -name '*.rt' -exec cat {} +; done | grep -cE '^ *(pub(\([a-z]+\))? )?fn ')
cat <<END
cargo-deny $(sed -n 's/^static VERSION: &str = "\(.*\)";$/\1/p' crates/run_request/src/command.rt), the licence check

Commit:    $commit
Toolchain: $(rt version)
Functions: $functions, in $(echo "$crates" | wc -l) crates; the toolchain builds a program only where each is proved

What is proved, by the fields headline and complete of the record IsRun, which deny_run::run::run promises:

$(paragraph '*Whenever')

What is trusted:

$(paragraph '- Trusted:' | sed -e '1s/^- Trusted: //' -e 's/^  //')

README.md of the repository says what this means for real folders, and what is only tested.
END
