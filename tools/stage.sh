#!/bin/sh
# Puts into a folder what is handed out: the built programs, the completions, the manual page and the documents, as they are under
# a prefix such as /usr/local. tools/build.sh makes the programs.
# usage: tools/stage.sh FOLDER
set -eu
folder=${1:?usage: tools/stage.sh FOLDER}
here=$(cd "$(dirname "$0")/.." && pwd)
put() {
    install -D -m "$1" "$2" "$folder/$3"
}
# A text that a tool prints.
put_printed() {
    mkdir -p "$folder/$(dirname "$2")"
    sh "$here/tools/printed.sh" "$1" >"$folder/$2"
    chmod 644 "$folder/$2"
}
put 755 "$here/crates/cargo_deny/out/cargo_deny" bin/cargo-deny
put 755 "$here/crates/licence_hash/out/licence_hash" bin/licence-hash
put_printed bash share/bash-completion/completions/cargo-deny
put_printed zsh share/zsh/site-functions/_cargo-deny
put_printed fish share/fish/vendor_completions.d/cargo-deny.fish
put_printed man share/man/man1/cargo-deny.1
for file in README.md LICENSE-APACHE LICENSE-MIT docs/DIFFERENCES.md docs/GUIDE.md docs/LIBRARY.md docs/PIPELINE.md \
    docs/REFERENCE.md docs/RULES.md docs/THIRD-PARTY.md; do
    put 644 "$here/$file" "share/doc/cargo-deny/$(basename "$file")"
done
for list in built-in spdx; do
    put 644 "$here/examples/lists/$list.txt" "share/cargo-deny/$list.txt"
done
sh "$here/tools/proved.sh" >"$folder/share/doc/cargo-deny/PROVED"
chmod 644 "$folder/share/doc/cargo-deny/PROVED"
