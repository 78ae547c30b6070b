#!/bin/sh
# Runs the built program over each folder of examples/ and over words and files that a system can give it, and licence-hash over
# odd words, and compares both streams and the status with the files of examples/outputs, and these with the blocks of the
# documents. What differs is printed, and the status is then 1.
# usage: tools/examples.sh [PROGRAM]
set -eu
cd "$(dirname "$0")/.."
top=$(pwd)
program=$(realpath "${1:-crates/cargo_deny/out/cargo_deny}")
hasher=$(realpath crates/licence_hash/out/licence_hash)
room=$(mktemp -d)
trap 'rm -rf "$room"' EXIT
failed=0
column=0
sh tools/blocks.sh || failed=1
for list in built-in spdx; do
    cmp "examples/lists/$list.txt" "crates/tests_rows/data/spdx/$list-list.txt" || failed=1
done

# The status and the streams of a run, with the folder as the examples have it.
told() {
    status=$1
    echo "status $status"
    for stream in out err; do
        [ -f "$room/$stream" ] || continue
        echo "-- $stream"
        sed "s|$folder|/project|g" "$room/$stream"
    done
}

# Runs a command of the shell in a folder, for twenty seconds at most, and compares what it comes to.
compare() {
    name=$1
    folder=$2
    shift 2
    rm -f "$room/out" "$room/err"
    status=0
    (cd "$folder" && timeout 20 bash -c "$1" >"$room/out" 2>"$room/err") || status=$?
    told "$status" >"$room/told"
    sed "s|COLUMN|$column|" "examples/outputs/$name" >"$room/wanted"
    if ! diff -u "$room/wanted" "$room/told"; then
        echo "$name: differs" >&2
        failed=1
    fi
}

# The metadata of an example, with its folder in the place of /project.
metadata() {
    sed -e "s|\"/project|\"$1|g" -e "s|file:///project|file://$1|g" "$1/${2:-metadata.json}" >"$room/metadata.json"
}

# The words are those that `cargo deny` passes on; the policy is found beside the manifest.
for name in first workspace policy files rejected reviewed; do
    metadata "$top/examples/$name"
    compare "$name" "$top/examples/$name" "'$program' deny --metadata-path '$room/metadata.json' check licenses"
done
metadata "$top/examples/lists"
compare lists "$top/examples/lists" "'$program' deny --metadata-path '$room/metadata.json' --catalog catalog.txt --store texts check licenses"
compare lists-built-in "$top/examples/lists" "'$program' deny --metadata-path '$room/metadata.json' check licenses"
metadata "$top/examples/rejected"
compare rejected-json "$top/examples/rejected" "'$program' deny --metadata-path '$room/metadata.json' -f json check licenses"
metadata "$top/examples/policy"
compare policy-old "$top/examples/policy" "'$program' deny --metadata-path '$room/metadata.json' --config old.toml check licenses"
compare policy-info "$top/examples/policy" "'$program' deny -L info --metadata-path '$room/metadata.json' check licenses"

# What verdicts rest on: a rejected crate, and one whose clarification has the hash of another text.
metadata "$top/examples/rejected"
compare why "$top/examples/rejected" "'$program' deny --metadata-path '$room/metadata.json' why globe"
folder="$room/files"
cp -R "$top/examples/files" "$folder"
metadata "$folder"
compare why-hash "$folder" "sed -i s/any/each/ libs/coins/TERMS && '$program' deny --metadata-path '$room/metadata.json' why coins"

# A bill, and whether it has changed under another policy.
metadata "$top/examples/workspace"
asks="'$program' --metadata-path '$room/metadata.json'"
words="bill --name workspace-1.0 --namespace https://example.org/spdx/workspace-1.0 --created 2024-05-01T12:00:00Z"
compare bill "$top/examples/workspace" "$asks $words"
compare bill-changed "$top/examples/workspace" "$asks $words >'$room/old' && sed 's/\"ISC\", //' deny.toml >'$room/p.toml' && $asks --config '$room/p.toml' $words --against '$room/old'"

# A notice, which is the one that the example keeps; of the built-in texts one is missing.
metadata "$top/examples/notice"
asks="'$program' --metadata-path '$room/metadata.json'"
compare notice "$top/examples/notice" "$asks --store texts notice"
compare notice-built-in "$top/examples/notice" "$asks notice"
compare notice-review "$top/examples/notice" "sh review.sh '$room/metadata.json' NOTICE.txt"
compare notice-html "$top/examples/notice" "sh html.sh NOTICE.txt"

# An exception that is tied to a file: a record that was right before a word of the file changed, and a check behind that.
folder="$room/reviewed"
cp -R "$top/examples/reviewed" "$folder"
metadata "$folder"
asks="'$program' --metadata-path '$room/metadata.json'"
compare reviewed-record "$folder" "$asks record >verdicts && sed -i s/any/each/ libs/tide/TERMS && $asks verify verdicts"
compare reviewed-changed "$folder" "$asks check licenses"

# A crate without a field, whose licence file is a pipe that nobody writes to, or a device.
odd="$room/odd"
mkdir "$odd"
printf '[package]\nname = "odd"\nversion = "1.0.0"\n' >"$odd/Cargo.toml"
mkfifo "$odd/TERMS"
ln -s /dev/null "$odd/NOTHING"
printf '[licenses]\nallow = ["MIT"]\n' >"$odd/deny.toml"
for file in TERMS NOTHING; do
    cat >"$odd/$file.json" <<END
{"packages":[{"name":"odd","version":"1.0.0","id":"odd 1.0.0","license":null,"license_file":"$file","manifest_path":"$odd/Cargo.toml"}],
"workspace_members":["odd 1.0.0"],"workspace_root":"$odd",
"resolve":{"nodes":[{"id":"odd 1.0.0","deps":[]}],"root":"odd 1.0.0"}}
END
    # A list of licence files has their paths, so a place in it moves with the folder's length.
    column=$((25 + ${#odd} + 1 + ${#file}))
    compare "odd-$file" "$odd" "'$program' --metadata-path $file.json --config deny.toml check licenses"
done

# Metadata that comes through standard input, over a policy of forty names.
metadata "$top/examples/stdin"
compare stdin "$top/examples/stdin" "'$program' --metadata-path /dev/stdin --config deny.toml check licenses <'$room/metadata.json'"

# Metadata that comes through a pipe, an entry that is denied, requests and words that are refused, and a standard error that is
# closed.
first="$top/examples/first"
metadata "$first"
asks="'$program' --metadata-path '$room/metadata.json'"
compare piped "$first" "'$program' --metadata-path <(cat '$room/metadata.json') check licenses"
compare denied "$first" "$asks check -D license-not-encountered licenses"
compare unsupported "$first" "$asks check licenses bans"
compare no-manifest "$first/src" "$asks check licenses"
compare no-utf8 "$first" "$asks check licenses \$'\\xff'"
compare word-further "$first" "$asks check licenses twice"
compare no-folder "$room" "mkdir gone && cd gone && rmdir ../gone && $asks check licenses"
compare closed-stderr "$first" "$asks check licenses 2>&-"

# Words that reach the run as they are: one with blanks, one that differs from a file's name in case alone, an empty one, and
# one with a way that goes up.
folder="$room/words"
mkdir "$folder"
cp "$first/Cargo.toml" "$first/metadata.json" "$folder"
cp "$first/deny.toml" "$folder/p.toml"
cp "$first/deny.toml" "$folder/ a  policy"
printf '[licenses]\nallow = ["ISC"]\n' >"$folder/P.toml"
metadata "$folder"
for row in "blanks: a  policy" capital:P.toml empty-path: way-up:../words/p.toml; do
    compare "word-${row%%:*}" "$folder" "'$program' --metadata-path '$room/metadata.json' --config '${row#*:}' check licenses"
done
compare word-empty "$folder" "'$program' --metadata-path '$room/metadata.json' --config p.toml check licenses ''"

# What a stranger could write: a policy after a mark of the byte order, one of 128 brackets, a name that holds ESC, and a
# licence file that is a link to itself.
hostile="$top/examples/hostile"
metadata "$hostile"
for policy in marked deep; do
    compare "hostile-$policy" "$hostile" "'$program' --metadata-path '$room/metadata.json' --config $policy.toml check licenses"
done
metadata "$hostile" escape.json
compare hostile-escape "$hostile" "'$program' --metadata-path '$room/metadata.json' check licenses"
folder="$room/link"
mkdir "$folder"
cp "$hostile/Cargo.toml" "$hostile/deny.toml" "$folder"
sed 's|"license":"MIT"|"license":null|' "$hostile/metadata.json" >"$folder/metadata.json"
ln -s LICENSE "$folder/LICENSE"
metadata "$folder"
compare hostile-link "$folder" "'$program' --metadata-path '$room/metadata.json' check licenses"

# An exceptions file that is a link to itself, beside a policy in order: the refusal names both.
folder="$room/exceptions"
mkdir "$folder"
cp "$first/Cargo.toml" "$first/deny.toml" "$first/metadata.json" "$folder"
ln -s deny.exceptions.toml "$folder/deny.exceptions.toml"
metadata "$folder"
compare hostile-exceptions "$folder" "'$program' --metadata-path '$room/metadata.json' check licenses"

# licence-hash without words, for help, over one file, and where standard output refuses what is written.
files="$top/crates/licence_hash/data"
compare hash-nothing "$files" "'$hasher'"
compare hash-help "$files" "'$hasher' --help"
compare hash-one "$files" "'$hasher' TERMS"
compare hash-refused "$files" "'$hasher' TERMS >/dev/full"
compare hash-help-refused "$files" "'$hasher' -h >/dev/full"
[ "$failed" = 0 ] && echo "the examples come to what examples/outputs has"
exit "$failed"
