#!/bin/sh
# Counts the instructions of whole runs, from the metadata to the last printed finding, and times the largest. Run it in the
# repository, once `make build` has built the program; another one may be named. It needs valgrind, python3 and time.
#
# Each crate has a manifest of 2 KiB and a licence file of 1 to 11 KiB, which is read. Of three crates one is clarified by the
# hash of its file, one has a clarification of another hash, so that its field settles it, and one has a field and a file that
# say nothing. The policy allows what none of them is under, so each crate's finding is an error, and is printed: as much
# as a run without one prints at level info. Two entries are never used.
set -e
program=${1:-$(pwd)/crates/cargo_deny/out/cargo_deny}
work=$(mktemp -d)
trap 'rm -rf "$work"' EXIT
cd "$work"
# the manifest that the run looks at first
: > Cargo.toml

cat > made.py << 'END'
import json
import os

CRATES = 20_000
LINE = b"Permission is hereby granted, free of charge, to any person who\n"
COMMENT = "# a line that names the license and so is tried, in a manifest!\n"
NAMES = """0BSD BlueOak-1.0.0 BSD-1-Clause BSD-2-Clause BSD-2-Clause-Patent BSD-3-Clause BSD-3-Clause-Clear BSD-4-Clause BSL-1.0
BUSL-1.1 bzip2-1.0.6 CC0-1.0 CDLA-Permissive-2.0 curl FTL HPND ICU IJG ISC MIT-0 NCSA OpenSSL PostgreSQL PSF-2.0
Python-2.0 Ruby Unicode-3.0 Unicode-DFS-2016 Unlicense UPL-1.0 Vim WTFPL X11 Zlib MPL-2.0 EPL-2.0 CC-BY-4.0
GPL-2.0-only GPL-3.0-only LGPL-3.0-only""".split()


def turned(number, by):
    return (number << by | number >> 32 - by) & 0xFFFFFFFF


def xxh32(text):
    """The hash of a text of at least 16 bytes, with initial value 0."""
    a, b, c, d, e = 0x9E3779B1, 0x85EBCA77, 0xC2B2AE3D, 0x27D4EB2F, 0x165667B1
    words = memoryview(text[: len(text) // 4 * 4]).cast("I")
    lanes = [a + b & 0xFFFFFFFF, b, 0, -a & 0xFFFFFFFF]
    whole = len(text) // 16 * 4
    for place in range(4):
        lane = lanes[place]
        for word in words[place:whole:4]:
            lane = lane + word * b & 0xFFFFFFFF
            lane = (lane << 13 | lane >> 19) * a & 0xFFFFFFFF
        lanes[place] = lane
    sum = len(text) + turned(lanes[0], 1) + turned(lanes[1], 7) + turned(lanes[2], 12) + turned(lanes[3], 18)
    for word in words[whole:]:
        sum = turned(sum + word * c & 0xFFFFFFFF, 17) * d
    for byte in text[len(text) // 4 * 4 :]:
        sum = turned(sum + byte * e & 0xFFFFFFFF, 11) * a
    sum &= 0xFFFFFFFF
    sum = (sum ^ sum >> 15) * b & 0xFFFFFFFF
    sum = (sum ^ sum >> 13) * c & 0xFFFFFFFF
    return sum ^ sum >> 16


def written(path, text):
    with open(path, "w") as file:
        file.write(text)


def field(index):
    return "nonsense" if index % 3 == 2 else "Apache-2.0 OR MIT"


def add_crate(index):
    """Makes a crate's files; the clarification that is for it, or for none."""
    folder = f"c{index}"
    os.mkdir(folder)
    text = b"%d\n" % index + LINE * (index * 7_919 % 160 + 16)
    written(f"{folder}/LICENSE", text.decode())
    written(f"{folder}/Cargo.toml", f'[package]\nname = "c{index}"\n{COMMENT * 31}license = "{field(index)}"\n')
    name = f"x{index}" if index % 3 == 2 else f"c{index}"
    hash = xxh32(text) if index % 3 == 0 else 1
    return f'[[licenses.clarify]]\ncrate = "{name}"\nexpression = "MIT"\nlicense-files = [{{ path = "LICENSE", hash = 0x{hash:08x} }}]\n'


def package(index):
    return {
        "name": f"c{index}",
        "version": "1.0.0",
        "id": f"c{index}",
        "license": field(index),
        "manifest_path": f"{os.getcwd()}/c{index}/Cargo.toml",
    }


def metadata(count):
    ids = [f"c{index}" for index in range(count)]
    nodes = [{"id": id, "deps": []} for id in ids]
    packages = [package(index) for index in range(count)]
    root = {"root": None, "nodes": nodes}
    return json.dumps({"packages": packages, "workspace_members": ids, "workspace_root": os.getcwd(), "resolve": root})


def entries(count):
    """A policy of that many allowed licences, of forty names, and of that many exceptions; none is used."""
    allow = [f'"{NAMES[index % 40]}"' for index in range(count)]
    exceptions = [f'{{ crate = "c{index}", allow = ["{NAMES[index % 40]}"] }}' for index in range(count)]
    return f"[licenses]\nallow = [{', '.join(allow)}]\nexceptions = [{', '.join(exceptions)}]\n"


clarified = [add_crate(index) for index in range(CRATES)]
for count in (CRATES // 4, CRATES // 2, CRATES):
    written(f"c{count}.toml", '[licenses]\nallow = ["0BSD", "Zlib"]\n' + "".join(clarified[:count]))
    written(f"e{count}.toml", entries(count))
for count in (1, 100, CRATES // 4, CRATES // 2, CRATES):
    written(f"m{count}.json", metadata(count))
END
python3 made.py

# The words of a run over that many crates with that policy.
words() {
    echo "--metadata-path m$1.json --config $2.toml check licenses"
}

# The instructions of such a run.
count() {
    valgrind --tool=callgrind --callgrind-out-file=out "$program" $(words "$1" "$2") > said 2> counts || true
    grep -q '^licenses ' said
    sed -n 's/.*Collected : \([0-9]*\).*/\1/p' counts
}

# The least processor time of three such runs, in seconds.
seconds() {
    for _ in 1 2 3; do
        /usr/bin/time -o took -f '%U %S' "$program" $(words "$1" "$2") > said 2> told || true
        grep -q '^licenses ' said
        awk '{ print $1 + $2 }' took | tail -n 1
    done | sort -n | head -n 1
}

# Prints the instructions of runs over that many crates with each size of policy, and how they grow.
sizes() {
    some=$(count "$1" "$2"5000)
    twice=$(count "$1" "$2"10000)
    more=$(count "$1" "$2"20000)
    grows "$some" "$twice" "$more"
}

grows() {
    awk -v some="$1" -v twice="$2" -v more="$3" 'BEGIN {
        printf "%.0f, %.0f, %.0f instructions: %.3f and %.3f\n", some, twice, more, twice / some, more / some
    }'
}

some=$(count 5000 c5000)
twice=$(count 10000 c10000)
more=$(count 20000 c20000)
echo "5,000, 10,000 and 20,000 crates: $(grows "$some" "$twice" "$more")"
took=$(seconds 20000 c20000)
echo "20,000 crates: $took s, $(grep -c '' told) lines"
echo "one crate, 5,000, 10,000 and 20,000 entries and exceptions: $(sizes 1 e)"
echo "a hundred crates, the same: $(sizes 100 e)"
took=$(seconds 20000 e20000)
echo "20,000 crates, 20,000 entries and exceptions: $took s, $(grep -c '' told) lines"
