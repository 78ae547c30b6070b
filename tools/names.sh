#!/bin/sh
# Sees that what the documents name is in the repository, that no line of them is over 100 columns outside tables, blocks of
# code and links, and that no line of the specs/ of a crate is over 120. In backticks, by itself or as a part of a longer text,
# a name is a path with an ending (`x/y.rt`) or below a known folder, a file of the sources (`Check.antt`), a path of Rust
# (`tree_core::texts`), a word with an underscore (`reads_of_all`) or a type (`CrateReport`). After the word "case", and after a
# file of cases and a colon, the text is the name of a case; with ` => ` in it, it is a row. A text in quotes after a page is a
# heading of it, and links lead to what is there. A path begins in a folder of `roots` or in the document's own, or else in a
# crate or module that the row, the head of the table, the paragraph, the heading or the document is about, that is, names:
# there `specs/Cause.antt` of `tree_core::texts` is crates/tree_core/specs/texts/Cause.antt, and so is `Cause.antt`.
# usage: tools/names.sh
set -eu
export LC_ALL=C
cd "$(dirname "$0")/.."
# What is not in the sources: names of the language, its libraries and what these are made after, of other programs, and files
# of a user's folder.
others='std serde_json semver url clap thiserror
    std_alloc std_collections std_heap std_io fast_float form_urlencoded percent_encoding unicode_normalization ucd_bidi
    ucd_category ucd_idna_map ucd_normal ucd_table clap_builder clap_lex
    cargo_metadata Copyright NO_COLOR MALLOC_MMAP_THRESHOLD_ .cargo/deny.toml .cargo/deny.exceptions.toml'
files() {
    find . \( -name .git -o -name out -o -name wip -o -name dist \) -prune -o "$@" -print | sed 's/^\.\///' | sort
}
pages='README.md CONTRIBUTING.md CHANGELOG.md SECURITY.md docs/*.md crates/*/README.md'
# What is there, a line each: paths, headings, targets of the Makefile, words of crates, cases and groups of files, rows.
facts() {
    printf 'other\t%s\n' $others
    files ! -name . | sed 's/^/path	/'
    awk 'sub(/^#+ /, "") { print "head\t" FILENAME "\t" $0 }' $pages
    sed -n 's/^\([a-z]*\):.*/target	\1/p' Makefile
    files -path './crates/*' \( -name '*.rt' -o -name '*.antt' \) | xargs awk '
        FNR == 1 { split(FILENAME, folder, "/"); comment = FILENAME ~ /antt$/ ? "(^|[ \t])--" : "(^|[ \t])//" }
        {
            if (match($0, comment)) $0 = substr($0, 1, RSTART - 1)
            count = split($0, words, /[^A-Za-z0-9_]+/)
            for (at = 1; at <= count; at++) if (!seen[folder[2], words[at]]++) print "word\t" folder[2] "\t" words[at]
        }'
    files -path './crates/*/data/*.txt' | xargs awk '
        sub(/^case /, "") || (/^\[.*\]$/ && gsub(/^\[|\]$/, "")) { print "case\t" FILENAME "\t" $0; next }
        / => / { print "row\t" $0 }'
}
facts | awk -F '\t' '
    function tell(line, text) { print page ":" line ": " text; failed = 1 }
    function gone(line, name) { tell(line, name " is not there") }
    # Counts characters: the bytes of UTF-8 that go on with one are taken out.
    function width(line, limit) {
        gsub(/[\200-\277]/, "", line)
        if (length(line) > limit) tell(FNR, length(line) " columns")
    }
    # From here on paths may begin in a crate, or in a module of it: "", or its folders with a slash after each.
    function enter(name, module) { base[++bases] = name; modules[bases] = module }
    function enter_path(name,    part, count, at, module) {
        count = split(name, part, "/")
        for (at = 4; at < count; at++) module = module part[at] "/"
        if (part[1] == "crates" && count > 2) enter(part[2], module)
    }
    # A path that a name may mean here, or nothing.
    function meant(name,    at, kind, rest, full) {
        for (at = 0; at <= roots; at++) if ((root[at] name) in path) return root[at] name
        full = page
        sub(/[^\/]*$/, name, full)
        if (full in path) return full
        for (at = bases; at > 0; at--) {
            full = "crates/" base[at] "/"
            kind = name ~ /^(src|specs|proofs)\// ? substr(name, 1, index(name, "/")) : ""
            rest = modules[at] substr(name, length(kind) + 1)
            if (kind != "" && (full kind rest) in path) return full kind rest
            if (kind == "" && (full name) in path) return full name
            if (kind == "" && ((full "src/" rest) in path || (full "specs/" rest) in path || (full "proofs/" rest) in path))
                return full "src/" rest
        }
    }
    # What is named after a path may say where it begins: so one that is not found is looked for again at the end.
    function look(name,    there) {
        sub(/\/$/, "", name)
        if ((there = meant(name)) != "") enter_path(there)
        else { late[++lates] = name; late_line[lates] = FNR }
    }
    function rust_path(name,    part, count, at, one, first, seen, module, top_of) {
        count = split(name, part, "::")
        first = part[1] in crate
        top_of = "crates/" part[1] "/"
        for (at = 2; at <= count; at++) {
            if (!((top_of "specs/" module part[at]) in path || (top_of "src/" module part[at]) in path)) break
            module = module part[at] "/"
        }
        if (first) enter(part[1], module)
        for (one in crate) if (!first || one == part[1]) {
            seen = first
            for (at = 1 + first; at <= count; at++) seen += ((one, part[at]) in inside)
            if (seen == count) return
        }
        if (!(part[1] in other)) gone(FNR, name)
    }
    # A name of one of the forms above, but for what is built, and for a name with a part to be filled in, as NAME or x.
    function token(name,    first) {
        sub(/[.:]+$/, "", name)
        first = substr(name, 1, index(name "/", "/") - 1)
        if (name in other || name ~ /^[\/~-]|:\/\/|\*|(^|\/)(out|dist)\// ||
            name ~ /(^|\/)(NAME|CRATE|FILE|FOLDER|KEY)(\.|\/|$)|(^|_)x(_|$)|[a-z]X$|^X[A-Z]/) return
        if (name in crate) enter(name, "")
        else if (name ~ /^[^:]+\.(rt|antt|edit)$|\/[^:]+\.(sh|txt|md|toml|rs|awk|json)$/) look(name)
        else if (name != first && (first in crate || first in top)) look(name)
        else if (name ~ /^[^\/:]+\.(sh|txt|md)$/ && !(name in file)) gone(FNR, name)
        else if (name ~ /^[A-Za-z][A-Za-z0-9_]*(::[A-Za-z0-9_]+)+$/) rust_path(name)
        else if (name ~ /^[A-Za-z][A-Za-z0-9]*_[A-Za-z0-9_]*$/ && !(name in word)) gone(FNR, name)
        else if (name ~ /^[A-Z][A-Za-z0-9]*$/ && name ~ /[a-z]/ && !(name in word) && !(name in file)) gone(FNR, name)
    }
    # The headings of a page that are named after it, as in README, "Limits".
    function titles(number, where, text,    title) {
        while (match(text, /"[A-Z][^"]*"/)) {
            title = substr(text, RSTART + 1, RLENGTH - 2)
            text = substr(text, RSTART + RLENGTH)
            gsub(/ +/, " ", title)
            if (!((where, title) in head)) gone(number, where ", " title)
        }
    }
    # What is written after the last text in backticks may name headings.
    function prose(number, text,    where) {
        if (last ~ /\.md$/) titles(number, meant(last), text)
        if (match(text, /(README|CONTRIBUTING), "/))
            titles(number, substr(text, RSTART, RLENGTH - 3) ".md", substr(text, RSTART + RLENGTH - 1))
    }
    function anchor(title) {
        title = tolower(title)
        gsub(/[^a-z0-9_ -]/, "", title)
        gsub(/ /, "-", title)
        return title
    }
    # The paths and the headings of the links of a line.
    function links(text,    to, part, where) {
        while (match(text, /\]\([^)]*\)/)) {
            to = substr(text, RSTART + 2, RLENGTH - 3)
            text = substr(text, RSTART + RLENGTH)
            if (to ~ /:\/\//) continue
            split(to "#", part, "#")
            where = page
            if (part[1] != "") sub(/[^\/]*$/, part[1], where)
            while (sub(/[^\/]+\/\.\.\//, "", where));
            if (!(where in path) || part[2] != "" && !((where, part[2]) in anchors)) gone(FNR, to)
        }
    }
    # A text in backticks, with what is written between it and the one before it.
    function span(text, between,    count, part, at) {
        prose(FNR, between)
        if (between ~ /(^|[^A-Za-z])[Cc]ases? $/ && between !~ /in case $/) holder = "/"
        else if (between == ": " && last ~ /\.txt$/) holder = "/" last "\n"
        else if (between !~ /^(,| and|, and) $/) holder = ""
        last = text; texts++
        if (match(text, /^make [a-z]+/) && !(substr(text, 6, RLENGTH - 5) in target)) gone(FNR, text)
        if (holder != "" && !index(cases[text], holder)) tell(FNR, "no case: " text)
        if (text ~ / => / && text ~ /[a-z0-9]/ && !(text in row)) tell(FNR, "no row: " text)
        count = holder != "" || text ~ / => / ? 0 : split(text, part, /[^A-Za-z0-9_.\/:~*-]+/)
        for (at = 1; at <= count; at++) if (part[at] != "") token(part[at])
    }
    function spans(text,    count, part, at) {
        count = split(text, part, "`")
        for (at = 1; at < count; at++) {
            if (open) span(held part[at], between); else between = held part[at]
            held = ""
            open = !open
        }
        held = held part[count] " "; line = FNR
    }
    # A paragraph, a heading or a row ends; after it paths may begin in what the first `kept` bases are.
    function finish(kept,    at) {
        if (open) tell(line, "a backtick without its end")
        else prose(line, held)
        for (at = 1; at <= lates; at++) if (meant(late[at]) == "") gone(late_line[at], late[at])
        open = 0; held = ""; holder = ""; last = ""; lates = 0; bases = kept
    }
    BEGIN { roots = split("crates/ docs/ examples/ crates/tests_rows/data/", root, " ") }
    reading && $1 == "path" { path[$2]; if (!index($2, "/")) top[$2]; sub(/.*\//, "", $2); file[$2]; next }
    reading && $1 == "target" { target[$2]; next }
    reading && $1 == "head" { head[$2, $3]; anchors[$2, anchor($3)]; next }
    reading && $1 == "word" { crate[$2]; word[$3]; inside[$2, $3]; next }
    reading && $1 == "case" { cases[$3] = cases[$3] "/" $2 "\n"; next }
    reading { if ($1 == "row") row[substr($0, 5)]; else other[$2]; next }
    FNR == 1 { finish(0); page = FILENAME; fence = 0; code = 0; blank = 1; table = 0; enter_path(page); own = heading = bases }
    page ~ /antt$/ { width($0, 120); next }
    /^ *```/ { fence = !fence; next }
    fence { next }
    /^    / && (blank || code) { code = 1; next }
    { code = 0; blank = $0 == ""; links($0) }
    /^\|/ { if (!table) finish(heading); spans($0); if (!table) table = bases + 1; finish(table - 1); next }
    { table = 0; wide = $0; gsub(/\]\([^)]*\)|https?:\/\/[^ )>]*/, "", wide); width(wide, 100) }
    blank { finish(heading); next }
    /^#/ { finish(own); spans($0); heading = bases; finish(heading); next }
    { spans($0) }
    END { finish(0); if (!failed) print texts " texts in backticks: what they name is there"; exit failed }
' reading=1 - reading=0 $pages $(files -path './crates/*/specs/*.antt')
