#!/bin/sh
# Prints the public calls of the libraries, read from the sources, of all crates or of those that are named: a line each, with tabs
# between crate, call, what it may be refused for, its `&mut` arguments (after a refusal nothing else of its caller's is changed), the
# names of its `ensures` clauses, and the first sentence of its comment; `-` where there is none. What it may be refused for is the
# error of its `Result` (AllocError is a want of memory alone), or `never` where its answer is no `Result` and it takes an allocator or
# a want of memory. What a type derives is a line too. Then it checks tools/memory_cases.txt; with --check it does that alone.
# usage: tools/calls.sh [--check | CRATE..]
set -eu
cd "$(dirname "$0")/.."
tab=$(printf '\t')
# Programs and tests are left out, and of derives `Drop`.
public() {
    for root in crates/*/src/lib.rt; do
        crate=${root#crates/}
        crate=${crate%%/*}
        case $crate in tests_* | bench) continue ;; esac
        case " $* " in "  " | *" $crate "*) ;; *) continue ;; esac
        find "crates/$crate/src" -name '*.rt' | sort | LC_ALL=C xargs awk -v crate="$crate" '
            function name_of(text) { sub(/[^A-Za-z0-9_].*/, "", text); return text }
            function or_none(text) { return text == "" ? "-" : text }
            function joined(first, between, then) { return first == "" ? then : first between then }
            function refused(head, answer) {
                answer = head
                sub(/ where .*/, "", answer); sub(/ *[{;] *$/, "", answer)
                if (sub(/.*-> *Result</, "", answer) && answer !~ /->/) {
                    sub(/> *$/, "", answer); sub(/.*, */, "", answer)
                    return answer
                }
                return head ~ /alloc: *(Global|&)|AllocError|AllocFailed|: Global/ ? "never" : "-"
            }
            function changed(head, names, parts, count, at) {
                sub(/ where .*/, "", head); sub(/-> .*/, "", head)
                if (head ~ /[(,] *&(.[a-z]+ )?mut self/) names = "self"
                count = split(head, parts, /: *&(.[a-z]+ )?mut /)
                for (at = 1; at < count; at++) { sub(/.*[ (]/, "", parts[at]); names = joined(names, ", ", parts[at]) }
                return or_none(names)
            }
            function end_call(at, name) {
                in_call = 0
                name = head
                sub(/^.*fn /, "", name)
                print crate "\t" (type == "" ? "" : type "::") name_of(name) "\t" refused(head) "\t" changed(head) \
                    "\t" or_none(clauses) "\t" doc
            }
            FNR == 1 { type = ""; derived = ""; comment = "" }
            /^ *\/\/\/ / { line = $0; sub(/^ *\/\/\/ /, "", line); comment = joined(comment, " ", line); next }
            /^#\[derive\(.*\)\]/ {
                derived = $0
                sub(/^#\[derive\(/, "", derived); sub(/\)\].*/, "", derived)
                sub(/(^|, )Drop$/, "", derived); sub(/Drop, /, "", derived)
            }
            /^pub (struct|enum) / { if (derived != "") print crate "\t" name_of($3) "\tderives\t" derived }
            /^(struct|enum|pub|impl|fn)/ && !/^#/ { derived = "" }
            /^(impl|pub trait|trait)[ <]/ {
                type = $0
                sub(/ *\{.*/, "", type); sub(/ where .*/, "", type)
                is_trait = type ~ /^(pub )?trait/ || type ~ / for /
                if (type ~ / for /) sub(/.* for /, "", type)
                sub(/^impl(<[^>]*(<[^>]*>[^>]*)*>)? */, "", type); sub(/^(pub )?trait */, "", type)
                sub(/[<:( ].*/, "", type)
            }
            /^}/ { type = "" }
            /^ *pub (const )?fn / || (is_trait && type != "" && /^ *fn /) {
                in_call = open = 1
                head = clauses = ""; doc = comment
                sub(/\. .*/, ".", doc)
            }
            in_call {
                if (/^ *(requires|ensures|ghost)/) open = 0
                if (open && !/^ *\/\//) head = head " " $0
                if (match($0, /^ *ensures\*? [a-z_0-9]+ /)) {
                    clause = $0
                    sub(/^ *ensures\*? /, "", clause)
                    clauses = joined(clauses, ", ", name_of(clause))
                }
                if ((/^ *\{/ || /[{;]$/) && !/^ *\/\//) end_call()
            }
            !/^ *#\[/ { comment = "" }'
    done | LC_ALL=C sort -u
}
# Each file of rows and cases, each group and case in it, each test, and each stored run, as tools/memory_cases.txt names them.
cases() {
    for file in crates/tests_rows/data/*/*.txt crates/tests_code/src/*.rt crates/*/stdout; do
        case $file in crates/tests_code/*) short=tests_code/${file##*/} ;; */data/*) short=${file#*/data/} ;; *) short=${file#*/} ;; esac
        printf '%s=%s\n' "$short" "$file"
    done | LC_ALL=C awk -F= '
        {
            print $1
            while ((getline line < $2) > 0) {
                if (sub(/^case /, "", line) || sub(/^fn /, "", line)) { if ($1 ~ /[.]rt$/) sub(/[(].*/, "", line) }
                else if (!sub(/^\[/, "", line) || !sub(/\]$/, "", line)) continue
                print $1 ", " line
            }
            close($2)
        }'
}
# What of tools/memory_cases.txt is not there, and each call that may be refused of which it says nothing.
missing() {
    { public; cases; sed '/^#/d' tools/memory_cases.txt | sed 's/^/=/'; } | LC_ALL=C awk -F "$tab" '
        NF > 1 { call = $1 " " $2; there[call] = 1; if ($3 !~ /^(-|never|derives)$/ && call !~ /::from$/) wanted[call] = 1; next }
        !/^=/ { is_case[$0] = 1; next }
        {
            line = substr($0, 2); at = index(line, ": ")
            call = substr(line, 1, at - 1); name = substr(line, at + 2)
            sub(/ \([a-z ]*\)$/, "", name)
            delete wanted[call]
            if (!(call in there)) print "no such call: " line
            if (!(name in is_case) && name != "takes no memory" && name !~ /^none: /) print "no such case: " line
        }
        END { for (call in wanted) print "no line: " call }'
}
[ "${1:-}" = --check ] || public "$@"
case ${1:-} in
"" | --check)
    wrong=$(missing)
    [ -z "$wrong" ] || { echo "$wrong" >&2; exit 1; }
    echo "tools/memory_cases.txt names calls and cases that are there, and each call that may be refused" >&2
    ;;
esac
