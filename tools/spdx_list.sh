#!/bin/sh
# Writes a catalogue's file of every licence and exception of SPDX's list; docs/RULES.md, "A catalogue of SPDX's list", has the rule.
# The list is the file packaging/licenses/_spdx.py of Python's package packaging (Debian: python3-packaging), which has the list's
# version, and of each name whether it was given up.
# usage: tools/spdx_list.sh LIST > examples/lists/spdx.txt
set -eu
cd "$(dirname "$0")/.."
awk '
# The name without its version and without what a GNU name ends with: names that have this in common are one family.
function family_of(name, stem, at) {
    stem = name
    sub(/-(only|or-later)$/, "", stem)
    if (name in single) return name
    at = match(stem, /-[0-9]+\.[0-9]+(-|$)/)
    if (!at) return stem
    versions[name] = substr(stem, RSTART + 1, RLENGTH - (stem ~ /-[0-9]+\.[0-9]+$/ ? 1 : 2))
    return substr(stem, 1, at - 1) " " substr(stem, at + 1 + length(versions[name]))
}
function rank_of(name, parts) {
    if (held[families[name]] == 1 || !(name in versions)) return 10
    split(versions[name], parts, ".")
    return 10 * parts[1] + parts[2]
}
function is_gnu(name) { return name ~ /^(A|L)?GPL-[0-9]/ || name ~ /^GFDL-[0-9]/ }
function stem_of(name) { sub(/-(only|or-later)$/, "", name); return name }
# Names that are each a family of its own, whatever their version.
BEGIN { split("CDLA-Permissive-2.0 MulanPSL-2.0", own, " "); for (i in own) single[own[i]] = 1 }
FNR == 1 { file++ }
file == 1 && $1 == "license" { known[$2] = $3; if ($3 >= next_family) next_family = $3 + 1 }
file == 1 && $1 == "imprecise" { imprecise[++texts] = $0 }
file == 2 && /^VERSION/ { version = $3; gsub(/\047/, "", version) }
file == 2 && /^LICENSES/ { kind = "license" }
file == 2 && /^EXCEPTIONS/ { kind = "exception" }
file == 2 && /\047id\047/ {
    name = $3
    gsub(/[\047,]/, "", name)
    given_up = /True/
    if (kind == "exception") { exceptions[++exception_count] = name; next }
    if (name ~ /\+/) next
    names[++count] = name
    deprecated[name] = given_up
    families[name] = family_of(name)
    stem = stem_of(name)
    if (!((families[name], stem) in seen)) { seen[families[name], stem] = 1; held[families[name]]++ }
    if (name in known) numbers[families[name]] = known[name]
}
END {
    print "# Every licence and exception of the SPDX list " version ", to copy and to extend. Names with a `+` are left out: the `+` belongs to no"
    print "# name. tools/spdx_list.sh wrote this file; families and ranks are as docs/RULES.md says, \"A catalogue of SPDX\047s list\"."
    print ""
    for (i = 1; i <= count; i++) {
        name = names[i]
        family = families[name]
        if (!(family in numbers)) numbers[family] = next_family++
        line = "license " name " " numbers[family] " " rank_of(name)
        if (name ~ /-or-later$/) line = line " later"
        if (deprecated[name]) line = line " deprecated"
        if (is_gnu(name)) line = line " gnu"
        print line
    }
    print ""
    for (i = 1; i <= exception_count; i++) print "exception " exceptions[i]
    print ""
    for (i = 1; i <= texts; i++) print imprecise[i]
}' examples/lists/built-in.txt "$1"
