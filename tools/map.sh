#!/bin/sh
# Prints from crates.txt what each crate depends on and which crates use it, of all crates or of those that are named. What is
# in parentheses is a library of the toolchain.
# usage: tools/map.sh [NAME..]
set -eu
cd "$(dirname "$0")/.."
awk -v wanted="$*" '
    /^[a-z]/ {
        split($0, sides, ":")
        split(sides[1], head, " ")
        order[++crates] = head[1]
        uses[head[1]] = sides[2]
    }
    END {
        for (at = 1; at <= crates; at++) {
            count = split(uses[order[at]], names, " ")
            for (n = 1; n <= count; n++) {
                if (names[n] in uses) users[names[n]] = users[names[n]] " " order[at]
                else names[n] = "(" names[n] ")"
                below[order[at]] = below[order[at]] " " names[n]
            }
        }
        chosen = split(wanted, names, " ")
        if (!chosen) for (at = 1; at <= crates; at++) names[++chosen] = order[at]
        for (at = 1; at <= chosen; at++) {
            if (!(names[at] in uses)) {
                print names[at] ": no crate of crates.txt"
                failed = 1
                continue
            }
            print names[at]
            print "    depends on:" (below[names[at]] == "" ? " nothing" : below[names[at]])
            print "    used by:   " (users[names[at]] == "" ? " nothing" : users[names[at]])
        }
        exit failed
    }' crates.txt
