# Prints the lines of crates.txt of a crate (-v name=..) and of the libraries below it.
# usage: awk -v name=cargo_deny -f tools/below.awk crates.txt
/^[a-z]/ {
    split($0, sides, ":")
    order[++lines] = sides[1]
    line[sides[1]] = $0
    under[sides[1]] = sides[2]
}
function mark(crate, names, count, at) {
    if (!(crate in line) || crate in wanted) return
    wanted[crate] = 1
    count = split(under[crate], names, " ")
    for (at = 1; at <= count; at++) mark(names[at])
}
END {
    mark(name)
    for (at = 1; at <= lines; at++) if (order[at] in wanted) print line[order[at]]
}
