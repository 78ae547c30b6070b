#!/bin/sh
# Compares the blocks of README.md and docs/ that show an output with the files of examples/outputs. The line above a block
# names its file and its stream, as `<!-- examples/outputs/rejected, err -->`; its lines begin with four blanks. Of a block
# that differs the first such line is printed, and so is a block that looks like an output and names no file.
# usage: tools/blocks.sh
set -eu
cd "$(dirname "$0")/.."
awk '
    function tell(line, text) {
        print FILENAME ":" line ": " text
        failed = 1
    }
    # Takes the lines of a stream of a stored file.
    function take(file, stream,    line, on, got) {
        stored = 0
        on = 0
        while ((got = (getline line < file)) > 0) {
            if (line ~ /^-- (out|err)$/) on = line == "-- " stream
            else if (on) lines[++stored] = line
        }
        close(file)
        if (got < 0) tell(FNR, file " is not there")
        else if (stored == 0) tell(FNR, file " has nothing on " stream)
    }
    function differs(line, is, wanted) {
        if (!told) tell(line, "is \"" is "\", and \"" wanted "\" in " file)
        told = 1
    }
    # A block ends: each line of its file has to have been there.
    function finish(line) {
        if (!named) return
        if (seen == 0) tell(line, "no block comes after the name of " file)
        else if (seen < stored) differs(line, "the end of the block", lines[seen + 1])
        named = 0
        blocks++
    }
    FNR == 1 { finish(FNR) }
    /^<!-- examples\/outputs\/[^ ,]+, (out|err) -->$/ {
        finish(FNR)
        file = $2
        sub(/,$/, "", file)
        take(file, $3)
        named = 1
        seen = 0
        told = 0
        next
    }
    /^    / {
        text = substr($0, 5)
        if (named) {
            seen++
            if (seen > stored) differs(FNR, text, "the end of the stream")
            else if (text != lines[seen]) differs(FNR, text, lines[seen])
        } else if (!told && (text ~ /^(error|warning)(:|\[)/ || text ~ /^licenses (ok|FAILED)$/)) {
            tell(FNR, "an output whose file is not named")
            told = 1
        }
        next
    }
    $0 == "" && (!named || seen == 0) { next }
    {
        finish(FNR)
        told = 0
    }
    END {
        finish(FNR)
        if (!failed) print blocks + 0 " blocks of the documents are what examples/outputs has"
        exit failed
    }' README.md docs/*.md
