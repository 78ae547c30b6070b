#!/bin/sh
# Makes HTML of a notice. Nothing of this is proved; what is written is escaped, so no name becomes a tag.
# usage: html.sh NOTICE > NOTICE.html
set -eu
echo '<!DOCTYPE html><meta charset="utf-8"><title>Notice</title>'
awk '
    { gsub(/&/, "\\&amp;"); gsub(/</, "\\&lt;"); gsub(/>/, "\\&gt;") }
    /^\[[0-9]+\]$/ && before == "" && NR > 1 { if (open) print "</pre>"; print "<h2>" $0 "</h2><pre>"; open = 1; before = $0; next }
    { before = $0; if (open) print; else if ($0 != "") print "<p>" $0 "</p>" }
    END { if (open) print "</pre>" }' "${1:?a notice}"
