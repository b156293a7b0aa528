#!/bin/sh
# Turns judge's answer (standard input) into a Graphviz digraph of the pairs that are listed at one level: draw.sh rc|ra|tcc
# Edge labels are the reasons by name; reads that are unclean hang on their transaction as boxes, with the number of the write that the value came from.
level=${1:?usage: draw.sh rc|ra|tcc < answer}
awk -v level="$level" '
function names(n,   s) {
    s = ""
    if (n % 2) s = s " start"
    if (int(n / 2) % 2) s = s " session"
    if (int(n / 4) % 2) s = s " read"
    if (int(n / 8) % 2) s = s " rival"
    return substr(s, 2)
}
BEGIN {
    split("thin air,aborted,future,not my last,not my own,intermediate", kind, ",")
    print "digraph " level " {"
    print "  label=\"" level "\"; labelloc=t; node [shape=circle];"
}
$1 == "rc" || $1 == "ra" || $1 == "tcc" { here = ($1 == level) }
here && $1 == "read" {
    from = $5 ? ", from write " $5 : ""
    printf "  r%s [shape=box, label=\"read %s: %s%s\"];\n  %s -> r%s [dir=none, style=dotted];\n", $3, $3, kind[$4], from, $2, $3
}
here && $1 == "pair" { printf "  %s -> %s [label=\"%s\"];\n", $2, $3, names($4) }
END { print "}" }'
