#!/usr/bin/env bash
# Measures the stack that the C calls need: the smallest one, in steps of 256 bytes, in which a thread makes each call on every trace that is given.
# Usage: compare/stack.sh FILE.., each FILE a trace that is not refused, after examples/build.sh calls and, in compare, cargo build --release.
# ferozhak_decide is asked for the three levels with room for every list, ferozhak_strongest once, ferozhak_claim for the three levels about the order that is
# shown there, or else about the members by number. With less stack a thread touches what lies below it and the program is stopped, so the smallest is found by
# halving. A thread that calls nothing needs some stack too; but most of that to end, when a call would be over and its stack free again, so what a call itself
# needs is counted from the place where it begins.
set -euo pipefail
[ $# -gt 0 ] || { echo "usage: compare/stack.sh FILE.." >&2; exit 2; }
step=256
most=1048576
work=$(mktemp -d)
trap 'rm -rf "$work"' EXIT
# a program that is stopped leaves no core file
ulimit -c 0
python3 - "$work" "$@" <<'PY'
import sys
def number(n): return n.to_bytes(4, 'little')
def counted(name):
    trace = open(name, 'rb').read()
    return number(len(trace)) + trace
work, traces = sys.argv[1], [counted(name) for name in sys.argv[2:]]
rooms = b''.join(number(n) for n in (6144, 65024, 128, 20))
def write(name, items): open(f'{work}/{name}', 'wb').write(b''.join(items))
write('ferozhak_decide', (b'd' + number(level) + rooms + trace for trace in traces for level in (1, 2, 3)))
write('ferozhak_strongest', (b's' + trace for trace in traces))
write('nothing', [b'n'])
PY
bench=$(dirname "$0")/../target/compare/release/bench
for trace; do
    for level in 1 2 3; do "$bench" --claim "$level" "$trace"; done
done >"$work/ferozhak_claim"
cd "$(dirname "$0")/.."
calls() { ./run calls "$2" <"$work/$1" >"$work/answers"; }
# what the shell says of a program that was stopped is no news here
fits() { { calls "$1" "$2"; } 2>/dev/null; }
# the smallest stack in which all items of an input run
smallest() {
    local low=0 high=$((most / step)) middle
    calls "$1" "$most" || { echo "stack: $1 does not run with a stack of $most bytes" >&2; exit 1; }
    while [ $((high - low)) -gt 1 ]; do
        middle=$(((low + high) / 2))
        if fits "$1" $((middle * step)); then high=$middle; else low=$middle; fi
    done
    echo $((high * step))
}
bare=$(smallest nothing)
echo "a thread that calls nothing: $bare bytes of stack"
calls nothing "$most"
begin=$(od -An -tu4 "$work/answers" | tr -d ' ')
echo "a call begins $begin bytes below the top of the stack"
for call in ferozhak_decide ferozhak_strongest ferozhak_claim; do
    stack=$(smallest "$call")
    echo "$call: $stack bytes of stack, at most $((stack - begin)) of them for the call itself"
done
