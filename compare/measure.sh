#!/usr/bin/env bash
# Measures the proved programs `stream` and `scribe`, and the library's calls from C, against the independent judge and mover, all built for release, on the
# same full traces in one run: microseconds of processor time a trace, and their ratio. First judging (all three levels, reading and printing included), then
# a move to the other edition, then the strongest level, then the decision at level 3 alone, with room for every list; then a claim at each level, of the order
# that is shown there or else of the members by number, beside the decision at that level with just enough room.
# Usage: compare/measure.sh [REPEATS], after rt run in crates/stream and in crates/scribe; on x86-64, for which alone the toolchain builds.
set -euo pipefail
cd "$(dirname "$0")/.."
repeats=${1:-400}
[ "$(uname -m)" = x86_64 ] || { echo "measure.sh: an x86-64 machine is needed" >&2; exit 2; }
work=$(mktemp -d) && chmod 755 "$work"
trap 'rm -rf "$work"' EXIT
(cd compare && cargo build --release --quiet)
examples/build.sh calls >"$work/log" 2>&1 || { tail -n 5 "$work/log" >&2; exit 1; }
stream='./run stream'
scribe='./run scribe'
calls='./run calls'
target/compare/release/bench --write "$work/traces" >/dev/null
# the processor seconds of a command
seconds() { { TIMEFORMAT=%U; time "$@" <"$work/input" >"$work/output"; } 2>&1; }
# a row: a trace, our command and theirs, of the input that is there
row() {
    local ours theirs
    # shellcheck disable=SC2086
    ours=$(seconds $2); mv "$work/output" "$work/ours"
    # shellcheck disable=SC2086
    theirs=$(seconds $3); cmp -s "$work/ours" "$work/output" || echo "the answers differ" >&2
    awk -v n="$1" -v a="$ours" -v b="$theirs" -v r="$repeats" \
        'BEGIN { printf "%-24s %10.1f %10.1f %8.2f\n", n, a * 1e6 / r, b * 1e6 / r, (b > 0 ? a / b : 0) }'
}
printf '%-24s %10s %10s %8s\n' judged 'proved us' 'Rust us' ratio
for trace in "$work"/traces/*; do
    python3 - "$trace" "$repeats" "$work/input" <<'PY'
import sys
bytes_ = open(sys.argv[1], 'rb').read()
open(sys.argv[3], 'wb').write((len(bytes_).to_bytes(2, 'little') + bytes_) * int(sys.argv[2]))
PY
    row "$(basename "$trace")" "$stream" 'target/compare/release/rustjudge --stream'
done
printf '%-24s %10s %10s %8s\n' moved 'proved us' 'Rust us' ratio
for trace in "$work"/traces/*; do
    # to the other edition: the first record of edition 2 has kind 16
    python3 - "$trace" "$repeats" "$work/input" <<'PY'
import sys
bytes_ = open(sys.argv[1], 'rb').read()
asked = b'1' if bytes_[2] == 16 else b'2'
item = asked + (65535).to_bytes(2, 'little') + len(bytes_).to_bytes(2, 'little') + bytes_
open(sys.argv[3], 'wb').write(item * int(sys.argv[2]))
PY
    row "$(basename "$trace")" "$scribe" target/compare/release/rustscribe
done
printf '%-24s %10s %10s %8s\n' strongest 'proved us' 'Rust us' ratio
for trace in "$work"/traces/*; do
    python3 - "$trace" "$repeats" "$work/input" <<'PY'
import sys
bytes_ = open(sys.argv[1], 'rb').read()
open(sys.argv[3], 'wb').write((b's' + len(bytes_).to_bytes(4, 'little') + bytes_) * int(sys.argv[2]))
PY
    row "$(basename "$trace")" "$calls" 'target/compare/release/rustjudge --calls'
done
printf '%-24s %10s %10s %8s\n' 'level 3' 'proved us' 'Rust us' ratio
for trace in "$work"/traces/*; do
    python3 - "$trace" "$repeats" "$work/input" <<'PY'
import sys
def number(n): return n.to_bytes(4, 'little')
bytes_ = open(sys.argv[1], 'rb').read()
# the level, then room for the findings, the pairs, the order and the counts
asked = b''.join(number(n) for n in (3, 6144, 65024, 128, 20))
open(sys.argv[3], 'wb').write((b'd' + asked + number(len(bytes_)) + bytes_) * int(sys.argv[2]))
PY
    row "$(basename "$trace")" "$calls" 'target/compare/release/rustjudge --calls'
done
# the processor seconds of a call that is made so often in one thread: what bench writes is asked
called() {
    target/compare/release/bench "$1" "$2" "$3" >"$work/input"
    # shellcheck disable=SC2086
    seconds $calls 65536 "$repeats"
}
for level in 1 2 3; do
    printf '%-24s %10s %10s %8s %10s %8s\n' "claim, level $level" 'proved us' 'decide us' ratio 'Rust us' ratio
    for trace in "$work"/traces/*; do
        decide=$(called --decide "$level" "$trace")
        claim=$(called --claim "$level" "$trace"); mv "$work/output" "$work/ours"
        # the independent side has the item so often
        python3 -c 'import sys; sys.stdout.buffer.write(open(sys.argv[1], "rb").read() * int(sys.argv[2]))' "$work/input" "$repeats" >"$work/items"
        mv "$work/items" "$work/input"
        rust=$(seconds target/compare/release/rustjudge --calls)
        cmp -s "$work/ours" <(head -c "$(wc -c <"$work/ours")" "$work/output") || echo "the answers differ" >&2
        awk -v n="$(basename "$trace")" -v c="$claim" -v d="$decide" -v t="$rust" -v r="$repeats" \
            'BEGIN { printf "%-24s %10.1f %10.1f %8.2f %10.1f %8.2f\n", n, c * 1e6 / r, d * 1e6 / r, (d > 0 ? c / d : 0), t * 1e6 / r, (t > 0 ? c / t : 0) }'
    done
done
