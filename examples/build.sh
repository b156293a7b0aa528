#!/usr/bin/env bash
# Builds the library's archive and over it the example daemon, target/bin/daemon; with the word calls also the comparison's driver, target/bin/calls.
# Usage: examples/build.sh [calls] [ci], and then ./run daemon 3 docs/examples.
# With the word ci, right after rt ci, the archive is made over the libraries that rt ci proved and left, in seconds; without it rt lib proves what of them
# has changed since the last check.
# The toolchain is all that is needed. It has a compiler, a linker and a C library, but no C headers: examples/headers has what is used of them.
set -euo pipefail
cd "$(dirname "$0")/.."
calls= ci=
for word; do
    case $word in
        calls) calls=yes ;;
        ci) ci=yes ;;
        *) echo "usage: examples/build.sh [calls] [ci]" >&2; exit 2 ;;
    esac
done
home=$(dirname "$(rt doc)")
tools=$home/toolchain
# archive: what rt lib does, over the libraries that stand in out/ as rt ci left them
archive() {
    local words=() name folder
    for name in $(sed -n 's/^ferozhak_c staticlib: //p' crates.txt); do words+=(--extern "$name=$PWD/crates/$name/out/rlib/$name.rlib"); done
    for folder in "$PWD"/crates/*/out/rlib; do words+=(-L "dependency=$folder"); done
    mkdir -p crates/ferozhak_c/out
    (cd crates/ferozhak_c && "$home/bin/rattle" build --crate-name ferozhak_c src/lib.rt --crate-type staticlib --extern "std=$home/rlibs/std.rlib" \
        -L "dependency=$home/rlibs" "${words[@]}" --antt-project "$home/rattle/logic/antt-project.json" --logic-built "$home/logic_built" \
        --toolchain "$tools" --backend llvm -o out/libferozhak_c.a)
}
# build NAME SOURCE: a C program over the archive. Names of the C library are bound when it starts (-z now), not on a thread's small stack.
build() {
    local lib=$tools/lib
    mkdir -p target/bin target/c
    "$tools/bin/clang" --target=x86_64-unknown-linux-gnu --no-default-config -nostdinc -isystem examples/headers -I include \
        -std=c99 -Wall -Wextra -O2 -fPIE -c "$2" -o "target/c/$1.o"
    "$tools/bin/ld.lld" -pie -z now -dynamic-linker /lib64/ld-linux-x86-64.so.2 -o "target/bin/$1" \
        "$lib/Scrt1.o" "$lib/crti.o" "$lib/crtbeginS.o" "target/c/$1.o" target/staticlib/libferozhak.a \
        "$lib/libc.so.6" "$lib/libc_nonshared.a" "$lib/libgcc.a" "$lib/libgcc_s.so.1" "$lib/ld-linux-x86-64.so.2" "$lib/crtendS.o" "$lib/crtn.o"
}
rm -f crates/ferozhak_c/out/libferozhak_c.a
# (a library with a stamp is one that a check made, and rt lib sees whether it is of this text)
if [ -z "$ci" ] || compgen -G 'crates/*/out/rlib/stamp' >/dev/null || ! archive; then (cd crates/ferozhak_c && rt lib); fi
mkdir -p target/staticlib
cp crates/ferozhak_c/out/libferozhak_c.a target/staticlib/libferozhak.a
build daemon examples/daemon.c
if [ -n "$calls" ]; then build calls compare/calls.c; fi
