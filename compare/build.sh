#!/bin/sh
# Builds target/compare/compare. Run in the repository's root, after `make archive target/staticlib/libfast_fused_c.a`:
#     compare/build.sh [SOURCE]
# SOURCE is the folder of the Rust source, ../shared/docs/src where none is given. Where it is there, the Rust exp2m1 is built
# from it unchanged. musl's software fma is linked under another name where Debian's package musl-dev is installed, and MPFR where
# libmpfr-dev is. directed.c is compiled by cc, with which rustc links.
set -eu
out=target/compare
source=${1:-../shared/docs/src}
musl=/usr/lib/x86_64-linux-musl/libc.a
mkdir -p "$out"
set --

if [ -f "$musl" ]; then
    rename='--redefine-sym fma=musl_fma --redefine-sym scalbn=musl_scalbn'
    for member in fma.lo scalbn.lo; do
        ar p "$musl" "$member" > "$out/$member"
        objcopy $rename "$out/$member" "$out/musl_$member"
    done
    if objdump -d "$out/musl_fma.lo" | grep -q vfm; then
        echo "musl's fma is built for the hardware's: not linked" >&2
    else
        rm -f "$out/libmusl_fma.a"
        ar rcs "$out/libmusl_fma.a" "$out/musl_fma.lo" "$out/musl_scalbn.lo"
        set -- --cfg musl_fma
    fi
fi

warnings='-pedantic -Wall -Wextra -Werror -Wno-unknown-pragmas'
cc -std=c11 -O2 -frounding-math $warnings -c -o "$out/directed.o" compare/directed.c
rm -f "$out/libdirected.a"
ar rcs "$out/libdirected.a" "$out/directed.o"

compile() {
    rustc --edition 2024 -O -D warnings --check-cfg 'cfg(musl_fma, exp2m1, mpfr)' -L "$out" "$@"
}

compile "$@" --crate-type rlib --crate-name ffi -L native=target/staticlib --out-dir "$out" compare/ffi.rs

# The Rust exp2m1 over each fma, two with the machine's that keep calls, and one in which a coefficient can be set to zero, as crates of
# their own.
exp2m1() {
    compile -A unexpected_cfgs --cfg "fma=\"$1\"" \
        --crate-type rlib --crate-name "exp2m1_$1" --extern ffi --out-dir "$out" compare/libm/lib.rs
}

if [ -f "$source/libm/src/math/exp2m1.rs" ]; then
    rm -rf "$out/source"
    cp -R "$source" "$out/source"
    chmod -R u+w "$out/source"
    exp2m1 machine
    exp2m1 weigher
    exp2m1 recorded
    exp2m1 counted
    sed -E 's/\<(P|Q|Q_1|Q_2)\[([0-9]+)\]/bent("\1", \2, \1[\2])/g' "$source/libm/src/math/exp2m1.rs" > "$out/bent.rs"
    exp2m1 bent
    if [ $# -gt 0 ]; then
        exp2m1 musl
        set -- "$@" --extern exp2m1_musl
    fi
    set -- "$@" --cfg exp2m1 --extern exp2m1_machine --extern exp2m1_weigher --extern exp2m1_recorded --extern exp2m1_counted --extern exp2m1_bent
fi

if grep -qs mpfr_exp2m1 /usr/include/mpfr.h; then
    set -- "$@" --cfg mpfr
fi

compile "$@" --extern ffi -o "$out/compare" compare/src/main.rs
