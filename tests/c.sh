#!/bin/sh
# Compiles the C examples and tests/c/service.c with include/weigher.h and target/staticlib/libweigher.a, by the C and C++ compilers that
# are there and with their sanitizers, runs them, and compares what the examples write. Run in the repository's root, after
# `make archive`.
set -eu
if ! command -v ar > /dev/null; then
    echo "ar is not installed, which makes libweigher.a: the C examples are not run"
    exit 0
fi
work=target/c_examples
mkdir -p "$work"

# build FILE COMPILER [FLAG...]
build() {
    file=$1
    shift
    "$@" -pedantic -Wall -Wextra -Werror -I include -o "$work/program" "$file" -x none target/staticlib/libweigher.a
}

# example NAME COMPILER [FLAG...]
example() {
    name=$1
    shift
    build "examples/c/$name.c" "$@"
    "$work/program" > "$work/$name.stdout"
    diff -u "examples/$name.stdout" "$work/$name.stdout"
}

# try COMPILER [FLAG...]: what is C and C++ alike
try() {
    build tests/c/service.c "$@"
    "$work/program"
    example calls "$@"
    example embed "$@"
    echo "$*: calls and embed of examples/c write what they should, and tests/c/service.c finds nothing wrong"
}

# try_sanitized COMPILER [FLAG...], where its sanitizers are there
try_sanitized() {
    sanitizers=-fsanitize=address,undefined
    if echo 'int main(void) { return 0; }' | "$@" $sanitizers -o "$work/program" -x c - 2> /dev/null; then
        try "$@" $sanitizers -fno-sanitize-recover=all
    else
        echo "$1 has no sanitizers: it is tried without them alone"
    fi
}

tried=
for compiler in cc clang; do
    if command -v "$compiler" > /dev/null; then
        example rank "$compiler" -std=c11 -O2
        try "$compiler" -std=c11 -O2
        try_sanitized "$compiler" -std=c11
        tried=yes
    fi
done
[ -n "$tried" ] || echo "no C compiler is installed: the C examples are not run"
if command -v c++ > /dev/null; then
    try c++ -std=c++11 -O2 -x c++
else
    echo "c++ is not installed: include/weigher.h is not compiled as C++"
fi
