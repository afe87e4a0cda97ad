#!/bin/sh
# Tests the crate in bindings/rust, and compares what its examples write. Run in the repository's root, after `make archive`.
set -eu
if ! { command -v cargo && command -v ar; } > /dev/null; then
    echo "cargo or ar is not installed: bindings/rust is not tested"
    exit 0
fi
export RUSTFLAGS='-D warnings'
work=$PWD/target/rust_crate
mkdir -p "$work"
cd bindings/rust
if ! cargo test --offline --locked --quiet > "$work/test.log" 2>&1; then
    cat "$work/test.log"
    exit 1
fi
for example in rank embed; do
    cargo run --offline --locked --quiet --example "$example" > "$work/$example.stdout"
    diff -u "../../examples/$example.stdout" "$work/$example.stdout"
done
echo "bindings/rust: all tests pass, and rank and embed write what examples/rank.stdout and examples/embed.stdout have"
