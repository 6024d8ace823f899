#!/bin/sh
# the numbers at their edges are those of an independent Rust program
mkdir -p target/rust
rustc -O --edition 2021 -o target/rust/number_edges tests/rust/number_edges.rs || exit 1
target/rust/number_edges | cmp - crates/number_edges/stdout && echo "$(wc -l <crates/number_edges/stdout) lines"
