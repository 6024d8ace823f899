#!/bin/sh
# the whole requirement table is the Rust's own
. tests/rust/shared/against_rust.sh
if [ ! -d "$oracle" ]; then
    # The recorded list was made by the program below, built inside the runnable Rust, and rt ci has compared it already.
    echo "no runnable Rust here: the recorded list crates/requirement_table/stdout was replayed"
    exit 0
fi
running_rust || exit 1
target/oracle/target/release/requirement_table | cmp - crates/requirement_table/stdout &&
    echo "$(wc -l <crates/requirement_table/stdout) lines against the running Rust"
