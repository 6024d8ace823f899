#!/bin/sh
# the cards' modules are answered by the running Rust as the paper says, but for the table checks, which it has not
. tests/rust/shared/against_rust.sh
if [ ! -d "$oracle" ]; then
    echo "no runnable Rust here"
    exit 0
fi
running_rust && exec python3 tests/cards.py rust target/oracle/target/release/oracle
