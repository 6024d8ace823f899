#!/bin/sh
# the first operand out of scope of random modules under a fresh seed is the Rust's own, and the recorded ones stand
. tests/rust/shared/against_rust.sh
against_rust dominance_cases dom 20000 "$@"
