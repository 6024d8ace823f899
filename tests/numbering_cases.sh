#!/bin/sh
# the numbers of random modules under a fresh seed, or the first refusal, are the Rust's own, and the recorded ones stand
. tests/rust/shared/against_rust.sh
against_rust numbering_cases num 20000 "$@"
