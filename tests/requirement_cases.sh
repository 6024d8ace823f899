#!/bin/sh
# version and architecture of random modules under a fresh seed are the Rust's own, and the recorded ones stand
. tests/rust/shared/against_rust.sh
against_rust requirement_cases req 20000 "$@"
