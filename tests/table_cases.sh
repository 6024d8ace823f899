#!/bin/sh
# tables of every fault, alone and in pairs, and random ones under a fresh seed, judged as a plain reading of the paper judges them
. tests/rust/shared/against_rust.sh
both table_cases "$@"
