#!/bin/sh
# numbers read back under a fresh seed give the defining places, and bad lists and tables what a plain reading of the paper says
. tests/rust/shared/against_rust.sh
both read_back_cases "$@"
