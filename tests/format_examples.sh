#!/bin/sh
# every example of docs/FORMAT.md reads as the page says
. tests/rust/shared/against_rust.sh
built format_examples && target/rust/format_examples
