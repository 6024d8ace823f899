#!/bin/sh
# damaged house texts and rule sheets, every size and one past, and random ones under a fresh seed, read as a plain reader of the paper reads them
. tests/rust/shared/against_rust.sh
both text_cases "$@"
