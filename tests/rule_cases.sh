#!/bin/sh
# operation rules near each limit, under a fresh seed, are the Rust's own; every reason of every opcode is reached; the recorded ones stand
. tests/rust/shared/against_rust.sh
seed=${1:-$(date +%s)} count=60000
rm -f target/rust/rule_cases.rust
against_rust rule_cases ops $count "$seed" || exit 1
if [ -s target/rust/rule_cases.rust ]; then
    target/rust/rule_cases "$seed" $count cover target/rust/rule_cases.rust ops >target/rust/rule_cases.cover ||
        { grep 'NOT\|BUT\|NEVER' target/rust/rule_cases.cover; echo "seed $seed: a reason was not reached"; exit 1; }
fi
# Under other rule sheets the Rust's lines come from a copy in which five answers are taken from the sheet.
against_rust rule_cases opx 20000 "$seed" rule_cases_other_sheets
