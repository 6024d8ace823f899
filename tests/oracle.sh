#!/bin/sh
# the full check and each part alone answer of random modules under a fresh seed as the Rust does, and the recorded ones stand
# `sh tests/oracle.sh SEED COUNT` runs a seed again, and `sh tests/oracle.sh record` makes the recorded list again.
. tests/rust/shared/against_rust.sh
program=target/rust/oracle_cases list=tests/recorded/full_check.txt rust=target/oracle/target/release/oracle
built oracle_cases tests/oracle/main.rs || exit 1
if [ "${1:-}" = record ]; then
    running_rust && "$program" record 1000 "$rust" "$list"
    exit
fi
seed=${1:-$(date +%s)} count=${2:-50000}
replayed=$("$program" replay "$list") || { echo "$replayed"; exit 1; }
[ "$count" -lt "$few" ] && few=$count
"$program" answers "$seed" "$few" >"$program.answers" || exit 1
shipped "$program" answers "$seed" "$few" >"$program.shipped" || exit 1
[ "$(uname -m)" = x86_64 ] || cmp "$program.answers" "$program.shipped" || { echo "seed $seed: the shipped archive answers otherwise"; exit 1; }
if [ ! -d "$oracle" ]; then
    echo "no runnable Rust here: $replayed modules were replayed"
    exit 0
fi
running_rust || exit 1
noticed=$("$program" broken "$seed" 1000 "$rust") || { echo "$noticed"; exit 1; }
"$program" run "$seed" "$count" "$rust" && echo "$replayed; $noticed; target/full/coverage.txt has what was covered"
