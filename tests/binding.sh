#!/bin/sh
# the Rust binding's own tests, and its example on a module
. tests/rust/shared/native.sh
native_archive || exit 1
LAVRINDES_LIB_DIR=$PWD/target/native CARGO_TARGET_DIR=$PWD/target/binding
export LAVRINDES_LIB_DIR CARGO_TARGET_DIR
cargo test --offline --locked --quiet --manifest-path bindings/rust/Cargo.toml >target/binding.log 2>&1 || { tail -n 20 target/binding.log; exit 1; }
cargo build --offline --locked --quiet --example check --manifest-path bindings/rust/Cargo.toml || exit 1

# The example: accepted, refused, wrong usage.
check=target/binding/debug/examples/check
printf 'tile\t1\t4\t100\nO\t22\t\t\t\nF\t0\n' >target/binding/one.module
printf 'tile\t1\t4\t100\nO\t22\t\t\t\nF\t1\n' >target/binding/bad.module
[ "$($check target/binding/one.module)" = "$(printf 'ok\nn\t0\t')" ] || { echo "the example did not accept a module"; exit 1; }
said=$($check target/binding/bad.module 2>/dev/null)
[ $? -eq 1 ] && [ "$said" = "$(printf 'no\t1\t7\t0')" ] || { echo "the example did not refuse: $said"; exit 1; }
$check 2>/dev/null
[ $? -eq 2 ] || { echo "the example took wrong words"; exit 1; }
awk '/^test result: ok/ { n += $4 } END { print n " tests" }' target/binding.log
