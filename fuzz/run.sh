#!/bin/sh
# The bench under libFuzzer with the address sanitizer, bounded: no crash, no hang, and no answer that breaks what holds of every input.
#   sh fuzz/run.sh [SECONDS [RUNS]]    each of the five targets for SECONDS (60) or RUNS (1,000,000), whichever ends first
# What is found stays in target/fuzz/found; docs/RELIABILITY.md has what was run.
set -u
cd "$(dirname "$0")/.." || exit 2
. tests/rust/shared/native.sh
seconds=${1:-60} runs=${2:-1000000} home=$PWD/target/fuzz
targets='read_module_bytes read_sheet_bytes read_back_lists check_tables_bytes texts_bytes'
clang=$(command -v clang-14 || command -v clang) ||
    { echo "fuzz: clang with libFuzzer is wanted: Debian's packages clang and libclang-rt-dev" >&2; exit 2; }
rm -rf "$home"
mkdir -p "$home/found"

# The module is the one that the kit's clang is handed; the same clang compiles it here with coverage and with every load and store looked
# at. On x86-64 the archive is the shipped one, so its module is kept by a build more.
kit=$(dirname "$(dirname "$(readlink -f "$(command -v rt)")")")
native_archive || exit 1
if [ ! -s target/native/module.bc ]; then
    shadow_kit "$home/kit" "$kit" "$(uname -m)"
    rm -f target/staticlib/libbench.a
    RATTLE_HOME=$home/kit static_library
fi
[ -s target/native/module.bc ] || { echo "fuzz: the bench's LLVM module could not be kept" >&2; exit 1; }
own=$kit/on/$(uname -m)/toolchain/bin/clang
"$own" -Wno-override-module -x ir target/native/module.bc -S -emit-llvm -O0 -Xclang -disable-llvm-passes -o "$home/module.ll" &&
    sed -i 's/ "probe-stack"="inline-asm" "target-cpu"="x86-64"//; s/^attributes #0 = { nounwind/& sanitize_address/' "$home/module.ll" &&
    "$own" -x ir "$home/module.ll" -c -O2 -fPIC -fsanitize=address,fuzzer-no-link -o "$home/bench.o" || exit 1
grep -q '^attributes #0 = { nounwind sanitize_address' "$home/module.ll" || { echo "fuzz: the module's attributes have changed" >&2; exit 1; }
for t in $targets; do
    "$clang" -O1 -g -Wall -Wextra -Wno-unused-function -fsanitize=address,fuzzer "-DTARGET=$t" -o "$home/$t" fuzz/bench.c "$home/bench.o" || exit 1
done
"$clang" -O1 -Wno-unused-function -DSEEDS -o "$home/seeds" fuzz/bench.c target/native/libbench.a || exit 1

# The first inputs: the listed texts, the examples, and modules near the limits of the rules.
rustc -O --edition 2021 --cfg alone -o "$home/text_cases" tests/rust/text_cases.rs &&
    rustc -O --edition 2021 --cfg linked -L target/native -l static=bench -o "$home/rule_cases" tests/rust/rule_cases.rs || exit 1
"$home/text_cases" list >"$home/listed" && "$home/rule_cases" 1 300 "$home/rules.texts" - ops || exit 1
sheet=sheets/cutile-ir-0.4.0.sheet
[ -s "$sheet" ] || { sheet=$home/plain.sheet && printf 'sheet\t1\n' >"$sheet"; }
python3 fuzz/seeds.py "$home/first" "$home/seeds" "$home/listed" "$sheet" "$home/rules.texts" $(ls examples/*.module 2>/dev/null) || exit 1

# A slice that is said to be longer than it is has to be found.
"$clang" -O1 -g -Wno-unused-function -fsanitize=address,fuzzer -DTARGET=read_sheet_bytes -DLIE=1 -o "$home/lie" fuzz/bench.c "$home/bench.o" || exit 1
"$home/lie" -runs=1000 -artifact_prefix="$home/lie-" >"$home/lie.log" 2>&1
grep -q 'AddressSanitizer: heap-buffer-overflow' "$home/lie.log" || { echo "fuzz: a write past a slice is not found" >&2; exit 1; }

bad=0
cpu=$(lscpu 2>/dev/null | sed -n 's/^Model name: *//p' | head -n 1)
echo "$(uname -m), $cpu, $(nproc) cores; $("$clang" --version | head -n 1); $(rt version)"
for t in $targets; do
    mkdir -p "$home/corpus/$t"
    nice -n 19 "$home/$t" -max_total_time="$seconds" -runs="$runs" -timeout=10 -rss_limit_mb=2048 -max_len=70000 -print_final_stats=1 \
        -artifact_prefix="$home/found/$t-" "$home/corpus/$t" "$home/first/$t" >"$home/$t.log" 2>&1
    status=$?
    did=$(sed -n 's/^stat::number_of_executed_units: *//p' "$home/$t.log")
    cov=$(sed -n 's/.* cov: \([0-9]*\) ft: \([0-9]*\) .*/\1 places, \2 features/p' "$home/$t.log" | tail -n 1)
    if [ $status -eq 0 ]; then
        echo "ok    $t: $did runs, $cov, from $(ls "$home/first/$t" | wc -l) first inputs"
    else
        echo "FAIL  $t after ${did:-?} runs: $(grep -m 1 -E '^broken|ERROR|ALARM' "$home/$t.log")"
        bad=1
    fi
done
[ $bad -eq 0 ] && echo "no crash, no hang"
exit $bad
