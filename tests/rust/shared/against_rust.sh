# Building a test with the bench, and comparing it with the running Rust.
. tests/rust/shared/native.sh

# built NAME [FILE]: builds tests/rust/NAME.rs, or FILE, with the bench compiled for this processor, as target/rust/NAME.
built() {
    mkdir -p target/rust
    native_archive && rustc -O --edition 2021 -L target/native -l static=bench -o "target/rust/$1" "${2:-tests/rust/$1.rs}"
}

# shipped COMMAND..: runs a test that was built with the shipped archive in place of the native one. Its x86-64 code is run behind a pipe,
# under the emulator of the kit; on x86-64 the two archives are one, and there is nothing more to run.
shipped() {
    [ "$(uname -m)" = x86_64 ] && return
    shipped_archive || return 1
    tools=$(dirname "$(readlink -f "$(command -v rt)")")/../on/$(uname -m)/toolchain/bin
    if [ ! -s target/rust/served ] || [ -n "$(find target/staticlib/libbench.a tests/rust/shared/served.c -newer target/rust/served)" ]; then
        "$tools/clang" --target=x86_64-unknown-linux-gnu -O2 -Werror -ffreestanding -fno-builtin -fno-stack-protector -c \
            -o target/rust/served.o tests/rust/shared/served.c &&
            "$tools/ld.lld" -o target/rust/served target/rust/served.o --whole-archive target/staticlib/libbench.a || return 1
    fi
    BENCH_SERVED="$tools/qemu-x86_64 $PWD/target/rust/served" "$@"
}

# How many of the fresh cases are tried with the shipped archive too.
few=1500

# both NAME [SEED [COUNT]]: a test that compares by itself, with the native archive, and a part of it with the shipped one.
both() {
    name=$1 seed=${2:-$(date +%s)}
    built "$name" && target/rust/"$name" "$seed" $3 || return 1
    said=$(shipped target/rust/"$name" "$seed" $few) || { echo "the shipped archive: $said"; return 1; }
}

# running_rust: builds the runnable Rust as target/oracle, once, with the program that prints its requirements.
oracle=${ORACLE:-../shared/oracle}
running_rust() {
    [ -x target/oracle/target/release/requirement_table ] && return
    rm -rf target/oracle target/docs
    cp -r "$oracle" target/oracle
    cp -r "$oracle/../docs" target/docs
    chmod -R u+w target/oracle target/docs
    mkdir -p target/oracle/src/bin
    cp tests/rust/requirement_table.rs target/oracle/src/bin/
    (cd target/oracle && sh setup.sh && cargo build --release --offline) >target/oracle.log 2>&1 ||
        { tail -n 20 target/oracle.log; return 1; }
}

# asked PART TEXTS: what the running Rust answers of each text, one line each; `own` tells which of two reasons with one message it was.
asked() {
    [ "$1" = opx ] && flag=--opx || flag=
    target/oracle/target/release/oracle $flag --batch "$2" --sheet target/oracle/crate.sheet 2>/dev/null |
        awk -F '|' -v part="$1" '
            $1 == part || $1 == "own" && $2 == part { sub(/^own\|/, ""); said = $0 }
            $0 == "end" { print said; said = "" }'
}

# record NAME PART COUNT [LIST]: how tests/recorded/LIST.txt is made: the running Rust's lines PART of COUNT modules of seed 1.
record() {
    built "$1" && running_rust && target/rust/"$1" 1 "$3" "target/rust/$1.texts" - "$2" || return 1
    asked "$2" "target/rust/$1.texts" >"tests/recorded/${4:-$1}.txt"
}

# shipped_too DUE SEED COUNT: the first COUNT modules of SEED have the same answers with the shipped archive.
shipped_too() {
    [ "$(uname -m)" = x86_64 ] && return
    shipped "$out" "$2" "$3" "$out.shipped.texts" "$out.shipped" "$part" || return 1
    head -n "$3" "$1" | cmp - "$out.shipped" || { echo "seed $2: the shipped archive answers otherwise"; return 1; }
}

# against_rust NAME PART COUNT [SEED [LIST]]: replays the recorded modules of seed 1, and compares COUNT modules under a fresh seed with the
# lines PART of the running Rust, where it can be run. The Rust's lines stay in target/rust/NAME.rust. The first modules are tried with the
# shipped archive too.
against_rust() {
    name=$1 part=$2 count=$3 seed=${4:-$(date +%s)} list=tests/recorded/${5:-$1}.txt out=target/rust/$1
    built "$name" || return 1
    recorded=$(wc -l <"$list")
    "$out" 1 "$recorded" "$out.texts" "$out.answers" "$part" || return 1
    cmp "$out.answers" "$list" || return 1
    shipped_too "$list" 1 "$recorded" || return 1
    if [ ! -d "$oracle" ]; then
        echo "no runnable Rust here: $recorded recorded modules were replayed"
        return 0
    fi
    running_rust || return 1
    "$out" "$seed" "$count" "$out.texts" "$out.answers" "$part" || return 1
    asked "$part" "$out.texts" >"$out.rust"
    if ! cmp -s "$out.answers" "$out.rust"; then
        echo "seed $seed: the bench and the Rust differ, first at module $(diff "$out.answers" "$out.rust" | head -1)"
        diff "$out.answers" "$out.rust" | head -4
        return 1
    fi
    shipped_too "$out.answers" "$seed" $few || return 1
    [ "$part" = opx ] && what="a copy of the Rust that asks the rule sheet" || what="the running Rust"
    echo "seed $seed: $count modules against $what, $(grep -c "$part|ok" "$out.answers") accepted; $recorded recorded"
}
