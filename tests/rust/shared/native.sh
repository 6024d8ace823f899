# The bench's two static libraries: x86-64 code, which is shipped, and the same compiled for the processor that the tests run on.

# stale FILE: FILE is not there, or older than a source of the bench.
stale() {
    [ ! -s "$1" ] || [ -n "$(find crates crates.txt -name out -prune -o -type f -newer "$1" -print | head -n 1)" ]
}

# shadow_kit DIR KIT MACHINE: the kit again, but for a clang that keeps the LLVM module it is handed, as target/native/module.bc.
shadow_kit() {
    tools=$1/on/$3/toolchain
    mkdir -p "$tools/bin"
    for f in "$2"/*; do [ "$f" = "$2/on" ] || ln -s "$f" "$1/"; done
    for f in "$2/on/$3"/*; do [ "$f" = "$2/on/$3/toolchain" ] || ln -s "$f" "$1/on/$3/"; done
    for f in "$2/on/$3/toolchain"/*; do [ "$f" = "$2/on/$3/toolchain/bin" ] || ln -s "$f" "$tools/"; done
    for f in "$2/on/$3/toolchain/bin"/*; do [ "$f" = "$2/on/$3/toolchain/bin/clang" ] || ln -s "$f" "$tools/bin/"; done
    printf '#!/bin/sh\ncp module.bc "%s" && exec "%s" "$@"\n' "$PWD/target/native/module.bc" "$2/on/$3/toolchain/bin/clang" >"$tools/bin/clang"
    chmod +x "$tools/bin/clang"
}

# compiled_here: the kit compiles for x86-64 alone. Its clang compiles the module that was kept at the same level for this processor: not the
# archive that is shipped, but the same code, where an emulator takes long.
compiled_here() {
    (
        cd target/native || exit 1
        tools=$1/on/$(uname -m)/toolchain/bin
        "$tools/clang" -Wno-override-module -x ir module.bc -S -emit-llvm -O0 -Xclang -disable-llvm-passes -o module.ll &&
            sed -i 's/ "probe-stack"="inline-asm" "target-cpu"="x86-64"//' module.ll &&
            "$tools/clang" -x ir module.ll -c -O3 -fPIC -ffunction-sections -o module.o &&
            "$tools/llvm-ar" rcs libbench.a module.o
    )
}

# The kit's build of the bench, as target/staticlib/libbench.a.
static_library() {
    mkdir -p target/staticlib
    (cd crates/bench && rt lib) >target/native/bench.log 2>&1 && cp crates/bench/out/libbench.a target/staticlib/
}

# archives: leaves target/staticlib/libbench.a and target/native/libbench.a, which are one on x86-64.
archives() {
    rm -rf target/native
    mkdir -p target/native
    if [ "$(uname -m)" = x86_64 ]; then
        static_library && cp target/staticlib/libbench.a target/native/
    else
        kit=$(dirname "$(dirname "$(readlink -f "$(command -v rt)")")")
        shadow_kit "$PWD/target/native/kit" "$kit" "$(uname -m)"
        RATTLE_HOME=$PWD/target/native/kit static_library && compiled_here "$kit"
    fi || { tail -n 20 target/native/bench.log; return 1; }
}

shipped_archive() {
    ! stale target/staticlib/libbench.a || archives
}

native_archive() {
    ! stale target/native/libbench.a || archives
}
