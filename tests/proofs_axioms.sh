#!/bin/sh
# docs/PROOFS.md tells how many axioms each program's check counts, and no library crate has one
bad=0 seen=0
# counted CRATE: how many axioms the verdict on a crate that links code counts
counted() {
    # rt prints a verdict on each library that it proves first; the crate's own is the last
    said=$(cd "crates/$1" && rt check 2>&1 | grep '^logic=' | tail -n 1)
    case $said in
        logic=proved*) ;;
        *) echo "$1: ${said:-no verdict}"; bad=1 ;;
    esac
    count=$(printf '%s\n' "$said" | sed -n 's/^logic=proved .*axioms=\([0-9]*\).*/\1/p')
}
for crate in $(sed 's/#.*//; s/[ :].*//' crates.txt); do
    if [ -f "crates/$crate/src/main.rt" ]; then
        counted "$crate"
        grep -q "^| \`$crate\` | ${count:-0} |" docs/PROOFS.md || { echo "$crate: ${count:-0} axioms, and docs/PROOFS.md tells otherwise"; bad=1; }
    elif grep -q "^$crate staticlib" crates.txt; then
        counted "$crate"
        [ "${count:-0}" -eq 0 ] || { echo "$crate is no program and has $count axioms"; bad=1; }
    # the verdict on any other library counts none: an axiom is the contract of a C function that a crate declares
    elif grep -rqE 'extern "C" \{' "crates/$crate/src"; then
        echo "$crate is no program and declares C functions, whose contracts are axioms"
        bad=1
    fi
    seen=$((seen + 1))
done
[ $bad -eq 0 ] && echo "$seen crates"
exit $bad
