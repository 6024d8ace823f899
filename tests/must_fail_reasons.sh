#!/bin/sh
# each must-fail edit was refused for a fact, not for a proof file that no longer fits
bad=0 seen=0
for edit in crates/*/must-fail/*.edit; do
    crate=${edit#crates/} crate=${crate%%/*}
    # Only the line after `old:` and `new:` is applied; a second line would be left out without a word.
    if grep -qvE '^(file|old|new): ' "$edit"; then
        echo "$edit: a line that is no file, old or new"
        bad=1
    fi
    said=$(grep -m 1 "^rt: must-fail $crate/$(basename "$edit"): " target/gate.log)
    case $said in
        *': refused, as it must be: '*) ;;
        *)
            echo "$edit: ${said:-not tried}"
            bad=1
            ;;
    esac
    case $said in
        *'can be named from here'* | *'expected an expression'* | *'not in scope'* | *'syntax'* | *'unknown name'*)
            echo "$edit: $said"
            bad=1
            ;;
    esac
    seen=$((seen + 1))
done
[ $bad -eq 0 ] && echo "$seen edits"
exit $bad
