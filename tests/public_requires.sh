#!/bin/sh
# no public function, a public trait's method included, has a requires, but for those that docs/DECISIONS.md names
found=$(awk '
    FNR == 1 { name = ""; trait = 0 }
    /^pub trait / { trait = !/}$/ }
    /^}/ { trait = 0 }
    /^[ \t]*pub (extern "C" )?fn / || (trait && /^[ \t]*fn /) { name = $0; sub(/\(.*/, "", name); sub(/.*fn /, "", name); sub(/<.*/, "", name) }
    name != "" && /^[ \t]*requires/ { print FILENAME ": " name; name = "" }
    /^\{/ || /^    \{$/ { name = "" }
' $(find crates -path '*/out' -prune -o -path '*/src/*.rt' -print))
bad=0
for f in $(printf '%s\n' "$found" | sed 's/.*: //'); do
    grep -q "\`$f\` has a requires" docs/DECISIONS.md || { echo "$f has a requires and docs/DECISIONS.md does not name it"; bad=1; }
done
exit $bad
