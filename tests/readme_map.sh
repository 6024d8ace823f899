#!/bin/sh
# README.md names every crate
bad=0
for c in $(sed 's/#.*//; s/[ :].*//' crates.txt); do
    grep -q "\`$c\`" README.md || { echo "$c is not in README.md"; bad=1; }
done
exit $bad
