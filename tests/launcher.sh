#!/bin/sh
# ./lavrindes does what README.md says
mkdir -p target/launcher
here=$PWD
(cd / && "$here/lavrindes" requirements 2>/dev/null) | cmp - crates/requirement_table/stdout || exit 1
./lavrindes help >target/launcher/help || { echo "help: exit $?"; exit 1; }
grep -q requirements target/launcher/help || { echo "help does not name its words"; exit 1; }
./lavrindes version | grep -q "$(rt version)" || { echo "version does not say which toolchain"; exit 1; }
./lavrindes nonsense >target/launcher/out 2>target/launcher/err
[ $? -eq 2 ] || { echo "a wrong word does not end with 2"; exit 1; }
[ ! -s target/launcher/out ] && [ -s target/launcher/err ] || { echo "a wrong word is not explained on standard error"; exit 1; }
