#!/bin/sh
# a C program links the archive by include/lavrindes.h and gets the paper's verdicts; the header declares what is exported, for C and C++
. tests/rust/shared/native.sh
native_archive || exit 1
mkdir -p target/c
gcc -std=c99 -pedantic -Wall -Wextra -Werror -O1 -I include -o target/c/cases tests/c/cases.c target/native/libbench.a || exit 1
target/c/cases >target/c/said || exit 1
printf 'ok\nn\t0\t0,1,2,2,0,2\nno\t5\t4\t0\nok\nno\t15\t1\t102\n' | cmp - target/c/said || exit 1

nm -g --defined-only target/native/libbench.a | sed -n 's/.* T //p' | sort >target/c/exported
sed -n 's/^void \([a-z_]*\)(.*/\1/p' include/lavrindes.h | sort >target/c/declared
diff target/c/exported target/c/declared || exit 1

# A C++ compiler takes it as well, where there is one.
if printf '' | gcc -x c++ -fsyntax-only - 2>/dev/null; then
    printf '#include "lavrindes.h"\n' | gcc -x c++ -pedantic -Wall -Wextra -Werror -I include -fsyntax-only - || exit 1
fi
echo "$(wc -l <target/c/declared) functions"
