#!/bin/sh
# ./lavrindes prints what examples/ says, and ends with the status that README.md says
work=target/command
rm -rf $work
mkdir -p $work
here=$PWD
bad=0
fail() {
    echo "$*"
    bad=1
}

# asked STATUS WORDS..: the command's output is in $work/out, what it says on standard error in $work/err.
asked() {
    want=$1
    shift
    ./lavrindes "$@" >$work/out 2>$work/err </dev/null
    got=$?
    [ $got -eq "$want" ] || fail "exit $got, not $want: $*"
}
# said STATUS OUTPUT WORDS..: the same, and the output is this, its tabs written as |.
said() {
    want=$1 output=$2
    shift 2
    asked "$want" "$@"
    printf '%s\n' "$output" | tr '|' '\t' | cmp -s - $work/out || fail "$* prints $(head -n 1 $work/out), not $output"
}
# told WORDS..: nothing on standard output, one line on standard error.
told() {
    asked 2 "$@"
    [ ! -s $work/out ] || fail "$* prints something"
    [ "$(wc -l <$work/err)" -eq 1 ] || fail "$* is not explained in one line: $(cat $work/err)"
}

# the program is there, so that what is said on standard error below is the command's own
./lavrindes check examples/M.module >/dev/null 2>$work/err || { tail -n 5 $work/err; exit 1; }

# and the next run starts it at once, with nothing to say
asked 0 check examples/M.module
[ ! -s $work/err ] || fail "a second run says $(head -n 1 $work/err)"

# every example, by the command that examples/README.md gives for it
count=0
sed -n 's/.*`\.\/lavrindes \([^`]*\)`.*/\1/p' examples/README.md >$work/commands
while read -r words; do
    name=$(printf '%s\n' "$words" | sed 's/.*examples\/\([^ ]*\)\.module.*/\1/')
    case $words in places*M.module*) out=examples/M.places.out ;; *) out=examples/$name.out ;; esac
    case $(head -c 2 "$out") in ok) status=0 ;; *) status=1 ;; esac
    # shellcheck disable=SC2086
    asked $status $words
    cmp $work/out "$out" || fail "$words"
    count=$((count + 1))
done <$work/commands
[ "$(ls examples/*.out | wc -l)" -eq $count ] || fail "examples/README.md has $count commands for $(ls examples/*.out | wc -l) examples"
for code in 1 2 3 4 5 6 7 8 9 10 11 12 14 15 16; do
    cat examples/*.out | grep -q "^no	$code	" || fail "no example shows code $code"
done

# standard input, once
./lavrindes check - <examples/M.module | cmp - examples/M.out || fail "- for the module"
./lavrindes check examples/06-result_count.module - <examples/06-result_count.sheet | cmp - examples/06-result_count.out || fail "- for the sheet"
./lavrindes check examples/M.module | ./lavrindes places examples/M.module - | cmp - examples/M.places.out || fail "- for the numbers"
told check - -
told part rules - -
told places - -
(cd / && "$here/lavrindes" check "$here/examples/M.module") | cmp - examples/M.out || fail "from another folder"
ln -sf ../../lavrindes $work/link
$work/link check examples/M.module | cmp - examples/M.out || fail "by a link"

# words and files that are not there
told
told nonsense
told check
told check a b c
told part tables
told part nonsense examples/M.module
told places examples/M.module
told help me
told check $work/none
told check examples/M.module $work/none
told part tables examples/M.module $work/none
told places examples/M.module $work/none
told check examples
told check ''

# the size of a text: 65,536 bytes read, one more is 1 with 0, 0, and so is any more
long() { # BYTES: case M with an attribute's name as long as it takes
    sed 's/^O	74		2	$/&\nA	NAME	x	/' examples/M.module >$work/short
    name=$(head -c $(($1 - $(wc -c <$work/short) + 4)) /dev/zero | tr '\0' a)
    sed "s/NAME/$name/" $work/short
}
long 65536 >$work/full
[ "$(wc -c <$work/full)" -eq 65536 ] || fail "the test's text has $(wc -c <$work/full) bytes"
asked 0 check $work/full
cmp $work/out examples/M.out || fail "65,536 bytes"
long 65537 >$work/over
said 1 'no|1|0|0' check $work/over
cat $work/over $work/over $work/over >$work/more
said 1 'no|1|0|0' check $work/more
head -c 65536 $work/over >$work/cut
said 1 'no|15|17|0' check $work/cut
{ printf 'tile\t1\t4\t100\nQ\n'; cat $work/over; } >$work/early
said 1 'no|15|2|1' check $work/early
{ cat sheets/cutile-ir-0.4.0.sheet; head -c 70000 /dev/zero | tr '\0' 1; } >$work/sheet
said 1 'no|1|0|0' check examples/M.module $work/sheet
: >$work/empty
said 1 'no|15|1|0' check $work/empty
said 1 'no|15|1|100' check examples/M.module $work/empty
said 1 'no|15|1|100' part rules examples/M.module $work/empty
said 0 'ok' part tables examples/M.module $work/empty

# each part alone
said 0 'ok' part tables examples/M.module
said 0 'ok' part dominance examples/M.module
said 0 'ok' part requirements examples/M.module
said 0 'ok' part rules examples/M.module
asked 0 part numbering examples/M.module
cmp $work/out examples/M.out || fail "part numbering"
said 1 'no|16|0|0' part tables examples/16-no_target.module
said 0 'ok' part dominance examples/16-no_target.module
said 1 'no|16|0|0' part requirements examples/16-no_target.module
said 1 'no|16|0|0' part rules examples/16-no_target.module
said 0 'ok' part dominance examples/11-rule_broken.module
said 1 'no|6|1|1' part numbering examples/06-result_count.module examples/06-result_count.sheet
said 1 'no|2|1|0' part dominance examples/02-listed_twice.module

# number lists: the wrong length of a function, and of all; a form of its own
printf 'n\t0\t0,1,2,2,0\n' >$work/numbers
said 1 'no|14|0|0' places examples/M.module $work/numbers
printf 'n\t0\t9,1,2,2,0,2,2\n' >$work/numbers
said 1 'no|14|0|0' places examples/M.module $work/numbers
: >$work/numbers
said 1 'no|14|0|0' places examples/M.module $work/numbers
printf 'n\t0\t0,1,2,2,0,x\n' >$work/numbers
said 1 'no|15|1|203' places examples/M.module $work/numbers
printf 'tile\t1\t4\t100\nT\t1\t4\t0\t0\t-1\t\nV\t0\t\t\nV\t0\t\t\nO\t22\t\t\t0\nO\t22\t\t\t1\nO\t74\t\t0,0\t\nO\t74\t\t1\t\nB\t0\t2\nB\t1\t3\nR\t0\nR\t1\nF\t0\nF\t1\n' >$work/two
asked 0 check $work/two
printf 'ok\nn\t0\t0,0\nn\t1\t0\n' | cmp - $work/out || fail "two functions"
cp $work/out $work/numbers
asked 0 places $work/two $work/numbers
printf 'ok\np\t0\t0,0,0;0,0,0\np\t1\t0,1,0\n' | cmp - $work/out || fail "two functions read back"
printf 'n\t0\t0\nn\t1\t0,0\n' >$work/numbers
said 1 'no|14|0|0' places $work/two $work/numbers
printf 'n\t0\t9\nn\t1\t0,0\n' >$work/numbers
said 1 'no|14|0|0' places $work/two $work/numbers
printf 'n\t0\t0,1\nn\t1\t0\n' >$work/numbers
said 1 'no|14|2|2' places $work/two $work/numbers
head -c 262145 /dev/zero | tr '\0' 1 >$work/numbers
said 1 'no|1|0|0' places examples/M.module $work/numbers

# the sheet is the one that the running Rust gives
. tests/rust/shared/against_rust.sh
if [ -d "$oracle" ]; then
    running_rust || exit 1
    target/oracle/target/release/oracle --crate-sheet | cmp - sheets/cutile-ir-0.4.0.sheet || fail "sheets/cutile-ir-0.4.0.sheet"
fi

[ $bad -eq 0 ] && echo "$count examples"
exit $bad
