#!/bin/sh
# Runs the program `script` in small buffers, and on what is no script. What it should answer was worked out by hand from
# docs/SHEET.md; its longer test is crates/script/stdin.
set -e
cd "$(dirname "$0")/.."
program=$(pwd -P)/target/bin/script
work=$(mktemp -d)
trap 'rm -rf "$work"' EXIT
trap 'exit 1' HUP INT TERM
tried=0

fail() {
    echo "tests/script.sh: $*"
    exit 1
}

sh tools/build.sh script

# expect SIZE CALLS ANSWERS: calls, and answers and then the rows held, with a comma after each but the last.
expect() {
    tried=$((tried + 1))
    answers=$(printf '%s\n' "$2" | tr ',' '\n' | "$program" "$1" | tr '\n' ',')
    [ "$answers" = "$3," ] || fail "in $1 bytes, $2: expected '$3', got '$answers'"
}

# reject MESSAGE TEXT [ARGUMENTS]: no script, or no such arguments: status 1, that message, and nothing is printed.
reject() {
    tried=$((tried + 1))
    message=$1 text=$2
    shift 2
    if printf '%b' "$text" | "$program" "$@" >"$work/out" 2>"$work/err"; then fail "'$text' with '$*' is not rejected"; fi
    [ ! -s "$work/out" ] || fail "'$text' with '$*': something is printed"
    grep -qF -- "$message" "$work/err" || fail "'$text' with '$*': expected '$message', got '$(cat "$work/err")'"
}

# A row costs 12 bytes and its text.
expect 0 'open 1 0 0,load 00,finish,send 1' 'NO 13 0 0,OK,OK,SENT 1 0 00,ROWS 0'
expect 11 'open 1 0 0,open 1 256 0,name 2 0 41' 'NO 13 0 0,NO 11 0 0,NO 10 0 0,ROWS 0'
expect 12 'open 1 0 0,number 5 0 0,name 2 0 -,close,open 1 0 0' 'OK,NO 13 1 1,NO 13 1 1,OK,NO 13 1 0,ROWS 1,0 1 0 0 0 -'
expect 23 'open 1 0 0,number 5 0 0' 'OK,NO 13 1 1,ROWS 1,0 1 0 0 0 -'
expect 24 'open 1 0 0,name 2 30 41,number 5 0 0,name 2 30 -' 'OK,NO 13 1 1,OK,NO 13 2 1,ROWS 2,0 1 0 0 0 -,1 5 0 0 0 -'
expect 25 'open 1 0 0,name 2 30 4142,name 2 30 41,finish,send 13' 'OK,NO 13 1 1,OK,OK,SENT 13 30 1E010009020006000000020141,ROWS 2,0 1 0 0 0 -,1 2 0 0 30 41'

# A load goes by its own rows: what was held does not count. W has two rows that cost 25.
w=1E010009020006010000020141
expect 24 "open 1 0 0,load $w,number 5 0 0,close" 'OK,NO 13 1 1,OK,OK,ROWS 2,0 1 0 0 0 -,1 5 0 0 0 -'
expect 25 "load $w,load $w,open 1 0 0,clear,open 1 0 0" 'OK,OK,NO 13 2 0,OK,OK,ROWS 1,0 1 0 0 0 -'
expect 12 'load 1E010004020001FF,finish,send 8,reopen,load 00,finish,send 1' 'OK,OK,SENT 8 0 00010004020001FF,OK,OK,OK,SENT 1 0 00,ROWS 0'

# What is sent is the best container of the rows, whatever they came in.
expect 25 'load 28 01 00 0C 02 00 09 01 00 00 05 01 41 00 01 1E,finish,send 13,send 12' "OK,OK,SENT 13 30 $w,NO 16 13 0,ROWS 2,0 1 1 0 0 -,1 2 0 0 30 41"
expect 100 'send 9,finish,close,send 0,send 1,reopen,reopen' 'NOT NOW,OK,NOT NOW,NO 16 1 0,SENT 1 0 00,OK,NOT NOW,ROWS 0'
expect 100 'open 1 0 0,load 1E,number 5 0 0,open 1 7 0' 'OK,OK,NO 10 0 0,OK,ROWS 1,0 1 7 0 0 -'
expect 100 'load 1E0500,load -' 'NO 3 1 0,NO 2 0 0,ROWS 0'

# No script: the line is named, and no call is made.
reject 'line 2 should be: load, open,' 'close\nshut\n' 100
reject 'line 1 should be: open KIND A B' 'open 1 0\n' 100
reject 'line 1 should be: open KIND A B' 'open 1 0 0 0\n' 100
reject 'line 1 should be: open KIND A B' 'open 256 0 0\n' 100
reject 'line 4 should be: number KIND A B' '\n# none\nclose # one\nnumber 5 2147483648 0\n' 100
reject 'line 1 should be: name KIND LANGUAGE HEX' 'name 2 256 41\n' 100
reject 'line 1 should be: name KIND LANGUAGE HEX' 'name 2 30\n' 100
reject 'line 1 should be: load HEX' 'load\n' 100
reject 'line 1 should be: load HEX' 'load 1E0\n' 100
reject 'line 1 should be: send ROOM' 'send 65536\n' 100
reject 'line 1 should be: one word' 'close 1\n' 100
reject 'SIZE is missing' ''
reject 'SIZE is a number' '' many
reject 'one argument is taken' '' 1 2
echo "tests/script.sh: ok, $tried runs"
