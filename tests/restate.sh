#!/bin/sh
# Runs the program restate with its options, on input that is right and wrong, and compares what it prints and its status.
set -e
cd "$(dirname "$0")/.."
program=target/bin/restate
sh tools/build.sh restate

# expect STATUS ANSWER INPUT ARGUMENT..
expect() {
    status=$1 answer=$2 input=$3
    shift 3
    got=0
    text=$("$program" "$@" <"$input" 2>&1) || got=$?
    if [ "$got" != "$status" ] || [ "$text" != "$answer" ]; then
        echo "tests/restate: $* < $input: expected status $status and"
        echo "$answer"
        echo "got status $got and"
        echo "$text"
        exit 1
    fi
}

sheet=$(mktemp)
trap 'rm -f "$sheet"' EXIT

two=examples/two-languages.bin
nested=examples/nodes-in-a-node.bin
expect 0 'ROWS 3
0 1 1 0 0 -
1 2 0 0 30 41
1 2 0 0 40 42' $two
expect 0 'ROWS 3
0 1 1 0 0 -
1 2 0 0 30 41
1 2 0 0 40 42
SEND 1E01001102000E0100000201410000050142000128' $two --send
expect 0 'NO 7 8 2' examples/off-globe.bin --send
expect 0 'ROWS 2
0 1 1 0 0 -
1 2 0 0 40 42
SEND 28010009020006010000020142' $two --language 40
expect 0 'ROWS 1
0 1 1 0 0 -
SEND 0001000402000101' $two --language 30 --language 40
expect 0 'ROWS 1
0 1 1 0 0 -
SEND 0001000402000101' $nested --cut 1
expect 0 'ROWS 4
0 1 1 0 0 -
1 7 0 0 0 -
2 1 2 0 0 -
2 1 3 0 0 -
SEND 0001001002000D01050009020200010202000103' $nested --cut 2 --language 7
expect 0 'NO 2 0 0' /dev/null
expect 0 'NO 7 8 2' examples/off-globe.bin --cut 0
expect 1 "Error: \"--language takes a number from 0 to 255, not '256'\"" $two --language 256
expect 1 'Error: "--cut takes a number"' $two --cut
expect 1 "Error: \"unknown argument --depth, try --help\"" $two --depth
expect 1 'Error: "more than four layers"' $two --cut 1 --cut 1 --cut 1 --cut 1 --cut 1

cat >"$sheet" <<'SHEET'
# two of one meaning, and two that are refused
1E010009020006010000020141
28 01 00 0c 02 00 09 01 00 00 05 01 41 00 01 1e | whatever stood here

-
1E01000902
SHEET
expect 0 '# two of one meaning, and two that are refused
1E010009020006010000020141 | 1E010009020006010000020141
2801000C02000901000005014100011E | 1E010009020006010000020141

- | NO 2 0 0
1E01000902 | NO 3 1 0' "$sheet" --hex
printf '1E01\n1E0\n' >"$sheet"
expect 1 '1E01 | NO 3 1 0
Error: "line 2 is not hexadecimal with two digits for each byte"' "$sheet" --hex
"$program" --help | grep -q '^Usage: restate'
echo 'tests/restate: ok'
