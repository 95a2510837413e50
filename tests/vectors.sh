#!/bin/sh
# Runs the program vectors on tests/sent.txt: what is sent for rows and for containers under layers. The program counts two
# long containers of its own too.
set -e
cd "$(dirname "$0")/.."
sh tools/build.sh vectors
expected="65535 bytes: ROWS 0
65536 bytes: NO 1 0 0
138 vectors agree"
found=$(target/bin/vectors <tests/sent.txt) || true
if [ "$found" != "$expected" ]; then
    echo "tests/vectors.sh: expected"
    echo "$expected"
    echo "found"
    echo "$found"
    exit 1
fi
echo "tests/vectors.sh: ok, $(grep -c . tests/sent.txt) vectors"
