#!/bin/sh
# Builds the static library and the C examples, and compares what they answer with what they should.
set -e
cd "$(dirname "$0")/../.."
sh tools/build.sh tpegloc
for name in check restate room; do
    cc -std=c99 -Wall -Wextra -Werror -I include "examples/c/$name.c" target/staticlib/libtpegloc.a -o "target/${name}_example"
done

# expect PROGRAM INPUT ANSWER
expect() {
    answer=$("target/$1_example" <"$2")
    if [ "$answer" != "$3" ]; then
        echo "examples/c/$1: $2: expected '$3', got '$answer'"
        exit 1
    fi
}

expect check examples/named-node.bin 'rows: 2'
expect check examples/two-languages.bin 'rows: 3'
expect check examples/everything.bin 'rows: 10'
expect check examples/off-globe.bin 'refused: 7'
expect check /dev/null 'refused: 2'
expect restate examples/named-node.bin 1E010009020006010000020141
expect restate examples/language-part.bin 1E010009020006010000020141
expect restate examples/unknown-component.bin 1E010009020006010000020141
expect restate examples/two-languages.bin 1E01001102000E0100000201410000050142000128
expect restate examples/off-globe.bin 'refused: 7'
expect restate /dev/null 'refused: 2'
expect room /dev/null 'every room: ok'
echo 'examples/c: ok'
