#!/bin/sh
# build.sh NAME..: proves and builds the programs NAME (restate, script, vectors) as target/bin/NAME, and, for the name
# tpegloc, the static library for C as target/staticlib/libtpegloc.a. What is unchanged is not proved again.
set -e
cd "$(dirname "$0")/.."
log=$(mktemp)
trap 'rm -f "$log"' EXIT
trap 'exit 1' HUP INT TERM

# put FROM TO: a copy, made whole before it stands there.
put() {
    mkdir -p "$(dirname "$2")"
    cp "$1" "$2.new"
    mv "$2.new" "$2"
}

for name in "$@"; do
    if [ "$name" = tpegloc ]; then
        (cd crates/tpegloc_c && rt lib) >"$log" 2>&1 </dev/null || { cat "$log" >&2; exit 1; }
        put crates/tpegloc_c/out/libtpegloc_c.a target/staticlib/libtpegloc.a
    else
        (cd "crates/$name" && rt run -- --help) >"$log" 2>&1 </dev/null || { cat "$log" >&2; exit 1; }
        put "crates/$name/out/$name" "target/bin/$name"
    fi
done
