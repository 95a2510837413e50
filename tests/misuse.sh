#!/bin/sh
# A draft cannot be sent, a fair copy takes no rows, and neither can be used once it was given away: such programs do not
# build. Tries one function that builds, and others that have one line more each, which the compiler must refuse by name.
set -e
cd "$(dirname "$0")/.."
work=$(mktemp -d)
trap 'rm -rf "$work"' EXIT
trap 'exit 1' HUP INT TERM

fail() {
    echo "tests/misuse.sh: $*"
    exit 1
}

# A repository with the sheet and the crates below it, without what was built of them: the check knows them again.
mkdir "$work/crates"
for crate in grammar location fields reader sender sheet; do
    grep "^$crate:" crates.txt >>"$work/crates.txt"
    mkdir "$work/crates/$crate"
    cp -R "crates/$crate/src" "$work/crates/$crate"
    for folder in specs proofs; do
        [ ! -d "crates/$crate/$folder" ] || cp -R "crates/$crate/$folder" "$work/crates/$crate"
    done
done

# start CRATE: a crate of functions that use a sheet.
start() {
    mkdir -p "$work/crates/$1/src"
    echo "$1: location sender sheet" >>"$work/crates.txt"
    cat >"$work/crates/$1/src/lib.rt" <<'END'
// Functions that use a sheet.
#![tactic(auto)]

use sender::send;
use sheet::{Draft, Fair};
END
}

# add CRATE NAME SPOT LINE: a function that uses a sheet from its start to its end, with LINE put in at SPOT.
add() {
    FUNCTION=$2 SPOT=$3 LINE=$4 awk '
        /^ *\/\// { if (substr($0, index($0, "// ") + 3) == ENVIRON["SPOT"]) { print "    " ENVIRON["LINE"]; found = 1 }; next }
        { sub(/NAME/, ENVIRON["FUNCTION"]); print }
        END { exit !found }' >>"$work/crates/$1/src/lib.rt" <<'END' || fail "no spot '$3'"

pub fn NAME() -> u8 {
    let mut buffer = [0u8; 40];
    let mut out = [0u8; 40];
    let mut draft = Draft::new(&mut buffer);
    let _ = draft.open(1, 0, 0);
    // drafted
    let fair = draft.finish();
    // finished
    let _ = send(&fair, &mut out);
    let mut draft = fair.reopen();
    // reopened
    let _ = draft.number(5, 0, 0);
    let _ = draft.give_up();
    // given up
    buffer[0]
}
END
}

# refuse CRATE NAME ERROR SPOT LINE: the function with that line must be refused by that error.
refuse() {
    add "$1" "$2" "$4" "$5"
    echo "$1 $2 $3" >>"$work/expected"
}

start builds
add builds builds finished ''

# Errors of types keep the compiler from looking for errors of loans, so each sort has a crate of its own.
start mistyped
refuse mistyped sends_a_draft unsatisfied-bound drafted 'let _ = send(&draft, &mut out);'
refuse mistyped reopens_a_draft unknown-method drafted 'let _ = draft.reopen();'
refuse mistyped takes_a_draft_apart private-field drafted 'let _ = draft.store;'
refuse mistyped loads_a_fair_copy unknown-method finished 'let _ = fair.load(&[0]);'
refuse mistyped opens_on_a_fair_copy unknown-method finished 'let _ = fair.open(1, 0, 0);'
refuse mistyped numbers_a_fair_copy unknown-method finished 'let _ = fair.number(5, 0, 0);'
refuse mistyped names_a_fair_copy unknown-method finished 'let _ = fair.name(2, 30, &[65]);'
refuse mistyped finishes_a_fair_copy unknown-method finished 'let _ = fair.finish();'
start misused
refuse misused reads_the_buffer borrow-e0503 drafted 'out[0] = buffer[0];'
refuse misused writes_the_buffer borrow-e0506 drafted 'buffer[0] = 1;'
refuse misused drafts_twice borrow-e0499 drafted 'let _ = Draft::new(&mut buffer);'
refuse misused uses_after_finish borrow-e0382 finished 'let _ = draft.close();'
refuse misused uses_after_reopen borrow-e0382 reopened 'let _ = send(&fair, &mut out);'
refuse misused uses_after_give_up borrow-e0382 'given up' 'let _ = draft.close();'

for crate in builds mistyped misused; do
    (cd "$work/crates/$crate" && rt check) >"$work/$crate.say" 2>&1 </dev/null || true
done
grep -q '^fn builds::builds: proved' "$work/builds.say" || { cat "$work/builds.say"; fail 'the function that uses a sheet as it may does not build'; }

# The function and the name of each error, by the line that it has.
for crate in mistyped misused; do
    sed -n 's/^src\/lib\.rt:\([0-9]*\):[0-9]*: error\[\([^]]*\)\].*/\1 \2/p' "$work/$crate.say" |
        awk -v crate="$crate" '
            FNR == NR { if ($2 == "fn") { name = $3; sub(/\(.*/, "", name) }; at[FNR] = name; next }
            { print crate, at[$1], $2 }' "$work/crates/$crate/src/lib.rt" -
done >"$work/found"
sort "$work/expected" >"$work/expected.sorted"
sort "$work/found" >"$work/found.sorted"
if ! diff "$work/expected.sorted" "$work/found.sorted" >"$work/differ"; then
    cat "$work/differ"
    fail "expected (<) and found (>) refusals differ"
fi
echo "tests/misuse.sh: ok, $(grep -c . "$work/expected") misuses refused"
