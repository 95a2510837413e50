#!/usr/bin/env python3
"""Lists the lines of crates/*/src that have one of the older forms, and counts them.

    tools/places.py [--count] [FOLDER]

A line is found by its shape alone, so a list has lines that are right as they stand, and a form that
has no shape of its own is not in it. docs/DESIGN-PASS.md says which of them are places.
"""
import collections
import pathlib
import re
import sys

# point: what to look for in a line of code, with its name
SHAPES = [
    ("1 variant that says none", r"^\s+(Nowhere|Nothing|Unread|End|All|Plain|NotNow),"),
    ("1 flag in a field or a parameter", r"\b[a-z_]+: (&mut )?bool\b(?!.*->)"),
    ("1 answer through a parameter", r"\b(answer|agreement|live): &mut "),
    ("1 refusal as a number", r"\bREFUSED\b"),
    ("1 zeros or a unit number for none", r"return \(0, 0\)|^    \(0, 0\)$|^    0$"),
    ("1 Option or Result taken apart and put together", r"=> Some\(Some|None => None|None => false|None => true|None => return None|=> return Err|Err\(_\) => (false|None)|return None;|return Ok\(None\);|unwrap_or\(None\)"),
    ("3 loop over an index", r"^\s*for \w+ in .*\.\.|^\s*for \(i, .*enumerate\(\)"),
    ("3 loop that steps a mark or an offset", r"^\s*(while|loop)\b"),
    ("4 comparison or element by hand", r"matches!\(|\blen\(\) \{ .*\[.*\] \} else|^\s*if \w+ < [a-z_.]+\.len\(\) \{$|=> \w+ == \w+,|=> \w+ > \w+,"),
    ("4 conversion or printing by hand", r"% 256|/ 256|b'[0A]' \+|- b'[0Aa]'|push_hex\(|Ok\(\(\)\) => Answer|Err\(fault\) => Answer"),
    ("6 array with a length beside", r"\[\w+; (MOST_\w+|16|17|256)\]|^\s+(first|second|third|fourth): Layer,"),
    ("6 bytes and an offset as parameters", r"(out|buffer): &mut \[u8\],( mut)? at: usize|^    (out|buffer): &mut \[u8\],$"),
    ("7 match that picks what runs", r"^\s*match (self|fields|call|&?vector\.form|waiting|layer|word|form|name) \{"),
]


def sources(top):
    for file in sorted(pathlib.Path(top).glob("crates/*/src/*.rt")):
        yield file.relative_to(top), file.read_text().split("\n")


def code(line):
    return "" if line.strip().startswith("//") else line.split(" // ")[0]


def shapes(top):
    found = collections.defaultdict(list)
    for file, lines in sources(top):
        for number, line in enumerate(lines, 1):
            for name, shape in SHAPES:
                if re.search(shape, code(line)):
                    found[name].append(f"{file}:{number}: {line.strip()}")
    return found


def twins(top):
    """Names of functions that stand in more than one place."""
    names = collections.defaultdict(list)
    for file, lines in sources(top):
        for line in lines:
            for name in re.findall(r"\bfn ([a-z_0-9]+)", code(line)):
                names[name].append(str(file))
    return [f"fn {name}: {len(at)} ({', '.join(sorted(set(at)))})" for name, at in sorted(names.items()) if len(at) > 1]


def clauses(top):
    """Clauses of one crate that stand in three or more places of it, but for trait laws."""
    seen = collections.defaultdict(list)
    for file, lines in sources(top):
        for line in lines:
            clause = re.match(r"\s*(?:requires|ensures)(?: \w+)? \{ (.*) \}$", line)
            if clause:
                text = re.sub(r"\b(old|new|now|entry)\b", "_", clause.group(1))
                seen[(file.parts[1], text)].append(str(file))
    return [f"{crate}: {len(at)} x {text}" for (crate, text), at in sorted(seen.items()) if len(at) > 2]


def proofs(top):
    files = list(pathlib.Path(top).glob("crates/*/proofs/**/*.antt"))
    texts = [file.read_text() for file in files]
    answers = sum(len(re.findall(r"^pub [\w-]+ : goal\.", t, re.M)) for t in texts)
    return [f"{len(files)} files, {sum(t.count(chr(10)) for t in texts)} lines, {answers} answers"]


def main():
    arguments = [a for a in sys.argv[1:] if a != "--count"]
    top = arguments[0] if arguments else "."
    lists = shapes(top)
    lists = [(name, lists.get(name, [])) for name, _ in SHAPES]
    lists += [("2 name of several functions", twins(top)), ("5 clause in three places", clauses(top))]
    for name, found in sorted(lists):
        print(f"{len(found):4} {name}")
        if "--count" not in sys.argv:
            print("".join(f"       {line}\n" for line in found), end="")
    print(f"     8 proofs: {proofs(top)[0]}")


if __name__ == "__main__":
    main()
