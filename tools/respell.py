#!/usr/bin/env python3
"""Brings this repository's own definitions and lemmas to today's spelling, after the kit's port.py.

usage: python3 tools/respell.py [FOLDER]      FOLDER: a checkout on which port.py ran (default: this one)

Words in snake case, types in upper camel case: `row-bytes` becomes `row_bytes`, `Told-exactly` becomes `ToldExactly`.
Turned are the names that specs/*.antt and proofs/*.antt declare, wherever they are cited; helpers of one answer file, in
that file. Not turned: functions, strings and comments of src/, names that Rattle makes (fields and goals behind a dot),
inputs, outputs and the texts of edits. Names that fall together are printed, and then nothing is written.
"""

import glob
import os
import re
import sys
from collections import defaultdict

PART = r"[A-Za-z0-9_'?₀-₉]"
TOKEN = re.compile(rf"(?<!{PART})(?<!-)[A-Za-z_]{PART}*(?:-{PART}+)*(?!-?{PART})")
DECLARED = re.compile(r"^\s*(?:(?:abbrev|unfoldable|opaque|data|record|pub|macro|priv) +)*([A-Za-z_][^\s:(){}]*) +:(?: (.*))?$")
# A record with parameters, and the local name of an import.
RECORD = re.compile(r"^\s*(?:pub )?(?:record|data) ([A-Za-z_][^\s:(){}]*) +[({]")
ALIAS = re.compile(r" as ([a-z_][A-Za-z0-9_'-]*)(?=[,};]|$)")
COMMENT = re.compile(r"--(?=\s|$).*")
# Relations that no hyphen shows: in small letters, or turned by half by port.py.
RELATIONS = {"none_told": "NoneTold", "up_to": "UpTo", "between": "Between", "Goes_on": "GoesOn", "Found_at": "FoundAt"}


def read(path):
    with open(path, encoding="utf-8") as f:
        return f.read()


def turned(name):
    """The new spelling of a name."""
    if name in RELATIONS:
        return RELATIONS[name]
    if name[0].isupper():
        return "".join(p[:1].upper() + p[1:] for p in name.split("-"))
    return name.replace("-", "_")


def declared(text):
    """The names that a file declares, and whether each is a goal's answer."""
    found = {}
    for line in COMMENT.sub("", text).split("\n"):
        m = DECLARED.match(line)
        if m:
            found[m[1]] = bool(re.match(r"(goal|Goals)\b", (m[2] or "").strip()))
        m = RECORD.match(line)
        if m:
            found[m[1]] = False
    return found


def held(text):
    """The names of the fields of a file's records."""
    found, inside = set(), None
    for line in COMMENT.sub("", text).split("\n"):
        indent = len(line) - len(line.lstrip())
        if re.match(r"\s*(?:pub )?record ", line):
            inside = indent
        elif inside is not None and indent <= inside:
            inside = None
        elif inside is not None and (m := DECLARED.match(line)) and "-" in m[1]:
            found.add(m[1])
    return found


def foreign(text, own):
    """The names that a file imports from other libraries."""
    found = set()
    for m in re.finditer(r"^\s*(?:ghost )?use ([\w.']+)\.\{(.*)\}", text, re.M):
        p = m[1].split(".")
        if not (p[0] == "Rattle" and p[1] in own):
            found |= {n.strip() for n in m[2].split(",")}
    return found


def antt(text, names, own_goals, fields):
    """The text of a definition or proof file with the names turned."""

    def word(m):
        w, at = m[0], m.start()
        if at and m.string[at - 1] == ".":
            # behind a dot: of a module, as O.off-globe, or a field of a record of ours; else it is a field or a goal that Rattle makes
            before = re.search(r"([A-Za-z_0-9][\w']*)\.$", m.string[:at])
            if before and before[1][0].isupper():
                return turned(w) if w in names and w not in own_goals else w
            return turned(w) if w in fields and before and before[1] != "c" else w
        return turned(w) if w in names and w not in own_goals else w

    out = []
    for line in text.split("\n"):
        c = COMMENT.search(line)
        code, rest = (line[: c.start()], line[c.start() :]) if c else (line, "")
        out.append(TOKEN.sub(word, code) + rest)
    return "\n".join(out)


def source(text, names):
    """The text of a .rt file with the names turned in imports and clauses."""
    out = []
    depth = 0
    for line in text.split("\n"):
        bare = line.strip()
        starts = re.match(r"(ghost|requires|ensures|invariant|law|decreases)\b", bare)
        if bare.startswith("//") or not (starts or depth):
            out.append(line)
            continue
        out.append(TOKEN.sub(lambda m: turned(m[0]) if m[0] in names else m[0], line))
        depth = max(0, depth + line.count("{") - line.count("}")) if (starts or depth) else 0
    return "\n".join(out)


def main():
    root = sys.argv[1] if len(sys.argv) > 1 else os.path.join(os.path.dirname(os.path.abspath(__file__)), "..")
    files = [p for p in glob.glob(os.path.join(root, "crates", "*", "**", "*.antt"), recursive=True) if "/out/" not in p]
    own = {os.path.basename(os.path.dirname(p)) for p in glob.glob(os.path.join(root, "crates", "*", ""))}
    shared = {}
    fields = set()
    for p in files:
        fields |= held(read(p))
    for p in files:
        parts = os.path.relpath(p, os.path.join(root, "crates")).split(os.sep)
        # crates/NAME/specs/.. and crates/NAME/proofs/File.antt are cited from elsewhere
        if parts[1] == "specs" or len(parts) == 3:
            for n in declared(read(p)):
                if "-" in n or n in RELATIONS:
                    shared.setdefault(n, os.path.relpath(p, root))
    alike = defaultdict(set)
    everything = set()
    for p in files:
        everything |= set(declared(read(p)))
    for n in shared:
        alike[turned(n)].add(n)
    bad = {t: ns for t, ns in alike.items() if len(ns) > 1 or (t in everything and t not in shared)}
    for t, ns in sorted(bad.items()):
        print(f"respell: {', '.join(sorted(ns))} would fall together as {t}", "(which is declared)" if t in everything else "")
    if bad and "--anyway" not in sys.argv:
        raise SystemExit(1)
    n = 0
    for p in files:
        text = read(p)
        mine = declared(text)
        goals = {w for w, is_goal in mine.items() if is_goal}
        parts = os.path.relpath(p, os.path.join(root, "crates")).split(os.sep)
        local = {} if parts[1] == "specs" or len(parts) == 3 else {w for w in mine if "-" in w and w not in goals}
        alias = {w for w in ALIAS.findall(text) if "-" in w and turned(w) not in text}
        new = antt(text, (set(shared) | set(local) | alias) - foreign(text, own), goals, fields)
        if new != text:
            n += 1
            with open(p, "w", encoding="utf-8") as f:
                f.write(new)
    for p in glob.glob(os.path.join(root, "crates", "*", "src", "**", "*.rt"), recursive=True):
        text = read(p)
        alias = {w for w in ALIAS.findall(text) if "-" in w and turned(w) not in text}
        new = source(text, (set(shared) | alias) - foreign(text, own))
        if new != text:
            n += 1
            with open(p, "w", encoding="utf-8") as f:
                f.write(new)
    print(f"respell: {len(shared)} names, {n} files")


main()
