#!/usr/bin/env python3
"""Brings the names of the repository's own definitions, lemmas and record fields to snake case, after port.py.

    python3 tools/respell_names.py        at the top of the repository: once, over all crates

port.py respells what comes from the libraries. A name that specs/ or proofs/ declare or bind as `eventsOf` becomes `events_of`, wherever
a proof, a definition, a clause, a ghost line, a must-fail edit, a hint or a page says it. A capital at the front stays: it is a type or a
fact. Nothing of src/ but clauses and ghost lines has such names, as Rust's are in snake case already. It stops, and writes nothing, where a
new name would meet one that is there.
"""
import glob
import os
import re
import sys

# Lemmas that port.py spelled as a definition is spelled now, where the definition is in the crate below.
MOVED = {"markers/proofs/OfExpressions.antt": ("args_end", "run-args_end"), "markers/proofs/OfParams.antt": ("list_open", "run-list_open")}
NAME = r"[^\s(){}.;,@\"«»`:]+"
CAMEL = re.compile(r"^[a-z_][\w'-]*[a-z0-9][A-Z]")


def spelled(name):
    """the name in snake case: a dash stays, and so does a capital behind one, or at the front of a part"""
    def part(p):
        if not re.match(r"[a-z_]", p):
            return p
        return re.sub(r"(?<=[a-z0-9])([A-Z]+)(?=[a-z0-9']|$|_)", lambda m: "_" + m[1].lower(), p)
    return "-".join(part(p) for p in name.split("-"))


def files():
    for pattern in ("crates/*/specs/**/*.antt", "crates/*/proofs/**/*.antt", "crates/*/src/**/*.rt", "crates/*/must-fail/*.edit", "crates/*/hints.py", "docs/**/*.md", "*.md", "differential/*.md", "tools/*", "*/*.edit"):
        for f in sorted(glob.glob(pattern, recursive=True)):
            if os.path.isfile(f) and os.path.basename(f) not in (os.path.basename(__file__), "written.txt") and not f.startswith("docs/PORT"):
                yield f


def declared():
    """the names that the repository's own texts declare or bind, each with its new spelling, and every name that stands anywhere"""
    own = set(os.listdir("crates"))
    found, every, foreign = {}, set(), set()
    for f in sorted(glob.glob("crates/*/specs/**/*.antt", recursive=True) + glob.glob("crates/*/proofs/**/*.antt", recursive=True)):
        text = re.sub(r"(?m)--.*$", "", open(f, encoding="utf-8").read())
        for m in re.finditer(r"(?m)^use (\S+?)\.\{([^}]*)\}", text):
            step = re.split(r"[.·]", m[1])
            if step[0] != "Rattle" or step[1] not in own:
                foreign |= set(re.findall(NAME, m[2]))
        # a step of a path is a module of Rattle's, or a field
        if f.count("/") == 3 or "/specs/" in f:
            every |= set(re.findall(r"(?<![\w'.-])[a-z_][\w'-]*(?![\w'-]|\.[\w{])", text))
    for name in every - foreign:
        if CAMEL.match(name):
            found[name] = spelled(name)
    return found, every


def main():
    os.chdir(os.path.dirname(os.path.dirname(os.path.abspath(__file__))))
    for f, (old, new) in MOVED.items():
        text = open("crates/" + f, encoding="utf-8").read()
        open("crates/" + f, "w", encoding="utf-8").write(re.sub(r"(?<![\w'-])%s(?![\w'-])" % old, new, text))
    names, every = declared()
    bad = False
    back = {}
    for old, new in sorted(names.items()):
        if new in every or new in back:
            print("meets another name: %s -> %s (%s)" % (old, new, back.get(new, "declared or used")))
            bad = True
        back[new] = old
    if bad:
        sys.exit(1)
    one = re.compile(r"(?<![\w'·-])(%s)(?![\w'-])" % "|".join(sorted(map(re.escape, names), key=len, reverse=True)))
    count = 0
    for f in files():
        old = open(f, encoding="utf-8").read()
        new = one.sub(lambda m: names[m[1]], old)
        if new != old:
            count += 1
            open(f, "w", encoding="utf-8").write(new)
    print("%d names in %d files" % (len(names), count))


main()
