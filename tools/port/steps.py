#!/usr/bin/env python3
"""Spells the names of functions in proof files as the source does: what an older toolchain called c.copy-from-slice and
returns-in-err-write-text is now c.copy_from_slice and returns-in_err-write_text. In clauses of generic functions it writes a bound's
members with the type's name, as T.meaning.

usage: python3 tools/port/steps.py [CRATE..]     at the top of the repository, after respell.py
"""

import os
import re
import sys

sys.path.insert(0, os.path.dirname(os.path.realpath(__file__)))
import respell as R

KIT = "/opt/rattle/rattle"


def functions():
    names = set()
    for root in ("crates", KIT + "/core/src", KIT + "/std_alloc/src", KIT + "/std/src", KIT + "/std_io/src", KIT + "/std_heap/src", KIT + "/std_collections/src"):
        for folder, dirs, files in os.walk(root):
            dirs[:] = [d for d in dirs if d not in ("out", "target")]
            for f in files:
                if f.endswith(".rt"):
                    t = open(os.path.join(folder, f), encoding="utf-8", errors="replace").read()
                    names.update(re.findall(r"\bfn ([a-z]\w*_\w*)", t))
                    if root == "crates":
                        names.update(re.findall(r"\blet (?:mut )?([a-z]\w*_\w*)", t))
                        names.update(re.findall(r"\b([a-z]\w*_\w*):", t))
    return {n.replace("_", "-"): n for n in names}


def main(argv):
    names = functions()
    longest = sorted(names, key=len, reverse=True)
    one = re.compile("(?<![a-zA-Z0-9_])(" + "|".join(map(re.escape, longest)) + ")(?![a-zA-Z0-9_])")

    def step(m):
        t = one.sub(lambda k: names[k[1]], m[0])
        return re.sub(r"(?<![a-zA-Z0-9_])in-(err|ok)(?![a-zA-Z0-9_])", r"in_\1", t)

    labels = set()
    for p in R.files(".rt"):
        labels.update(re.findall(r"\b(?:ensures|requires|ghost)\*? ([a-z]\w*_\w*)", R.code(p)))
    label = {n.replace("_", "-"): n for n in labels}

    chain = re.compile(r"(?<![\w'.-])(?:[a-z]\d?|goal)(?:\.[\w«»'-]+)+")
    for p in R.files(".antt"):
        if "/specs/" in p or (argv and p.split("/")[1] not in argv):
            continue
        old = R.text(p)
        new = chain.sub(step, old)
        if not R.is_lemma_file(p):
            was = {m: step(re.match(r".*", m)) for m in set(re.findall(r"goal\.([\w'-]+)", old))}
            for a, b in was.items():
                if a != b:
                    new = re.sub(r"(?<![\w'.-])" + re.escape(a) + r"(?![\w'-])", b, new)
        new = R.WORD.sub(lambda m: label.get(m[0], m[0]), new)
        if new != old:
            open(p, "w", encoding="utf-8").write(new)


def members():
    for p in R.files(".rt"):
        old = R.text(p)
        new = re.sub(r"\b(Printed|PrintedUnless) meaning kept\b", r"\1 T.meaning T.kept", old)
        new = new.replace("{ answers operand.now visitor.old", "{ V.answers operand.now visitor.old")
        if new != old:
            open(p, "w", encoding="utf-8").write(new)


main(sys.argv[1:])
members()
