#!/usr/bin/env python3
"""Brings the repository's own definitions, lemmas, fields and constructors to snake case, and its types to camel case.

usage: python3 tools/port/respell.py [--dry]     at the top of the repository, right after the toolchain's port.py

Renamed are names that are declared in specs/, in the lemma files of proofs/, in ghost items, and inside a proof (let, where),
wherever they stand in specs/, proofs/, the clauses of src/ and, between back quotes, in README.md and docs/. Names of goals and
of the steps of a proof, names that the library declares, comments and strings stay. It stops where two names would fall together.
"""

import os
import re
import sys

WORD = re.compile(r"[A-Za-z_◌][\w'◌-]*", re.UNICODE)
OWN_GOAL_FILES = {"Answers.antt", "Invariants.antt", "Choices.antt", "Proof.antt"}
# What is not turned by its dashes alone: a name that the toolchain's scripts had garbled, aliases of types' cases, and names that
# would fall together with a function of the file that imports them.
OTHERS = {
    "Load-one": "load_one",
    "load-one": "load_one",
    "Opcode-field": "OpcodeField",
    "Reg-name": "RegName",
    "CReg-name": "CRegName",
    "RegShift-name": "RegShiftName",
    "Register-fault": "RegisterFault",
    "ShiftWord-fault": "ShiftWordFault",
    "is-sp": "at_sp",
    "shown-condition": "condition_shown",
    "span-code": "code_of_span",
    "edge-code": "code_of_edge",
    "is-nothing": "no_more",
    "or-end": "or_at_end",
}


def crates():
    return sorted(c for c in os.listdir("crates") if os.path.isdir(f"crates/{c}/src"))


def files(ending):
    for folder, dirs, names in os.walk("crates"):
        dirs[:] = sorted(d for d in dirs if d not in ("out", "target"))
        for n in sorted(names):
            if n.endswith(ending):
                yield os.path.join(folder, n)


def text(p):
    return open(p, encoding="utf-8").read()


def pieces(t, comment):
    """The text cut into (is code, text): comments and strings are not code."""
    at, start, out = 0, 0, []
    while at < len(t):
        if t.startswith(comment, at) and (at == 0 or t[at - 1] in " \n\t"):
            end = t.find("\n", at)
            end = len(t) if end < 0 else end
        elif t[at] == '"':
            end = at + 1
            while end < len(t) and t[end] != '"':
                end += 2 if t[end] == "\\" else 1
            end += 1
        else:
            at += 1
            continue
        out += [(True, t[start:at]), (False, t[at:end])]
        at = start = end
    return out + [(True, t[start:])]


def code(p):
    return "".join(x if is_code else " " for is_code, x in pieces(text(p), "--" if p.endswith(".antt") else "//"))


def is_lemma_file(p):
    return os.path.basename(p) not in OWN_GOAL_FILES


def declared():
    names, library = {}, set()
    own = set(crates())
    for p in files(".antt"):
        t = code(p)
        for m in re.finditer(r"^([ ]*)((?:abbrev |unfoldable |opaque |pub |cycle )*)((?:[a-zA-Z][\w'-]* )+):(?= |$)", t, re.M):
            if not is_lemma_file(p) and not m[1]:
                continue
            for n in m[3].split():
                names.setdefault(n, p)
        for m in re.finditer(r"\blet ([a-zA-Z][\w'-]*) (?:: |= )", t):
            names.setdefault(m[1], p)
    for p in list(files(".antt")) + list(files(".rt")):
        t = code(p)
        for m in re.finditer(r"\buse ([\w.·+-]+?)\.\{([^}]*)\}", t):
            parts = m[1].split(".")
            mine = parts[0] == "Rattle" and parts[1] in own
            for item in m[2].split(","):
                both = item.split(" as ")
                if not mine:
                    library.add(both[0].strip())
                if len(both) == 2:
                    names.setdefault(both[1].strip(), p)
        for m in re.finditer(r"^\s*ghost ([a-z][\w-]*): \{", t, re.M) if p.endswith(".rt") else ():
            names.setdefault(m[1], p)
        for m in re.finditer(r"\b(?:ensures|requires) ([a-z][\w-]*) \{", t) if p.endswith(".rt") else ():
            names.setdefault(m[1], p)
    return names, library


def respelled(n):
    return OTHERS.get(n, n.replace("-", "_"))


def table():
    names, library = declared()
    turn = {n: respelled(n) for n in names if ("-" in n or n in OTHERS) and n not in library}
    return turn, names, library


def turned(t, turn, steps):
    out, last = [], 0
    for m in WORD.finditer(t):
        n = m[0]
        if n in turn and not (n in steps and is_step(t, m.start())):
            out += [t[last : m.start()], turn[n]]
            last = m.end()
    return "".join(out) + t[last:]


def is_step(t, at):
    """Whether the word at this place names a step of a proof: it stands behind c., l., w. or goal."""
    m = re.search(r"(?<![\w'-])((?:[a-zA-Z][\w'-]*\.)+)$", t[max(0, at - 200) : at])
    if not m:
        return False
    parts = m[1].split(".")[:-1]
    if parts[0] == "goal":
        return True
    return parts[0] in ("c", "l", "w", "v", "u", "n") and not any(x in ("ensures", "requires", "result", "args", "old", "new", "invariant") for x in parts)


def main(argv):
    turn, names, library = table()
    seen = {}
    for n, to in turn.items():
        seen.setdefault(to, []).append(n)
    together = {to: ns for to, ns in seen.items() if len(ns) > 1 or (to in names and to not in turn) or to in library}
    for to, ns in sorted(together.items()):
        print(f"fall together: {', '.join(ns)} and {to}: {names[ns[0]]} {names.get(to, 'library')}")
    steps = set(turn)
    if "--dry" in argv:
        for n in sorted(turn):
            print(n, "->", turn[n], names[n])
        return 1 if together else 0
    changed = 0
    for p in list(files(".antt")) + list(files(".rt")):
        old = text(p)
        comment = "--" if p.endswith(".antt") else "//"
        new = "".join(turned(x, turn, steps) if is_code else x for is_code, x in pieces(old, comment))
        if new != old:
            open(p, "w", encoding="utf-8").write(new)
            changed += 1
    for p in ["README.md"] + [f"docs/{f}" for f in sorted(os.listdir("docs")) if f.endswith(".md") and not f.startswith("PORT")]:
        old = text(p)
        new = re.sub(r"`[^`\n]+`", lambda m: turned(m[0], turn, set()), old)
        if new != old:
            open(p, "w", encoding="utf-8").write(new)
            changed += 1
    print(f"{len(turn)} names turned, {changed} files changed")
    return 0


if __name__ == "__main__":
    sys.exit(main(sys.argv[1:]))
