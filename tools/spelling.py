#!/usr/bin/env python3
"""Turns the names of this repository's own definitions and lemmas to the kit's spelling: words in snake case.

usage: tools/spelling.py [--dry] [FOLDER]

A lemma that would have a definition's or a function's name gets `_lem` behind it. The script follows the kit's port.py, which respells the library's names and only some of ours. A name is ours if a file of specs/ or proofs/
declares it, or if it is in camel case, as no name of the library is any more. Types, functions of src/, exported names and generated names keep
theirs. Names that fall together in a file are printed, and nothing is written then.
"""
import collections
import os
import re
import sys

SIGN = re.compile(r"^\s*((?:pub|abbrev|unfoldable)\s+)*([^\s:(){}.,;=λ→\"]+(?:\s+[^\s:(){}.,;=λ→\"]+)*)\s+:(?:\s|$)")
TOKEN = re.compile(r"[^\s(){}\[\].,;:=→λ×⊎`\"|@!?<>&*/+#]+")
OWN = re.compile(r"^use (Rattle\.(\w+))?")
# Lemmas that port.py had turned, each of which would have a definition's name.
TURNED = {"has_code": "has_code_lem", "words_left": "words_left_lem"}
CAMEL = re.compile(r"^[a-z][a-z0-9_'\-]*[A-Z]")
WORDS = re.compile(r"^[a-z0-9][a-z0-9_']*(-[a-z0-9_']+)+$")

def files(root, endings):
    for folder, dirs, names in os.walk(root):
        dirs[:] = sorted(d for d in dirs if d not in ("out", "target", ".git"))
        for n in sorted(names):
            if n.endswith(endings):
                yield os.path.join(folder, n)


def read(path):
    with open(path, encoding="utf-8") as f:
        return f.read()


def declared(root):
    """The names that files of specs/ and lemma files of proofs/ declare."""
    found = set()
    for path in files(os.path.join(root, "crates"), ".antt"):
        if path.endswith("/Proof.antt"):
            continue
        for line in read(path).splitlines():
            m = None if line.lstrip().startswith("--") else SIGN.match(line)
            if m:
                found.update(m.group(2).split())
    return found


def imported(root, crates):
    """The names that come from the library, as import lines have them."""
    found = set()
    for path in files(os.path.join(root, "crates"), (".antt", ".rt")):
        for m in re.finditer(r"^(?:ghost )?use ([\w.'\-◌]+?)\.\{([^}]*)\}", read(path), re.M):
            first = m.group(1).split(".")
            if first[0] == "Rattle" and first[1] in crates:
                continue
            found.update(w for x in m.group(2).split(",") for w in x.split())
    return found


def snake(name):
    name = re.sub(r"(?<=[a-z0-9'])([A-Z])", lambda m: "_" + m.group(1).lower(), name) if CAMEL.match(name) else name
    if name.startswith("length-"):
        return "length-" + name[7:].replace("-", "_")
    return name.replace("-", "_")


def mapping(root):
    crates = set(os.listdir(os.path.join(root, "crates")))
    ours, theirs = declared(root), imported(root, crates)
    tokens = {t for path in files(os.path.join(root, "crates"), (".antt", ".rt")) for t in TOKEN.findall(read(path))}
    turned = TURNED | {t: snake(t) for t in tokens if CAMEL.match(t) and re.search(r"[a-z0-9'][A-Z]", t) and t not in theirs}
    taken = tokens | set(turned.values())
    for n in ours:
        if WORDS.match(n) and n not in theirs and n not in turned:
            turned[n] = snake(n) + ("_lem" if snake(n) in taken else "")
    return {a: b for a, b in turned.items() if a != b}


def turn(text, turned):
    return TOKEN.sub(lambda m: turned.get(m.group(0), m.group(0)), text)


def clashes(root, turned):
    """Names that fall together in one file, and who had them. Functions of src/ are no names of definitions, so their proofs are passed over."""
    for path in files(os.path.join(root, "crates"), ".antt"):
        if path.endswith("/Proof.antt"):
            continue
        tokens = set(TOKEN.findall("\n".join(l for l in read(path).splitlines() if not l.lstrip().startswith("--"))))
        comes = collections.defaultdict(set)
        for t in tokens:
            comes[turned.get(t, t)].add(t)
        for new, old in sorted(comes.items()):
            if len(old) > 1:
                yield path, new, sorted(old)


def main(argv):
    dry = "--dry" in argv
    rest = [a for a in argv if a != "--dry"]
    root = rest[0] if rest else "."
    turned = mapping(root)
    bad = list(clashes(root, turned))
    for path, new, old in bad:
        print(f"{path}: {new}: {' '.join(old)}")
    print(f"{len(turned)} names, {len(bad)} clashes")
    if dry or bad:
        return 1 if bad else 0
    for path in files(os.path.join(root, "crates"), (".antt", ".rt", ".edit")):
        text = read(path)
        new = turn(text, turned)
        if new != text:
            with open(path, "w", encoding="utf-8") as f:
                f.write(new)
    return 0


if __name__ == "__main__":
    sys.exit(main(sys.argv[1:]))
