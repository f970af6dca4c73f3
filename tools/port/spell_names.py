#!/usr/bin/env python3
"""Brings the repository's own definitions and lemmas to today's spelling: words in snake case, types in camel case.

usage: spell_names.py [--list] ROOT

It renames what the files of crates/*/specs and crates/*/proofs declare, but for what a Proof.antt declares, whose names
follow the names of goals. It rewrites .antt files, the clauses and `ghost use` items of .rt files, and must-fail edits.
A name that a file imports from a library of the kit stays in that file. It was run once, right after the kit's port.py.
--list prints the new names that something else has already, and writes nothing.
"""
import collections
import glob
import os
import re
import sys

W = r"[^\s(){}.;,:@\"«»\[\]\\|]+"
TOKEN = re.compile(r"--[ \t][^\n]*|//[^\n]*|\"(?:[^\"\\\n]|\\.)*\"|«[^»]*»|" + W)
DECLARED = re.compile(
    r"^[ \t]*(?:(?:abbrev|pub|opaque|unfoldable)\s+)*(?:record\s+|data\s+)?([A-Za-z][\w'-]*)(?=[\s:])[^=\n]*?:", re.M
)
IMPORT = re.compile(r"^[ \t]*(?:pub )?(?:ghost )?(?:pub )?use\s+([^\s{}]+?)\.\{([^{}]*)\}", re.M)
OWN = "Rattle."
# Two names that would fall together, and one that clauses now keep for the returned value.
APART = {"whole-root": "whole_root_is"}
RESULT, RENAMED = "result", "with_count"
WITH_RESULT = re.compile(r"\.Counted\.\{[^{}]*(?<![\w-])result(?![\w-])|^abbrev pub result :", re.M)
KEPT = re.compile(r"(?<=ensures)\*(| \w+) \{ λ (\w+)\. ⌜ (.*) ⌝ \}")
KEYWORDS = {"use", "module", "where", "let", "in", "pub", "record", "data", "abbrev", "unfoldable", "opaque"}


def files(root, *patterns):
    return sorted(p for it in patterns for p in glob.glob(os.path.join(root, "crates", it), recursive=True) if "/out/" not in p)


def read(p):
    with open(p, encoding="utf-8", newline="") as f:
        return f.read()


def spelled(name):
    """The name in today's spelling."""
    if name in APART:
        return APART[name]
    if name[0].isupper():
        return "".join(part[:1].upper() + part[1:] for part in name.split("-"))
    return re.sub(r"(?<=[a-z])(?=[A-Z][a-z])", "_", name.replace("-", "_")).lower() if re.match(r"[a-z]+[A-Z][a-z]", name) else name.replace("-", "_")


def own_crates(root):
    return {os.path.basename(p) for p in glob.glob(os.path.join(root, "crates", "*"))}


def from_libraries(text, crates):
    """The names that a file imports from the kit."""
    found = set()
    for m in IMPORT.finditer(text):
        part = m.group(1).split(".")
        if part[0] != "Rattle" or part[1] not in crates:
            found |= {n.strip().split(" as ")[-1] for n in m.group(2).split(",")}
    return found


def main(argv):
    root = argv[-1]
    crates = own_crates(root)
    names = {}
    for p in files(root, "*/specs/**/*.antt", "*/proofs/**/*.antt"):
        if p.endswith("/Proof.antt"):
            continue
        text = read(p)
        foreign = from_libraries(text, crates)
        for m in DECLARED.finditer(re.sub(r"(?m)--[ \t].*$", "", text)):
            n = m.group(1)
            if n not in foreign and n not in KEYWORDS and spelled(n) != n:
                names[n] = spelled(n)
    every = collections.Counter()
    texts = {}
    for p in files(root, "*/specs/**/*.antt", "*/proofs/**/*.antt", "*/src/**/*.rt", "*/must-fail/*.edit"):
        texts[p] = read(p)
        for t in TOKEN.findall(texts[p]):
            if not t.startswith(("--", "//", '"')):
                every[t] += 1
    clash = {n: s for n, s in names.items() if every[s]}
    back = collections.defaultdict(list)
    for n, s in names.items():
        back[s].append(n)
    if "--list" in argv:
        for n, s in sorted(clash.items()):
            print("taken:", n, s, every[s])
        for s, ns in back.items():
            if len(ns) > 1:
                print("fall together:", ns)
        print(len(names))
        return
    for p, text in texts.items():
        foreign = from_libraries(text, crates)

        def put(m):
            t = m.group(0)
            return names[t] if t in names and t not in foreign else t

        if p.endswith(".edit"):
            new = "".join(l if not l.startswith(("old:", "new:")) else l[:4] + TOKEN.sub(put, l[4:]) for l in text.splitlines(keepends=True))
        else:
            new = TOKEN.sub(put, text)
        if WITH_RESULT.search(new):
            new = re.sub(r"(?<![\w.'-])result(?![\w'-])(?! =)", RENAMED, new)
            if p.endswith(".rt"):
                new = KEPT.sub(lambda m: m[1] + " { " + re.sub(rf"(?<![\w.'-]){m[2]}(?![\w'-])", RESULT, m[3]) + " }", new)
        if new != text:
            with open(p, "w", encoding="utf-8", newline="") as f:
                f.write(new)


if __name__ == "__main__":
    main(sys.argv[1:])
