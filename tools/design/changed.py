#!/usr/bin/env python3
"""Writes the last part of docs/DESIGN-PASS.md: each function, definition and ghost item whose text changed since the commit in
that page's first line, old and new side by side, by crate.

    tools/design/changed.py OLD > PART      OLD: a folder with that commit's tree (git archive COMMIT | tar x -C OLD)

It reads both trees as the kit's `port.py contracts` does, whose file it imports.
"""
import collections
import os
import subprocess
import sys

KIT = os.path.dirname(subprocess.run(["rt", "doc"], capture_output=True, text=True, check=True).stdout.strip())
sys.path.insert(0, os.path.join(KIT, "port"))
import contracts  # noqa: E402


def said(f):
    clauses = [f"{c[0]}{' ' + c[1] if c[1] else ''} {{ {c[2]} }}" for c in f["requires"] + f["ensures"]]
    return " ".join([f["sign"], *clauses])


def pairs(olds, news):
    """The functions of both trees that are one another's, found as the kit does."""
    same = lambda x, y: contracts.clauses(x) == contracts.clauses(y)  # noqa: E731
    tests = (
        lambda a, x, b, y: a == b and same(x, y),
        lambda a, x, b, y: a == b,
        lambda a, x, b, y: (a[0], a[2], a[3]) == (b[0], b[2], b[3]),
        lambda a, x, b, y: a[2:] == b[2:] and same(x, y),
        lambda a, x, b, y: (a[0], a[3]) == (b[0], b[3]) and same(x, y),
    )
    left = list(range(len(news)))
    for test in tests:
        alone = []
        for a, x in olds:
            i = next((i for i in left if news[i][0][3] == a[3] and test(a, x, *news[i])), None)
            if i is None:
                alone.append((a, x))
            else:
                left.remove(i)
                yield a, x, news[i][1]
        olds = alone


def flat(functions):
    return [(k, x) for k, v in sorted(functions.items()) for x in v if not x["test"] and not x["in tests"]]


def tell(title, rows):
    print(f"### {title}\n")
    for crate in sorted(rows):
        print(f"#### {crate}\n")
        for head, old, new in sorted(rows[crate]):
            print(f"- {head}\n  - old: `{old}`\n  - new: `{new}`")
        print()


def by_crate(olds, news):
    """Those items of both trees whose texts differ."""
    rows = collections.defaultdict(list)
    for key, old in olds.items():
        new = news.get(key)
        if new and sorted(old) != sorted(new):
            rows[key[0]].append((f"`{' '.join(key[1:])}`", " ".join(old), " ".join(new)))
    return rows


def main():
    old, new = contracts.read(sys.argv[1]), contracts.read(".")
    rows = collections.defaultdict(list)
    for a, x, y in pairs(flat(old[1]), flat(new[1])):
        if said(x) != said(y):
            name = f"{a[2]}::{a[3]}" if a[2] else a[3]
            rows[a[0]].append((f"`{name}` ({a[1]})", said(x), said(y)))
    tell("Functions", rows)
    tell("Definitions", by_crate(old[3], new[3]))
    ghosts = by_crate(old[2], new[2])
    if ghosts:
        tell("Ghost items and constants", ghosts)


main()
