#!/usr/bin/env python3
"""Holds docs/MAP.md to the tree: each file that it names is there, each name in backquotes beside a
file of specs/ stands in that file, and each crate is in the picture or a table. Prints what is not."""
import pathlib
import re
import sys

top = pathlib.Path(__file__).resolve().parents[0]
while not (top / "crates.txt").exists():
    top = top.parent
text = (top / "docs/MAP.md").read_text()
wrong = []
for cell in re.findall(r"[^|\n]+", text):
    for path, names in re.findall(r"(\w+/(?:specs|src|proofs)/[\w/]+\.(?:antt|rt))((?: `[\w-]+`,?)*)", cell):
        file = top / "crates" / path
        if not file.exists():
            wrong.append(f"{path}: no such file")
            continue
        words = set(re.findall(r"[\w-]+", file.read_text()))
        wrong += [f"{path}: no {name}" for name in re.findall(r"`([\w-]+)`", names) if name not in words]
tests = (top / "crates.txt").read_text().split("# ---- tests")
for crate in re.findall(r"^(\w+)(?: staticlib)?:", tests[0], re.M):
    if not re.search(rf"\b{crate}\b", text):
        wrong.append(f"{crate}: not on the map")
print("\n".join(wrong) or "docs/MAP.md is true of the tree")
sys.exit(bool(wrong))
