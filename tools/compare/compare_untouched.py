#!/usr/bin/env python3
"""Holds the solver program's lists against those of the untouched Rust, which tools/compare/untouched.sh built.

    tools/compare/compare_untouched.py [--kind KIND] [--count COUNT] [--count6 COUNT] [--seed SEED]
                                       [--untouched PROGRAM] [FAMILY..]

COUNT poses (100,000) of each family 1 to 5, and 10,000 of family 6 at n = 200, which is the Rust's. KIND
is reachable (poses from random angles) or another kind of `oracle generate`; the block numbers in the
tables are those of `oracle generate KIND FAMILY SEED COUNT [200]`. The environment variable IK_PROGRAM
names another program in the port's place.

It also holds the untouched Rust to the reference program with the machine's functions and nalgebra's
QR (`oracle blocks --nalgebra`), bit for bit: exit status 1 where a line differs. Needs cargo, rt for
target/bin/ik, and the untouched program (target/untouched/blocks).
"""

import argparse
import itertools
import os
import pathlib
import subprocess
import sys
import tempfile

sys.path.insert(0, str(pathlib.Path(__file__).resolve().parents[1]))
import blocks

CLASSES = ("regular", "singular", "flagged")


def oracle_program():
    manifest = blocks.ROOT / "oracle" / "Cargo.toml"
    subprocess.run(["cargo", "build", "--release", "--offline", "--quiet", "--manifest-path", manifest], check=True)
    built = os.environ.get("CARGO_TARGET_DIR", blocks.ROOT / "oracle" / "target")
    return str(pathlib.Path(built) / "release" / "oracle")


def into(path, words, given=None):
    """Runs a program with a file as its input and another as its output."""
    with open(path, "wb") as output, open(given or os.devnull, "rb") as source:
        subprocess.run(words, stdin=source, stdout=output, check=True)


def differing(one, two):
    """How many lines differ but for the evaluations, which the untouched Rust does not count."""
    with open(one) as these, open(two) as those:
        pairs = itertools.zip_longest(these, those, fillvalue="")
        return sum(a.partition(" evals ")[0] != b.partition(" evals ")[0] for a, b in pairs)


def compared(oracle, port, untouched, request):
    """The lines of `oracle beside`, the port first, as a list of words each, and one more for the lines
    that differ from the reference program with nalgebra's QR."""
    with tempfile.TemporaryDirectory() as folder:
        asked, one, two, same = (os.path.join(folder, name) for name in ("blocks", "port", "untouched", "same"))
        into(asked, [oracle, "generate", *request])
        into(one, port, asked)
        into(two, [untouched], asked)
        into(same, [oracle, "blocks", "--nalgebra"], asked)
        done = subprocess.run([oracle, "beside", *request, one, two], capture_output=True, text=True, check=True)
        bits = ["bits", "differing", str(differing(same, two))]
    return [line.split() for line in done.stdout.splitlines()] + [bits]


def fields(lines, *head):
    """What follows the line's first words, by name; `panics`, of which there are two, as a pair."""
    words = next(line[len(head):] for line in lines if line[:len(head)] == list(head))
    found = {}
    while words:
        values = 2 if words[0] == "panics" else 1
        found[words[0]] = words[1] if values == 1 else words[1:3]
        words = words[1 + values:]
    return found


def number(text):
    return f"{int(text):,}"


def row(*cells):
    print("| " + " | ".join(cells) + " |")


def head(*cells):
    print()
    row(*cells)
    row(*("---" for _ in cells))


def print_lists(families):
    head("family", "poses", "panics", "another length", "same length, other flags", "same by place", "same as sets",
         "unflagged the same as sets", "lines other than `--nalgebra`'s")
    for family, lines in families.items():
        all_ = fields(lines)
        names = ("other-length", "other-flags", "same-by-place", "same-as-sets", "same-unflagged")
        row(family, number(all_["poses"]), all_["panics"][1], *(number(all_[name]) for name in names),
            fields(lines, "bits")["differing"])


def print_largest(families):
    head("family", "compared", "unflagged, not singular", "unflagged, singular", "flagged", "blocks that show them")
    for family, lines in families.items():
        for way in ("by-place", "as-sets"):
            largest = [fields(lines, way, name) for name in CLASSES]
            cells = [f"{float(x['largest']):.1e}" if int(x["answers"]) else "-" for x in largest]
            row(family, way.replace("-", " "), *cells, ", ".join(x["at"] for x in largest))


def print_alone(families):
    head("family", "program", "unflagged, not singular", "unflagged, singular", "flagged", "first blocks that show them")
    for family, lines in families.items():
        for side, name in (("first", "port"), ("second", "untouched")):
            alone = [fields(lines, "alone", side, kind) for kind in CLASSES]
            cells = [f"{number(x['answers'])} ({number(x['making-the-pose'])})" for x in alone]
            row(family, name, *cells, ", ".join(x["at"] for x in alone))


def print_own(families):
    head("family", "found unflagged: port", "untouched", "found only flagged: port", "untouched", "missing: port",
         "untouched", "both")
    for family, lines in families.items():
        port, untouched = (fields(lines, "own", side) for side in ("first", "second"))
        cells = [number(x[name]) for name in ("unflagged", "flagged", "missing") for x in (port, untouched)]
        row(family, *cells, number(fields(lines, "own", "both")["missing"]))


def main():
    options = argparse.ArgumentParser(description=__doc__, formatter_class=argparse.RawDescriptionHelpFormatter)
    options.add_argument("--kind", default="reachable")
    options.add_argument("--count", type=int, default=100000)
    options.add_argument("--count6", type=int, default=10000)
    options.add_argument("--seed", type=int, default=12)
    options.add_argument("--untouched", default=str(blocks.ROOT / "target" / "untouched" / "blocks"))
    options.add_argument("family", nargs="*", default=list("123456"), metavar="FAMILY")
    given = options.parse_args()
    if not os.access(given.untouched, os.X_OK):
        sys.exit(f"{given.untouched} is missing; tools/compare/untouched.sh SOURCES builds it")
    oracle, port = oracle_program(), blocks.command()
    families = {}
    for family in given.family:
        count, n = (given.count6, "200") if family == "6" else (given.count, "0")
        request = [given.kind, family, str(given.seed), str(count), n]
        families[family] = compared(oracle, port, given.untouched, request)
    print(f"{given.kind} poses, seed {given.seed}")
    for table in (print_lists, print_largest, print_alone, print_own):
        table(families)
    sys.exit(any(fields(lines, "bits")["differing"] != "0" for lines in families.values()))


if __name__ == "__main__":
    try:
        main()
    except (blocks.NoProgram, subprocess.CalledProcessError) as error:
        sys.exit(str(error))
