#!/usr/bin/env python3
"""What the test program search_vectors must print for the searches on standard input, as
`oracle searches` writes them. From the records alone: no search is run.
  tools/compare/search_records.py [--sums KIND]
With --sums one line instead, for tools/compare/compare_search.sh: the kind, the searches, pairs, evaluations
and crossings in all, the most pairs in one search and its n, the most evaluations and their n, and the
largest shares of the bounds of pairs and of evaluations, in parts of a thousand.
"""
import struct
import sys

HEAD = 8 * 54
PAIR = 8 * 13


def searches(stream):
    """For each search n, the number of pairs, the evaluations, and the crossings on the grid."""
    while head := stream.read(HEAD):
        n, pairs, evals = struct.unpack("<Q408x2Q", head)
        body = stream.read(PAIR * pairs)
        if len(head) + len(body) != HEAD + PAIR * pairs:
            sys.exit("search_records: the last search is cut short")
        # The row and the place of each pair: on the grid, a crossing.
        crossings = sum(not (row or place) for row, place in struct.iter_unpack("<16x2Q72x", body))
        yield n, pairs, evals, crossings


def expected(found):
    pairs = sum(f[1] for f in found)
    # The checks in the program's order; crossings are compared for each of the four components.
    checks = [("searches", len(found)), ("pairs", pairs), ("parts", len(found)), ("rows", pairs),
              ("places", pairs), ("crossings", 4 * len(found)), ("solves", len(found)),
              ("answers", pairs)]
    for name, cases in checks + [("total", sum(cases for _, cases in checks))]:
        print(name, "cases", cases, "mismatches 0")
    print("most pairs", max((f[1] for f in found), default=0),
          "evaluations", max((f[2] for f in found), default=0))


def sums(kind, found):
    most_pairs = max(found, key=lambda f: f[1])
    most_evals = max(found, key=lambda f: f[2])
    share_pairs = max(1000 * f[1] // (44 * f[0]) for f in found)
    share_evals = max(1000 * f[2] // (f[0] + 1 + 3128 * f[0]) for f in found)
    print(kind, len(found), *(sum(f[i] for f in found) for i in (1, 2, 3)), most_pairs[1],
          most_pairs[0], most_evals[2], most_evals[0], share_pairs, share_evals)


if __name__ == "__main__":
    found = list(searches(sys.stdin.buffer))
    if sys.argv[1:2] == ["--sums"]:
        sums(sys.argv[2], found)
    elif sys.argv[1:]:
        sys.exit(__doc__)
    else:
        expected(found)
