#!/usr/bin/env python3
"""Small examples of poses of family 6 whose own angles are missing from the list.

    tools/measure/missed_example.py [--oracle PATH] [--n N] [NAME..]

Axes z y y x y x. The offsets are whole numbers and every sine and cosine is a fraction with a
power of 5 below, so that the pose is exact in a few decimals. For each example it prints the arm,
the angles and the pose, what the oracle says of them, and the search's error at the grid points
around q1, at q1 and where the branch ends, with the pairs that the search has near them.
"""

import argparse
import math
import re
import struct
import subprocess
from fractions import Fraction

AXES = "zyyxyx"
DIRECTION = {"x": (1, 0, 0), "y": (0, 1, 0), "z": (0, 0, 1)}

# p2, p4 and p5 (the other offsets are zero), then cosine and sine of each angle.
EXAMPLES = {
    "taken-over": (
        (0, 0, 6), (3, 2, 1), (1, 1, 1),
        "3/5 4/5, 0 -1, -1 0, -24/25 -7/25, 0 -1, -4/5 3/5",
    ),
    "unseen": (
        (0, 0, 6), (4, 1, 1), (0, 1, 0),
        "-4/5 3/5, 0 -1, 0 -1, 24/25 -7/25, 3/5 -4/5, -1 0",
    ),
    "parallel": (
        (0, 0, 6), (4, 1, 1), (0, 1, 0),
        "-4/5 3/5, 0 -1, 0 -1, 1 0, 3/5 -4/5, -1 0",
    ),
}


def rotation(axis, c, s):
    one, zero = Fraction(1), Fraction(0)
    if axis == "x":
        return [[one, zero, zero], [zero, c, -s], [zero, s, c]]
    if axis == "y":
        return [[c, zero, s], [zero, one, zero], [-s, zero, c]]
    return [[c, -s, zero], [s, c, zero], [zero, zero, one]]


def product(a, b):
    return [[sum(a[i][k] * b[k][j] for k in range(3)) for j in range(3)] for i in range(3)]


def pose_of(offsets, turns):
    """The pose as fractions: the rotation by rows, then the place."""
    r = rotation("x", Fraction(1), Fraction(0))
    place = [Fraction(x) for x in offsets[0]]
    for axis, (c, s), offset in zip(AXES, turns, offsets[1:]):
        r = product(r, rotation(axis, c, s))
        place = [place[i] + sum(r[i][k] * offset[k] for k in range(3)) for i in range(3)]
    return [x for row in r for x in row] + place


def block(n, arm, pose):
    numbers = [float(x) for x in arm + pose]
    words = [6 | n << 8] + [struct.unpack("<Q", struct.pack("<d", x))[0] for x in numbers]
    words += [0] * (63 - len(words))
    words.append(sum(words) % 2**64)
    return struct.pack("<64Q", *words)


def run(oracle, data, *words):
    done = subprocess.run([oracle, *words], input=data, capture_output=True, check=True)
    return done.stdout.decode().splitlines()


def show(oracle, n, name):
    p2, p4, p5, text = EXAMPLES[name]
    turns = [tuple(map(Fraction, pair.split())) for pair in text.split(",")]
    zero = (0, 0, 0)
    offsets = [zero, zero, p2, zero, p4, p5, zero]
    pose = pose_of(offsets, turns)
    angles = [math.atan2(s, c) for c, s in turns]
    data = block(n, [x for a in AXES for x in DIRECTION[a]] + [x for p in offsets for x in p], pose)

    print(f"{name}: axes {' '.join(AXES)}, p2 {p2}, p4 {p4}, p5 {p5}, n {n}")
    print("angles", *[f"{q:.6f}" for q in angles])
    print("pose", *[f"{float(x):g}" for x in pose])
    reason = run(oracle, data, "explain", *map(repr, angles))[0].split(" ", 2)[2]
    print("explain:", reason)
    if reason == "found":
        return
    k = math.floor((angles[0] + math.pi) / (math.tau / n))
    ends = re.findall(r"ends at (\S[0-9.]*)", reason)
    between = sorted({*ends, repr(angles[0])}, key=float)
    grid = [f"k{j}" if 0 <= j <= n else None for j in range(k - 1, k + 3)]
    words = [word for word in (*grid[:2], *between, *grid[2:]) if word]
    print("error (q6 q4) of each component:")
    for word, line in zip(words, run(oracle, data, "errors", *words)[1:]):
        name = word if word[0] == "k" else "q1" if word == repr(angles[0]) else "end"
        print(f"  {name}: {line}")
    print("pairs of the search from k - 1 to k + 2:")
    low, high = (-math.pi + (k + j) * (math.tau / n) for j in (-1, 2))
    for line in run(oracle, data, "pairs")[1:]:
        bits, rest = line.split(" ", 1)
        x = struct.unpack("<d", struct.pack("<Q", int(bits, 16)))[0]
        if low <= x <= high:
            print(f"  {x:.9f} component {rest}")


def main():
    parser = argparse.ArgumentParser()
    parser.add_argument("--oracle", default="oracle/target/release/oracle")
    parser.add_argument("--n", type=int, default=200)
    parser.add_argument("names", nargs="*", default=list(EXAMPLES))
    args = parser.parse_args()
    for name in args.names:
        show(args.oracle, args.n, name)


if __name__ == "__main__":
    main()
