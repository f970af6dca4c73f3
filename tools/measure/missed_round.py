#!/usr/bin/env python3
"""Counts the poses of family 6 whose own angles are missing, for angles that people teach.

    tools/measure/missed_round.py [--oracle PATH] [--count COUNT] [--n N]

Two arms of the oracle's pool, wrist-offset and across. A line for each way to choose the angles:
one joint held at an angle and the others random, or all of them whole multiples of some degrees.
The poses come from the oracle's forward_kinematics and the answers from its two_parallel.
"""

import argparse
import math
import random
import struct
import subprocess

AXES = [(0, 0, 1), (0, 1, 0), (0, 1, 0), (1, 0, 0), (0, 1, 0), (1, 0, 0)]
ARMS = {
    "wrist-offset": [
        (0, 0, 0.265), (0, 0, 0), (0, 0, 0.444), (0, 0.01, 0.11),
        (0.47, 0.03, 0.02), (0.101, 0.02, 0.08), (0.05, 0, 0),
    ],
    "across": [
        (0, 0, 0.245), (0.02, 0.01, 0), (0, 0.02, 0.54), (0.05, 0, 0.04),
        (0.49, 0.02, 0.06), (0.05, -0.15, 0.03), (0.16, 0, 0),
    ],
}
TOLERANCE = 1e-6
NEAR = 1e-3
# Found in an unflagged answer or in flagged ones alone; an answer within NEAR, but none within
# TOLERANCE; none at all.
KINDS = ["unflagged", "flagged", "near", "missing"]


def held(joint, degrees):
    """Random angles but for one joint."""
    def choose(rng):
        angles = [rng.uniform(-math.pi, math.pi) for _ in range(6)]
        if joint:
            angles[joint - 1] = math.radians(degrees)
        return angles
    return choose


def multiples(step):
    """All six angles whole multiples of some degrees."""
    def choose(rng):
        half = 180 // step
        return [math.radians(step * rng.randint(1 - half, half)) for _ in range(6)]
    return choose


CHOICES = [("all random", held(0, 0))]
CHOICES += [(f"q{j} = 0", held(j, 0)) for j in range(1, 7)]
CHOICES += [(f"q4 = {d:g} degrees", held(4, d)) for d in (180, 90, 1e-6, 1e-3, 0.01, 0.1, 1, 5)]
CHOICES += [(f"multiples of {s} degrees", multiples(s)) for s in (1, 5, 15, 30, 45, 90)]


def word(x):
    return "%016x" % struct.unpack("<Q", struct.pack("<d", x))[0]


def number(text):
    return struct.unpack("<d", struct.pack("<Q", int(text, 16)))[0]


def call(oracle, name, lines):
    text = "".join(" ".join(line) + "\n" for line in lines)
    done = subprocess.run([oracle, "call", name], input=text, capture_output=True, text=True,
                          check=True)
    return [line.split() for line in done.stdout.splitlines()]


def apart(answer, angles):
    """The largest difference modulo TAU; an answer with a NaN is infinitely far."""
    most = max(abs(math.remainder(a - b, math.tau)) for a, b in zip(answer, angles))
    return most if not math.isnan(sum(answer)) else math.inf


def found(result, angles):
    """One of KINDS."""
    nearest = {"0": math.inf, "1": math.inf}
    for at in range(2, len(result), 7):
        answer = [number(text) for text in result[at:at + 6]]
        flag = result[at + 6]
        nearest[flag] = min(nearest[flag], apart(answer, angles))
    if nearest["0"] <= TOLERANCE:
        return "unflagged"
    if nearest["1"] <= TOLERANCE:
        return "flagged"
    return "near" if min(nearest.values()) <= NEAR else "missing"


def measure(oracle, offsets, choose, count, n):
    rng = random.Random(3)
    arm = [word(x) for v in AXES + offsets for x in v]
    chosen = [choose(rng) for _ in range(count)]
    poses = call(oracle, "forward_kinematics", [arm + [word(q) for q in a] for a in chosen])
    lists = call(oracle, "two_parallel", [["%x" % n] + arm + pose for pose in poses])
    kinds = [found(result, angles) for result, angles in zip(lists, chosen)]
    return [kinds.count(kind) for kind in KINDS]


def main():
    parser = argparse.ArgumentParser()
    parser.add_argument("--oracle", default="oracle/target/release/oracle")
    parser.add_argument("--count", type=int, default=1000)
    parser.add_argument("--n", type=int, default=200)
    args = parser.parse_args()
    print("arm, angles:", *KINDS)
    for arm, offsets in ARMS.items():
        for name, choose in CHOICES:
            counts = measure(args.oracle, offsets, choose, args.count, args.n)
            print(f"{arm}, {name}:", *counts, flush=True)


if __name__ == "__main__":
    main()
