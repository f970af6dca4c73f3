#!/usr/bin/env python3
"""Holds the flag of each answer against the pose that the answer's angles give the arm.

    tools/measure/check_flags.py [COUNT] [SEED]

COUNT (600) reachable poses of realistic arms for each family, made by the reference program; family 6
with n = 200. An answer hits where its rotation's entries, and its place relative to the arm's lengths,
are within 1e-6 of what was asked for. Forward kinematics is this script's own. Needs the reference
program (oracle/, built) and target/bin/ik; IK_PROGRAM names another solver program. Exit status 1 where
an unflagged answer misses.
"""

import math
import pathlib
import struct
import subprocess
import sys

sys.path.insert(0, str(pathlib.Path(__file__).resolve().parents[1]))
import blocks
import sheet

NEAR = 1e-6
ORACLE = blocks.ROOT / "oracle" / "target" / "release" / "oracle"


def miss(numbers, angles):
    """How far the pose of these angles is from the block's."""
    names = sheet.AXES + sheet.OFFSETS
    arm = {name: numbers[1 + 3 * i : 4 + 3 * i] for i, name in enumerate(names)}
    rotation, place = sheet.forward(arm, angles)
    size = sum(abs(x) for x in numbers[19:40])
    turn = max(abs(rotation[i][j] - numbers[40 + 3 * i + j]) for i in range(3) for j in range(3))
    return max(turn, math.dist(place, numbers[49:52]) / size)


def family(words, number, count, seed):
    """Poses without a hit; then hits and misses, unflagged and flagged."""
    n = ["200"] if number == 6 else []
    made = subprocess.run([ORACLE, "generate", "reachable", str(number), str(seed), str(count), *n],
                          capture_output=True, check=True).stdout
    results = sheet.read_results(blocks.run(words, made), count)
    without, counts = 0, {(flag, hit): 0 for flag in (False, True) for hit in (False, True)}
    for place, result in enumerate(results):
        numbers = struct.unpack("<64d", made[512 * place : 512 * place + 512])
        hits = [(flag, miss(numbers, angles) <= NEAR) for angles, flag in result.angles]
        without += not any(hit for _, hit in hits)
        for key in hits:
            counts[key] += 1
    return without, counts


def main(arguments):
    count, seed = (int(arguments[0]) if arguments else 600), (int(arguments[1]) if len(arguments) > 1 else 3)
    words, wrong = blocks.command(), 0
    print(f"{'family':>6} {'poses':>6} {'no hit':>7} {'unflagged: hit':>15} {'miss':>6} {'flagged: hit':>13} {'miss':>6}")
    for number in range(1, 7):
        without, counts = family(words, number, count, seed)
        wrong += counts[False, False]
        print(f"{number:>6} {count:>6} {without:>7} {counts[False, True]:>15} {counts[False, False]:>6}"
              f" {counts[True, True]:>13} {counts[True, False]:>6}")
    return 1 if wrong else 0


if __name__ == "__main__":
    try:
        sys.exit(main(sys.argv[1:]))
    except blocks.NoProgram as error:
        sys.exit(str(error))
