#!/usr/bin/env python3
"""How often the angles that made a pose are among its answers, for arms two of whose axes meet.

    tools/measure/meeting_axes.py [COUNT] [SEED]

For each family, arms of two sorts: with random axes, and with axes along x, y and z. In each row two
neighbouring axes meet (their offset has no part across both), all else is random. COUNT (200) arms for
each row, each with one pose made from random angles; family 6 with n = 200. Found is a pose with all six
of its own angles, within 1e-6 modulo a turn, in an unflagged answer. Needs target/bin/ik, or IK_PROGRAM.

The last rows take the arms of families 3 and 5 that lose answers, write the same arm with the offset
between the meeting axes zero, and give it to family 2 or 4. Where p1 = s h1 + t h2, the arm with
p0 + s h1, p1 = 0 and p2 + t h2 has the same poses, for a turn about an axis keeps what lies along it.
"""

import math
import pathlib
import random
import sys

sys.path.insert(0, str(pathlib.Path(__file__).resolve().parents[1]))
import blocks
import sheet

NEAR = 1e-6
SQUARE = {1: "zyyzyz", 2: "zyxzyz", 3: "zyxzyz", 4: "zyyyzy", 5: "zxxxzx", 6: "zyyxyx"}
ALONG = {"x": [1.0, 0.0, 0.0], "y": [0.0, 1.0, 0.0], "z": [0.0, 0.0, 1.0]}


def random_axis(rng):
    while True:
        v = [rng.uniform(-1, 1) for _ in range(3)]
        if 0.1 < math.hypot(*v) < 1:
            return [x / math.hypot(*v) for x in v]


def random_arm(rng, family, square):
    """An arm with the family's structure."""
    axes = [ALONG[c] for c in SQUARE[family]] if square else [random_axis(rng) for _ in range(6)]
    arm = dict(zip(sheet.AXES, axes))
    for name in sheet.EQUAL_AXES.get(family, []):
        arm[name] = arm["h2"]
    for name in sheet.OFFSETS:
        zero = name in sheet.ZERO_OFFSETS.get(family, [])
        arm[name] = [0.0, 0.0, 0.0] if zero else [rng.uniform(-0.5, 0.5) for _ in range(3)]
    return arm


def plus(v, s, axis):
    return [x + s * y for x, y in zip(v, axis)]


def let_meet(rng, arm, i):
    """Axes i and i + 1 meet: the offset between them is a sum of parts along them. Gives the same arm
    with that offset zero."""
    s, t = rng.uniform(-0.5, 0.5), rng.uniform(-0.5, 0.5)
    one, two = arm[f"h{i}"], arm[f"h{i + 1}"]
    arm[f"p{i}"] = plus(plus([0.0, 0.0, 0.0], s, one), t, two)
    before, after = f"p{i - 1}", f"p{i + 1}"
    moved = {before: plus(arm[before], s, one), f"p{i}": [0.0, 0.0, 0.0], after: plus(arm[after], t, two)}
    return {**arm, **moved}


def same(one, other):
    return all(abs((x - y + math.pi) % (2 * math.pi) - math.pi) < NEAR for x, y in zip(one, other))


def row(words, family, square, i, count, seed, instead=None):
    """Poses found, poses with an empty list, poses with a NaN; by another family instead, if given."""
    rng = random.Random(f"{seed} {family} {square} {i}")
    data, made = b"", []
    for _ in range(count):
        arm = random_arm(rng, family, square)
        moved = let_meet(rng, arm, i) if i else arm
        angles = [rng.uniform(-math.pi, math.pi) for _ in range(6)]
        rotation, place = sheet.forward(arm, angles)
        numbers = [x for name in sheet.AXES + sheet.OFFSETS for x in (moved if instead else arm)[name]]
        n = 200 if family == 6 else 0
        data += blocks.make(instead or family, n, numbers, [*sum(rotation, []), *place])
        made.append(angles)
    results = sheet.read_results(blocks.run(words, data), count)
    found = sum(any(not f and same(q, a) for q, f in r.angles) for a, r in zip(made, results))
    empty = sum(not r.angles for r in results)
    nan = sum(any(math.isnan(x) for q, _ in r.angles for x in q) for r in results)
    return found, empty, nan


def rows(family):
    """No axes that meet; then each two neighbours that are not parallel or made to meet by the family."""
    yield 0
    equal = sheet.EQUAL_AXES.get(family, [])
    for i in range(1, 6):
        parallel = f"h{i}" in equal and f"h{i + 1}" in equal
        if not parallel and f"p{i}" not in sheet.ZERO_OFFSETS.get(family, []):
            yield i


def main(arguments):
    count, seed = (int(arguments[0]) if arguments else 200), (int(arguments[1]) if len(arguments) > 1 else 1)
    words = blocks.command()
    print(f"{'family':>6} {'axes':>8} {'meet':>6} {'poses':>6} {'found':>6} {'empty':>6} {'NaN':>6}")
    cases = [(family, square, i, None) for family in range(1, 7) for square in (False, True) for i in rows(family)]
    cases += [(family, square, i, other) for family, i, other in ((3, 1, 2), (5, 5, 4)) for square in (False, True)]
    for family, square, i, instead in cases:
        found, empty, nan = row(words, family, square, i, count, seed, instead)
        name = f"{family} as {instead}" if instead else f"{family}"
        kind, meet = ("square" if square else "random"), (f"{i}, {i + 1}" if i else "none")
        print(f"{name:>6} {kind:>8} {meet:>6} {count:>6} {found:>6} {empty:>6} {nan:>6}", flush=True)
    return 0


if __name__ == "__main__":
    try:
        sys.exit(main(sys.argv[1:]))
    except blocks.NoProgram as error:
        sys.exit(str(error))
