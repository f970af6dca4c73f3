#!/usr/bin/env python3
"""Tries what include/saihkeb.h and README.md say of arms, flags and answers, sentence by sentence.

    tools/measure/claims.py [--count COUNT] [--seed SEED] [NAME..]

Without a NAME: every claim. COUNT (200) random arms for each line, with random axes, each with one pose
from random angles; family 6 with n = 200. 'Makes the pose' is that of trial.py. A line has the claim's
name, what was counted, and 'as said' or 'NOT AS SAID'. Exit status 1 where one is not as said. Needs
target/bin/ik, or IK_PROGRAM.
"""

import argparse
import math
import pathlib
import random
import sys

sys.path.insert(0, str(pathlib.Path(__file__).resolve().parents[1]))
import blocks
import meeting_axes
import sheet
import trial

FAMILIES = range(1, 7)
# Per family, the axes whose length makes answers that miss without a flag, and those of any length.
TELLTALE = {1: "246", 2: "1246", 3: "246", 4: "6", 5: "6", 6: "25"}
ANY_LENGTH = {1: "", 2: "", 3: "", 4: "34", 5: "34", 6: "13"}
UNREAD = {1: ["p4", "p5"], 2: ["p1", "p4", "p5"], 3: ["p4", "p5"], 4: ["h3", "h4"], 5: ["h3", "h4"], 6: ["h3"]}


class Tried:
    """The claims' ground: the program, how many arms, and what was not as said."""

    def __init__(self, words, count, seed):
        self.words, self.count, self.seed, self.wrong = words, count, seed, 0

    def say(self, name, text, holds):
        self.wrong += not holds
        print(f"{name}: {text}: {'as said' if holds else 'NOT AS SAID'}", flush=True)

    def arms(self, family, change=lambda arm, rng: arm):
        rng = random.Random(f"{self.seed} {family}")
        for _ in range(self.count):
            arm = change(meeting_axes.random_arm(rng, family, False), rng)
            yield arm, [rng.uniform(-math.pi, math.pi) for _ in range(6)]

    def worth(self, family, change=lambda arm, rng: arm):
        return trial.worth(self.words, family, list(self.arms(family, change)))

    def solve(self, family, arm, pose):
        return trial.lists(self.words, family, [(arm, pose)])[0]


def scaled(name, factor):
    return lambda arm, rng: {**arm, name: [factor * x for x in arm[name]]}


def anew(*names):
    def change(arm, rng):
        other = {n: meeting_axes.random_axis(rng) if n[0] == "h" else [rng.uniform(-0.5, 0.5) for _ in range(3)]
                 for n in names}
        return {**arm, **other}

    return change


def degrees(*angles):
    return [math.radians(a) for a in angles]


def lengths(t, name):
    for family in FAMILIES:
        plain = t.worth(family)
        for i in "123456":
            w = t.worth(family, scaled(f"h{i}", 2.0))
            text = f"family {family}, h{i} of length 2: own angles in {w.own} of {w.poses} lists,"
            text += f" {w.missing} unflagged answers that miss, up to {w.place:.2f} m and {w.turn:.1f} degrees"
            if i in ANY_LENGTH[family]:
                holds = w.own == plain.own and not w.missing
            elif i in TELLTALE[family]:
                holds = not w.own and w.missing == w.unflagged > 0
            else:
                holds = not w.own and not w.unflagged
            t.say(name, text, holds)


def length_example(t, name):
    arm = trial.named("large")
    pose = trial.pose_of(arm, degrees(30, -20, 15, 40, -60, 75))
    result = t.solve(1, {**arm, "h2": [0.0, 2.0, 0.0]}, pose)
    far = [trial.off(arm, pose, angles)[0] for angles, flag in result.angles if not flag]
    text = f"examples/c with h2 = (0, 2, 0): refusal {result.refusal}, {len(far)} unflagged of {result.answers},"
    t.say(name, f"{text} {min(far):.2f} to {max(far):.2f} m off", len(far) == 8 and 0.325 < max(far) < 0.335)


def rotations(t, name):
    bends = {
        "rows of length 1.001": lambda r: [[1.001 * x for x in row] for row in r],
        "a mirror image": lambda r: [[row[0], row[1], -row[2]] for row in r],
        "seven decimals": lambda r: [[round(x, 7) for x in row] for row in r],
        "five decimals": lambda r: [[round(x, 5) for x in row] for row in r],
    }
    plain = {family: t.worth(family).unflagged for family in FAMILIES}
    for kind, bend in bends.items():
        for family in FAMILIES:
            cases = [(arm, trial.pose_of(arm, angles), angles) for arm, angles in t.arms(family)]
            bent = [(arm, sum(bend([p[0:3], p[3:6], p[6:9]]), []) + p[9:]) for arm, p, _ in cases]
            w = trial.Worth()
            for (arm, pose), (_, _, own), result in zip(bent, cases, trial.lists(t.words, family, bent)):
                w.count(arm, pose, own, result)
            text = f"family {family}, {kind}: {w.unflagged} unflagged answers of {w.unflagged + w.flagged},"
            holds = {"r": not w.unflagged, "a": 0 < w.missing == w.unflagged,
                     "s": w.unflagged == plain[family], "f": w.unflagged < 0.2 * plain[family]}[kind[0]]
            t.say(name, f"{text} {w.missing} unflagged that miss; of the true rotation {plain[family]} unflagged", holds)


def unread(t, name):
    for family in FAMILIES:
        one, other = list(t.arms(family)), list(t.arms(family))
        rng = random.Random(t.seed)
        other = [(anew(*UNREAD[family])(arm, rng), angles) for arm, angles in other]
        poses = [trial.pose_of(arm, angles) for arm, angles in one]
        first, second = (trial.lists(t.words, family, [(arm, p) for (arm, _), p in zip(arms, poses)])
                         for arms in (one, other))
        same = sum(repr(a) == repr(b) for a, b in zip(first, second))
        t.say(name, f"family {family}, other {', '.join(UNREAD[family])}: {same} of {t.count} lists are the same",
              same == t.count)


def left_out(t, name):
    """An offset that is not read: each unflagged answer misses the place by that offset's length."""
    for family in (1, 2, 3):
        for offset in UNREAD[family]:
            cases = [(arm, trial.pose_of(arm, angles)) for arm, angles in t.arms(family, anew(offset))]
            exact = count = 0
            for (arm, pose), result in zip(cases, trial.lists(t.words, family, cases)):
                for angles, flag in result.angles:
                    if not flag:
                        place, turn = trial.off(arm, pose, angles)
                        count += 1
                        exact += abs(place - math.hypot(*arm[offset])) < 1e-6 and turn < trial.TURN
            t.say(name, f"family {family}, {offset} not zero: {exact} of {count} unflagged answers are off by its length",
                  exact == count > 0)


def opposite(t, name):
    w = t.worth(1, scaled("h3", -1.0))
    t.say(name, f"family 1, h3 = -h2: own angles in {w.own} of {w.poses} lists", w.own == w.poses and not w.missing)
    for family, axes in ((4, "34"), (5, "34"), (6, "3")):
        for i in axes:
            w = t.worth(family, scaled(f"h{i}", -1.0))
            text = f"family {family}, h{i} = -h2: own angles in {w.own} lists, {w.missing} of {w.unflagged} unflagged"
            t.say(name, f"{text} answers miss, {w.least:.2g} to {w.place:.2f} m, up to {w.turn:.0f} degrees",
                  not w.own and w.missing == w.unflagged > 0)
    arm, axes = trial.named("ur5"), {"h3": [0.0, -1.0, 0.0]}
    own = degrees(30, -60, 50, 20, 70, 10)
    w = trial.worth(t.words, 4, [({**arm, **axes}, own)])
    t.say(name, f"the UR5 with h3 = -h2: {w.missing} of {w.unflagged} unflagged answers miss, {w.least:.2f} to"
          f" {w.place:.2f} m", w.missing == w.unflagged > 0)


def told(t, name):
    """Shapes that the flag tells."""
    for family, change, text in ((1, anew("h3"), "h3 not parallel to h2"), (4, anew("p5"), "p5 not zero")):
        w = t.worth(family, change)
        t.say(name, f"family {family}, {text}: {w.unflagged} unflagged answers, {w.flagged} flagged", not w.unflagged)


def parallel(t, name):
    """Neighbouring axes that are parallel where a family does not have them so."""
    for family, pairs in sheet.NOT_PARALLEL.items():
        for i in pairs:
            one, other = ("h1", "h2") if i == 1 else (f"h{i + 1}", f"h{i}")
            w = t.worth(family, lambda arm, rng: {**arm, one: arm[other]})
            text = f"family {family}, axes {i} and {i + 1} parallel: own angles in {w.own} of {w.poses} lists,"
            t.say(name, f"{text} {w.empty} empty, {w.unflagged} unflagged answers, {w.missing} of them miss", not w.own)


def hinged(family, i, slant, out, both=False):
    """Axes i and i + 1 meet at an angle, in the plane of axes i and 2 or turned out of it; or 5 and 6 as well."""

    def change(arm, rng):
        made = meeting_axes.random_arm(rng, family, True)
        h2, hinge = made["h2"], made[f"h{i}"]
        c, s = math.cos(math.radians(slant)), math.sin(math.radians(slant))
        second = [s * x + (c * y if slant != 90 else 0.0) for x, y in zip(h2, hinge)]
        made["h6"] = meeting_axes.random_axis(rng)
        made[f"h{i + 1}"] = sheet.turned(sheet.about(hinge, math.radians(out)), second) if out else second
        for first in (i, 5) if both else (i,):
            meeting_axes.let_meet(rng, made, first)
        return made

    return change


def plane(t, name):
    for family, i, slant, out, both, least, most in (
        (5, 5, 90, 0, False, 0, 0), (5, 5, 60, 0, False, 0, 0), (6, 4, 90, 0, False, 0, 0), (6, 4, 60, 0, False, 0, 0),
        (5, 5, 90, 37, False, 0.9, 1), (5, 5, 60, 37, False, 0.9, 1), (6, 4, 90, 37, False, 0.9, 1),
        (6, 4, 60, 37, False, 0.9, 1), (6, 4, 60, 37, True, 0.9, 1),
        (5, 5, 90, 90, False, 0.99, 1), (5, 5, 60, 90, False, 0.6, 0.95), (6, 4, 90, 90, False, 0.9, 1),
        (6, 4, 60, 90, False, 0.6, 0.95), (6, 4, 60, 90, True, 0, 0),
    ):
        w = t.worth(family, hinged(family, i, slant, out, both))
        meets = f"{i}, {i + 1} and 5, 6 meet, {i} and {i + 1}" if both else f"{i} and {i + 1} meet"
        text = f"family {family}, axes {meets} at {slant} degrees, turned {out} out of the plane:"
        text += f" own angles in {w.own} of {w.poses} lists, {w.empty} empty, {w.nan} of {w.unflagged + w.flagged} NaN"
        alone = w.empty == w.poses if family == 6 else w.nan == w.unflagged + w.flagged
        t.say(name, text, least * w.poses <= w.own <= most * w.poses and (alone or out))


def turned_wrist(t, name):
    small = {word: [0.0] * 3 for word in sheet.OFFSETS} | {"p2": [1.0, 0.0, 0.0], "p3": [0.0, 0.0, 1.0]}
    small |= {word: trial.named("puma")[word] for word in sheet.AXES}
    for title, arm, angles, count, by in (
        ("README's Puma at 15 -30 45 60 0 75", trial.named("puma"), degrees(15, -30, 45, 60, 0, 75), 2, 90),
        ("the smallest arm at 0 60 90 0 0 0", small, degrees(0, 60, 90, 0, 0, 0), 4, 180),
    ):
        pose = trial.pose_of(arm, angles)
        turned = [trial.off(arm, pose, q)[1] for q, flag in t.solve(1, arm, pose).angles if not flag]
        wrong = [x for x in turned if x > trial.TURN]
        t.say(name, f"{title}: {len(wrong)} of {len(turned)} unflagged answers are turned, by"
              f" {', '.join(f'{x:.1f}' for x in wrong)} degrees", len(wrong) == count and by - 1 < max(wrong) < by + 1)


def home(t, name):
    arm = trial.named("ur3e")
    pose = trial.pose_of(arm, degrees(0, -90, 0, -90, 0, 0))
    result = t.solve(4, arm, pose)
    far = [(flag, trial.off(arm, pose, angles)[0]) for angles, flag in result.angles]
    t.say(name, f"the UR3e upright, 0 -90 0 -90 0 0: {len(far)} answer, flag {far[0][0]:d}, {far[0][1]:.3f} m off",
          len(far) == 1 and far[0][0] and 0.17 < far[0][1] < 0.171)


def straight(t, name):
    arm = trial.named("ur3e")
    pose = trial.pose_of(arm, degrees(0, -90, 0, -90, 90, 0))
    result = t.solve(4, arm, pose)
    exact = [angles for angles, flag in result.angles if flag and max(trial.off(arm, pose, angles)) < 1e-9]
    unflagged = sum(not flag for _, flag in result.angles)
    t.say(name, f"the UR3e with its elbow straight, 0 -90 0 -90 90 0: {unflagged} unflagged answers,"
          f" {len(exact)} flagged that makes the pose", not unflagged and len(exact) == 1)


def unit(t, name):
    """The same arm, h1 too long by one part in a million, in metres and in millimetres."""
    arm = scaled("h1", 1.000001)(trial.named("large"), None)
    own = degrees(30, -20, 15, 40, -60, 75)
    flags = {}
    for one, factor in (("metres", 1.0), ("millimetres", 1000.0)):
        other = {word: [factor * x for x in v] if word[0] == "p" else v for word, v in arm.items()}
        flags[one] = sum(flag for _, flag in t.solve(1, other, trial.pose_of(other, own)).angles)
    t.say(name, f"h1 of length 1.000001: {flags['metres']} answers flagged in metres, {flags['millimetres']} in"
          " millimetres", flags["metres"] == 0 and flags["millimetres"] == 8)


def longest(t, name):
    """Reachable poses of realistic arms, from the reference program."""
    import check_flags
    import subprocess
    for n, count in ((200, 5000), (400, 2000)):
        made = subprocess.run([check_flags.ORACLE, "generate", "reachable", "6", str(t.seed), str(count), str(n)],
                              capture_output=True, check=True).stdout
        results = sheet.read_results(blocks.run(t.words, made), count)
        most = max(r.answers for r in results)
        evaluations = [r.evaluations for r in results]
        t.say(name, f"family 6, {count} poses at n = {n}: the longest list has {most} answers; evaluations"
              f" {sum(evaluations) / count:.0f} on average, {max(evaluations)} at most", most <= 44 * n)


def angles(t, name):
    """Every angle that is not NaN, in poses from random and from round angles and of hostile numbers."""
    import check_flags
    import subprocess
    for family in FAMILIES:
        poses = answers = at_pi = q1_beyond = others_beyond = 0
        farthest = 0.0
        for kind in ("reachable", "round", "hostile"):
            for n, count in ((25, 2000), (50, 2000), (200, 500)) if family == 6 else ((0, 5000),):
                words = [check_flags.ORACLE, "generate", kind, str(family), str(t.seed), str(count)]
                made = subprocess.run(words + [str(n)] * (family == 6), capture_output=True, check=True).stdout
                poses += count
                for result in sheet.read_results(blocks.run(t.words, made), count):
                    answers += len(result.angles)
                    for answer, _ in result.angles:
                        sizes = [0.0 if math.isnan(q) else abs(q) for q in answer]
                        at_pi += math.pi in sizes
                        q1_beyond += sizes[0] > math.pi
                        others_beyond += max(sizes[1:]) > math.pi
                        farthest = max(farthest, *sizes)
        text = f"family {family}, {poses} poses, {answers} answers: an angle at PI or -PI in {at_pi}, q1 beyond in"
        text += f" {q1_beyond}, another angle beyond in {others_beyond}; the farthest is {farthest!r}"
        holds = not others_beyond and (family == 6 or not q1_beyond) and farthest < math.pi + 1e-12
        t.say(name, text, at_pi > 0 and holds)


def first_answers(t, family, arm, poses):
    """How many poses have a flagged first answer and another that is not; and how many have another first answer,
    0.01 or more away, with each number of the pose one last place higher."""
    above = [[math.nextafter(x, math.inf) for x in pose] for pose in poses]
    lists, others = ([result.angles for result in trial.lists(t.words, family, [(arm, pose) for pose in some])]
                     for some in (poses, above))
    flagged = sum(one[0][1] and not all(flag for _, flag in one) for one in lists if one)
    pairs = [(one[0][0], other[0][0]) for one, other in zip(lists, others) if one and other]
    return flagged, sum(not trial.same(one, other, 0.01) for one, other in pairs)


# Of 100 poses in claim `first`, in families 1 to 3, 4 and 5, and 6: the least and the most for each number.
FIRSTS = {
    "random angles": [(0, 0.5, 0, 0), (10, 17, 0, 0), (45, 60, 10, 20)],
    "whole 15 degrees": [(1, 6, 1, 7), (10, 23, 1, 5), (45, 60, 10, 20)],
}


def first(t, name):
    """The first answer on arms by name; along-axis has empty lists."""
    for kind in FIRSTS:
        for which in (which for which in trial.ARMS if which != "along-axis"):
            family, arm, rng = trial.family_of(which), trial.named(which), random.Random(f"{t.seed} {which}")
            count, group = 500 if family == 6 else 2000, (family > 3) + (family > 5)
            turned = [[180 * rng.uniform(-1, 1) if kind[0] == "r" else 15 * rng.randint(-12, 12) for _ in range(6)]
                      for _ in range(count)]
            flagged, apart = first_answers(t, family, arm, [trial.pose_of(arm, degrees(*one)) for one in turned])
            least, most, fewest, farthest = (share * count / 100 for share in FIRSTS[kind][group])
            t.say(name, f"family {family}, {which}, {count} poses from {kind}: first answer flagged and another not"
                  f" {flagged}; first answers apart {apart}", least <= flagged <= most and fewest <= apart <= farthest)


CLAIMS = {
    "lengths": lengths, "length-example": length_example, "rotations": rotations, "unread": unread,
    "left-out": left_out, "opposite": opposite, "told": told, "parallel": parallel, "plane": plane,
    "turned-wrist": turned_wrist, "home": home, "straight": straight, "unit": unit, "longest": longest,
    "angles": angles, "first": first,
}


def main():
    parser = argparse.ArgumentParser()
    parser.add_argument("--count", type=int, default=200)
    parser.add_argument("--seed", type=int, default=1)
    parser.add_argument("names", nargs="*", metavar="NAME", help=", ".join(CLAIMS))
    options = parser.parse_args()
    unknown = [name for name in options.names if name not in CLAIMS]
    if unknown:
        parser.error(f"no claim {unknown[0]}; the claims are {', '.join(CLAIMS)}")
    tried = Tried(blocks.command(), options.count, options.seed)
    for name in options.names or CLAIMS:
        CLAIMS[name](tried, name)
    return 1 if tried.wrong else 0


if __name__ == "__main__":
    try:
        sys.exit(main())
    except blocks.NoProgram as error:
        sys.exit(str(error))
