#!/usr/bin/env python3
"""Tests of sheet.py and blocks.py: the layout of blocks, the sheet's words, every message, the tables.

    python3 tools/test/test_sheet.py

Those that compare with the reference program are left out where it was not built.
"""

import contextlib
import io
import math
import os
import pathlib
import struct
import subprocess
import sys
import tempfile
import unittest

TOOLS = pathlib.Path(__file__).resolve().parents[1]
sys.path[:0] = [str(TOOLS), str(TOOLS / "measure")]
import blocks
import sheet
import trial

ORACLE = blocks.ROOT / "oracle" / "target" / "release" / "oracle"
ARM = """family 1
h1 0 0 1
h2 0 1 0
h3 0 1 0
h4 0 0 1
h5 0 1 0
h6 0 0 1
p0 0 0 0.6718
p1 0 0.2435 0
p2 0.4318 -0.0934 0
p3 -0.0203 0 0.4331
p4 0 0 0
p5 0 0 0
p6 0 0 0.0563
"""
ARM_LINES = len(ARM.splitlines())
POSE = """pose first
row 1 0 0
row 0 1 0
row 0 0 1
place 0.3 0.2 0.9
"""
ARM_6 = ARM.replace("family 1", "family 6\nn 200")
LIMITS = """limits -160 160
limits -170 45
limits -45 170
limits -110 170
limits -100 100
limits -200 200
"""


# The arm above on a turntable.
ARM_7 = """family 1
h1 0 0 1
h2 0 0 1
h3 0 1 0
h4 0 1 0
h5 0 0 1
h6 0 1 0
h7 0 0 1
p0 0 0 0.2
p1 0.5 0 0.6718
p2 0 0.2435 0
p3 0.4318 -0.0934 0
p4 -0.0203 0 0.4331
p5 0 0 0
p6 0 0 0
p7 0 0 0.0563
"""
ARM_7_LINES = len(ARM_7.splitlines())
LOCK = "lock 1 30\n"


def words(block):
    return struct.unpack("<64Q", block)


def doubles(block):
    return struct.unpack("<64d", block)


class Layout(unittest.TestCase):
    def test_known_check_words(self):
        for family, n, check in ((3, 0, 3), (6, 200, 51206), (9, 0, 9)):
            block = blocks.make(family, n, [0.0] * 39, [0.0] * 12)
            self.assertEqual(len(block), 512)
            self.assertEqual(words(block)[63], check)
            self.assertEqual(words(block)[0], family + 256 * n)

    def test_places_of_the_numbers(self):
        block = blocks.make(2, 0, [float(i) for i in range(1, 40)], [float(i) for i in range(40, 52)])
        self.assertEqual(list(doubles(block)[1:52]), [float(i) for i in range(1, 52)])
        self.assertEqual(words(block)[52:63], (0,) * 11)
        self.assertEqual(words(block)[63], sum(words(block)[:63]) % 2**64)

    def test_counts_are_held(self):
        with self.assertRaises(ValueError):
            blocks.make(1, 0, [0.0] * 38, [0.0] * 12)
        with self.assertRaises(ValueError):
            blocks.make(1, 0, [0.0] * 39, [0.0] * 13)

    def test_places_of_the_limits(self):
        block = blocks.make_limits([float(i) for i in range(-6, 6)])
        self.assertEqual(len(block), 512)
        self.assertEqual(block[:8], bytes([0, 0, 0, 1, 0, 0, 0, 0]))
        self.assertEqual(list(doubles(block)[1:13]), [float(i) for i in range(-6, 6)])
        self.assertEqual(words(block)[13:63], (0,) * 50)
        self.assertEqual(words(block)[63], sum(words(block)[:63]) % 2**64)
        self.assertEqual(words(blocks.make_limits([0.0] * 12))[63], 1 << 24)

    def test_twelve_limits_are_held(self):
        for count in (0, 11, 13):
            with self.assertRaises(ValueError):
                blocks.make_limits([0.0] * count)

    def test_check_wraps(self):
        block = blocks.repaired(b"\xff" * 512)
        self.assertEqual(words(block)[63], 63 * (2**64 - 1) % 2**64)


class Reading(unittest.TestCase):
    def test_words_and_numbers(self):
        made = sheet.parse(ARM + POSE)
        self.assertEqual((made.family, made.n, len(made.poses)), (1, 0, 1))
        block = made.to_blocks()
        self.assertEqual(doubles(block)[1:4], (0, 0, 1))
        self.assertEqual(doubles(block)[19:22], (0, 0, 0.6718))
        self.assertEqual(doubles(block)[37:40], (0, 0, 0.0563))
        self.assertEqual(doubles(block)[40:49], (1, 0, 0, 0, 1, 0, 0, 0, 1))
        self.assertEqual(doubles(block)[49:52], (0.3, 0.2, 0.9))

    def test_nearest_f64_of_what_is_written(self):
        text = POSE.replace("0.3 0.2 0.9", "0.1000000000000000055511151231257827 -0.0 4.9e-324")
        block = sheet.parse(ARM + text).to_blocks()
        self.assertEqual(words(block)[49], 0x3FB999999999999A)
        self.assertEqual(words(block)[50], 1 << 63)
        self.assertEqual(words(block)[51], 1)

    def test_order_case_and_comments_do_not_matter(self):
        lines = ARM.splitlines()
        turned = "\n".join(["# a sheet", ""] + lines[::-1]).replace("h1 0", "H1\t0 ") + " # the end\n"
        self.assertEqual(sheet.parse(turned + POSE).to_blocks(), sheet.parse(ARM + POSE).to_blocks())

    def test_families_by_number_and_name(self):
        for number, name in sheet.FAMILIES.items():
            n = "n 7\n" if number == 6 else ""
            for text in (str(number), name, name.upper(), name.replace("_", " "), name.replace("_", "-")):
                arm = ARM.replace("family 1", f"{n}family {text}")
                self.assertEqual(sheet.parse(arm + POSE).family, number)

    def test_n_goes_into_the_block(self):
        for n in (1, 255, 256, 400):
            made = sheet.parse(ARM_6.replace("n 200", f"n {n}") + POSE)
            self.assertEqual(made.to_blocks()[:3], bytes([6, n % 256, n // 256]))

    def test_a_pose_without_a_name(self):
        text = POSE.replace("pose first", "pose")
        self.assertEqual([p.name for p in sheet.parse(ARM + text + text).poses], ["number 1", "number 2"])

    def test_roll_pitch_yaw(self):
        half = math.sqrt(0.5)
        cases = {
            "90 0 0": (1, 0, 0, 0, 0, -1, 0, 1, 0),
            "0 90 0": (0, 0, 1, 0, 1, 0, -1, 0, 0),
            "0 0 90": (0, -1, 0, 1, 0, 0, 0, 0, 1),
            # Roll first, then yaw about the base's z: the tool's y goes to z and stays there.
            "90 0 90": (0, 0, 1, 1, 0, 0, 0, 1, 0),
            "0 45 90": (0, -1, 0, half, 0, half, -half, 0, half),
        }
        for rpy, rows in cases.items():
            text = f"pose\nrpy {rpy}\nplace 0 0 0\n"
            for got, wanted in zip(doubles(sheet.parse(ARM + text).to_blocks())[40:49], rows):
                self.assertAlmostEqual(got, wanted, places=14)

    def test_from_angles_at_zero(self):
        block = sheet.parse(ARM + "pose\nfrom angles 0 0 0 0 0 0\n").to_blocks()
        self.assertEqual(doubles(block)[40:49], (1, 0, 0, 0, 1, 0, 0, 0, 1))
        for got, wanted in zip(doubles(block)[49:52], (0.4115, 0.1501, 1.1612)):
            self.assertAlmostEqual(got, wanted, places=14)

    def test_from_angles_about_the_first_axis(self):
        block = sheet.parse(ARM + "pose\nfrom angles 90 0 0 0 0 0\n").to_blocks()
        for got, wanted in zip(doubles(block)[49:52], (-0.1501, 0.4115, 1.1612)):
            self.assertAlmostEqual(got, wanted, places=14)


def parts(data):
    """The blocks, one by one."""
    return [data[at : at + 512] for at in range(0, len(data), 512)]


class ReadingLimits(unittest.TestCase):
    def kinds(self, text):
        """L for a limits block, P for a pose block."""
        return "".join("PL"[block[3]] for block in parts(sheet.parse(text).to_blocks()))

    def test_low_then_high_joint_by_joint_in_radians(self):
        first, second = parts(sheet.parse(ARM + LIMITS + POSE).to_blocks())
        ends = [-160, 160, -170, 45, -45, 170, -110, 170, -100, 100, -200, 200]
        self.assertEqual(list(doubles(first)[1:13]), [math.radians(x) for x in ends])
        self.assertEqual(first, blocks.make_limits([math.radians(x) for x in ends]))
        self.assertEqual(second, sheet.parse(ARM + POSE).to_blocks())

    def test_they_are_converted_as_other_angles_are(self):
        """A sheet's angle of 180 degrees is PI itself, which answers have."""
        text = ARM + "limits -180 180\n" * 6 + POSE
        self.assertEqual(doubles(parts(sheet.parse(text).to_blocks())[0])[1:3], (-math.pi, math.pi))

    def test_they_hold_until_the_next_six(self):
        other = LIMITS.replace("160", "90")
        self.assertEqual(self.kinds(ARM + POSE), "P")
        self.assertEqual(self.kinds(ARM + LIMITS + POSE + POSE), "LPP")
        self.assertEqual(self.kinds(ARM + POSE + LIMITS + POSE + POSE), "PLPP")
        self.assertEqual(self.kinds(ARM + POSE + LIMITS + POSE + POSE + other + POSE), "PLPPLP")
        made = sheet.parse(ARM + POSE + LIMITS + POSE + POSE + other + POSE)
        self.assertEqual([p.limits and p.limits.joints[0][2] for p in made.poses], [None, 160, 160, 90])
        self.assertEqual(made.limited_poses(), made.poses[1:])

    def test_the_same_again_is_a_block_of_its_own(self):
        self.assertEqual(self.kinds(ARM + LIMITS + POSE + LIMITS + POSE), "LPLP")

    def test_place_case_and_comments_do_not_matter(self):
        wanted = sheet.parse(ARM + LIMITS + POSE).to_blocks()
        spread = LIMITS.replace("\n", "   # a joint\n\n").replace("limits", "  Limits\t")
        for text in (LIMITS + ARM + POSE, ARM + spread + POSE, LIMITS.replace("\n", "\n" + "# \n", 3) + ARM + POSE):
            self.assertEqual(sheet.parse(text).to_blocks(), wanted)
        lines = ARM.splitlines(True)
        mixed = "".join(lines[:7]) + LIMITS[: LIMITS.index("\n") + 1] + "".join(lines[7:])
        self.assertEqual(sheet.parse(mixed + LIMITS[LIMITS.index("\n") + 1 :] + POSE).to_blocks(), wanted)

    def test_equal_ends_and_zeros(self):
        text = ARM + "limits 30 30\nlimits 0 -0\nlimits -0.0 0.0\n" + "limits -1e300 1e300\n" * 3 + POSE
        block = parts(sheet.parse(text).to_blocks())[0]
        self.assertEqual(doubles(block)[1:3], (math.radians(30),) * 2)
        self.assertEqual(words(block)[3:7], (0, 1 << 63, 1 << 63, 0))

    def test_a_low_at_or_below_its_high_stays_so_in_radians(self):
        """What the sheet takes the program does not refuse."""
        value = 1e-310
        for _ in range(4000):
            above = math.nextafter(value, math.inf)
            self.assertLessEqual(math.radians(value), math.radians(above))
            self.assertLessEqual(math.radians(-above), math.radians(-value))
            value *= 1.37
        self.assertGreater(value, 1e200)


def seven_of(arm, joint, radians, offset):
    """An arm of seven axes that leaves the six-axis arm `arm` where this joint is locked at this angle: about
    a slanted axis, with this offset behind it."""
    before, axis = joint - 1, [0.48, -0.6, 0.64]
    r = sheet.about(axis, radians)
    back = [list(column) for column in zip(*r)]
    axes, offsets = [arm[name] for name in sheet.AXES], [arm[name] for name in sheet.OFFSETS]
    axes = axes[:before] + [axis] + [sheet.turned(back, h) for h in axes[before:]]
    first = [x - y for x, y in zip(offsets[before], sheet.turned(r, offset))]
    offsets = offsets[:before] + [first, offset] + [sheet.turned(back, p) for p in offsets[before + 1 :]]
    return {f"h{i}": h for i, h in enumerate(axes, 1)} | {f"p{i}": p for i, p in enumerate(offsets)}


class Locking(unittest.TestCase):
    def far(self, one, other):
        return max(abs(x - y) for x, y in zip(one, other, strict=True))

    def test_the_columns_that_are_left(self):
        """A quarter turn about z, each joint in its turn: which vectors are turned, and where they go."""
        for joint in range(1, 8):
            given = {f"h{i}": [float(i), 0.0, 10.0] for i in range(1, 8)}
            given |= {f"p{i}": [float(i), 100.0, 0.0] for i in range(8)}
            given[f"h{joint}"] = [0.0, 0.0, 2.0]
            left = sheet.Lock(1, joint, 90.0).left(given)
            wanted = {}
            for i in range(1, 7):
                wanted[f"h{i}"] = [i, 0, 10] if i < joint else [0, i + 1, 10]
            for i in range(7):
                as_it_is, turned = [i, 100, 0], [-100, i + 1, 0]
                added = [x + y for x, y in zip(as_it_is, turned)]
                wanted[f"p{i}"] = as_it_is if i < joint - 1 else added if i == joint - 1 else turned
            self.assertEqual(list(left), sheet.AXES + sheet.OFFSETS)
            for name, vector in wanted.items():
                self.assertLess(self.far(left[name], vector), 1e-13, (joint, name))

    def test_the_arm_that_is_left_makes_the_pose_handed_on(self):
        for joint in range(1, 8):
            arm = seven_of(trial.named("across"), joint, -2.1, [0.3, -0.2, 0.5])
            lock = sheet.Lock(1, joint, math.degrees(-2.1))
            self.assertLess(self.far(sheet.arm_numbers(lock.left(arm)), trial.numbers(trial.named("across"))), 1e-14)
            six = [0.3, -1.2, 2.2, 0.7, -0.4, 3.0]
            seven = lock.put_back(six)
            self.assertEqual((len(seven), seven[joint - 1]), (7, math.radians(lock.angle)))
            self.assertEqual(seven[: joint - 1] + seven[joint:], six)
            wanted = trial.pose_of(arm, seven)
            self.assertLess(self.far(lock.handed_on(arm, wanted), trial.pose_of(lock.left(arm), six)), 1e-14)

    def test_blocks_of_the_arm_that_is_left(self):
        made = sheet.parse(ARM_7 + LOCK + POSE)
        block = made.to_blocks()
        self.assertEqual(len(block), 512)
        lock = made.poses[0].lock
        self.assertEqual((lock.joint, lock.angle), (1, 30.0))
        wanted = [1.0, 0.0, 0.0, 0.0, 1.0, 0.0, 0.0, 0.0, 1.0, 0.3, 0.2, 0.9]
        self.assertEqual(block, blocks.make(1, 0, sheet.arm_numbers(lock.left(made.arm)),
                                            lock.handed_on(made.arm, wanted)))
        half, root = 0.5, math.sqrt(0.75)
        self.assertLess(self.far(doubles(block)[40:52], (root, half, 0, -half, root, 0, 0, 0, 1, 0.3, 0.2, 0.9)), 1e-15)
        self.assertLess(self.far(doubles(block)[19:22], (0.5 * root, 0.5 * half, 0.8718)), 1e-15)

    def test_joint_7_drops_nothing_that_counts(self):
        made = sheet.parse(ARM_7 + "lock 7 90\n" + POSE)
        left = made.poses[0].lock.left(made.arm)
        self.assertEqual([left[f"h{i}"] for i in range(1, 7)], [made.arm[f"h{i}"] for i in range(1, 7)])
        self.assertEqual([left[f"p{i}"] for i in range(6)], [made.arm[f"p{i}"] for i in range(6)])
        self.assertEqual(left["p6"], [0, 0, 0.0563])

    def test_a_lock_holds_until_the_next(self):
        made = sheet.parse(ARM_7 + LOCK + POSE + POSE + "LOCK 4 -12.5  # another\n" + POSE)
        self.assertEqual([(p.lock.joint, p.lock.angle) for p in made.poses], [(1, 30), (1, 30), (4, -12.5)])
        self.assertEqual(sheet.parse(LOCK + ARM_7 + POSE).to_blocks(), sheet.parse(ARM_7 + LOCK + POSE).to_blocks())

    def test_from_seven_angles(self):
        block = sheet.parse(ARM_7 + "lock 1 0\npose\nfrom angles 90 0 0 0 0 0 0\n")
        wanted = block.pose_numbers(block.poses[0])
        self.assertLess(self.far(wanted[9:], (-0.1501, 0.9115, 1.3612)), 1e-14)
        self.assertLess(self.far(wanted[:9], (0, -1, 0, 1, 0, 0, 0, 0, 1)), 1e-15)

    def lock_notes(self, text):
        return sheet.notes(sheet.parse(text + POSE))

    def test_notes_are_about_the_arm_that_is_left(self):
        self.assertEqual(self.lock_notes(ARM_7 + LOCK), [])
        begin = f"line {ARM_7_LINES + 1}: of the six-axis arm that is left, counted anew: "
        found = self.lock_notes(ARM_7 + "lock 6 30\n")
        self.assertEqual([note[: len(begin)] for note in found], [begin] * len(found))
        self.assertIn(begin + "axes 1 and 2 are parallel, which is not for family 1", found)
        found = self.lock_notes(ARM_7.replace("p6 0 0 0", "p6 0 0.1 0") + LOCK)
        self.assertEqual(found, [begin + "family 1 is for arms with p5 = 0 0 0; p5 is not read"])
        # An axis of another length: the locked one does no harm.
        self.assertEqual(self.lock_notes(ARM_7.replace("h1 0 0 1", "h1 0 0 2") + LOCK), [])
        found = self.lock_notes(ARM_7.replace("h7 0 0 1", "h7 0 0 2") + LOCK)
        self.assertIn(begin + "h6 has length 2, not 1", found[0])

    def test_last_places_are_no_note(self):
        """Axes that a turn makes equal, a lock between them."""
        for radians in (0.3, 1.9, -2.7):
            arm = seven_of(trial.named("puma"), 3, radians, [0.3, -0.2, 0.5])
            made = sheet.Sheet(1, 0, arm, locks=[sheet.Lock(1, 3, math.degrees(radians))])
            self.assertEqual(sheet.notes(made), [])


class Messages(unittest.TestCase):
    def refuses(self, text, line, *parts):
        with self.assertRaises(sheet.SheetError) as caught:
            sheet.parse(text)
        message = str(caught.exception)
        self.assertTrue(message.startswith(f"line {line}: "), message)
        for part in parts:
            self.assertIn(part, message)

    def test_unknown_word(self):
        self.refuses(ARM + "speed 3\n" + POSE, ARM_LINES + 1, "unknown word 'speed'")
        self.refuses(ARM.replace("h6", "h8") + POSE, 7, "unknown word 'h8'")
        self.refuses(ARM.replace("p6", "p8") + POSE, 14, "unknown word 'p8'")

    def test_wrong_count(self):
        self.refuses(ARM.replace("h2 0 1 0", "h2 0 1") + POSE, 3, "h2 takes 3 numbers, and here are 2")
        self.refuses(ARM + POSE.replace("0.3 0.2", "0.3"), ARM_LINES + 5, "place takes 3", "are 2")
        self.refuses(ARM + POSE.replace("row 1 0 0", "row 1 0 0 0"), ARM_LINES + 2, "row takes 3", "are 4")
        self.refuses(ARM + "pose\nfrom angles 1 2 3 4 5\n", ARM_LINES + 2, "angles takes 6", "are 5")
        self.refuses(ARM + "pose\nrpy 1 2\n", ARM_LINES + 2, "rpy takes 3", "are 2")
        self.refuses(ARM_6.replace("n 200", "n") + POSE, 2, "n takes one number")

    def test_not_a_number(self):
        for bad in ("o", "0x1", "1_000", "nan", "inf", "--1", "1e", ".", "٣"):
            self.refuses(ARM.replace("h2 0 1 0", f"h2 0 {bad} 0") + POSE, 3, f"'{bad}' is not a number")
        self.refuses(ARM.replace("0.6718", "0,6718") + POSE, 8, "'0,6718'", "a point, not a comma")
        self.refuses(ARM.replace("0.6718", "1e999") + POSE, 8, "too large")

    def test_family(self):
        for bad in ("0", "7", "-1", "round", "", "11", "9" * 5000):
            self.refuses(ARM.replace("family 1", f"family {bad}") + POSE, 1, "is no family", "6 two_parallel")
        self.refuses(ARM.replace("family 1\n", "") + POSE, ARM_LINES + 4, "no family")

    def test_missing_arm(self):
        self.refuses("family 1\n" + POSE, 6, "of the arm is missing", "h1", "p6")
        self.refuses(ARM.replace("p3", "#p3") + POSE, ARM_LINES + 5, "is missing: p3")

    def test_n(self):
        for bad in ("0", "401", "65536", "999999999"):
            self.refuses(ARM_6.replace("n 200", f"n {bad}") + POSE, 2, f"n is {bad}", "1 to 400")
        for bad in ("-1", "2.5", "many", "9" * 5000):
            self.refuses(ARM_6.replace("n 200", f"n {bad}") + POSE, 2, "whole number")
        self.refuses(ARM_6.replace("n 200\n", "") + POSE, ARM_LINES + 5, "family 6 needs n")
        self.refuses(ARM + "n 200\n" + POSE, ARM_LINES + 1, "family 6 alone")

    def test_twice(self):
        self.refuses(ARM + "h1 0 0 1\n" + POSE, ARM_LINES + 1, "h1 stands on line 2 already")
        self.refuses(ARM + "family 2\n" + POSE, ARM_LINES + 1, "family stands on line 1")
        self.refuses(ARM + POSE + "place 0 0 0\n", ARM_LINES + 6, "'place' already")
        self.refuses(ARM + POSE + "row 0 0 1\n", ARM_LINES + 6, "the fourth")

    def test_poses(self):
        first = ARM_LINES + 1
        self.refuses(ARM, ARM_LINES, "has no pose")
        self.refuses(ARM + "place 0 0 0\n", first, "belongs to a pose")
        self.refuses(ARM + "pose a\n", first, "'a' has no rotation")
        self.refuses(ARM + "pose a\nplace 0 0 0\n" + POSE, first, "'a' has no rotation")
        self.refuses(ARM + "pose a\nrpy 0 0 0\n", first, "'a' has no place")
        self.refuses(ARM + "pose a\nrow 0 0 1\nplace 0 0 0\n", first, "1 rows, and needs three")
        self.refuses(ARM + POSE + "rpy 0 0 0\n", first, "rows and rpy")
        self.refuses(ARM + POSE + "from angles 0 0 0 0 0 0\n", first, "angles and a rotation")
        self.refuses(ARM + "pose a\nfrom 0 0 0 0 0 0\n", first + 1, "'from' is followed by 'angles'")

    def test_a_bad_limit(self):
        third = ARM_LINES + 3
        for bad, *said in (("limits -45", "limits takes 2 numbers, and here are 1"),
                           ("limits", "here are 0"),
                           ("limits 3 -45 170", "here are 3"),
                           ("limits low 170", "'low' is not a number"),
                           ("limits -45 nan", "'nan' is not a number"),
                           ("limits -inf 170", "'-inf' is not a number"),
                           ("limits -45 1e999", "'1e999' is too large"),
                           ("limits -45 170,5", "'170,5'", "a point, not a comma"),
                           ("limits 170 -45", "joint 3: low 170 is above high -45"),
                           ("limits 1e-323 0", "joint 3: low 1e-323 is above high 0")):
            self.refuses(ARM + LIMITS.replace("limits -45 170", bad) + POSE, third, *said)

    def test_limits_are_six(self):
        for count in range(1, 6):
            some = "".join(LIMITS.splitlines(True)[:count])
            said = f"six lines, joint 1 first, and here are {count} line"
            self.refuses(ARM + some + POSE, ARM_LINES + count, said)
            self.refuses(ARM + POSE + some, ARM_LINES + 5 + count, said)
            self.refuses(ARM + LIMITS + POSE + some + POSE, ARM_LINES + 11 + count, said)
        self.refuses(ARM + LIMITS + "limits 0 1\n" + POSE, ARM_LINES + 7, "the seventh line 'limits'")
        self.refuses(ARM + POSE + LIMITS + LIMITS + POSE, ARM_LINES + 12, "the seventh")

    def test_limits_stand_above_a_pose(self):
        self.refuses(ARM + POSE + LIMITS, ARM_LINES + 11, "no pose stands below its last limits")
        torn = POSE.replace("row 1 0 0\n", "row 1 0 0\n" + LIMITS)
        self.refuses(ARM + torn, ARM_LINES + 9, "'row' belongs to a pose, and limits stand between")
        self.refuses(ARM + LIMITS, ARM_LINES + 6, "has no pose")
        self.refuses(ARM + LIMITS + "rpy 0 0 0\n", ARM_LINES + 7, "no line 'pose' stands above")

    def test_a_bad_lock(self):
        for bad, *said in (("lock", "lock takes a joint and its angle in degrees, and here are 0"),
                           ("lock 1", "here are 1"),
                           ("lock 1 30 40", "here are 3"),
                           ("lock 0 30", "lock takes a joint from 1 to 7, not '0'"),
                           ("lock 8 30", "not '8'"), ("lock -1 30", "not '-1'"), ("lock 1.0 30", "not '1.0'"),
                           ("lock h1 30", "not 'h1'"), ("lock 11 30", "not '11'"), ("lock ٣ 30", "not '٣'"),
                           ("lock 1 x", "'x' is not a number"), ("lock 1 nan", "'nan' is not a number"),
                           ("lock 1 inf", "'inf' is not a number"), ("lock 1 1e999", "'1e999' is too large"),
                           ("lock 1 30,5", "'30,5'", "a point, not a comma")):
            self.refuses(ARM_7 + bad + "\n" + POSE, ARM_7_LINES + 1, *said)

    def test_seven_axes_need_a_lock(self):
        said = "the arm has seven axes, and no line 'lock' stands above pose 'first'"
        self.refuses(ARM_7 + POSE, ARM_7_LINES + 1, said)
        self.refuses(ARM_7 + POSE + LOCK + POSE, ARM_7_LINES + 1, said)

    def test_a_lock_needs_seven_axes(self):
        self.refuses(ARM + LOCK + POSE, ARM_LINES + 1, "lock is for an arm of seven axes", "no h7 and no p7")
        self.refuses(ARM + LOCK + LIMITS + POSE, ARM_LINES + 2, "limits do not apply")

    def test_half_of_a_seventh_axis(self):
        for name, other in (("h7", "p7"), ("p7", "h7")):
            text = "\n".join(line for line in ARM_7.splitlines() if not line.startswith(name)) + "\n"
            said = f"of the arm is missing: {name} (h7 and p7 are for an arm of seven axes)"
            self.refuses(text + LOCK + POSE, ARM_7_LINES + 5, said)
        self.refuses(ARM_7 + "h7 0 0 1\n" + LOCK + POSE, ARM_7_LINES + 1, "h7 stands on line 8 already")

    def test_limits_do_not_apply_to_seven_axes(self):
        said = "limits do not apply to an arm of seven axes, of which a joint is locked"
        for limits in (LIMITS, LIMITS + "limits 0 1\n", "limits 0 1\n"):
            self.refuses(ARM_7 + LOCK + limits + POSE, ARM_7_LINES + 2, said)
            self.refuses(ARM_7 + limits + LOCK + POSE, ARM_7_LINES + 1, said)
            self.refuses(ARM_7 + LOCK + POSE + limits, ARM_7_LINES + 7, said)
            self.refuses(ARM_7 + limits + POSE, ARM_7_LINES + 1, said)
        for limits in (LIMITS, "limits 0 1\n"):
            self.refuses(limits + ARM_7 + LOCK + POSE, 1, said)
        self.refuses(LIMITS + "limits 0 1\n" + ARM_7 + LOCK + POSE, 7, "limits are for arms of six joints")

    def test_a_lock_stands_above_a_pose(self):
        last = ARM_7_LINES + 7
        self.refuses(ARM_7 + LOCK + POSE + LOCK, last, "no pose stands below its last lock")
        self.refuses(ARM_7 + LOCK + "lock 2 5\n" + POSE, ARM_7_LINES + 2,
                     f"lock stands on line {ARM_7_LINES + 1} already", "one joint is locked")
        torn = POSE.replace("row 1 0 0\n", "row 1 0 0\n" + LOCK)
        self.refuses(ARM_7 + LOCK + torn, ARM_7_LINES + 5, "'row' belongs to a pose, and a lock stands between")

    def test_angles_are_seven(self):
        for count in (0, 1, 6, 8):
            angles = " ".join("5" * count)
            self.refuses(ARM_7 + LOCK + f"pose\nfrom angles {angles}\n", ARM_7_LINES + 3,
                         f"angles takes 7 numbers, and here are {count}")
        self.refuses(ARM + "pose\nfrom angles 1 2 3 4 5 6 7\n", ARM_LINES + 2, "angles takes 6", "are 7")
        self.refuses(ARM + "pose\nfrom angles\n", ARM_LINES + 2, "angles takes 6", "are 0")

    def limits_notes(self, arm, **joints):
        """The notes of the limits of a sheet whose joints have no stops but those given."""
        lines = [f"limits {joints.get(f'q{i}', '-200 200')}\n" for i in range(1, 7)]
        found = sheet.notes(sheet.parse(arm + "".join(lines) + POSE))
        return [note for note in found if "limits" in note]

    def test_notes_of_limits_beyond_180(self):
        self.assertEqual(self.limits_notes(ARM), [])
        self.assertEqual(self.limits_notes(ARM, q1="-180 180", q2="-300 400", q3="-180 181", q4="20 180"), [])
        for limits, removed in (("90 270", "-180 to -90"), ("-100 200", "-180 to -160"), ("-170 350", "-180 to -170"),
                                ("200 270", "-160 to -90"), ("-270 -90", "90 to 180"), ("-225 45", "135 to 180"),
                                ("-400 100", "100 to 180"), ("-270 -200", "90 to 160")):
            found = self.limits_notes(ARM, q3=limits)
            self.assertEqual(len(found), 1, found)
            self.assertIn(f"line {ARM_LINES + 3}: the limits of joint 3 go beyond 180 degrees", found[0])
            self.assertIn(f"answers from {removed} are removed", found[0])

    def test_a_note_of_the_searched_angle(self):
        self.assertIn("q1 of family 6", self.limits_notes(ARM_6, q1="-180 170")[0])
        self.assertIn("q1 of family 6", self.limits_notes(ARM_6, q1="-90 180")[0])
        self.assertEqual(self.limits_notes(ARM_6, q1="-181 181", q2="-180 180"), [])
        self.assertEqual(self.limits_notes(ARM, q1="-180 180"), [])

    def test_an_empty_sheet(self):
        self.refuses("", 1, "no family")

    def test_notes(self):
        self.assertEqual(sheet.notes(sheet.parse(ARM + POSE)), [])
        bent = ARM.replace("h3 0 1 0", "h3 0 2 0").replace("p5 0 0 0", "p5 0 0 1")
        found = sheet.notes(sheet.parse(bent + POSE.replace("row 1 0 0", "row 1 0.1 0")))
        self.assertEqual(len(found), 4, found)
        mirror = sheet.notes(sheet.parse(ARM + POSE.replace("row 1", "row -1")))
        self.assertIn("mirror", mirror[0])


    def meeting(self, family, axes, **offsets):
        """The notes of an arm with axes along x, y and z and offsets across all of them but those given."""
        along = {"x": "1 0 0", "y": "0 1 0", "z": "0 0 1", "s": "0 0.6 0.8"}
        lines = [f"family {family}"] + (["n 1"] if family == 6 else [])
        lines += [f"h{i} {along[c]}" for i, c in enumerate(axes, 1)]
        for name in sheet.OFFSETS:
            zero = name in sheet.ZERO_OFFSETS.get(family, [])
            lines.append(f"{name} " + offsets.get(name, "0 0 0" if zero else "0.1 0.2 0.3"))
        return sheet.notes(sheet.parse("\n".join(lines) + "\n" + POSE))

    def test_notes_of_axes_that_meet(self):
        self.assertEqual(self.meeting(3, "zysxyx"), [])
        self.assertIn("axes 2 and 3 meet", self.meeting(3, "zysxyx", p2="0 0.02 0.56")[0])
        self.assertIn("axes 1 and 2 meet", self.meeting(3, "zysxyx", p1="0 0.1 0.2")[0])
        self.assertIn("axes 2 and 3 are parallel", self.meeting(3, "zyyxyx")[0])

    def test_notes_of_a_joint_whose_zero_matters(self):
        """Axes i and i + 1 meet: in one plane with axis 2 nothing is found, else most is."""
        self.assertEqual(self.meeting(5, "zxxxzx"), [])
        self.assertIn("empty or NaN", self.meeting(5, "zxxxzx", p5="0.04 0 0.03")[0])
        self.assertEqual(self.meeting(5, "zxxxzy", p5="0 0.04 0.03"), [])
        self.assertEqual(self.meeting(6, "zyyxyx"), [])
        self.assertIn("every list is empty", self.meeting(6, "zyyxyx", p4="0.47 0.03 0")[0])
        self.assertEqual(self.meeting(6, "zyyxsx", p4="0.47 0 0"), [])
        self.assertEqual(self.meeting(6, "zyyxzx", p4="0.47 0 0"), [])
        self.assertIn("answers are missing", self.meeting(6, "zyyxzx", p4="0.47 0 0", p5="0.1 0 0.2")[0])

    def test_notes_of_axes_that_meet_at_another_angle(self):
        """A Jaco2 has 60 degrees; with the zero of joint 4 moved there is nothing to note."""
        made = sheet.parse(ARM_6 + POSE)
        made.arm = trial.jaco()
        self.assertIn("every list is empty; move that zero", sheet.notes(made)[0])
        made.arm, _ = trial.moved_zero(trial.jaco(), 4, 0.3)
        self.assertEqual(sheet.notes(made), [])
        slanted = self.meeting(5, "zyyyzs", p5="0 0.06 0.08")
        self.assertIn("axes 5 and 6 meet", slanted[0])

    def test_notes_of_parallel_axes(self):
        for family, axes, i in ((1, "yyyzyz", 1), (2, "zyxzzx", 4), (4, "zyyyzz", 5), (6, "zyyyzx", 3)):
            self.assertIn(f"axes {i} and {i + 1} are parallel", self.meeting(family, axes)[0])

    def test_notes_of_axes_of_opposite_sense(self):
        turned = ARM.replace("h3 0 1 0", "h3 0 -1 0") + POSE
        self.assertEqual(sheet.notes(sheet.parse(turned)), [])
        six = sheet.notes(sheet.parse(turned.replace("family 1", "family 6\nn 200")))
        self.assertIn("h2 = h3; h3 is not read", six[0])


def line(angles, flag):
    return " ".join(struct.pack(">d", a).hex() for a in angles) + f" {flag}"


class Tables(unittest.TestCase):
    def shown(self, text, lines, free=(), one=False):
        """`free` has the lines without limits, of the poses that have limits."""
        made = sheet.parse(text)
        without = sheet.read_results(free, len(made.limited_poses()))
        results = sheet.put_back(made.poses, sheet.read_results(lines, len(made.poses)))
        return "\n".join(sheet.show(made, results, without, one))

    def test_answers(self):
        lines = ["block 0 refusal 0 answers 3 evals 0",
                 line([math.pi, -math.pi / 2, 0.0, -0.0, 1e-9, -1e-9], 0),
                 line([0.5] * 6, 1), line([math.nan] * 6, 0)]
        text = self.shown(ARM + POSE, lines)
        self.assertIn("Pose 1, first: 3 answers", text)
        rows = text.splitlines()[4:7]
        self.assertEqual(rows[0].split()[:7],
                         ["1", "180.0000", "-90.0000", "0.0000", "0.0000", "0.0000", "0.0000"])
        self.assertIn("MISSES the pose: ", rows[0])
        self.assertTrue(rows[0].endswith("degrees (no flag)"), rows[0])
        self.assertIn("28.6479", rows[1])
        self.assertIn("   least squares; MISSES the pose: ", rows[1])
        self.assertIn("NaN", rows[2])
        self.assertIn("NO ANSWER: not a number", rows[2])
        self.assertNotIn("MISSES", rows[2])
        self.assertIn("None of these makes the pose", text)
        self.assertNotIn("evaluation", text)

    def marks(self, flag, *angles):
        """The remark on an answer to the pose at zero angles."""
        lines = ["block 0 refusal 0 answers 1 evals 0", line([math.radians(a) for a in angles], flag)]
        text = self.shown(ARM + "pose\nfrom angles 0 0 0 0 0 0\n", lines)
        return text.splitlines()[4][93:].strip(), "None of these" in text

    def test_marks(self):
        self.assertEqual(self.marks(0, 0, 0, 0, 0, 0, 0), ("", False))
        self.assertEqual(self.marks(1, 0, 0, 0, 0, 0, 0), ("least squares, but it makes the pose", False))
        self.assertEqual(self.marks(0, 0, 0, 0, 0, 0, 90), ("MISSES the pose: turned by 90 degrees (no flag)", True))
        self.assertEqual(self.marks(1, 0, 0, 0, 0, 0, 90), ("least squares; MISSES the pose: turned by 90 degrees", True))
        self.assertIn(" away, turned by 90 degrees", self.marks(0, 90, 0, 0, 0, 0, 0)[0])

    def test_how_far_off_is_a_miss(self):
        self.assertEqual(self.marks(0, 0, 0, 0, 0, 0, 0.9e-4), ("", False))
        self.assertEqual(self.marks(0, 0, 0, 0, 0, 0, 1.1e-4), ("MISSES the pose: turned by 0.00011 degrees (no flag)", True))
        # The place alone: joints 1 and 6 turn about parallel axes here, and undo each other's turn.
        size = sum(math.hypot(*trial.named("puma")[name]) for name in sheet.OFFSETS)
        reach = math.hypot(0.4318 - 0.0203, 0.2435 - 0.0934)
        for part, missed in ((0.9e-6, False), (1.1e-6, True)):
            turn = math.degrees(part * size / reach)
            self.assertEqual(" away" in self.marks(0, turn, 0, 0, 0, 0, -turn)[0], missed)

    def test_how_far_off(self):
        text = ARM + "pose\nfrom angles 0 0 0 0 0 0\n"
        lines = ["block 0 refusal 0 answers 1 evals 0", line([0, 0, 0, 0, 0, math.pi / 2], 0)]
        row = self.shown(text, lines).splitlines()[4].split()
        self.assertLess(float(row[7]), 1e-15)
        self.assertEqual(row[8], "9.0e+01")

    def test_an_infinite_angle_is_no_failure(self):
        lines = ["block 0 refusal 0 answers 1 evals 0", line([math.inf] + [0] * 5, 1)]
        self.assertIn("not a number", self.shown(ARM + POSE, lines))

    def test_evaluations(self):
        text = self.shown(ARM_6 + POSE, ["block 0 refusal 0 answers 0 evals 1201"])
        self.assertIn("n = 200", text)
        self.assertIn("0 answers, 1,201 evaluations of the search error", text)

    def test_an_empty_list_is_no_verdict(self):
        lines = ["block 0 refusal 0 answers 0 evals 0"]
        self.assertIn("This does not say that the pose is out of reach", self.shown(ARM_6 + POSE, lines))

    def test_every_refusal_in_words(self):
        for refusal in (*range(1, 9), 10):
            text = self.shown(ARM + POSE, [f"block 0 refusal {refusal} answers 0 evals 0"])
            self.assertIn(f"refused ({refusal}): {sheet.REFUSALS[refusal]}", text)

    def test_refusal_9_shows_the_first_answers(self):
        lines = ["block 0 refusal 9 answers 1432 evals 24646"] + [line([0.0] * 6, 0)] * 1024
        text = self.shown(ARM_6 + POSE, lines)
        self.assertIn("1,432 answers", text)
        self.assertIn("refused (9)", text)
        self.assertIn("the first 1,024 are here", text)

    def head(self, inside, all_of_them, evals=0, text=ARM + LIMITS + POSE):
        """The first line of a pose with so many answers inside its limits, and of all."""
        lists = [[f"block 0 refusal 0 answers {n} evals {evals}"] + [line([0.5] * 6, 0)] * n
                 for n in (inside, all_of_them)]
        return next(text for text in self.shown(text, *lists).splitlines() if text.startswith("Pose"))

    def test_what_the_limits_removed(self):
        self.assertEqual(self.head(3, 8), "Pose 1, first: 3 answers; the limits removed 5 of 8")
        self.assertEqual(self.head(1, 2), "Pose 1, first: 1 answer; the limits removed 1 of 2")
        self.assertEqual(self.head(8, 8), "Pose 1, first: 8 answers; the limits removed none")
        self.assertEqual(self.head(0, 8), "Pose 1, first: the limits leave no answer of 8")
        self.assertEqual(self.head(0, 0), "Pose 1, first: 0 answers, and none without the limits")
        six = self.head(0, 2, 1201, ARM_6 + LIMITS.replace("160", "200") + POSE)
        self.assertEqual(six, "Pose 1, first: the limits leave no answer of 2, 1,201 evaluations of the search error")

    def test_only_poses_with_limits_are_compared(self):
        nothing = "block {} refusal 0 answers 0 evals 0"
        two = ["block 0 refusal 0 answers 2 evals 0"] + [line([0.5] * 6, 0)] * 2
        text = self.shown(ARM + POSE + LIMITS + POSE, [*two, nothing.format(1)], two)
        self.assertIn("Pose 1, first: 2 answers\n", text)
        self.assertIn("Pose 2, first: the limits leave no answer of 2\n", text)
        self.assertLess(text.index("Pose 1"), text.index("Limits for the poses below"))

    def test_the_limits_are_shown_where_they_begin(self):
        nothing = [f"block {i} refusal 0 answers 0 evals 0" for i in range(3)]
        other = LIMITS.replace("-200 200", "-1e9 1e9")
        text = self.shown(ARM + LIMITS + POSE + POSE + other + POSE, nothing, nothing)
        lines = text.splitlines()
        self.assertEqual(lines[1:7], ["", "Limits for the poses below:",
                                      "               q1         q2         q3         q4         q5         q6",
                                      "   low  -160.0000  -170.0000   -45.0000  -110.0000  -100.0000  -200.0000",
                                      "  high   160.0000    45.0000   170.0000   170.0000   100.0000   200.0000", ""])
        self.assertEqual(text.count("Limits for the poses below:"), 2)
        self.assertIn("  100.0000  1.000e+09", text)

    def outside(self, inside, without):
        """The last line of a pose at zero angles, with these answers inside its limits and without limits."""
        lists = []
        for rows in (inside, without):
            answers = [line([math.radians(a) for a in row], 0) for row in rows]
            lists.append([f"block 0 refusal 0 answers {len(rows)} evals 0", *answers])
        text = self.shown(ARM + LIMITS + "pose\nfrom angles 0 0 0 0 0 0\n", *lists)
        return text.split("\n\n")[2].splitlines()[-1]

    def test_answers_outside_that_make_the_pose(self):
        makes, misses, nan = [0] * 6, [90] + [0] * 5, [math.nan] * 6
        verdict = "does not say that the pose is out of reach: README.md"
        self.assertEqual(self.outside([], [makes, makes, misses]), "  Outside the limits 2 answers make it.")
        self.assertEqual(self.outside([misses], [makes, misses]),
                         "  None of these makes the pose. Outside the limits 1 answer makes it.")
        self.assertEqual(self.outside([], [misses, nan]), f"  This {verdict}")
        self.assertEqual(self.outside([misses], [misses, misses]), f"  None of these makes the pose, which {verdict}")
        self.assertNotIn("Outside", self.outside([makes], [makes, makes]))
        self.assertEqual(self.outside([], []), f"  This {verdict}")

    def test_a_list_that_is_too_long_is_known_in_part(self):
        long = ["block 0 refusal 9 answers 1432 evals 24646"] + [line([0.0] * 6, 0)] * 1024
        text = ARM_6 + "limits -200 200\n" * 6 + "pose\nfrom angles 0 0 0 0 0 0\n"
        shown = self.shown(text, ["block 0 refusal 0 answers 0 evals 24646"], long)
        self.assertIn("the limits leave no answer of 1,432, 24,646 evaluations", shown)
        self.assertIn("Outside the limits at least 1,024 answers make it.", shown)

    def one(self, inside, without=None, refusal=0, text=ARM):
        """The lines of a pose at zero angles where one answer will do. The lists are of angles in degrees."""
        lists = []
        for rows in (inside, without or []):
            answers = [line([math.radians(a) for a in row], 0) for row in rows]
            lists.append([f"block 0 refusal {refusal} answers {len(rows)} evals 0", *answers])
        limits = LIMITS if without is not None else ""
        made = self.shown(text + limits + "pose\nfrom angles 0 0 0 0 0 0\n", lists[0],
                          lists[1] if limits else (), True)
        parts = made.split("\n\n")
        self.assertIn("the first of the list, as the library's call, saihkeb_solve_one, gives it", parts[-1])
        return parts[2 if limits else 1].splitlines()

    def test_one_answer_is_the_first_of_the_list(self):
        first, second = [0] * 6, [0, 0, 0, 0, 0, 360]
        for inside, without in (([first, second], None), ([first, second], [second] * 8), ([first], [first])):
            lines = self.one(inside, without)
            head = "one answer within the limits" if without else "one answer"
            self.assertEqual(lines[0], f"Pose 1, number 1: {head}")
            self.assertEqual(len(lines), 3)
            self.assertEqual(lines[2].split()[:7], ["1"] + ["0.0000"] * 6)

    def test_no_answer_is_refusal_12(self):
        makes, misses = [0] * 6, [90] + [0] * 5
        begin = "Pose 1, number 1: refused (12): no answer"
        verdict = "  This does not say that the pose is out of reach: README.md"
        self.assertEqual(self.one([], [makes, makes, misses]),
                         [f"{begin} within the limits, 3 outside", "  Outside the limits 2 answers make it."])
        self.assertEqual(self.one([], [misses]), [f"{begin} within the limits, 1 outside", verdict])
        self.assertEqual(self.one([], []), [f"{begin} within the limits, and none outside", verdict])
        self.assertEqual(self.one([]), [f"{begin}, and there are no limits", verdict])

    def test_one_answer_is_held_against_its_pose(self):
        makes, misses, nan = [0] * 6, [90] + [0] * 5, [math.nan] * 6
        none = "  This one does not make the pose"
        for wrong, mark in ((misses, "MISSES the pose: "), (nan, "NO ANSWER: not a number")):
            for without in (None, [wrong, makes, makes]):
                lines = self.one([wrong, makes, wrong], without)
                self.assertIn(mark, lines[2])
                self.assertEqual(lines[3:], [f"{none}. Of the list 1 answer makes it."])
        self.assertEqual(self.one([misses], [misses, makes])[3:], [f"{none}. Outside the limits 1 answer makes it."])
        for without in (None, [misses, misses]):
            self.assertEqual(self.one([misses, misses], without)[3:],
                             [f"{none}, which does not say that the pose is out of reach: README.md"])

    def test_one_answer_of_a_list_that_is_too_long(self):
        """The call has no refusal 9, and reports no evaluations."""
        lines = ["block 0 refusal 9 answers 1432 evals 24646"] + [line([0.0] * 6, 0)] * 1024
        text = self.shown(ARM_6 + "pose\nfrom angles 0 0 0 0 0 0\n", lines, one=True)
        self.assertIn("Pose 1, number 1: one answer\n", text)
        self.assertNotIn("refused", text)
        self.assertNotIn("evaluations", text)
        self.assertEqual(text.count("0.0000     0.0000"), 3)

    def test_other_refusals_come_before_12(self):
        text = self.shown(ARM + POSE, ["block 0 refusal 8 answers 0 evals 0"], one=True)
        self.assertIn(f"Pose 1, first: refused (8): {sheet.REFUSALS[8]}\n", text)

    def test_a_locked_joint_has_its_column(self):
        pose = "pose\nfrom angles 30 0 0 0 0 0 0\n"
        lines = ["block 0 refusal 0 answers 2 evals 0", line([0.0] * 6, 0), line([0, 0, 0, 0, 0, math.pi / 2], 1),
                 "block 1 refusal 0 answers 1 evals 0", line([math.radians(30), 0, 0, 0, 0, 0], 0)]
        text = self.shown(ARM_7 + LOCK + pose + "lock 4 0\n" + pose, lines)
        shown = text.splitlines()
        self.assertEqual(shown[:5], ["Family 1, spherical_two_parallel. Angles in degrees.", "",
                                     "Joint 1 locked at 30 degrees for the poses below.", "",
                                     "Pose 1, number 1: 2 answers"])
        self.assertEqual(shown[5].split(), [*(f"q{i}" for i in range(1, 8)), "place", "off", "turn", "off"])
        self.assertEqual(shown[6].split()[1:8], ["30.0000"] + ["0.0000"] * 6)
        self.assertNotIn("MISSES", shown[6])
        self.assertTrue(shown[7].endswith("least squares; MISSES the pose: turned by 90 degrees"), shown[7])
        self.assertEqual(shown[9], "Joint 4 locked at 0 degrees for the poses below.")
        self.assertEqual(shown[13].split()[1:8], ["30.0000"] + ["0.0000"] * 6)
        self.assertNotIn("MISSES", shown[13])
        self.assertIn("saihkeb_solve_track", shown[-2])

    def test_a_locked_axis_of_no_length(self):
        text = ARM_7.replace("h1 0 0 1", "h1 0 0 0") + LOCK + POSE
        self.assertIn("refused (8): a number of the six-axis arm that is left",
                      self.shown(text, ["block 0 refusal 8 answers 0 evals 0"]))
        self.assertEqual(sheet.notes(sheet.parse(text)), [])

    def test_a_locked_angle_of_many_turns_keeps_the_columns(self):
        lines = ["block 0 refusal 0 answers 1 evals 0", line([0.0] * 6, 0)]
        row = self.shown(ARM_7 + "lock 1 -1e300\n" + POSE, lines).splitlines()[6]
        self.assertEqual(row[:28], "     1-1.000e+300     0.0000")

    def test_lines_that_do_not_fit(self):
        good = "block 0 refusal 0 answers 0 evals 0"
        for lines in ([], [good, good], ["block 1 refusal 0 answers 0 evals 0"], ["Segmentation fault"],
                      ["block 0 refusal 0 answers 1 evals 0"],
                      ["block 0 refusal 0 answers 1 evals 0", line([0.0] * 5, 0)]):
            with self.assertRaises(sheet.BadLines):
                sheet.read_results(lines, 1)


class CommandLine(unittest.TestCase):
    def run_sheet(self, text, *options):
        with tempfile.TemporaryDirectory() as folder:
            path = pathlib.Path(folder) / "a.sheet"
            path.write_bytes(text if isinstance(text, bytes) else text.encode())
            out, err = io.StringIO(), io.StringIO()
            with contextlib.redirect_stdout(out), contextlib.redirect_stderr(err):
                try:
                    status = sheet.main([*options, str(path)])
                except SystemExit as ended:
                    status = ended.code
            return status, out.getvalue(), err.getvalue()

    def test_a_bad_sheet_ends_with_2(self):
        status, out, err = self.run_sheet(ARM + "speed 3\n")
        self.assertEqual((status, out), (2, ""))
        self.assertIn("a.sheet, line 15: unknown word 'speed'", err)

    def test_no_text_ends_with_2(self):
        status, _, err = self.run_sheet(b"\xff\xfe\x00")
        self.assertEqual(status, 2)
        self.assertIn("no text file", err)
        self.assertEqual(self.run_sheet("", "--nonsense")[0], 2)

    def test_a_missing_program_ends_with_1(self):
        status, _, err = self.run_sheet(ARM + POSE, "--program", "/no/such/program")
        self.assertEqual(status, 1)
        self.assertIn("/no/such/program", err)

    def test_a_failing_program_ends_with_1(self):
        self.assertEqual(self.run_sheet(ARM + POSE, "--program", "false")[0], 1)
        status, _, err = self.run_sheet(ARM + POSE, "--program", "echo nonsense")
        self.assertEqual(status, 1)
        self.assertIn("no line of block 0", err)

    def test_blocks_are_written_and_lines_shown(self):
        with tempfile.TemporaryDirectory() as folder:
            path = os.path.join(folder, "blocks")
            status, out, _ = self.run_sheet(ARM + POSE, "--blocks", path, "--lines", "--program", "echo it")
            self.assertEqual((status, out), (0, "it\n"))
            self.assertEqual(pathlib.Path(path).read_bytes(), sheet.parse(ARM + POSE).to_blocks())

    def test_one_answer(self):
        """The option takes the first of the list, and is refused for seven axes and beside --lines."""
        answers = "\n".join(["block 0 refusal 0 answers 2 evals 0", line([0.25] * 6, 0), line([0.5] * 6, 0)])
        status, out, _ = self.run_sheet(ARM + POSE, "--one", "--program", f"printf '{answers}\n'")
        self.assertEqual(status, 0)
        self.assertIn("Pose 1, first: one answer\n", out)
        self.assertIn("14.3239", out)
        self.assertNotIn("28.6479", out)
        status, out, err = self.run_sheet(ARM_7 + LOCK + POSE, "--one", "--program", "/no/such/program")
        self.assertEqual((status, out), (2, ""))
        self.assertIn("a.sheet: --one is for an arm of six axes, and this one has seven", err)
        status, _, err = self.run_sheet(ARM + POSE, "--one", "--lines")
        self.assertEqual(status, 2)
        self.assertIn("not allowed with", err)

    def test_a_bad_limit_ends_with_2(self):
        status, out, err = self.run_sheet(ARM + LIMITS.replace("45", "-180") + POSE)
        self.assertEqual((status, out), (2, ""))
        self.assertIn("a.sheet, line 16: joint 2: low -170 is above high -180", err)

    def test_the_limits_are_in_the_blocks_and_the_second_run_has_none(self):
        """A program that notes what it is given, and finds nothing."""
        text = ARM + POSE + LIMITS + POSE
        with tempfile.TemporaryDirectory() as folder:
            noted, path = pathlib.Path(folder) / "noted", pathlib.Path(folder) / "blocks"
            program = pathlib.Path(folder) / "program.py"
            program.write_text(
                "import sys\n"
                "data = sys.stdin.buffer.read()\n"
                f"open({str(noted)!r}, 'ab').write(data + b'end')\n"
                "poses = [at for at in range(0, len(data), 512) if data[at + 3] == 0]\n"
                "for i in range(len(poses)): print(f'block {i} refusal 0 answers 0 evals 0')\n")
            options = ["--blocks", str(path), "--program", f"{sys.executable} {program}"]
            status, out, _ = self.run_sheet(text, *options)
            self.assertEqual(status, 0)
            self.assertIn("Pose 2, first: 0 answers, and none without the limits", out)
            given = sheet.parse(text).to_blocks()
            pose = given[:512]
            self.assertEqual(path.read_bytes(), given)
            self.assertEqual(noted.read_bytes(), given + b"end" + pose + b"end")
            noted.unlink()
            self.assertEqual(self.run_sheet(text, "--lines", *options)[0], 0)
            self.assertEqual(noted.read_bytes(), given + b"end")
            noted.unlink()
            self.assertEqual(self.run_sheet(ARM + POSE, *options)[0], 0)
            self.assertEqual(noted.read_bytes(), pose + b"end")


@unittest.skipUnless(ORACLE.exists(), "the reference program is not built")
class WithOracle(unittest.TestCase):
    def oracle(self, *arguments, given=b""):
        return subprocess.run([ORACLE, *arguments], input=given, capture_output=True, check=True).stdout

    def test_the_three_known_blocks(self):
        given = b"".join(blocks.make(f, n, [0.0] * 39, [0.0] * 12) for f, n in ((3, 0), (6, 200), (9, 0)))
        self.assertEqual(self.oracle("blocks", given=given).decode(),
                         "block 0 refusal 0 answers 0 evals 0\n"
                         "block 1 refusal 0 answers 0 evals 201\n"
                         "block 2 refusal 4 answers 0 evals 0\n")

    def test_limits_blocks_as_the_generator_makes_them(self):
        seen = 0
        for kind in ("reachable", "hostile", "round"):
            for family in "123456":
                made = parts(self.oracle("generate", kind, family, "5", "20", "2", "--limits"))
                for block in (block for block in made if len(block) == 512 and block[3] == 1):
                    if self.oracle("blocks", given=block):
                        continue
                    self.assertEqual(blocks.make_limits(doubles(block)[1:13]), block)
                    seen += 1
        self.assertGreater(seen, 100)

    def test_limits_of_every_sort(self):
        """The maker makes bad ones too: the program is to refuse them."""
        wide = [-4.0, 4.0] * 6
        for place in range(12):
            for number, refused in ((math.nan, True), (math.inf, True), (-math.inf, True), (0.0, False),
                                    (5.0, place % 2 == 0), (-5.0, place % 2 == 1), (4.0, False)):
                block = blocks.make_limits(wide[:place] + [number] + wide[place + 1 :])
                said = b"block 0 refusal 10 answers 0 evals 0\n" if refused else b""
                self.assertEqual(self.oracle("blocks", given=block), said)

    def test_what_is_inside_the_limits(self):
        """For every family: the lists of the sheet's blocks, against those without limits filtered here."""
        removed = left = 0
        program = blocks.command(f"{ORACLE} blocks")
        for family in "123456":
            made = parts(self.oracle("generate", "round", family, "8", "12", "25"))
            for place, block in enumerate(made):
                text = self.sheet_of(block)
                ends = [(-160 + 10 * place, 180), (-180, 150), (-180, 180), (-90, 90 + 5 * place), (-180, 180),
                        (0, 180)]
                limits = "".join(f"limits {low} {high}\n" for low, high in ends[place % 6 :] + ends[: place % 6])
                limited = sheet.parse(text.replace("pose", limits + "pose"))
                inside, = sheet.read_results(blocks.run(program, limited.to_blocks()), 1)
                free, = sheet.read_results(blocks.run(program, block), 1)
                numbers = limited.poses[0].limits.numbers()
                wanted = [(angles, flag) for angles, flag in free.angles
                          if all(numbers[2 * i] <= q <= numbers[2 * i + 1] for i, q in enumerate(angles))]
                self.assertEqual(inside.angles, wanted)
                self.assertEqual((inside.answers, inside.evaluations), (len(wanted), free.evaluations))
                head = sheet.how_many(inside, free)
                if wanted and len(wanted) < free.answers:
                    self.assertIn(f"the limits removed {free.answers - len(wanted)} of {free.answers}", head)
                elif free.answers > len(wanted):
                    self.assertEqual(head, f"the limits leave no answer of {free.answers}")
                removed += free.answers - len(wanted)
                left += len(wanted)
        self.assertGreater(min(removed, left), 50)

    def test_the_limits_of_readme(self):
        """README's lines, put above the first pose of the example, give the table that it shows."""
        readme = (blocks.ROOT / "README.md").read_text()
        boxes = [box.strip("\n") for box in readme.split("```")[1::2]]
        lines, = (box for box in boxes if box.startswith("limits "))
        shown, = (box for box in boxes if box.startswith("Limits for the poses below:"))
        text = (blocks.ROOT / "tools" / "example.sheet").read_text()
        with contextlib.redirect_stderr(io.StringIO()) as err, contextlib.redirect_stdout(io.StringIO()) as out:
            with tempfile.NamedTemporaryFile("w", suffix=".sheet") as file:
                file.write(text.replace("pose pick", lines + "\npose pick"))
                file.flush()
                self.assertEqual(sheet.main(["--program", f"{ORACLE} blocks", file.name]), 0)
        self.assertNotIn("note:", err.getvalue())
        self.assertIn(shown + "\n\n", out.getvalue())

    def test_the_call_for_one_answer(self):
        """The reference program's own call: it refuses with 12 where the sheet does, and gives the list's first."""
        def bits(numbers):
            return ",".join(struct.pack(">d", x).hex() for x in numbers)

        found = refused = 0
        for family in range(1, 7):
            blocks_made = parts(self.oracle("generate", "reachable", str(family), "9", "30", "25"))
            made = [sheet.parse(self.sheet_of(block).replace("pose", LIMITS * (place % 3 > 0) + "pose"))
                    for place, block in enumerate(blocks_made)]
            calls = ""
            for one in made:
                pose, = one.poses
                limits = bits(pose.limits.numbers()) if pose.limits else "-"
                calls += f"solve_one {family} {one.n} {bits(sheet.arm_numbers(one.arm))} "
                calls += f"{bits(one.pose_numbers(pose))} {limits}\n"
            lines = self.oracle("calls", given=calls.encode()).decode().splitlines()
            self.assertEqual(len(lines), len(made))
            for one, text in zip(made, lines):
                said = text.split()
                program = blocks.command(f"{ORACLE} blocks")
                result, = sheet.read_results(blocks.run(program, one.to_blocks()), 1)
                free = result if one.poses[0].limits else None
                head = next(sheet.table(one, one.poses[0], 0, result, free, True))
                self.assertEqual("refused (12)" in head, said[4] == "12", head)
                if said[4] == "12":
                    refused += 1
                    continue
                self.assertEqual(said[2:5], ["solve_one", "refusal", "0"])
                given = [struct.unpack(">d", bytes.fromhex(x))[0] for x in said[6].split(",")]
                self.assertEqual((given, said[8] == "1"), result.angles[0])
                found += 1
        self.assertGreater(min(found, refused), 10)

    def locked(self, family):
        """Sheets of one pose whose arm of seven axes leaves an arm of the generator, each joint locked in its
        turn, with the seven angles that made the pose."""
        made = parts(self.oracle("generate", "reachable", str(family), "9", "28", "100"))
        own = self.oracle("angles", "reachable", str(family), "9", "28", "100").decode().splitlines()
        for place, block in enumerate(made):
            joint, radians = place % 7 + 1, 0.4 * place - 5.0
            numbers = list(doubles(block))
            six = dict(zip(sheet.AXES + sheet.OFFSETS, (numbers[i : i + 3] for i in range(1, 40, 3))))
            arm = seven_of(six, joint, radians, [0.2, -0.1, 0.3])
            lock = sheet.Lock(1, joint, math.degrees(radians))
            angles = lock.put_back([struct.unpack(">d", bytes.fromhex(word))[0] for word in own[place].split()])
            wanted = trial.pose_of(arm, angles)
            pose = sheet.Pose("", 1, lock=lock, rows=[wanted[0:3], wanted[3:6], wanted[6:9]], place=wanted[9:])
            yield sheet.Sheet(family, block[1] + 256 * block[2], arm, locks=[lock], poses=[pose]), angles

    def answers(self, made):
        lines = blocks.run(blocks.command(f"{ORACLE} blocks"), made.to_blocks())
        result, = sheet.put_back(made.poses, sheet.read_results(lines, 1))
        self.assertEqual(result.refusal, 0)
        return result.angles

    def test_locked_joints_of_every_family(self):
        """The angles that made a pose come back, and unflagged answers make it by seven axes."""
        poses = found = listed = 0
        for family in range(1, 7):
            for made, own in self.locked(family):
                pose, = made.poses
                unflagged = [seven for seven, flag in self.answers(made) if not flag]
                for seven in unflagged:
                    self.assertEqual(len(seven), 7)
                    self.assertEqual(seven[pose.lock.joint - 1], math.radians(pose.lock.angle))
                    self.assertEqual(sheet.misses(made, *sheet.distance(made, pose, seven)), "")
                poses += 1
                listed += len(unflagged)
                found += any(trial.same(own, seven) for seven in unflagged)
        self.assertEqual(poses, 168)
        self.assertGreater(found, 160)
        self.assertGreater(listed, 600)

    def test_the_call_for_a_track(self):
        """The reference program's own call gives the sheet's answers but for last places: the same lists."""
        def bits(numbers):
            return ",".join(struct.pack(">d", x).hex() for x in numbers)

        compared = 0
        for family in (1, 2, 3, 4):
            sheets = [made for made, _ in self.locked(family)]
            calls = ""
            for made in sheets:
                pose, = made.poses
                lock = pose.lock
                arm = bits(x for name in made.axes() + made.offsets() for x in made.arm[name])
                calls += (f"solve_track {family} 0 {arm} {lock.joint - 1} {bits([math.radians(lock.angle)])}"
                          f" {bits(made.pose_numbers(pose))} 56 8\n")
            done = subprocess.run([ORACLE, "calls"], input=calls.encode(), capture_output=True, check=False)
            if b"no call 'solve_track'" in done.stderr:
                self.skipTest("the reference program has no call for an arm on a track")
            lines = done.stdout.decode().splitlines()
            self.assertEqual(len(lines), len(sheets))
            for made, text in zip(sheets, lines):
                said = text.split()
                count, answers = int(said[6]), self.answers(made)
                self.assertEqual(said[2:7], ["solve_track", "refusal", "0", "answers", str(len(answers))])
                given = [struct.unpack(">d", bytes.fromhex(x))[0] for x in said[10].split(",")[: 7 * count]]
                self.assertEqual(said[12].split(",")[:count], [str(int(flag)) for _, flag in answers])
                for i, (seven, _) in enumerate(answers):
                    self.assertTrue(trial.same(given[7 * i : 7 * i + 7], seven))
                    compared += 1
        self.assertGreater(compared, 400)

    def test_the_track_of_readme(self):
        """README shows the first table of example_track.sheet."""
        readme = (blocks.ROOT / "README.md").read_text()
        shown, = (box.strip("\n") for box in readme.split("```")[1::2] if box.startswith("\nJoint 1 locked"))
        with contextlib.redirect_stderr(io.StringIO()) as err, contextlib.redirect_stdout(io.StringIO()) as out:
            path = blocks.ROOT / "tools" / "example_track.sheet"
            self.assertEqual(sheet.main(["--program", f"{ORACLE} blocks", str(path)]), 0)
        self.assertNotIn("note:", err.getvalue())
        self.assertIn(shown + "\n\n", out.getvalue())
        self.assertNotIn("MISSES the pose", out.getvalue())

    def sheet_of(self, block):
        numbers = [repr(x) for x in doubles(block)]
        threes = [" ".join(numbers[i : i + 3]) for i in range(1, 52, 3)]
        lines = [f"family {block[0]}"] + ([f"n {block[1] + 256 * block[2]}"] if block[0] == 6 else [])
        lines += [f"{name} {three}" for name, three in zip(sheet.AXES + sheet.OFFSETS, threes)]
        return "\n".join(lines + ["pose"] + [f"row {three}" for three in threes[13:16]] + [f"place {threes[16]}"])

    def test_every_block_can_be_written_as_a_sheet(self):
        for kind in ("reachable", "random", "hostile"):
            for family in "123456":
                made = self.oracle("generate", kind, family, "5", "40")
                for at in range(0, len(made), 512):
                    block = made[at : at + 512]
                    self.assertEqual(sheet.parse(self.sheet_of(block)).to_blocks(), block)

    def test_from_angles_gives_the_poses_of_the_generator(self):
        for family in "123456":
            made = self.oracle("generate", "reachable", family, "6", "40")
            angles = self.oracle("angles", "reachable", family, "6", "40").decode().splitlines()
            for place, text in enumerate(angles):
                numbers = doubles(made[512 * place : 512 * place + 512])
                names = sheet.AXES + sheet.OFFSETS
                arm = {name: numbers[1 + 3 * i : 4 + 3 * i] for i, name in enumerate(names)}
                radians = [struct.unpack(">d", bytes.fromhex(word))[0] for word in text.split()]
                rotation, where = sheet.forward(arm, radians)
                got = [x for row in rotation for x in row] + where
                size = max(1.0, *(abs(x) for x in numbers[49:52]))
                self.assertLess(max(abs(x - y) for x, y in zip(got, numbers[40:52])) / size, 1e-12)

    def test_the_stored_lines_of_the_example(self):
        folder = blocks.ROOT / "tools"
        given = sheet.parse((folder / "example.sheet").read_text()).to_blocks()
        self.assertEqual(self.oracle("blocks", given=given), (folder / "example.lines").read_bytes())

    def test_the_examples(self):
        program = f"{ORACLE} blocks"
        for name in ("example.sheet", "example6.sheet"):
            made = sheet.parse((blocks.ROOT / "tools" / name).read_text())
            self.assertEqual(sheet.notes(made), [])
            results = sheet.read_results(blocks.run(blocks.command(program), made.to_blocks()), len(made.poses))
            for pose, result in zip(made.poses, results):
                off = [sheet.distance(made, pose, a) for a, flag in result.angles if not flag]
                self.assertEqual(result.refusal, 0)
                self.assertEqual(bool(off), pose.name != "out of reach")
                self.assertLess(max((away for away, _ in off), default=0), 1e-8)
                turned = sum(turn > 1e-6 for _, turn in off)
                self.assertEqual(turned, 2 if pose.name.startswith("wrist straight") else 0)


if __name__ == "__main__":
    unittest.main()
