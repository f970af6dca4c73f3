#!/usr/bin/env python3
"""Solves a sheet: a text file with an arm, its joint limits or a locked joint, and poses. Shows the joint
angles in degrees.

    tools/sheet.py [--one | --lines] [--blocks FILE] [--program COMMAND] SHEET

  SHEET              the file to read; - is standard input
  --one              show one answer of each pose, or that it has none; for an arm of six axes (see below)
  --lines            show the program's own lines instead of the tables
  --blocks FILE      write the blocks that the program is given to FILE, too
  --program COMMAND  the solver program with its arguments; else the environment variable IK_PROGRAM,
                     else target/bin/ik

Exit status: 0 every pose was given to the program and its result shown (a refusal is a result);
1 the program could not be run; 2 the sheet or the command line is wrong.

A sheet has one thing on each line. '#' starts a comment. Numbers are written with a decimal point;
the solver gets the nearest f64 of what is written. Lengths have any one unit.

  family F           1 to 6, or the name: 1 spherical_two_parallel, 2 spherical_two_intersecting,
                     3 spherical, 4 three_parallel_two_intersecting, 5 three_parallel, 6 two_parallel
  n N                family 6 alone: the number of steps of its search, 1 to 400
  h1 X Y Z .. h6     the axes, at zero angles, in base coordinates; length 1
  p0 X Y Z .. p6     the offsets: p0 from the base to a point of axis 1, p1 from there to a point of
                     axis 2, .. p6 from axis 6 to the tool
  limits LOW HIGH    joint limits in degrees: six such lines, joint 1 first, or none. They hold for the
                     poses below them, up to the next six; poses above the first have none (see below)
  h7, p7, lock       for an arm of seven axes alone (see below)
  pose NAME          starts a pose; its name is for the table and may be left out. Then either
    row X Y Z          three times: the rotation by rows
    place X Y Z        where the tool is
                     or
    rpy ROLL PITCH YAW in degrees: the rotation Rz(YAW) Ry(PITCH) Rx(ROLL), that is, first ROLL about
                       the base's x, then PITCH about its y, then YAW about its z; columns are the
                       tool's axes in base coordinates. Computed here, so rounded
    place X Y Z
                     or
    from angles A1 .. A6   in degrees: the pose that these joint angles give the arm. A help for a
                       first try; computed here, not by the proved program

Limits: an answer is shown where each angle is at or between the two limits of its joint; one with an angle
that is not a number is not. The table says how many the limits removed, and where none that is left makes
the pose, how many of the removed do. For that the program is run a second time, without limits; --lines and
--blocks are of the first run. An answer's angles are from -180 to 180 degrees, both among them, and nothing
is turned: limits of 90 and 270 remove an answer at -170, which stands where 190 is. q1 of family 6 may lie
some last places beyond 180. So a joint without stops gets -200 and 200. The program compares in radians:
each limit is converted as every angle of a sheet is, by Python's math.radians, and an answer that is shown
at a limit may be beyond it in a later place than is shown.

One answer: with --one each pose shows a single answer within its limits, the first of the list that the
program prints, or 'refused (12): no answer within the limits' and how many there are outside. The library's
call, saihkeb_solve_one, gives the same one for these numbers: the first. It may be flagged, miss the pose or,
without limits, be NaN, as any answer of a list may, while another one makes the pose: the table says how many
do. The call has no refusal 9 and reports no evaluations, and it takes no arm of seven axes.

An arm of seven axes, an arm on a track for one, has h1 to h7 and p0 to p7, and one of its joints is locked:

  lock JOINT ANGLE   the joint, 1 to 7, as h1 to h7 are counted (the library's call counts 0 to 6), and its
                     angle in degrees. It holds for the poses below it, up to the next lock; every pose
                     needs one above it
  from angles A1 .. A7   takes seven angles then

All seven joints turn. What is solved is the six-axis arm that is left: 'family', and the notes on standard
error, are about that arm, with its axes and offsets counted from h1 and p0 anew. Each axis after the locked
joint comes one place down, turned by the locked angle; so does each offset after the first one behind the
locked joint; and that one, turned too, is added to the offset before the joint. The program gets this arm
and the pose with the rotation R times the transpose of the locked joint's rotation; --lines and --blocks are
of them. In the table the locked angle is back in its place, and each answer is held against its pose by the
arm of seven axes. Limits do not apply to such an arm: a sheet that has both is refused. The sheet locks the
joint itself, in Python's arithmetic; the library's call, saihkeb_solve_track, has a sine of its own. So the
arm that is left may differ from the library's in last places, and by more if the locked angle is many turns
from zero; and where last places decide (a straight wrist or elbow) answers may differ visibly. The table is
for looking at; the controller's call is the library's.

An answer is held against its pose here, and marked: 'MISSES the pose' where its own place is off by more
than a millionth of the arm's size (the sum of the offsets' lengths) or its rotation by more than 0.0001
degrees, with the solver's flag ('least squares') or without one ('no flag'); 'NO ANSWER' where an angle is
not a number. Notes on an arm that is not of its family, or that the family solves badly, and on limits
beyond 180 degrees go to standard error.
"""

import argparse
import dataclasses
import math
import pathlib
import re
import struct
import sys

import blocks

FAMILIES = {
    1: "spherical_two_parallel",
    2: "spherical_two_intersecting",
    3: "spherical",
    4: "three_parallel_two_intersecting",
    5: "three_parallel",
    6: "two_parallel",
}
AXES = [f"h{i}" for i in range(1, 7)]
OFFSETS = [f"p{i}" for i in range(7)]
# An arm of seven axes has these as well.
AXIS_7, OFFSET_7 = "h7", "p7"

# What each family's solver takes for granted of an arm, and does not look at. In family 1 h3 = -h2 does
# as well.
EQUAL_AXES = {1: ["h2", "h3"], 4: ["h2", "h3", "h4"], 5: ["h2", "h3", "h4"], 6: ["h2", "h3"]}
ZERO_OFFSETS = {1: ["p4", "p5"], 2: ["p1", "p4", "p5"], 3: ["p4", "p5"], 4: ["p5"]}
# The first of two neighbouring axes that must not be parallel.
NOT_PARALLEL = {1: [1, 4, 5], 2: [1, 4, 5], 3: [1, 2, 4, 5], 4: [1, 4, 5], 5: [1, 4], 6: [3]}
# The first of two neighbouring axes that must not meet: family 3 loses answers there.
MUST_NOT_MEET = {3: [1, 2]}
# The joint whose axis must not meet the next one where its zero puts the two in line with axis 2.
HINGE = {5: 5, 6: 4}

# Axes and zero offsets of a six-axis arm that a lock leaves: as far as this from a condition it counts as met.
LEFT_SLACK = 1e-12

# An answer misses its pose where its place is off by more than this part of the arm's size (the sum of
# the offsets' lengths), or its rotation by more than so many degrees.
PLACE_OFF = 1e-6
TURN_OFF = 1e-4

REFUSALS = {
    1: "the last block of the input is shorter than 512 bytes",
    2: "the block is damaged: its check word is not the sum of the others",
    3: "a reserved byte of the block is not zero",
    4: "the family is not 1 to 6",
    5: "the arm is not 39 numbers",
    6: "the pose is not 12 numbers",
    7: "n does not fit the family: 0 for families 1 to 5, 1 to 400 for family 6",
    8: "a number of the arm or the pose is infinite or not a number",
    9: "there are more answers than the program has space for",
    10: "the limits are not 12 numbers, or one is infinite or not a number, or a low is above its high",
    12: "no answer within the limits",  # of the one-answer call; the program prints an empty list
}
ONE_OF_SEVEN = ("--one is for an arm of six axes, and this one has seven: the library's one-answer call,"
                " saihkeb_solve_one, locks no joint")
LEFT_NOT_FINITE = "a number of the six-axis arm that is left, or of its pose, is infinite or not a number"
NUMBER = re.compile(r"[+-]?([0-9]+\.?[0-9]*|\.[0-9]+)([eE][+-]?[0-9]+)?")
FLAGGED = "least squares"


class SheetError(Exception):
    """What is wrong with a sheet, and on which line."""

    def __init__(self, line, text):
        super().__init__(f"line {line}: {text}")


class BadLines(Exception):
    """The program printed something else than the lines of these blocks."""


@dataclasses.dataclass
class Limits:
    """The lines 'limits' that stand together: one for each joint, once the sheet is whole."""

    joints: list = dataclasses.field(default_factory=list)  # of the line, low and high in degrees
    closed: bool = False  # whether a pose stands below them

    def numbers(self):
        """Low then high, joint by joint, in radians."""
        return [math.radians(x) for _, low, high in self.joints for x in (low, high)]


@dataclasses.dataclass
class Lock:
    """A line 'lock': a joint of an arm of seven axes, from 1, and its angle in degrees."""

    line: int
    joint: int
    angle: float
    closed: bool = False  # whether a pose stands below it

    def rotation(self, arm):
        return about(arm[f"h{self.joint}"], math.radians(self.angle))

    def left(self, arm):
        """The six-axis arm that is left of an arm of seven axes."""
        before, r = self.joint - 1, self.rotation(arm)
        axes = [arm[f"h{i}"] for i in range(1, 8)]
        offsets = [arm[f"p{i}"] for i in range(8)]
        axes = axes[:before] + [turned(r, h) for h in axes[before + 1 :]]
        behind = [turned(r, p) for p in offsets[before + 1 :]]
        joined = [x + y for x, y in zip(offsets[before], behind[0])]
        return dict(zip(AXES + OFFSETS, axes + offsets[:before] + [joined] + behind[1:]))

    def handed_on(self, arm, pose):
        """The 12 numbers of the pose that the arm that is left has to make."""
        back = [list(column) for column in zip(*self.rotation(arm))]
        rotation = product([pose[0:3], pose[3:6], pose[6:9]], back)
        return [x for row in rotation for x in row] + pose[9:]

    def put_back(self, angles):
        """Seven angles in radians, of the six of the arm that is left."""
        before = self.joint - 1
        return angles[:before] + [math.radians(self.angle)] + angles[before:]


@dataclasses.dataclass
class Pose:
    name: str
    line: int
    limits: Limits = None
    lock: Lock = None
    rows: list = dataclasses.field(default_factory=list)
    rpy: list = None
    place: list = None
    angles: list = None
    angles_line: int = None


@dataclasses.dataclass
class Sheet:
    family: int = None
    n: int = None
    arm: dict = dataclasses.field(default_factory=dict)
    limits: list = dataclasses.field(default_factory=list)
    locks: list = dataclasses.field(default_factory=list)
    poses: list = dataclasses.field(default_factory=list)
    where: dict = dataclasses.field(default_factory=dict)  # the line of each word that may stand once

    def seven(self):
        """Whether the arm has seven axes, as far as it is read."""
        return AXIS_7 in self.arm or OFFSET_7 in self.arm

    def axes(self):
        return AXES + [AXIS_7] * self.seven()

    def offsets(self):
        return OFFSETS + [OFFSET_7] * self.seven()

    def pose_numbers(self, pose):
        """The rotation by rows, then the place."""
        if pose.angles:
            rotation, place = forward(self.arm, [math.radians(a) for a in pose.angles])
        else:
            rotation, place = pose.rows or rotation_of_rpy(pose.rpy), pose.place
        return [x for row in rotation for x in row] + place

    def pose_block(self, pose):
        arm, wanted = self.arm, self.pose_numbers(pose)
        if pose.lock:
            arm, wanted = pose.lock.left(arm), pose.lock.handed_on(arm, wanted)
        return blocks.make(self.family, self.n, arm_numbers(arm), wanted)

    def to_blocks(self):
        """The poses in their order, with a limits block wherever other limits begin to hold."""
        made, limits = [], None
        for pose in self.poses:
            if pose.limits is not limits:
                limits = pose.limits
                made.append(blocks.make_limits(limits.numbers()))
            made.append(self.pose_block(pose))
        return b"".join(made)

    def limited_poses(self):
        return [pose for pose in self.poses if pose.limits]


def arm_numbers(arm):
    """The 39 numbers of a six-axis arm."""
    return [x for name in AXES + OFFSETS for x in arm[name]]


# Small vectors and matrices: lists of numbers, and lists of rows.


def product(a, b):
    return [[sum(a[i][k] * b[k][j] for k in range(3)) for j in range(3)] for i in range(3)]


def turned(a, v):
    return [sum(a[i][k] * v[k] for k in range(3)) for i in range(3)]


def about(axis, angle):
    """The rotation about an axis of any length."""
    length = math.hypot(*axis)
    x, y, z = (part / length for part in axis) if length else (math.nan,) * 3
    hat = [[0, -z, y], [z, 0, -x], [-y, x, 0]]
    twice = product(hat, hat)
    s, c = math.sin(angle), 1 - math.cos(angle)
    return [[(i == j) + s * hat[i][j] + c * twice[i][j] for j in range(3)] for i in range(3)]


def rotation_of_rpy(rpy):
    roll, pitch, yaw = (math.radians(a) for a in rpy)
    return product(about([0, 0, 1], yaw), product(about([0, 1, 0], pitch), about([1, 0, 0], roll)))


def forward(arm, angles):
    """Rotation and place of the tool at these six angles, or seven, in radians."""
    rotation = [[1.0, 0.0, 0.0], [0.0, 1.0, 0.0], [0.0, 0.0, 1.0]]
    place = list(arm["p0"])
    for joint, angle in enumerate(angles, 1):
        rotation = product(rotation, about(arm[f"h{joint}"], angle))
        place = [x + y for x, y in zip(place, turned(rotation, arm[f"p{joint}"]))]
    return rotation, place


# Reading a sheet.


def number(line, text):
    if not NUMBER.fullmatch(text):
        hint = " (write a point, not a comma)" if "," in text else ""
        raise SheetError(line, f"'{text}' is not a number{hint}")
    value = float(text)
    if math.isinf(value):
        raise SheetError(line, f"'{text}' is too large")
    return value


def numbers(line, word, texts, count):
    if len(texts) != count:
        raise SheetError(line, f"{word} takes {count} numbers, and here are {len(texts)}")
    return [number(line, text) for text in texts]


def whole(line, word, texts):
    if len(texts) != 1:
        raise SheetError(line, f"{word} takes one number, and here are {len(texts)}")
    if not re.fullmatch(r"[0-9]{1,9}", texts[0]):
        raise SheetError(line, f"{word} takes a whole number, not '{texts[0]}'")
    return int(texts[0])


def read_family(sheet, line, texts):
    name = "_".join(texts).lower().replace("-", "_")
    found = [i for i, known in FAMILIES.items() if name in (known, str(i))]
    if not found:
        known = ", ".join(f"{i} {text}" for i, text in FAMILIES.items())
        raise SheetError(line, f"'{' '.join(texts)}' is no family; the families are {known}")
    sheet.family = found[0]


def read_n(sheet, line, texts):
    sheet.n = whole(line, "n", texts)


def refuse_limits(line):
    raise SheetError(line, "limits do not apply to an arm of seven axes, of which a joint is locked")


def read_limits(sheet, line, texts):
    if sheet.locks or sheet.seven():
        refuse_limits(line)
    if not sheet.limits or sheet.limits[-1].closed:
        sheet.limits.append(Limits())
    joints = sheet.limits[-1].joints
    if len(joints) == 6:
        raise SheetError(line, "this is the seventh line 'limits', and limits are for arms of six joints")
    low, high = numbers(line, "limits", texts, 2)
    if low > high:
        raise SheetError(line, f"joint {len(joints) + 1}: low {texts[0]} is above high {texts[1]}")
    joints.append((line, low, high))


def close_limits(sheet, last=None):
    """Where a pose begins, or the sheet ends: the limits that hold from here on, and they are six."""
    if not sheet.limits:
        return None
    limits = sheet.limits[-1]
    if sheet.locks or sheet.seven():
        refuse_limits(limits.joints[0][0])
    if len(limits.joints) != 6:
        here = counted(len(limits.joints), "line", "lines")
        raise SheetError(limits.joints[-1][0], f"limits are six lines, joint 1 first, and here are {here}")
    if last and not limits.closed:
        raise SheetError(last, "the sheet ends, and no pose stands below its last limits")
    limits.closed = True
    return limits


def read_lock(sheet, line, texts):
    if sheet.locks and not sheet.locks[-1].closed:
        before = sheet.locks[-1].line
        raise SheetError(line, f"lock stands on line {before} already, and no pose between: one joint is locked")
    if len(texts) != 2:
        raise SheetError(line, f"lock takes a joint and its angle in degrees, and here are {len(texts)} words")
    if not re.fullmatch("[1-7]", texts[0]):
        raise SheetError(line, f"lock takes a joint from 1 to 7, not '{texts[0]}'")
    sheet.locks.append(Lock(line, int(texts[0]), number(line, texts[1])))


def close_lock(sheet, last=None):
    """Where a pose begins, or the sheet ends: the lock that holds from here on."""
    if not sheet.locks:
        return None
    lock = sheet.locks[-1]
    if last and not lock.closed:
        raise SheetError(last, "the sheet ends, and no pose stands below its last lock")
    lock.closed = True
    return lock


def read_pose_line(pose, line, word, texts):
    """A line that stands below a pose."""
    if word == "row":
        if len(pose.rows) == 3:
            raise SheetError(line, "a pose has three rows, and this is the fourth")
        pose.rows.append(numbers(line, word, texts, 3))
        return
    if word == "from":
        if texts[:1] != ["angles"]:
            raise SheetError(line, "'from' is followed by 'angles' and the joint angles in degrees")
        word, texts, pose.angles_line = "angles", texts[1:], line
    if getattr(pose, word) is not None:
        raise SheetError(line, f"this pose has '{word}' already")
    # How many angles an arm has is known at the end of the sheet.
    setattr(pose, word, numbers(line, word, texts, len(texts) if word == "angles" else 3))


def read_line(sheet, line, word, texts):
    if word == "pose":
        name = " ".join(texts) or f"number {len(sheet.poses) + 1}"
        sheet.poses.append(Pose(name, line, close_limits(sheet), close_lock(sheet)))
    elif word in ("row", "rpy", "place", "from"):
        if not sheet.poses:
            raise SheetError(line, f"'{word}' belongs to a pose, and no line 'pose' stands above it")
        if sheet.limits and not sheet.limits[-1].closed:
            raise SheetError(line, f"'{word}' belongs to a pose, and limits stand between: limits go above 'pose'")
        if sheet.locks and not sheet.locks[-1].closed:
            raise SheetError(line, f"'{word}' belongs to a pose, and a lock stands between: lock goes above 'pose'")
        read_pose_line(sheet.poses[-1], line, word, texts)
    elif word == "limits":
        read_limits(sheet, line, texts)
    elif word == "lock":
        read_lock(sheet, line, texts)
    elif word in ("family", "n", AXIS_7, OFFSET_7) or word in AXES + OFFSETS:
        if word in sheet.where:
            raise SheetError(line, f"{word} stands on line {sheet.where[word]} already")
        sheet.where[word] = line
        if word == "family":
            read_family(sheet, line, texts)
        elif word == "n":
            read_n(sheet, line, texts)
        else:
            sheet.arm[word] = numbers(line, word, texts, 3)
    else:
        raise SheetError(line, f"unknown word '{word}'")


def judge_n(sheet, last):
    """n is asked for in family 6 and nowhere else."""
    line = sheet.where.get("n", last)
    if sheet.family != 6:
        if sheet.n is not None:
            raise SheetError(line, f"n is for family 6 alone, and this is family {sheet.family}")
        sheet.n = 0
    elif sheet.n is None:
        raise SheetError(last, "family 6 needs n, from 1 to 400 (the published solver has n 200)")
    elif not 1 <= sheet.n <= 400:
        raise SheetError(line, f"n is {sheet.n}, and must be 1 to 400")


def judge_lock(sheet):
    """An arm of seven axes has a lock above each pose, another one has none."""
    if not sheet.seven():
        if sheet.locks:
            raise SheetError(sheet.locks[0].line, "lock is for an arm of seven axes, and this one has no h7 and no p7")
        return
    for pose in sheet.poses:
        if not pose.lock:
            text = f"the arm has seven axes, and no line 'lock' stands above pose '{pose.name}'"
            raise SheetError(pose.line, text)


def judge_pose(pose, joints):
    """A pose has angles alone, one for each joint, or a place and just one sort of rotation."""
    if pose.angles is not None and len(pose.angles) != joints:
        here = len(pose.angles)
        raise SheetError(pose.angles_line, f"angles takes {joints} numbers, and here are {here}")
    others = pose.rows or pose.rpy or pose.place
    if pose.angles and others:
        raise SheetError(pose.line, f"pose '{pose.name}' has angles and a rotation or place: take one")
    if pose.angles:
        return
    if pose.rows and pose.rpy:
        raise SheetError(pose.line, f"pose '{pose.name}' has rows and rpy: take one")
    if not pose.rows and not pose.rpy:
        raise SheetError(pose.line, f"pose '{pose.name}' has no rotation: three lines 'row', or 'rpy'")
    if pose.rows and len(pose.rows) != 3:
        raise SheetError(pose.line, f"pose '{pose.name}' has {len(pose.rows)} rows, and needs three")
    if not pose.place:
        raise SheetError(pose.line, f"pose '{pose.name}' has no place")


def parse(text, without_poses=False):
    """The sheet of a text, whole and in order, or a SheetError. `without_poses`: one that has none will do."""
    sheet, last = Sheet(), 1
    for last, content in enumerate(text.splitlines(), 1):
        words = content.split("#")[0].split()
        if words:
            read_line(sheet, last, words[0].lower(), words[1:])
    if sheet.family is None:
        raise SheetError(last, "the sheet ends, and has no family")
    missing = [name for name in sheet.axes() + sheet.offsets() if name not in sheet.arm]
    if missing:
        seven = " (h7 and p7 are for an arm of seven axes)" if sheet.seven() else ""
        raise SheetError(last, f"the sheet ends, and of the arm is missing: {', '.join(missing)}{seven}")
    judge_n(sheet, last)
    if not sheet.poses and without_poses:
        return sheet
    if not sheet.poses:
        raise SheetError(last, "the sheet ends, and has no pose")
    judge_lock(sheet)
    close_limits(sheet, last)
    close_lock(sheet, last)
    for pose in sheet.poses:
        judge_pose(pose, len(sheet.axes()))
    return sheet


# Notes: things that the solver takes as they are, and that are most often a slip of the pen.


def arm_notes(sheet, slack=0):
    """Parts that differ by no more than `slack`, of an offset times the arm's size, count as equal."""
    for name in AXES:
        length = math.hypot(*sheet.arm[name])
        if abs(length - 1) > 1e-9:
            yield f"{name} has length {length:.6g}, not 1: answers miss the pose, with no flag or with one"
    equal = EQUAL_AXES.get(sheet.family, [])
    first = sheet.arm[equal[0]] if equal else None
    allowed = [first, [-x for x in first]] if sheet.family == 1 else [first]
    if not all(any(near(sheet.arm[name], axis, slack) for axis in allowed) for name in equal):
        read = "is" if sheet.family == 6 else "are"
        unread = f"; {' and '.join(equal[1:])} {read} not read" if sheet.family != 1 else ""
        yield f"family {sheet.family} is for arms with {' = '.join(equal)}{unread}"
    for name in ZERO_OFFSETS.get(sheet.family, []):
        if not near(sheet.arm[name], [0, 0, 0], slack and slack * arm_size(sheet)):
            unread = f"; {name} is not read" if sheet.family != 4 else ""
            yield f"family {sheet.family} is for arms with {name} = 0 0 0{unread}"


def near(u, v, slack):
    return all(abs(x - y) <= slack for x, y in zip(u, v))


def arm_size(sheet):
    return sum(math.hypot(*sheet.arm[name]) for name in sheet.offsets())


def dot(u, v):
    return sum(x * y for x, y in zip(u, v))


def cross(u, v):
    return [u[1] * v[2] - u[2] * v[1], u[2] * v[0] - u[0] * v[2], u[0] * v[1] - u[1] * v[0]]


def parallel(arm, i):
    """Whether axes i and i + 1 are parallel."""
    return math.hypot(*cross(arm[f"h{i}"], arm[f"h{i + 1}"])) < 1e-9


def meet(arm, i):
    """Whether axes i and i + 1 meet: the offset between them has no part across both."""
    across, offset = cross(arm[f"h{i}"], arm[f"h{i + 1}"]), arm[f"p{i}"]
    return not parallel(arm, i) and abs(dot(across, offset)) <= 1e-9 * math.hypot(*offset)


def hinge_note(sheet, i):
    """Families 5 and 6: subproblem 6 divides 0 by 0, or rounds it away, where axes i and i + 1 meet and
    the zero of joint i puts axis i + 1 in one plane with axes i and 2, or square to that plane."""
    hinge, following, second = sheet.arm[f"h{i}"], sheet.arm[f"h{i + 1}"], sheet.arm["h2"]
    across = cross(hinge, following)
    square = abs(dot(hinge, following)) < 1e-9 and abs(dot(hinge, second)) < 1e-9
    if abs(dot(second, across)) < 1e-9:
        found = "every list is empty" if sheet.family == 6 else "every list is empty or NaN"
    elif abs(dot(second, cross(hinge, across))) >= 1e-9 or square and not (sheet.family == 6 and meet(sheet.arm, 5)):
        return
    else:
        found = "answers are missing"
    yield (f"axes {i} and {i + 1} meet, and joint {i}'s zero is such that in family {sheet.family} {found};"
           f" move that zero (README.md)")


def meeting_notes(sheet):
    for i in NOT_PARALLEL[sheet.family]:
        if parallel(sheet.arm, i):
            yield f"axes {i} and {i + 1} are parallel, which is not for family {sheet.family}"
    for i in MUST_NOT_MEET.get(sheet.family, []):
        if meet(sheet.arm, i):
            yield f"axes {i} and {i + 1} meet, and family {sheet.family} loses answers there (README.md)"
    joint = HINGE.get(sheet.family)
    if joint and meet(sheet.arm, joint):
        yield from hinge_note(sheet, joint)


def pose_notes(sheet, pose):
    entries = sheet.pose_numbers(pose)
    rows = [entries[0:3], entries[3:6], entries[6:9]]
    square = product(rows, [list(column) for column in zip(*rows)])
    off = max(abs(square[i][j] - (i == j)) for i in range(3) for j in range(3))
    (a, b, c), (d, e, f), (g, h, i) = rows
    determinant = a * (e * i - f * h) - b * (d * i - f * g) + c * (d * h - e * g)
    if not off < 1e-6:
        yield f"the rotation of pose '{pose.name}' is none: its rows are off by {off:.2g}"
    elif determinant < 0:
        yield f"the rotation of pose '{pose.name}' is none: it is a mirror image"


def limits_notes(sheet, limits):
    """Nothing is turned, so limits beyond 180 degrees lack the answers that come from the other side."""
    for joint, (line, low, high) in enumerate(limits.joints, 1):
        removed = None
        if high > 180 and low > -180:
            removed = max(-180, low - 360), min(high - 360, low)
        elif low < -180 and high < 180:
            removed = max(low + 360, high), min(180, high + 360)
        begin = f"line {line}: the limits of joint {joint}"
        if removed and removed[0] <= removed[1]:
            yield (f"{begin} go beyond 180 degrees, no answer does and none is turned: answers from"
                   f" {removed[0]:g} to {removed[1]:g} are removed, though the joint can stand there")
        elif sheet.family == 6 and joint == 1 and (low == -180 or high == 180):
            yield (f"{begin} end at 180 degrees, and q1 of family 6 may lie some last places beyond;"
                   f" a joint without stops gets -200 and 200")


def lock_notes(sheet, lock):
    """Notes on the six-axis arm that is left. It is computed here, so equal axes may differ in last places."""
    left = Sheet(sheet.family, sheet.n, lock.left(sheet.arm))
    if not all(map(math.isfinite, arm_numbers(left.arm))):
        return  # refused
    for note in [*arm_notes(left, LEFT_SLACK), *meeting_notes(left)]:
        yield f"line {lock.line}: of the six-axis arm that is left, counted anew: {note}"


def notes(sheet):
    if sheet.seven():
        of_arm = (note for lock in sheet.locks for note in lock_notes(sheet, lock))
    else:
        of_arm = (note for kind in (arm_notes, meeting_notes) for note in kind(sheet))
    of_limits = (note for limits in sheet.limits for note in limits_notes(sheet, limits))
    of_poses = (note for pose in sheet.poses for note in pose_notes(sheet, pose))
    return [*of_arm, *of_limits, *of_poses]


# Showing what the program printed.


@dataclasses.dataclass
class Result:
    refusal: int
    answers: int
    evaluations: int
    angles: list  # of six angles in radians and a flag; seven where a joint is locked


HEAD = re.compile(r"block (\d+) refusal (\d+) answers (\d+) evals (\d+)")
ANSWER = re.compile(r"((?:[0-9a-f]{16} ){6})([01])")


def read_results(lines, count):
    """The results of `count` blocks, or BadLines."""
    results, lines = [], iter(lines)
    for text in lines:
        head = HEAD.fullmatch(text)
        if not head or int(head[1]) != len(results):
            raise BadLines(f"no line of block {len(results)} where one should be")
        result = Result(int(head[2]), int(head[3]), int(head[4]), [])
        for _ in range(min(result.answers, blocks.ROOM)):
            line = ANSWER.fullmatch(next(lines, ""))
            if not line:
                raise BadLines(f"an answer of block {len(results)} is missing")
            angles = [struct.unpack(">d", bytes.fromhex(word))[0] for word in line[1].split()]
            result.angles.append((angles, line[2] == "1"))
        results.append(result)
    if len(results) != count:
        raise BadLines(f"{count} blocks went in, and lines of {len(results)} came out")
    return results


def put_back(poses, results):
    """Where a joint is locked, its angle comes back into the answers."""
    for pose, result in zip(poses, results):
        if pose.lock:
            result.angles = [(pose.lock.put_back(angles), flag) for angles, flag in result.angles]
    return results


def degrees(angle):
    if abs(math.degrees(angle)) >= 1e5:
        return f"{math.degrees(angle):.3e}"
    text = "NaN" if math.isnan(angle) else f"{math.degrees(angle):.4f}"
    return "0.0000" if text == "-0.0000" else text


def apart(rotation, place, wanted):
    """How far a rotation and a place are from the 12 numbers of a pose: place, and degrees of turning."""
    away = math.dist(place, wanted[9:])
    gap = math.hypot(*(rotation[i][j] - wanted[3 * i + j] for i in range(3) for j in range(3)))
    # Two rotations that are an angle t apart differ by 2 sqrt(2) sin(t / 2) in this norm.
    return away, math.degrees(2 * math.asin(min(1, gap / math.sqrt(8))))


def distance(sheet, pose, angles):
    """The same for the tool at these angles."""
    return apart(*forward(sheet.arm, angles), sheet.pose_numbers(pose))


def misses(sheet, away, turn):
    """What to say of an answer that is off by so much, or nothing where it makes the pose."""
    said = [f"{away:.2g} away"] if not away <= PLACE_OFF * arm_size(sheet) else []
    said += [f"turned by {turn:.3g} degrees"] if not turn <= TURN_OFF else []
    return "MISSES the pose: " + ", ".join(said) if said else ""


def answer_line(sheet, pose, place, angles, flag):
    """The line of an answer, and whether it makes the pose."""
    columns = "".join(f"{degrees(angle):>11}" for angle in angles)
    if not all(math.isfinite(angle) for angle in angles):
        return f"{place:>6}{columns}   NO ANSWER: not a number" + (f"; {FLAGGED}" if flag else ""), False
    away, turn = distance(sheet, pose, angles)
    missed = misses(sheet, away, turn)
    if flag:
        remark = f"{FLAGGED}; {missed}" if missed else f"{FLAGGED}, but it makes the pose"
    else:
        remark = f"{missed} (no flag)" if missed else ""
    return f"{place:>6}{columns}{away:>11.1e}{turn:>10.1e}   {remark}".rstrip(), not missed


def counted(count, one, many):
    return f"{count:,} {one if count == 1 else many}"


def how_many(result, free):
    """The number of answers, and what the limits removed. `free` is the result without limits."""
    answers = counted(result.answers, "answer", "answers")
    if not free:
        return answers
    if not free.answers:
        return f"{answers}, and none without the limits"
    if not result.answers:
        return f"the limits leave no answer of {free.answers:,}"
    removed = free.answers - result.answers
    return f"{answers}; the limits removed {f'{removed:,} of {free.answers:,}' if removed else 'none'}"


def one_or_none(result, free):
    """The same where one answer will do: an empty list is the refusal 12."""
    if result.answers:
        return "one answer within the limits" if free else "one answer"
    if not free:
        return "refused (12): no answer, and there are no limits"
    outside = f"{free.answers:,} outside" if free.answers else "and none outside"
    return f"refused (12): {REFUSALS[12]}, {outside}"


def makers(sheet, pose, result):
    """How many answers of a result make the pose, in words; nothing where none does."""
    found = sum(answer_line(sheet, pose, 0, angles, flag)[1] for angles, flag in result.angles)
    # A list that is too long is known in part.
    least = "at least " if len(result.angles) < result.answers else ""
    return least + counted(found, "answer makes", "answers make") if found else ""


def verdict(sheet, pose, result, free, one):
    """What to say where no answer that is shown makes the pose."""
    none = "This one does not make the pose" if one else "None of these makes the pose"
    for where, answers in (("Of the list", result if one else None), ("Outside the limits", free)):
        found = makers(sheet, pose, answers) if answers else ""
        if found:
            return f"{none}. {where} {found} it." if result.angles else f"{where} {found} it."
    return f"{none + ', which' if result.angles else 'This'} does not say that the pose is out of reach: README.md"


def table(sheet, pose, place, result, free, one=False):
    """The lines of one pose. `free` is its result without limits, where it has limits; `one`: with one answer."""
    head = f"Pose {place + 1}, {pose.name}: "
    if result.refusal not in (0, 9):
        why = LEFT_NOT_FINITE if pose.lock and result.refusal == 8 else REFUSALS[result.refusal]
        yield head + f"refused ({result.refusal}): {why}"
        return
    head += one_or_none(result, free) if one else how_many(result, free)
    if sheet.family == 6 and not one:
        head += f", {counted(result.evaluations, 'evaluation', 'evaluations')} of the search error"
    yield head
    if result.refusal == 9 and not one:
        yield f"  refused (9): {REFUSALS[9]}; the first {len(result.angles):,} are here"
    if result.angles:
        names = "".join(f"{'q' + name[1]:>11}" for name in sheet.axes())
        yield f"{'':>6}{names}{'place off':>11}{'turn off':>10}"
    made = False
    for i, (angles, flag) in enumerate(result.angles[:1] if one else result.angles):
        line, makes = answer_line(sheet, pose, i + 1, angles, flag)
        made |= makes
        yield line
    if not made:
        yield "  " + verdict(sheet, pose, result, free, one)


def limits_table(limits):
    yield "Limits for the poses below:"
    yield f"{'':>6}" + "".join(f"{'q' + str(i):>11}" for i in range(1, 7))
    for name, side in (("low", 1), ("high", 2)):
        ends = [joint[side] for joint in limits.joints]
        yield f"{name:>6}" + "".join(f"{x:>11.4f}" if abs(x) < 1e5 else f"{x:>11.3e}" for x in ends)


def show(sheet, results, free, one=False):
    """The tables. `free` has the results without limits of the poses that have limits; `one`: one answer each."""
    title = f"Family {sheet.family}, {FAMILIES[sheet.family]}"
    title += f", n = {sheet.n}" if sheet.family == 6 else ""
    yield f"{title}. Angles in degrees."
    limits, lock, free = None, None, iter(free)
    for place, (pose, result) in enumerate(zip(sheet.poses, results)):
        if pose.limits is not limits:
            limits = pose.limits
            yield ""
            yield from limits_table(limits)
        if pose.lock is not lock:
            lock = pose.lock
            yield ""
            yield f"Joint {lock.joint} locked at {lock.angle:.10g} degrees for the poses below."
        yield ""
        yield from table(sheet, pose, place, result, next(free) if limits else None, one)
    if any(result.angles for result in results):
        yield ""
        yield "place off, turn off: how far an answer's own pose is from the one asked for, in the"
        yield "sheet's unit and in degrees, as computed by this script. MISSES: the place is off by more"
        yield f"than a millionth of the arm's size, or the rotation by more than {TURN_OFF:g} degrees."
    if one:
        yield ""
        yield "One answer: the first of the list, as the library's call, saihkeb_solve_one, gives it; another"
        yield "one of the list may be better: --help says more."
    if sheet.seven():
        yield ""
        yield "The joint was locked by this script, and the library's call, saihkeb_solve_track, may differ"
        yield "in last places; --help says more."


# The command line.


def read_text(name):
    try:
        data = sys.stdin.buffer.read() if name == "-" else pathlib.Path(name).read_bytes()
        return data.decode("utf-8-sig")
    except OSError as error:
        raise SystemExit(fail(2, f"{name}: {error.strerror}")) from None
    except UnicodeDecodeError:
        raise SystemExit(fail(2, f"{name}: this is no text file")) from None


def fail(status, text):
    print(f"sheet: {text}", file=sys.stderr)
    return status


def arguments(words):
    if set(words) & {"-h", "--help"}:
        print(__doc__, end="")
        sys.exit(0)
    parser = argparse.ArgumentParser(prog="tools/sheet.py", add_help=False, epilog="--help says more")
    parser.add_argument("sheet")
    what = parser.add_mutually_exclusive_group()
    what.add_argument("--one", action="store_true")
    what.add_argument("--lines", action="store_true")
    parser.add_argument("--blocks", metavar="FILE")
    parser.add_argument("--program", metavar="COMMAND")
    return parser.parse_args(words)


def solve(sheet, options):
    data = sheet.to_blocks()
    if options.blocks:
        with open(options.blocks, "wb") as out:
            out.write(data)
    return blocks.run(blocks.command(options.program), data)


def solve_without_limits(sheet, options):
    """The results of the poses that have limits, as if they had none."""
    poses = sheet.limited_poses()
    if not poses:
        return []
    data = b"".join(sheet.pose_block(pose) for pose in poses)
    return read_results(blocks.run(blocks.command(options.program), data), len(poses))


def tables(sheet, lines, options):
    results = put_back(sheet.poses, read_results(lines, len(sheet.poses)))
    return show(sheet, results, solve_without_limits(sheet, options), options.one)


def main(words):
    options = arguments(words)
    text = read_text(options.sheet)
    try:
        sheet = parse(text)
    except SheetError as error:
        return fail(2, f"{options.sheet}, {error}")
    if options.one and sheet.seven():
        return fail(2, f"{options.sheet}: {ONE_OF_SEVEN}")
    for note in notes(sheet):
        print(f"note: {note}; the solver takes it as it is", file=sys.stderr)
    try:
        lines = solve(sheet, options)
        shown = lines if options.lines else tables(sheet, lines, options)
        print("\n".join(shown))
    except (blocks.NoProgram, BadLines) as error:
        return fail(1, str(error))
    except BrokenPipeError:
        return 1
    except OSError as error:
        return fail(1, str(error))
    return 0


if __name__ == "__main__":
    sys.exit(main(sys.argv[1:]))
