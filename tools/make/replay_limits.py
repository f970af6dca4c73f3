#!/usr/bin/env python3
"""The blocks of the replay that have to do with joint limits; tools/make/make_replay.sh runs it.

    tools/make/replay_limits.py ORACLE SEED BLOCKS LIST

Appends to BLOCKS limits blocks in every state with other blocks among them, and to LIST a line for each that
takes a place: its kind ('limits' for a refused limits block, 'inside' for any other block, under limits), its
family and n. The angles that become limits are those of the reference program's answers without limits.
How many of these stay is counted here, too, and the reference program is held to it. Prints what there is of
each sort.
"""

import itertools
import math
import struct
import subprocess
import sys

sys.path.insert(0, "tools")
import blocks

WIDE = [-4.0, 4.0] * 6
LARGEST = sys.float_info.max
TINY = 5e-324
NAN_BITS = (0x7FF8000000000000, 0xFFF8000000000000, 0x7FF0000000000001, 0xFFFFFFFFFFFFFFFF)
FAMILIES = range(1, 7)


def number(word):
    return struct.unpack(">d", bytes.fromhex(word))[0]


class Replay:
    """The blocks so far, the list of those that take a place, and how many answers each of these has."""

    def __init__(self, oracle, seed):
        self.oracle, self.seed = oracle, seed
        self.blocks, self.list, self.counts, self.accepted = [], [], [], 0
        self.in_force, self.known = (), {}

    def generate(self, kind, family, count, *more):
        """Blocks of the reference program's generator; n is 25 in family 6. A short one at the end is left out."""
        n = ["25"] if family == 6 else []
        made = self.run(b"", "generate", kind, str(family), str(self.seed), str(count), *n, *more)
        return [made[at : at + 512] for at in range(0, len(made) - 511, 512)]

    def run(self, given, *words):
        return subprocess.run([self.oracle, *words], input=given, capture_output=True, check=True).stdout

    def answers(self, pose):
        """The angles of a pose block's list without limits."""
        if pose not in self.known:
            lines = self.run(pose, "blocks", "--room", "4096").decode().splitlines()[1:]
            self.known[pose] = [[number(word) for word in line.split()[:6]] for line in lines]
        return self.known[pose]

    def first_pose(self, family):
        """One with some answers."""
        return next(pose for pose in self.generate("reachable", family, 20) if len(self.answers(pose)) > 3)

    def limits(self, numbers):
        """Limits that hold from here on."""
        self.add(blocks.make_limits(numbers))

    def add(self, block):
        self.blocks.append(block)
        if block[3] == 1 and is_accepted(block):
            self.accepted += 1
            self.in_force = struct.unpack("<64d", block)[1:13]
        elif block[3] == 1:
            self.list.append("limits 0 0")
            self.counts.append((0, 0))
        else:
            self.list.append(f"inside {block[0]} {block[1] + 256 * block[2]}")
            answers = self.answers(block)
            self.counts.append((sum(self.inside(own) for own in answers), len(answers)))

    def inside(self, own):
        ends = zip(self.in_force[::2], own, self.in_force[1::2])
        return all(low <= q <= high for low, q, high in ends)

    def hold(self):
        """Stops where the reference program's counts are others."""
        lines = self.run(b"".join(self.blocks), "blocks").decode().splitlines()
        printed = [int(line.split()[5]) for line in lines if line.startswith("block")]
        if printed != [stay for stay, _ in self.counts]:
            sys.exit("replay_limits: the reference program has other counts")


def is_accepted(block):
    """Whether a whole limits block is: neither 2, 3 nor 10."""
    words, numbers = struct.unpack("<64Q", block), struct.unpack("<64d", block)[1:13]
    return (blocks.repaired(block) == block and words[0] == 1 << 24 and not any(words[13:63])
            and all(map(math.isfinite, numbers)) and all(numbers[i] <= numbers[i + 1] for i in range(0, 12, 2)))


def with_byte(block, at, byte):
    return blocks.repaired(block[:at] + bytes([byte]) + block[at + 1 :])


def with_bits(block, word, bits):
    return blocks.repaired(block[: 8 * word] + struct.pack("<Q", bits) + block[8 * word + 8 :])


def flipped(block, at):
    return block[:at] + bytes([block[at] ^ 4]) + block[at + 1 :]


def with_joint(numbers, joint, low, high):
    return numbers[: 2 * joint] + [low, high] + numbers[2 * joint + 2 :]


def sorts_of_limits(own):
    """Limits for a list one of whose answers has these angles: all, some, one and none stay."""
    yield WIDE
    yield [-LARGEST, LARGEST] * 6
    yield [-math.pi, math.pi] * 6
    for joint, q in enumerate(own):
        yield with_joint(WIDE, joint, q, 4.0)
        yield with_joint(WIDE, joint, -4.0, q)
        yield with_joint(WIDE, joint, q, q)
        yield with_joint(WIDE, joint, math.nextafter(q, 9), 4.0)
        yield with_joint(WIDE, joint, -4.0, math.nextafter(q, -9))
    yield [q for angle in own for q in (angle, angle)]
    yield [q for angle in own for q in (angle - 1e-9, angle + 1e-9)]
    yield with_joint([q for angle in own for q in (angle, angle)], 5, 4.0, 5.0)
    yield with_joint(WIDE, 0, 4.0, 4.0)
    yield with_joint(WIDE, 2, own[2] + math.tau, 12.0)


def refused_limits(good):
    """Limits blocks that are refused, by 2, 3 and 10, made from a good one."""
    for at in (0, 3, 8, 8 * 13 - 1, 8 * 13, 8 * 62, 8 * 63, 511):
        yield flipped(good, at)
    for at in (0, 1, 2, 4, 5, 6, 7, 8 * 13, 8 * 39 + 3, 8 * 40, 8 * 52, 8 * 62, 8 * 63 - 1):
        yield with_byte(good, at, 1)
        yield with_byte(good, at, 128)
    for bits in NAN_BITS + (0x7FF0000000000000, 0xFFF0000000000000):
        for word in (1, 2, 7, 12):
            yield with_bits(good, word, bits)
    numbers = list(struct.unpack("<64d", good)[1:13])
    for joint in range(6):
        yield blocks.make_limits(with_joint(numbers, joint, 1.0, -1.0))
        yield blocks.make_limits(with_joint(numbers, joint, math.nextafter(1.5, 2), 1.5))
    yield blocks.make_limits(with_joint(numbers, 3, TINY, -0.0))
    yield blocks.make_limits(with_joint(numbers, 3, 0.0, -TINY))
    # Several at once: 2 comes before 3, and 3 before 10.
    crossed = blocks.make_limits(with_joint(numbers, 0, 1.0, -1.0))
    yield with_byte(crossed, 5, 1)
    yield flipped(with_byte(crossed, 5, 1), 9)


def other_kinds(pose, good):
    """Blocks whose byte 3 is another's: all are refused, by 3 or 4."""
    for kind in (2, 3, 127, 128, 129, 255):
        yield with_byte(good, 3, kind)
        yield with_byte(pose, 3, kind)
    yield with_byte(pose, 3, 1)
    yield with_byte(good, 3, 0)


def refused_poses(pose):
    """2, 3, 4, 7 and 8 of a pose block."""
    yield flipped(pose, 100)
    yield with_byte(pose, 8 * 52, 1)
    yield with_byte(pose, 7, 1)
    yield with_byte(pose, 0, 0)
    yield with_byte(pose, 0, 7)
    yield blocks.repaired(pose[:1] + struct.pack("<H", 401) + pose[3:])
    yield with_bits(pose, 39, NAN_BITS[0])
    yield with_bits(pose, 40, 0xFFF0000000000000)


def part(own):
    """Limits that leave a part of a list as a rule: one joint's ends on both sides of an answer's angle."""
    return with_joint(WIDE, 0, own[0] - 0.5, own[0] + 0.5)


def add_every_sort(replay):
    """For each family limits of every sort, each with the pose block that they were made for."""
    for family in FAMILIES:
        pose = replay.first_pose(family)
        answers = replay.answers(pose)
        for numbers in sorts_of_limits(answers[len(answers) // 2]):
            replay.limits(numbers)
            replay.add(pose)


def add_zeros(replay):
    """Answers with an angle of 0.0 or -0.0, and limits at zeros of both signs."""
    for family in FAMILIES:
        found = [(pose, joint) for pose in replay.generate("round", family, 60) for own in replay.answers(pose)
                 for joint, q in enumerate(own) if q == 0]
        for pose, joint in found[:1] + found[-1:]:
            for low, high in itertools.product((0.0, -0.0), repeat=2):
                replay.limits(with_joint(WIDE, joint, low, high))
                replay.add(pose)
            for low, high in ((TINY, 4.0), (-4.0, -TINY), (0.0, 4.0), (-4.0, -0.0)):
                replay.limits(with_joint(WIDE, joint, low, high))
                replay.add(pose)


def add_nans(replay):
    """Answers that are NaN are outside the widest limits."""
    for family, kind in itertools.product(FAMILIES, ("hostile", "degenerate")):
        poses = [pose for pose in replay.generate(kind, family, 80)
                 if any(math.isnan(q) for own in replay.answers(pose) for q in own)]
        replay.limits([-LARGEST, LARGEST] * 6)
        for pose in poses[:4]:
            replay.add(pose)


def add_refused(replay):
    """Each refused one between two pose blocks, which keep the limits in force; the families take turns."""
    for family in FAMILIES:
        pose = replay.first_pose(family)
        replay.limits(part(replay.answers(pose)[0]))
        replay.add(pose)
        bad = [*refused_limits(blocks.make_limits(WIDE)), *other_kinds(pose, blocks.make_limits(WIDE))]
        for block in bad[family - 1 :: 6]:
            replay.add(block)
            replay.add(pose)
        for block in refused_poses(pose):
            replay.add(block)
        replay.add(pose)


def add_rows(replay):
    """Several limits blocks in a row: the last that is accepted counts."""
    for family in FAMILIES:
        pose = replay.first_pose(family)
        own = replay.answers(pose)[0]
        tight, wide, none = (blocks.make_limits(x) for x in (part(own), WIDE, with_joint(WIDE, 5, 4.0, 4.0)))
        bad, damaged = blocks.make_limits(with_joint(WIDE, 1, 1.0, -1.0)), flipped(wide, 20)
        for row in ([wide, tight], [tight, tight], [none, wide], [tight, bad], [bad, damaged], [bad, none, damaged],
                    [tight, wide, none, tight]):
            for block in row:
                replay.add(block)
            replay.add(pose)


def add_long(replay):
    """A list too long for the program's space, under limits that leave as many as fit, and one more."""
    pose = replay.run(b"", "generate", "hostile", "6", "77", "1093", "400")[-512:]
    angles = sorted(own[0] for own in replay.answers(pose))
    for stay in (blocks.ROOM, blocks.ROOM + 1):
        replay.limits(with_joint(WIDE, 0, -4.0, angles[stay - 1]))
        replay.add(pose)
        if replay.counts[-1][0] != stay:
            sys.exit("replay_limits: two answers of the long list share their q1")


def add_generated(replay):
    """What the generator makes with --limits."""
    for family, kind in itertools.product(FAMILIES, ("reachable", "round", "hostile", "headers")):
        for block in replay.generate(kind, family, 12, "--limits"):
            replay.add(block)


def main(words):
    oracle, seed, out, listed = words
    replay = Replay(oracle, int(seed))
    for add in (add_every_sort, add_zeros, add_nans, add_refused, add_rows, add_long, add_generated):
        add(replay)
    # One is in force at the end, too, where a short block follows.
    replay.limits(WIDE)
    replay.hold()
    with open(out, "ab") as file:
        file.write(b"".join(replay.blocks))
    with open(listed, "a") as file:
        file.write("".join(line + "\n" for line in replay.list))
    refused = sum(line.startswith("limits") for line in replay.list)
    lists = [(stay, of) for stay, of in replay.counts if of]
    whole, none = sum(stay == of for stay, of in lists), sum(not stay for stay, _ in lists)
    print(f"part on limits: {replay.accepted + refused} limits blocks, {replay.accepted} accepted, {refused} refused;"
          f" {len(replay.list) - refused} other blocks, {len(lists)} with answers: all stay in {whole},"
          f" some in {len(lists) - whole - none}, none in {none}")


if __name__ == "__main__":
    main(sys.argv[1:])
