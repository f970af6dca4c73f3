#!/usr/bin/env python3
"""Gives damaged input to the solver program and to the reference program, and compares what they print.

    tools/compare/fuzz_blocks.py [--limits] [COUNT] [SEED]

COUNT inputs (12,000 unless given, at least 10,000): random bytes of every length from 0 to 2,000, random
bytes of random lengths, and good blocks of the reference program's generator with one sort of damage:
bits flipped, cut short, bytes put in or taken out, words swapped, and, with the check word repaired so
that the later tests are reached, bits flipped, NaN and infinite numbers, reserved bytes set, family and n
changed. With --limits as many more: a limits block of the generator, a bad one or a good one damaged in the same
ways and in its own (kind byte, ends of a joint exchanged, odd and random numbers, half of it a pose block's), with
the pose block that it was made for behind it or before it: first, after a good one, in a row, last, before a
short block. Each input is the whole standard input of a new process. Needs the reference program (oracle/,
built) and target/bin/ik; the environment variable IK_PROGRAM names another solver program.

Prints how often each sort of input and each refusal was seen. Exit status 1 where something differs, an
exit status other than 0 among it; the first such inputs are kept in target/fuzz/.
"""

import collections
import itertools
import os
import pathlib
import random
import re
import struct
import subprocess
import sys

sys.path.insert(0, str(pathlib.Path(__file__).resolve().parents[1]))
import blocks

LENGTHS = 2001
LEAST = 10_000
DEFAULT = 12_000
KEPT = 10
ODD = [0x7FF0000000000000, 0xFFF0000000000000, 0x7FF8000000000000, 0x7FF0000000000001, 0xFFFFFFFFFFFFFFFF]
ORACLE = os.path.join(os.environ.get("CARGO_TARGET_DIR", blocks.ROOT / "oracle" / "target"), "release", "oracle")


def whole(data):
    """A block's check word repaired; anything else as it is."""
    return blocks.repaired(data) if len(data) == blocks.BLOCK_BYTES else data


def with_word(block, at, word):
    return block[: 8 * at] + struct.pack("<Q", word) + block[8 * at + 8 :]


def flip(rng, data):
    data = bytearray(data)
    for _ in range(rng.choice((1, 1, 1, 2, 8))):
        data[rng.randrange(len(data))] ^= 1 << rng.randrange(8)
    return bytes(data)


def cut(rng, data):
    return data[: rng.choice((0, 1, 7, 8, 503, 504, 511, rng.randrange(512)))]


def insert(rng, data):
    at = rng.randrange(len(data) + 1)
    return data[:at] + rng.randbytes(rng.choice((1, 1, 8, 511, 512))) + data[at:]


def remove(rng, data):
    at, length = rng.randrange(len(data)), rng.choice((1, 1, 8, 64))
    return data[:at] + data[at + length :]


def swap(rng, data):
    i, j = rng.randrange(64), rng.randrange(64)
    first, second = data[8 * i : 8 * i + 8], data[8 * j : 8 * j + 8]
    data = data[: 8 * i] + second + data[8 * i + 8 :]
    return data[: 8 * j] + first + data[8 * j + 8 :]


def number_repaired(rng, data):
    return whole(with_word(data, rng.randrange(1, 52), rng.choice(ODD)))


def reserved_repaired(rng, data):
    at = rng.choice([*range(3, 8), *range(8 * 52, 8 * 63)])
    return whole(data[:at] + bytes([rng.randrange(1, 256)]) + data[at + 1 :])


def family_repaired(rng, data):
    return whole(bytes([rng.randrange(256) if rng.random() < 0.5 else rng.randrange(9)]) + data[1:])


def n_repaired(rng, data):
    n = rng.choice((0, 1, 2, 255, 256, 257, 399, 400, 401, 402, 512, 65535, rng.randrange(65536)))
    family = rng.choice((data[0], 6))
    return whole(bytes([family]) + struct.pack("<H", n) + data[3:])


def flip_repaired(rng, data):
    return whole(flip(rng, data))


def swap_repaired(rng, data):
    return whole(swap(rng, data))


def several(rng, data):
    """A good block, a damaged one, a good one: the later lines must not change."""
    return data + rng.choice((flip, flip_repaired, number_repaired, family_repaired))(rng, data) + data


def cut_after_good(rng, data):
    return data * rng.randrange(1, 3) + cut(rng, data)


def untouched(rng, data):
    return data


DAMAGE = [flip, cut, insert, remove, swap, number_repaired, reserved_repaired, family_repaired, n_repaired,
          flip_repaired, swap_repaired, several, cut_after_good, untouched]


# What limits blocks are damaged with. Each takes and gives one block, or what is left of it.


def kind_repaired(rng, data):
    """Byte 3 says what a block is."""
    return whole(data[:3] + bytes([rng.choice((0, 1, 2, 3, 128, 255, rng.randrange(256)))]) + data[4:])


def reserved_byte_repaired(rng, data):
    at = rng.choice([*range(3), *range(4, 8), *range(8 * 13, 8 * 63)])
    return whole(data[:at] + bytes([rng.randrange(1, 256)]) + data[at + 1 :])


def ends_exchanged(rng, data):
    low = rng.randrange(1, 13, 2)
    first, second = data[8 * low : 8 * low + 8], data[8 * low + 8 : 8 * low + 16]
    return whole(data[: 8 * low] + second + first + data[8 * low + 16 :])


def ends_equal(rng, data):
    low = rng.randrange(1, 13, 2)
    end = data[8 * low : 8 * low + 8]
    return whole(data[: 8 * low] + end + end + data[8 * low + 16 :])


def front_flipped_repaired(rng, data):
    return whole(flip(rng, data[: 8 * 13]) + data[8 * 13 :])


def limit_repaired(rng, data):
    zeros = [0, 1 << 63, 1, (1 << 63) + 1]
    return whole(with_word(data, rng.randrange(1, 13), rng.choice(ODD + zeros)))


def random_repaired(rng, data):
    """Any twelve words: about one time in 64 every low is at or below its high."""
    return whole(data[:8] + rng.randbytes(8 * 12) + data[8 * 13 :])


def ordered_repaired(rng, data):
    """Twelve finite numbers, each joint's in order."""
    numbers = [sorted(rng.uniform(-4, 4) for _ in range(2)) for _ in range(6)]
    return whole(data[:8] + struct.pack("<12d", *sum(numbers, [])) + data[8 * 13 :])


LIMITS_DAMAGE = [flip, cut, insert, remove, swap, swap_repaired, flip_repaired, kind_repaired,
                 reserved_byte_repaired, ends_exchanged, ends_equal, front_flipped_repaired, limit_repaired,
                 random_repaired, ordered_repaired, untouched]


# Where limits blocks stand. `limits` is a good one that was made for `pose`; `bad` is it damaged, or a bad
# one of the generator.


def once(rng, pose, limits, bad):
    return bad + pose


def after_good(rng, pose, limits, bad):
    """The good one stays in force where the other is refused."""
    return limits + pose + bad + pose


def in_a_row(rng, pose, limits, bad):
    several = [limits, bad, bad]
    rng.shuffle(several)
    return b"".join(several) + pose


def last(rng, pose, limits, bad):
    return pose + limits + bad


def before_short(rng, pose, limits, bad):
    return pose + bad + cut(rng, rng.choice((pose, limits)))


def spliced(rng, pose, limits, bad):
    """The first words of one kind and the rest of the other."""
    at = 8 * rng.choice((1, 12, 13, 14, 40, 52, 62, 63, rng.randrange(64)))
    first, second = rng.sample((pose, limits), 2)
    return whole(first[:at] + second[at:]) + pose


STANDS = [once, after_good, in_a_row, last, before_short, spliced]


def generated(seed, *options):
    """The generator's blocks, a list for each kind and family, with a small n."""
    for kind in ("reachable", "unreachable", "bent", "random", "hostile", "degenerate"):
        for family in range(1, 7):
            words = [ORACLE, "generate", kind, str(family), str(seed), "20"] + (["3"] if family == 6 else [])
            made = subprocess.run([*words, *options], capture_output=True, check=True).stdout
            yield [made[at : at + 512] for at in range(0, len(made), 512)]


def good_blocks(seed):
    """A few hundred blocks of every kind and family."""
    return sum(generated(seed), [])


def accepted(limits):
    return not subprocess.run([ORACLE, "blocks"], input=limits, capture_output=True, check=True).stdout


def limited_blocks(seed):
    """Good limits blocks of every kind and family, each with the pose block that it was made for, and
    bad ones."""
    good, bad = [], []
    for poses, among in zip(generated(seed), generated(seed, "--limits")):
        waiting = []
        for block in among:
            if poses and block == poses[0]:
                good += [(limits, block) for limits in waiting if accepted(limits)]
                bad += [limits for limits in waiting if not accepted(limits)]
                poses, waiting = poses[1:], []
            else:
                waiting.append(block)
    return good, bad


def limited_inputs(count, seed):
    """Each input with the name of its damage; every damage stands in every place."""
    rng = random.Random(f"limits {seed}")
    good, bad = limited_blocks(seed)
    for place in range(count):
        limits, pose = rng.choice(good)
        damage = LIMITS_DAMAGE[place % len(LIMITS_DAMAGE)]
        stand = STANDS[place // len(LIMITS_DAMAGE) % len(STANDS)]
        name = "limits block, " + damage.__name__.replace("_", " ")
        # What stays as it is must be bad already.
        damaged = damage(rng, rng.choice(bad) if damage is untouched else limits)
        yield name, stand(rng, pose, limits, damaged)


def inputs(count, seed):
    """Each input with the name of its sort."""
    rng = random.Random(seed)
    for length in range(LENGTHS):
        yield "random bytes, every length", rng.randbytes(length)
    pool = good_blocks(seed)
    for place in range(count - LENGTHS):
        if place % 5 == 0:
            yield "random bytes", rng.randbytes(rng.randrange(4 * LENGTHS))
        elif place % 50 == 1:
            yield "zeros and ones", bytes([rng.choice((0, 255))]) * rng.randrange(LENGTHS)
        else:
            damage = DAMAGE[place % len(DAMAGE)]
            yield damage.__name__.replace("_", " "), damage(rng, rng.choice(pool))


def start(words):
    return subprocess.Popen(words, stdin=subprocess.PIPE, stdout=subprocess.PIPE, stderr=subprocess.PIPE)


def both(words, data):
    """Exit status and output of the program and of the reference program, run side by side."""
    running = [start(words), start([ORACLE, "blocks"])]
    for process in running:
        try:
            process.stdin.write(data)
            process.stdin.close()
        except BrokenPipeError:
            pass
        process.stdin = None
    outputs = [process.communicate()[0] for process in running]
    return [(process.returncode, output) for process, output in zip(running, outputs)]


def keep(number, data):
    folder = blocks.ROOT / "target" / "fuzz"
    folder.mkdir(parents=True, exist_ok=True)
    path = folder / f"{number}.bin"
    path.write_bytes(data)
    return path


def compare(words, given):
    sorts, refusals, lines, different = collections.Counter(), collections.Counter(), 0, 0
    for number, (sort, data) in enumerate(given):
        got, want = both(words, data)
        sorts[sort] += 1
        lines += want[1].count(b"\n")
        refusals.update(int(r) for r in re.findall(rb"^block \d+ refusal (\d+)", want[1], re.MULTILINE))
        if got != want:
            different += 1
            if different <= KEPT:
                print(f"DIFFERENT: {sort}, {len(data)} bytes, exit status {got[0]}: {keep(number, data)}")
    return sorts, refusals, lines, different


def main(words):
    with_limits = words[:1] == ["--limits"]
    words = words[1:] if with_limits else words
    count, seed = (int(words[0]) if words else DEFAULT), (int(words[1]) if len(words) > 1 else 1)
    if count < LEAST:
        sys.exit(f"at least {LEAST} inputs")
    try:
        program = blocks.command()
    except blocks.NoProgram as error:
        sys.exit(str(error))
    if not os.path.exists(ORACLE):
        sys.exit("the reference program is missing: cargo build --release --offline in oracle/")
    given = itertools.chain(inputs(count, seed), limited_inputs(count, seed) if with_limits else [])
    sorts, refusals, lines, different = compare(program, given)
    for sort, seen in sorts.items():
        print(f"{seen:>7} {sort}")
    print(f"{sum(sorts.values()):>7} inputs, {sum(refusals.values())} blocks, {lines} lines")
    print("blocks by refusal: " + " ".join(f"{r}: {refusals[r]}" for r in range(11)))
    print(f"{different} inputs with a difference")
    return 1 if different else 0


if __name__ == "__main__":
    sys.exit(main(sys.argv[1:]))
