"""The 512-byte blocks of the solver program, and how to start that program. Python's library alone.

A block is 64 little-endian words, and word 63 is the sum of the others modulo 2^64. Byte 3 of word 0 says
what it is. In a pose block it is 0: word 0 has the family in byte 0 and n in bytes 1 and 2; words 1 to 39
have the arm, 40 to 51 the pose. In a limits block it is 1: words 1 to 12 have the joint limits, low then
high, joint by joint. All else is zero.
"""

import os
import pathlib
import shlex
import struct
import subprocess

BLOCK_BYTES = 512
ARM_NUMBERS = 39
POSE_NUMBERS = 12
LIMITS_NUMBERS = 12
ROOM = 1024  # answers that the program has space for
ROOT = pathlib.Path(__file__).resolve().parent.parent


class NoProgram(Exception):
    """The solver program can't be started; the text says what to do."""


def repaired(block):
    """The block with the check word that its other words ask for."""
    words = struct.unpack("<63Q", block[:504])
    return block[:504] + struct.pack("<Q", sum(words) % 2**64)


def make(family, n, arm, pose):
    """The pose block of a family, n, 39 numbers of the arm and 12 of the pose."""
    if len(arm) != ARM_NUMBERS or len(pose) != POSE_NUMBERS:
        raise ValueError("an arm has 39 numbers and a pose 12")
    head = struct.pack("<BHxxxxx", family, n)
    numbers = struct.pack("<51d", *arm, *pose)
    return repaired(head + numbers + bytes(8 * 12))


def make_limits(limits):
    """The limits block of twelve numbers in radians, low then high, joint by joint."""
    if len(limits) != LIMITS_NUMBERS:
        raise ValueError("limits are 12 numbers")
    return repaired(bytes([0, 0, 0, 1, 0, 0, 0, 0]) + struct.pack("<12d", *limits) + bytes(8 * 51))


def command(text=None):
    """The words that start the solver program: `text` if given, else the variable IK_PROGRAM, else
    target/bin/ik, which runs under the loader and the C library of the toolchain."""
    text = text or os.environ.get("IK_PROGRAM")
    if text:
        return shlex.split(text)
    program = ROOT / "target" / "bin" / "ik"
    if not program.exists():
        raise NoProgram("target/bin/ik is missing; tools/run builds it")
    try:
        guide = subprocess.run(["rt", "doc"], capture_output=True, text=True, check=True).stdout
    except (OSError, subprocess.CalledProcessError):
        raise NoProgram("the Rattle toolchain (rt) is needed to run target/bin/ik") from None
    libraries = pathlib.Path(guide.strip()).parent / "toolchain" / "lib"
    return [str(libraries / "ld-linux-x86-64.so.2"), "--library-path", str(libraries), str(program)]


def run(words, blocks):
    """What the program prints for these blocks, as a list of lines."""
    try:
        done = subprocess.run(words, input=blocks, capture_output=True, check=False)
    except OSError as error:
        raise NoProgram(f"{words[0]}: {error.strerror}") from None
    if done.returncode != 0:
        said = done.stderr.decode(errors="replace").strip()
        raise NoProgram(f"{words[0]} ended with status {done.returncode}. {said}")
    return done.stdout.decode("ascii").splitlines()


if __name__ == "__main__":
    # For the shell scripts: the words that start the program, quoted.
    try:
        print(shlex.join(command()))
    except NoProgram as error:
        raise SystemExit(f"{error}") from None
