#!/usr/bin/env python3
"""Makes, lists and changes a file of arms: the arms of a site, each with its number, as the library's calls
saihkeb_arms_put, _find, _take_out and _compact take it (include/saihkeb.h, "A FILE OF ARMS").

    tools/arms.py make FILE BLOCKS         make a new file with room for BLOCKS arms
    tools/arms.py list FILE                which arms it holds, or what is wrong with it
    tools/arms.py show FILE NUMBER         an arm, as the lines of a sheet
    tools/arms.py add FILE NUMBER SHEET    put the arm of a sheet in, under a number from 1 to 255
    tools/arms.py remove FILE NUMBER       take an arm out
    tools/arms.py compact FILE             move the arms to the front, in their order
    tools/arms.py grow FILE BLOCKS         put BLOCKS empty blocks at the end

For example:

    tools/arms.py make hall3.arms 20
    tools/arms.py add hall3.arms 7 tools/example.sheet
    tools/arms.py add hall3.arms 12 tools/example6.sheet
    tools/arms.py list hall3.arms
    tools/arms.py show hall3.arms 7 >seven.sheet
    tools/arms.py remove hall3.arms 7

SHEET is a text file as tools/sheet.py reads it (tools/sheet.py --help); - is standard input. Of it the arm
is taken, h1 to h6 and p0 to p6: poses may be there or not, and are not read. The file has no place for the
family and n, which the solver needs besides: write them down beside the number.

A file is a row of blocks of 512 bytes, one for each arm; an all-zero block is empty. Blocks are counted from
0. A file with any fault is left as it is, and what is wrong is said for each block that has one, with the
refusal that the library's calls would give; 'list' shows the arms of its other blocks. A file is written
whole or not at all: to a temporary file beside it, which then takes its name.

Exit status: 0 done; 1 the file or the number was refused; 2 the command line, the sheet or the file can't be
read or written.

All this is done here, in Python, from document 02's words, and not by the proved calls: so it runs on any
host. tools/test/test_arms.py holds it to the reference program, byte for byte, and to the library where that
is built. The controller's calls judge the whole file again each time before they use it.
"""

import argparse
import dataclasses
import math
import os
import pathlib
import stat
import struct
import sys
import tempfile

import blocks
import sheet

BLOCK = blocks.BLOCK_BYTES
EMPTY = bytes(BLOCK)
ARM = blocks.ARM_NUMBERS
MOST_NUMBERS = 255

# What the calls refuse, in the order of document 02.
SHORT, CHECK, RESERVED, ARM_LENGTH, NOT_FINITE, NUMBER_TAKEN, NOT_HELD, FULL = 1, 2, 3, 5, 8, 13, 14, 15

# The names of an arm's numbers: h1 x, h1 y, .. p6 z.
PLACES = [f"the {part} of {name}" for name in sheet.AXES + sheet.OFFSETS for part in "xyz"]


@dataclasses.dataclass
class Fault:
    """What is wrong with a block, the first thing that applies."""

    block: int
    refusal: int
    text: str

    def __str__(self):
        return f"block {self.block}: {self.text} (refusal {self.refusal})"


@dataclasses.dataclass
class Held:
    """An arm that a file holds. Its numbers are kept by their bits."""

    number: int
    block: int
    words: tuple

    def numbers(self):
        return struct.unpack("<39d", struct.pack("<39Q", *self.words))

    def parts(self):
        """The axes and the offsets by name."""
        numbers = self.numbers()
        return {name: numbers[3 * i : 3 * i + 3] for i, name in enumerate(sheet.AXES + sheet.OFFSETS)}


class Refused(Exception):
    """A call is refused, by document 02's number, and why."""

    def __init__(self, refusal, text):
        super().__init__(f"{text} (refusal {refusal})")
        self.refusal = refusal


class Damaged(Refused):
    """The file is refused, whatever the call: the refusal is that of its first block with a fault."""

    def __init__(self, faults):
        first = faults[0].refusal
        count = sheet.counted(len(faults), "block has a fault", "blocks have a fault")
        Exception.__init__(self, "\n".join([f"{count}, and every call gives refusal {first}", *map(str, faults)]))
        self.refusal = first


# Judging a file.


def is_finite(word):
    return word >> 52 & 0x7FF != 0x7FF


def not_finite_in_words(word):
    return "not a number" if word & (2**52 - 1) else "infinite"


def other_kind(block):
    """What else a block may be that is no arm's."""
    if block[3] == 1 and not any(block[:3]) and not any(block[4:8]):
        return ". It looks like a limits block"
    if 1 <= block[0] <= 6 and any(block[320:416]):
        return ". It looks like a pose block"
    return ""


def block_fault(place, block):
    """The fault that a block has by itself, or None. An empty one has none."""
    if len(block) < BLOCK:
        cut = f"the file ends within it, after {sheet.counted(len(block), 'byte', 'bytes')} of {BLOCK}"
        return Fault(place, SHORT, f"{cut}: its length is no multiple of {BLOCK}")
    words = struct.unpack("<64Q", block)
    total = sum(words[:63]) % 2**64
    if words[63] != total:
        text = f"it is damaged: its check word is {words[63]:016x}, and the sum of its other words {total:016x}"
        return Fault(place, CHECK, text)
    reserved = [i for i in [*range(1, 8), *range(320, 504)] if block[i]]
    if reserved:
        found = f"byte {reserved[0]} is {block[reserved[0]]}, where an arm's block has 0"
        return Fault(place, RESERVED, found + other_kind(block))
    bad = [i for i in range(ARM) if not is_finite(words[1 + i])]
    if bad:
        text = f"its arm has a number that is {not_finite_in_words(words[1 + bad[0]])}: {PLACES[bad[0]]}"
        return Fault(place, NOT_FINITE, text)
    return None


def judge(data):
    """The arms held, in their order, and the faults, one for each block that has any."""
    held, faults, blocks_of = [], [], {}
    for place, start in enumerate(range(0, len(data), BLOCK)):
        block = data[start : start + BLOCK]
        fault = block_fault(place, block)
        if not fault and block != EMPTY and block[0] == 0:
            fault = Fault(place, NUMBER_TAKEN, "it is not empty, and its number is 0")
        if not fault and block != EMPTY and block[0] in blocks_of:
            text = f"its number is {block[0]}, which block {blocks_of[block[0]]} has already"
            fault = Fault(place, NUMBER_TAKEN, text)
        if fault:
            faults.append(fault)
        elif block != EMPTY:
            blocks_of[block[0]] = place
            held.append(Held(block[0], place, struct.unpack("<39Q", block[8:320])))
    return held, faults


def valid(data):
    """The arms held, or Damaged."""
    held, faults = judge(data)
    if faults:
        raise Damaged(faults)
    return held


# The calls. Each takes the bytes of a file and gives them changed, or raises Refused.


def arm_block(number, words):
    return blocks.repaired(bytes([number]) + bytes(7) + struct.pack("<39Q", *words) + bytes(8 * 24))


def put(data, number, words):
    """The bytes with an arm, given by the bits of its numbers, in the first empty block."""
    held = valid(data)
    if len(words) != ARM:
        raise Refused(ARM_LENGTH, f"an arm has {ARM} numbers, and here are {len(words)}")
    bad = [i for i in range(ARM) if not is_finite(words[i])]
    if bad:
        raise Refused(NOT_FINITE, f"{PLACES[bad[0]]} is {not_finite_in_words(words[bad[0]])}")
    if number == 0:
        raise Refused(NUMBER_TAKEN, f"an arm's number is 1 to {MOST_NUMBERS}, not 0")
    found = [arm for arm in held if arm.number == number]
    if found:
        text = f"number {number} is held already, in block {found[0].block}; 'remove' takes it out"
        raise Refused(NUMBER_TAKEN, text)
    empty = [i for i in range(0, len(data), BLOCK) if data[i : i + BLOCK] == EMPTY]
    if not empty:
        text = f"no block is empty: all {len(held)} hold an arm" if held else "the file has no block"
        raise Refused(FULL, f"{text}; 'grow' makes room")
    return data[: empty[0]] + arm_block(number, words) + data[empty[0] + BLOCK :]


def find(data, number):
    """The arm of this number."""
    found = [arm for arm in valid(data) if arm.number == number]
    if not found:
        raise Refused(NOT_HELD, f"no arm of number {number} is held")
    return found[0]


def take_out(data, number):
    start = BLOCK * find(data, number).block
    return data[:start] + EMPTY + data[start + BLOCK :]


def compact(data):
    held = b"".join(data[BLOCK * arm.block :][:BLOCK] for arm in valid(data))
    return held + bytes(len(data) - len(held))


# Files.


def read(name):
    try:
        return pathlib.Path(name).read_bytes()
    except OSError as error:
        raise SystemExit(fail(2, f"{name}: {error.strerror}")) from None


def write(name, data):
    """Writes the file whole or not at all. One that is a link stays one."""
    path = pathlib.Path(os.path.realpath(name))
    try:
        with tempfile.NamedTemporaryFile(dir=path.parent, prefix=f".{path.name}.", delete=False) as made:
            try:
                made.write(data)
                made.flush()
                os.fsync(made.fileno())
                os.chmod(made.name, stat.S_IMODE(path.stat().st_mode) if path.exists() else 0o666 & ~umask())
                os.replace(made.name, path)
            except BaseException:
                os.unlink(made.name)
                raise
    except OSError as error:
        raise SystemExit(fail(2, f"{name}: {error.strerror}; nothing was changed")) from None


def umask():
    mask = os.umask(0)
    os.umask(mask)
    return mask


# The commands.


def axis_in_words(axis):
    """An axis along x, y or z by its letter, another by its numbers."""
    for i, letter in enumerate("xyz"):
        unit = tuple(float(i == j) for j in range(3))
        if axis == unit:
            return letter
        if axis == tuple(-x for x in unit):
            return f"-{letter}"
    return f"({axis[0]:.4g} {axis[1]:.4g} {axis[2]:.4g})"


def room_in_words(data, held):
    count = len(data) // BLOCK
    arms = sheet.counted(len(held), "arm", "arms")
    return f"{sheet.counted(count, 'block', 'blocks')}, {arms}, {count - len(held):,} empty"


def list_arms(options):
    data = read(options.file)
    held, faults = judge(data)
    if faults:
        print(f"{options.file}: what its other blocks hold:" if held else f"{options.file}: no arm can be read")
    else:
        print(f"{options.file}: {room_in_words(data, held)}")
    if held:
        print_table(held)
    if faults:
        sys.stdout.flush()
        raise Damaged(faults)


def print_table(held):
    print("number  block  offsets  axes")
    for arm in held:
        parts = arm.parts()
        length = sum(math.hypot(*parts[name]) for name in sheet.OFFSETS)
        axes = " ".join(axis_in_words(parts[name]) for name in sheet.AXES)
        print(f"{arm.number:>6}{arm.block:>7}{length:>9.4g}  {axes}")
    print("offsets: the sum of their lengths, in the unit of the arm's sheet")


def show(options):
    arm = find(read(options.file), options.number)
    print(f"# number {arm.number} of {options.file}, block {arm.block}")
    print("# family: the file does not keep it, nor n of family 6")
    for name, part in arm.parts().items():
        print(f"{name}   {' '.join(repr(x) for x in part)}")


def make(options):
    if os.path.lexists(options.file):
        raise SystemExit(fail(2, f"{options.file} is there already, and is left as it is"))
    write(options.file, bytes(BLOCK * options.blocks))
    print(f"{options.file}: made, {sheet.counted(options.blocks, 'block', 'blocks')}, all empty")
    note_room(options.blocks)


def note_room(count):
    if count > MOST_NUMBERS:
        note(f"numbers go from 1 to {MOST_NUMBERS}, so a file holds at most {MOST_NUMBERS} arms")


def arm_of_sheet(name):
    text = sheet.read_text(name)
    try:
        read_sheet = sheet.parse(text, without_poses=True)
    except sheet.SheetError as error:
        raise SystemExit(fail(2, f"{name}, {error}")) from None
    if read_sheet.seven():
        raise SystemExit(fail(2, f"{name}: the arm has seven axes, and a file of arms is for arms of six"))
    for text in [*sheet.arm_notes(read_sheet), *sheet.meeting_notes(read_sheet)]:
        note(f"{text}; it is kept as it is")
    return read_sheet


def add(options):
    data = read(options.file)
    of_sheet = arm_of_sheet(options.sheet)
    words = struct.unpack("<39Q", struct.pack("<39d", *sheet.arm_numbers(of_sheet.arm)))
    data = put(data, options.number, words)
    write(options.file, data)
    held = valid(data)
    print(f"{options.file}: number {options.number} added, in block {find(data, options.number).block};"
          f" {room_in_words(data, held)}")
    n = f" and n {of_sheet.n}" if of_sheet.family == 6 else ""
    print(f"Write down beside the number: family {of_sheet.family}{n}. The file does not keep it.")


def remove(options):
    data = take_out(read(options.file), options.number)
    write(options.file, data)
    print(f"{options.file}: number {options.number} removed; {room_in_words(data, valid(data))}")


def compact_file(options):
    data = compact(read(options.file))
    write(options.file, data)
    print(f"{options.file}: compacted; {room_in_words(data, valid(data))}")


def grow(options):
    data = read(options.file)
    held = valid(data)
    data += bytes(BLOCK * options.blocks)
    write(options.file, data)
    print(f"{options.file}: {room_in_words(data, held)}")
    note_room(len(data) // BLOCK)


# The command line.


def fail(status, text):
    for line in text.splitlines():
        print(f"arms: {line}", file=sys.stderr)
    return status


def note(text):
    print(f"note: {text}", file=sys.stderr)


def arm_number(text):
    if not text.isascii() or not text.isdigit() or not 1 <= int(text) <= MOST_NUMBERS:
        raise argparse.ArgumentTypeError(f"an arm's number is 1 to {MOST_NUMBERS}, not '{text}'")
    return int(text)


def block_count(text):
    if not text.isascii() or not text.isdigit() or not 1 <= int(text) <= 1_000_000:
        raise argparse.ArgumentTypeError(f"a number of blocks is 1 to 1,000,000, not '{text}'")
    return int(text)


def arguments(words):
    if set(words) & {"-h", "--help"}:
        print(__doc__, end="")
        sys.exit(0)
    parser = argparse.ArgumentParser(prog="tools/arms.py", add_help=False, epilog="--help says more")
    commands = parser.add_subparsers(dest="command", metavar="COMMAND", required=True)
    for name, run, more in [
        ("make", make, ["blocks"]),
        ("list", list_arms, []),
        ("show", show, ["number"]),
        ("add", add, ["number", "sheet"]),
        ("remove", remove, ["number"]),
        ("compact", compact_file, []),
        ("grow", grow, ["blocks"]),
    ]:
        command = commands.add_parser(name, add_help=False, epilog="--help says more")
        command.set_defaults(run=run)
        command.add_argument("file", metavar="FILE")
        for argument in more:
            kind = {"blocks": block_count, "number": arm_number}.get(argument, str)
            command.add_argument(argument, metavar=argument.upper(), type=kind)
    return parser.parse_args(words)


def main(words):
    options = arguments(words)
    try:
        options.run(options)
    except Refused as refused:
        return fail(1, f"{options.file}: {refused}")
    except BrokenPipeError:
        return 1
    return 0


if __name__ == "__main__":
    sys.exit(main(sys.argv[1:]))
