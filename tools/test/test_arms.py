#!/usr/bin/env python3
"""Tests of arms.py: every command and message, README's example, and each change of a file against the reference
program's, byte for byte, and against the library's calls.

    python3 tools/test/test_arms.py

Those that compare with the reference program are left out where it was not built, and those with the library
where target/staticlib/libsaihkeb.a is not there or has no such calls, or there is no C compiler; the environment
variable SAIHKEB_LIBRARY names another library.
"""

import contextlib
import ctypes
import io
import os
import pathlib
import random
import shutil
import struct
import subprocess
import sys
import tempfile
import unittest

TOOLS = pathlib.Path(__file__).resolve().parents[1]
sys.path[:0] = [str(TOOLS)]
import arms
import blocks
import sheet

ORACLE = blocks.ROOT / "oracle" / "target" / "release" / "oracle"
LIBRARY = pathlib.Path(os.environ.get("SAIHKEB_LIBRARY", blocks.ROOT / "target/staticlib/libsaihkeb.a"))
SHEET = TOOLS / "example.sheet"
NAN, INFINITY = 0x7FF8000000000000, 0x7FF0000000000000


def words_of(number):
    """An arm of finite numbers, another one for each number."""
    rng = random.Random(number)
    return struct.unpack("<39Q", struct.pack("<39d", *(rng.uniform(-2, 2) for _ in range(39))))


def held(number):
    return arms.arm_block(number, words_of(number))


def file_of(*numbers):
    """A file by the numbers of its blocks, 0 for an empty one."""
    return b"".join(held(number) if number else arms.EMPTY for number in numbers)


def with_byte(block, at, value):
    """The block with one byte changed, and the check that it then asks for."""
    return blocks.repaired(block[:at] + bytes([value]) + block[at + 1 :])


def with_word(block, at, word):
    return blocks.repaired(block[: 8 * at] + struct.pack("<Q", word) + block[8 * at + 8 :])


def by_python(data, words):
    """What a call gives, made by arms.py: refusal, find's numbers by their bits, the bytes after it."""
    number = int(words[1]) if len(words) > 1 else None
    found = None
    try:
        if words[0] == "put":
            arm = [] if words[2] == "-" else [int(word, 16) for word in words[2].split(",")]
            return 0, None, arms.put(data, number, arm)
        if words[0] == "find":
            found = (0,) * 39
            return 0, arms.find(data, number).words, data
        if words[0] == "take_out":
            return 0, None, arms.take_out(data, number)
        return 0, None, arms.compact(data)
    except arms.Refused as refused:
        return refused.refusal, found, data


class Library:
    """The library's calls, through a shared object that is linked from the static library."""

    def __init__(self, folder):
        shared = pathlib.Path(folder) / "libsaihkeb.so"
        words = ["-shared", "-o", shared, "-Wl,--whole-archive", LIBRARY, "-Wl,--no-whole-archive", "-lm"]
        subprocess.run([shutil.which("cc"), *words], check=True, capture_output=True)
        self.calls = ctypes.CDLL(str(shared))

    def has_arms(self):
        return hasattr(self.calls, "saihkeb_arms_put_lent")

    def run(self, data, words):
        """The same as by_python."""
        # A pointer to no bytes is no null pointer.
        buffer = (ctypes.c_uint8 * max(1, len(data))).from_buffer_copy(data or bytes(1))
        call = getattr(self.calls, f"saihkeb_arms_{words[0]}_lent")
        call.restype = ctypes.c_uint64
        given = [buffer, ctypes.c_size_t(len(data))] + [ctypes.c_uint8(int(word)) for word in words[1:2]]
        found = None
        if words[0] == "put":
            arm = [] if words[2] == "-" else [int(word, 16) for word in words[2].split(",")]
            given += [(ctypes.c_uint64 * max(1, len(arm)))(*arm), ctypes.c_size_t(len(arm))]
        elif words[0] == "find":
            found = (ctypes.c_uint64 * 39)(*[NAN] * 39)
            given.append(found)
        refusal = call(*given)
        return refusal, found and tuple(found), bytes(buffer)[: len(data)]


def oracle(*words, text=""):
    done = subprocess.run([ORACLE, *map(str, words)], input=text, capture_output=True, check=True, text=True)
    return done.stdout


def sequences(text):
    """The files of such lines, each with the words of its calls."""
    found = []
    for line in text.splitlines():
        words = line.split()
        if words[0] == "file":
            found.append((b"" if words[1] == "-" else bytes.fromhex(words[1]), []))
        else:
            found[-1][1].append(words)
    return found


class AgainstOthers(unittest.TestCase):
    @unittest.skipUnless(ORACLE.exists(), "the reference program is not built")
    def test_reference_program(self):
        seen, refusals = 0, set()
        for seed in range(4):
            text = oracle("generate-arms", seed, 100)
            lines = iter(oracle("arms", "--bytes", text=text).splitlines())
            for data, calls in sequences(text):
                self.assertEqual(int(next(lines).split()[-1]), by_python(data, ["find", "0"])[0])
                for words in calls:
                    refusal, found, data = by_python(data, words)
                    arm = " arm " + ",".join(f"{word:016x}" for word in found) if found else ""
                    got = f" {words[0]} refusal {refusal}{arm} buffer {data.hex() or '-'}"
                    wanted = next(lines)
                    self.assertTrue(wanted.endswith(got), (words[:2], wanted[:60], got[:60]))
                    seen += 1
                    refusals.add(refusal)
            self.assertIsNone(next(lines, None))
        self.assertGreater(seen, 15_000)
        self.assertEqual(refusals, {0, 1, 2, 3, 5, 8, 13, 14, 15})

    @unittest.skipUnless(LIBRARY.exists() and shutil.which("cc") and ORACLE.exists(), "no library, or no cc")
    def test_library(self):
        with tempfile.TemporaryDirectory() as folder:
            library = Library(folder)
            if not library.has_arms():
                self.skipTest("the library has no calls on a file of arms")
            seen = 0
            for data, calls in sequences(oracle("generate-arms", 9, 400)):
                for words in calls:
                    wanted = by_python(data, words)
                    self.assertEqual(library.run(data, words), wanted, words[:2])
                    data = wanted[2]
                    seen += 1
            self.assertGreater(seen, 15_000)


class Judging(unittest.TestCase):
    def faults(self, data):
        return [str(fault) for fault in arms.judge(data)[1]]

    def test_good_files(self):
        for data in (b"", file_of(0), file_of(7), file_of(0, 7, 0, 255), file_of(*range(1, 256))):
            self.assertEqual(self.faults(data), [])
            self.assertEqual([arm.number for arm in arms.valid(data)],
                             [number for number in data[::512] if number])

    def test_short(self):
        text = "the file ends within it, after 1 byte of 512: its length is no multiple of 512 (refusal 1)"
        self.assertEqual(self.faults(file_of(7, 0) + b"\0"), ["block 2: " + text])
        for length in (1, 511, 513, 1000):
            self.assertEqual(arms.judge(bytes(length))[1][-1].refusal, 1)

    def test_check(self):
        data = bytearray(file_of(0, 7))
        data[512 + 504] ^= 1
        fault, = self.faults(bytes(data))
        self.assertRegex(fault, r"^block 1: it is damaged: its check word is [0-9a-f]{16}, and the sum of its"
                                r" other words [0-9a-f]{16} \(refusal 2\)$")

    def test_reserved(self):
        for at in (1, 7, 320, 503):
            fault, = self.faults(with_byte(held(9), at, 5))
            self.assertTrue(fault.startswith(f"block 0: byte {at} is 5, where an arm's block has 0"), fault)
            self.assertTrue(fault.endswith("(refusal 3)"))
        pose = blocks.make(6, 200, [0.5] * 39, [0.25] * 12)
        self.assertIn("It looks like a pose block (refusal 3)", self.faults(pose)[0])
        limits = blocks.make_limits([1.0] * 12)
        self.assertIn("It looks like a limits block (refusal 3)", self.faults(limits)[0])

    def test_not_finite(self):
        for place, name in ((0, "the x of h1"), (5, "the z of h2"), (18, "the x of p0"), (38, "the z of p6")):
            for word, text in ((NAN, "not a number"), (INFINITY, "infinite"), (INFINITY | 1, "not a number"),
                               (INFINITY | 1 << 63, "infinite")):
                fault, = self.faults(with_word(held(9), 1 + place, word))
                self.assertEqual(fault, f"block 0: its arm has a number that is {text}: {name} (refusal 8)")

    def test_numbers(self):
        self.assertEqual(self.faults(with_word(held(9), 0, 0)),
                         ["block 0: it is not empty, and its number is 0 (refusal 13)"])
        self.assertEqual(self.faults(file_of(0, 7, 8, 7)),
                         ["block 3: its number is 7, which block 1 has already (refusal 13)"])

    def test_the_first_decides_and_all_are_told(self):
        bad = [with_byte(held(1), 5, 1), with_word(held(2), 3, NAN), with_word(held(3), 0, 0), held(9)[:100]]
        data = file_of(4) + b"".join(bad)
        self.assertEqual([fault.refusal for fault in arms.judge(data)[1]], [3, 8, 13, 1])
        with self.assertRaises(arms.Damaged) as refused:
            arms.put(data, 0, [])
        self.assertEqual(refused.exception.refusal, 3)
        self.assertTrue(str(refused.exception).startswith("4 blocks have a fault, and every call gives refusal 3\n"))


class Commands(unittest.TestCase):
    def setUp(self):
        folder = tempfile.TemporaryDirectory()
        self.addCleanup(folder.cleanup)
        self.folder = pathlib.Path(folder.name)
        self.file = str(self.folder / "site.arms")

    def run_arms(self, *words):
        """Exit status, standard output and standard error, the file's name left out."""
        out, err = io.StringIO(), io.StringIO()
        with contextlib.redirect_stdout(out), contextlib.redirect_stderr(err):
            try:
                status = arms.main(list(map(str, words)))
            except SystemExit as ended:
                status = ended.code
        return status, *(text.getvalue().replace(self.file, "FILE") for text in (out, err))

    def data(self):
        return pathlib.Path(self.file).read_bytes()

    def store(self, data):
        pathlib.Path(self.file).write_bytes(data)

    def refused(self, *words):
        """The message of a refusal, which leaves the file as it was, and nothing beside it."""
        before = self.data()
        status, _, err = self.run_arms(*words)
        self.assertEqual((status, self.data()), (1, before))
        self.assertEqual([path.name for path in self.folder.iterdir()], ["site.arms"])
        return err

    def test_make(self):
        self.assertEqual(self.run_arms("make", self.file, 3), (0, "FILE: made, 3 blocks, all empty\n", ""))
        self.assertEqual(self.data(), bytes(1536))
        status, _, err = self.run_arms("make", self.file, 4)
        self.assertEqual((status, err), (2, "arms: FILE is there already, and is left as it is\n"))
        self.assertEqual(self.data(), bytes(1536))
        self.assertEqual([path.name for path in self.folder.iterdir()], ["site.arms"])

    def test_make_for_more_than_there_are_numbers(self):
        status, _, err = self.run_arms("make", self.file, 256)
        self.assertEqual(status, 0)
        self.assertEqual(err, "note: numbers go from 1 to 255, so a file holds at most 255 arms\n")

    def test_a_day(self):
        self.run_arms("make", self.file, 3)
        status, out, err = self.run_arms("add", self.file, 7, SHEET)
        self.assertEqual((status, err), (0, ""))
        self.assertEqual(out, "FILE: number 7 added, in block 0; 3 blocks, 1 arm, 2 empty\n"
                              "Write down beside the number: family 1. The file does not keep it.\n")
        status, out, _ = self.run_arms("add", self.file, 255, TOOLS / "example6.sheet")
        self.assertIn("FILE: number 255 added, in block 1; 3 blocks, 2 arms, 1 empty\n", out)
        self.assertIn("family 6 and n 200.", out)
        self.assertEqual(self.run_arms("list", self.file), (0, """FILE: 3 blocks, 2 arms, 1 empty
number  block  offsets  axes
     7      0    1.847  z y y z y z
   255      1    1.471  z y y x y x
offsets: the sum of their lengths, in the unit of the arm's sheet
""", ""))
        self.assertEqual(self.run_arms("remove", self.file, 7)[1], "FILE: number 7 removed; 3 blocks, 1 arm, 2 empty\n")
        self.assertEqual(self.data()[:512], bytes(512))
        self.assertEqual(self.run_arms("compact", self.file)[1], "FILE: compacted; 3 blocks, 1 arm, 2 empty\n")
        self.assertEqual(self.data()[0], 255)
        self.assertEqual(self.data()[512:], bytes(1024))
        self.assertEqual(self.run_arms("grow", self.file, 2)[1], "FILE: 5 blocks, 1 arm, 4 empty\n")
        self.assertEqual(len(self.data()), 5 * 512)

    def test_the_arm_of_a_sheet(self):
        self.run_arms("make", self.file, 1)
        self.run_arms("add", self.file, 3, SHEET)
        arm = sheet.parse(SHEET.read_text()).arm
        block = blocks.repaired(struct.pack("<Q39d", 3, *sheet.arm_numbers(arm)) + bytes(8 * 24))
        self.assertEqual(self.data(), block)

    def test_show_makes_a_sheet(self):
        self.store(file_of(0, 9))
        status, out, _ = self.run_arms("show", self.file, 9)
        again = self.folder / "again.sheet"
        again.write_text("family 3\n" + out)
        other = str(self.folder / "other.arms")
        self.run_arms("make", other, 1)
        self.assertEqual((status, self.run_arms("add", other, 9, again)[0]), (0, 0))
        self.assertEqual(pathlib.Path(other).read_bytes(), file_of(9))

    def test_a_sheet_without_poses(self):
        self.run_arms("make", self.file, 1)
        text = SHEET.read_text()
        bare = self.folder / "bare.sheet"
        bare.write_text(text[: text.index("\npose")] + "\n")
        self.assertEqual(self.run_arms("add", self.file, 1, bare)[0], 0)

    def test_sheets_that_are_refused(self):
        self.run_arms("make", self.file, 1)
        status, _, err = self.run_arms("add", self.file, 1, TOOLS / "example_track.sheet")
        self.assertEqual(status, 2)
        self.assertIn("the arm has seven axes, and a file of arms is for arms of six", err)
        bad = self.folder / "bad.sheet"
        bad.write_text("family 1\nh1 0 0\n")
        status, _, err = self.run_arms("add", self.file, 1, bad)
        self.assertEqual(status, 2)
        self.assertIn("line 2: h1 takes 3 numbers, and here are 2", err)
        status, _, err = self.run_arms("add", self.file, 1, self.folder / "none.sheet")
        self.assertEqual(status, 2)
        self.assertIn("No such file", err)
        self.assertEqual(self.data(), bytes(512))

    def test_notes_on_the_arm(self):
        self.run_arms("make", self.file, 1)
        odd = self.folder / "odd.sheet"
        odd.write_text(SHEET.read_text().replace("h2   0 1 0", "h2   0 2 0"))
        status, _, err = self.run_arms("add", self.file, 1, odd)
        self.assertEqual(status, 0)
        self.assertIn("note: h2 has length 2, not 1", err)
        self.assertIn("; it is kept as it is\n", err)

    def test_refusals_of_the_calls(self):
        self.store(file_of(7, 9))
        self.assertEqual(self.refused("add", self.file, 7, SHEET), "arms: FILE: number 7 is held already, in block 0;"
                                                                   " 'remove' takes it out (refusal 13)\n")
        self.assertEqual(self.refused("add", self.file, 8, SHEET),
                         "arms: FILE: no block is empty: all 2 hold an arm; 'grow' makes room (refusal 15)\n")
        for command in ("remove", "show"):
            self.assertEqual(self.refused(command, self.file, 8), "arms: FILE: no arm of number 8 is held (refusal 14)\n")
        self.store(b"")
        self.assertEqual(self.refused("add", self.file, 8, SHEET),
                         "arms: FILE: the file has no block; 'grow' makes room (refusal 15)\n")

    def test_every_command_refuses_a_damaged_file(self):
        self.store(file_of(7) + with_byte(held(9), 2, 1) + b"x")
        told = ("arms: FILE: 2 blocks have a fault, and every call gives refusal 3\n"
                "arms: block 1: byte 2 is 1, where an arm's block has 0 (refusal 3)\n"
                "arms: block 2: the file ends within it, after 1 byte of 512: its length is no multiple of 512"
                " (refusal 1)\n")
        for words in (["show", 7], ["add", 8, SHEET], ["remove", 7], ["compact"], ["grow", 1], ["list"]):
            self.assertEqual(self.refused(words[0], self.file, *words[1:]), told)

    def test_what_is_whole_of_a_damaged_file_is_listed(self):
        self.store(file_of(7) + with_byte(held(9), 2, 1) + file_of(12))
        status, out, _ = self.run_arms("list", self.file)
        self.assertEqual(status, 1)
        self.assertTrue(out.startswith("FILE: what its other blocks hold:\nnumber"), out)
        self.assertEqual([line.split()[:2] for line in out.splitlines()[2:-1]], [["7", "0"], ["12", "2"]])
        self.store(b"x")
        self.assertEqual(self.run_arms("list", self.file)[1], "FILE: no arm can be read\n")

    def test_empty_files(self):
        self.store(file_of(0, 0))
        self.assertEqual(self.run_arms("list", self.file), (0, "FILE: 2 blocks, 0 arms, 2 empty\n", ""))
        self.store(b"")
        self.assertEqual(self.run_arms("list", self.file), (0, "FILE: 0 blocks, 0 arms, 0 empty\n", ""))

    def test_axes_in_words(self):
        self.assertEqual(arms.axis_in_words((0.0, -1.0, -0.0)), "-y")
        self.assertEqual(arms.axis_in_words((1.0, 0.0, 0.0)), "x")
        self.assertEqual(arms.axis_in_words((0.6, 0.0, 0.8)), "(0.6 0 0.8)")

    def test_readme(self):
        """README's example: each command with what it prints."""
        text = (blocks.ROOT / "README.md").read_text()
        begin = text.index("$ tools/arms.py make")
        example = text[begin : text.index("```", begin)]
        shown = ""
        for line in example.splitlines():
            if line.startswith("$ "):
                words = [word.replace("hall3.arms", self.file) for word in line.split()[2:]]
                words = [str(blocks.ROOT / word) if word.endswith(".sheet") else word for word in words]
                status, out, err = self.run_arms(*words)
                self.assertEqual((status, err), (0, ""))
                shown += line + "\n" + out.replace("FILE", "hall3.arms")
        self.assertEqual(shown, example)

    def test_command_lines(self):
        self.run_arms("make", self.file, 1)
        for words in ([], ["lose", self.file], ["list"], ["add", self.file, "7"], ["add", self.file, "0", SHEET],
                      ["add", self.file, "256", SHEET], ["remove", self.file, "-1"], ["remove", self.file, "7.0"],
                      ["make", self.file + "2", "0"], ["make", self.file + "2", "two"], ["grow", self.file, "-3"],
                      ["make", self.file + "2", "1000001"], ["list", self.file, "more"]):
            self.assertEqual(self.run_arms(*words)[0], 2, words)
        self.assertEqual([path.name for path in self.folder.iterdir()], ["site.arms"])
        status, out, _ = self.run_arms("--help")
        self.assertEqual((status, out), (0, arms.__doc__))

    def test_a_file_that_is_not_there(self):
        status, _, err = self.run_arms("list", self.file)
        self.assertEqual((status, err), (2, "arms: FILE: No such file or directory\n"))
        status, _, err = self.run_arms("make", self.folder / "none" / "site.arms", 1)
        self.assertEqual(status, 2)
        self.assertIn("No such file or directory; nothing was changed", err)

    def test_a_link_stays_one_and_the_mode_stays(self):
        real = self.folder / "real.arms"
        real.write_bytes(file_of(7, 0))
        real.chmod(0o640)
        os.symlink(real, self.file)
        self.assertEqual(self.run_arms("remove", self.file, 7)[0], 0)
        self.assertTrue(os.path.islink(self.file))
        self.assertEqual((real.read_bytes(), real.stat().st_mode & 0o777), (bytes(1024), 0o640))

    def test_a_write_that_fails_changes_nothing(self):
        self.store(file_of(7))
        before, kept = self.data(), os.replace

        def fails(*_):
            raise OSError(28, "No space left on device")

        os.replace = fails
        try:
            status, _, err = self.run_arms("remove", self.file, 7)
        finally:
            os.replace = kept
        self.assertEqual((status, err), (2, "arms: FILE: No space left on device; nothing was changed\n"))
        self.assertEqual(self.data(), before)
        self.assertEqual([path.name for path in self.folder.iterdir()], ["site.arms"])


if __name__ == "__main__":
    unittest.main()
