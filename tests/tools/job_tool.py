#!/usr/bin/env python3
"""Tests of tools/job.py: the bytes it writes, round trips on seeded files, every error, and any bytes at all.

Usage: job_tool.py [PROGRAM]. With a job program, its answers are held against what the tool says of seeded files.
"""

import pathlib
import random
import re
import struct
import subprocess
import sys
import tempfile
import unittest

TOOL = pathlib.Path(__file__).resolve().parents[2] / "tools" / "job.py"
sys.dont_write_bytecode = True
sys.path.insert(0, str(TOOL.parent))

import job  # noqa: E402
import job_file  # noqa: E402

WHOLE = "route 1 modulus 7 order 4 outer 1 2 3 inner 0 1 1"
WHOLE_FILE = struct.pack("<13I", 1, 7, 4, 3, 28, 3, 40, 1, 2, 3, 0, 1, 1)
# above 2^31: the first, and the last two below 2^32
LARGE_PRIMES = (2147483659, 4294967279, 4294967291)
PROGRAM = None


def run(*arguments, words=b""):
    """The exit status, standard output and standard error of the tool."""
    done = subprocess.run([sys.executable, "-SB", TOOL, *arguments], input=words, capture_output=True)
    return done.returncode, done.stdout, done.stderr.decode()


def written(words):
    return job.file_of(job.tokens_of_lines(words))


def shown(file):
    return "\n".join(job_file.words_of(file))


def plain_file(source):
    """A seeded file in the plain layout, accepted or not."""
    modulus = source.choice([0, 1, 2, 6, 7, 7, 2**31 - 1, 2**31, *LARGE_PRIMES, 4294967289, 2**32 - 1])
    most = source.choice([1, max(modulus, 1), max(modulus, 1), 2**32])
    counts = [source.choice([0, 1, 2, 3, 5, 63, 64, 65]) for _ in range(2)]
    outer, inner = ([source.randrange(most) for _ in range(count)] for count in counts)
    first = [source.choice([0, 1, 2, 3, 4, 5]), modulus, source.choice([0, 1, 3, 4, 64, 65])]
    header = [*first, len(outer), 28, len(inner), 28 + 4 * len(outer)]
    return struct.pack(f"<{7 + len(outer) + len(inner)}I", *header, *outer, *inner)


def other_file(source):
    """A seeded file with any layout: overlaps, spare bytes, lists out of place."""
    small = lambda: source.choice([0, 1, 2, 3, 5, 5, 64, 65 if source.randrange(4) else source.getrandbits(32)])
    offset = lambda: source.choice([27, 28, 28, 29, 30, 32, 40, 60, source.randrange(28), source.getrandbits(32)])
    header = [source.randrange(6), source.choice([2, 5, 7, 251, 2**31 - 1, *LARGE_PRIMES]), source.choice([1, 3, 8, 64, 65])]
    header += [small(), offset(), small(), offset()]
    return struct.pack("<7I", *header) + source.randbytes(source.choice([0, 1, 12, 40, 300, 4068, 4069]))


class Written(unittest.TestCase):
    def test_whole_case(self):
        self.assertEqual(len(WHOLE_FILE), 52)
        self.assertEqual(run("write", "-", *WHOLE.split()), (0, WHOLE_FILE, ""))
        self.assertEqual(run("write", "-", WHOLE), (0, WHOLE_FILE, ""))
        lines = b"# the whole case\nroute horner # by name\nmodulus 7\norder 4\n\nouter 1 2\n  3\ninner 0 1 1\n"
        self.assertEqual(run("write", "-", words=lines), (0, WHOLE_FILE, ""))
        self.assertEqual(run("write", "-", "inner 0 1 1 outer 1 2 3 order 4 modulus 7 route 1"), (0, WHOLE_FILE, ""))

    def test_file(self):
        with tempfile.TemporaryDirectory() as room:
            path = pathlib.Path(room) / "whole.job"
            self.assertEqual(run("write", path, *WHOLE.split()), (0, b"", ""))
            self.assertEqual(path.read_bytes(), WHOLE_FILE)
            self.assertEqual(run("write", path, "route")[0], 2)
            self.assertEqual(path.read_bytes(), WHOLE_FILE, "wrong words leave the file")
            status, out, error = run("show", path)
            self.assertEqual((status, error), (0, ""))
            self.assertEqual(out, b"route 1  # horner\nmodulus 7\norder 4\nouter 1 2 3\ninner 0 1 1\n")

    def test_names_of_routes(self):
        for route, name in enumerate(["horner", "ranged", "bernstein", "kinoshita-li"], 1):
            self.assertEqual(written(WHOLE.replace("route 1", f"route {name}"))[:4], struct.pack("<I", route))

    def test_primes_above_2_to_the_31(self):
        for prime in LARGE_PRIMES:
            words = WHOLE.replace("modulus 7", f"modulus {prime}")
            self.assertEqual(run("write", "-", words), (0, WHOLE_FILE[:4] + struct.pack("<I", prime) + WHOLE_FILE[8:], ""))

    def test_layouts(self):
        begin = "route 1 modulus 7 order 4 "
        overlapping = written(begin + "outer 1 2 3 inner 2 3 inner-offset 32")
        self.assertEqual(overlapping, struct.pack("<10I", 1, 7, 4, 3, 28, 2, 32, 1, 2, 3))
        empty = written(begin + "outer inner outer-offset 4294967295 inner-offset 0")
        self.assertEqual(empty, struct.pack("<7I", 1, 7, 4, 0, 2**32 - 1, 0, 0))
        spare = written(begin + "outer 5 inner spare 33 255 1")
        self.assertEqual(spare, struct.pack("<8I", 1, 7, 4, 1, 28, 0, 32, 5) + b"\0\xff\1")
        stated = written(begin + "outer-count 3 inner-count 4294967295")
        self.assertEqual(stated, struct.pack("<7I", 1, 7, 4, 3, 28, 2**32 - 1, 40))

    def test_refused_jobs_are_written_with_a_note(self):
        for words, number, why in [
            (WHOLE.replace("route 1", "route 9"), 1, "the route is 9"),
            (WHOLE.replace("modulus 7", "modulus 6"), 2, "the modulus 6 is no prime"),
            (WHOLE.replace("modulus 7", "modulus 4294967295"), 2, "the modulus 4294967295 is no prime"),
            (WHOLE.replace("order 4", "order 0"), 3, "the order is 0"),
            (WHOLE.replace("0 1 1", "0 7 1"), 8, "the inner coefficient of power 1 is 7, not below the modulus 7"),
            (WHOLE.replace("order 4", "order 65"), 12, "the order is 65, more than 64"),
            (WHOLE + " spare 4096 0", 12, "the file has 4097 bytes, more than 4096"),
        ]:
            status, out, error = run("write", "-", words)
            self.assertEqual((status, out), (0, written(words)))
            self.assertIn(f"job.py: note: the job program answers 'no {number}': ", error)
            self.assertIn(why, error)


class Shown(unittest.TestCase):
    def test_round_trips(self):
        source = random.Random(1)
        for file in [make(source) for make in (plain_file, other_file) for _ in range(400)]:
            self.assertEqual(written(shown(file)), file)
        for _ in range(300):
            self.assertNotIn("offset", shown(plain_file(source)))

    def test_round_trip_through_pipes(self):
        longest = struct.pack("<7I", 1, 7, 4, 0, 0, 0, 0) + b"\xff" * (65536 - 28)
        for file in (WHOLE_FILE, WHOLE_FILE[:51], longest):
            self.assertEqual(run("write", "-", words=run("show", "-", words=file)[1])[1], file)

    def test_why_refused(self):
        cut = struct.pack("<13I", 1, 7, 4, 3, 28, 3, 44, 1, 2, 3, 0, 1, 1)
        early = struct.pack("<8I", 1, 7, 4, 1, 27, 0, 0, 0)
        for file, line in [
            (cut, "# no 13: the inner list of 3 numbers at byte 44 ends at byte 56, the file has 52 bytes"),
            (early, "# no 13: the outer list of 1 number at byte 27 begins in the header, which ends at byte 28"),
            (WHOLE_FILE[:27], "# no 13: the file has 27 bytes, its header would have 28"),
            (b"", "# no 13: the file has 0 bytes, its header would have 28"),
            (struct.pack("<7I", 9, 6, 64, 64, 0, 65, 0), "# no 12: the inner count is 65, more than 64"),
            (bytes(4097), "# no 12: the file has 4097 bytes, more than 4096"),
        ]:
            status, out, error = run("show", "-", words=file)
            self.assertEqual((status, error, out.decode().splitlines()[-1]), (1, "", line))

    def test_any_bytes(self):
        source = random.Random(2)
        for count in [*range(40), *(source.randrange(6000) for _ in range(20)), 65536, 65537]:
            status, _, error = run("show", "-", words=source.randbytes(count))
            self.assertIn(status, (0, 1))
            self.assertNotIn("Traceback", error)
        for _ in range(40):
            status, _, error = run("write", "-", words=source.randbytes(source.randrange(200)))
            self.assertEqual(status, 2)
            self.assertTrue(error.startswith("job.py: ") and error.count("\n") == 1, error)

    def test_answers_of_the_job_program(self):
        if PROGRAM is None:
            self.skipTest("no job program was given")
        source = random.Random(3)
        files = [make(source) for make in (plain_file, other_file) for _ in range(500)]
        for file in [*files, WHOLE_FILE, *(WHOLE_FILE[:count] for count in range(52))]:
            printed = subprocess.run([PROGRAM], input=file, capture_output=True).stdout.decode().split()
            number = int(printed[1]) if printed[0] == "no" else 0
            self.assertEqual(job_file.refusal(file)[0], number, shown(file) if len(file) >= 28 else file)


class Errors(unittest.TestCase):
    def wrong(self, words, *parts):
        """The words are refused, with one line that holds these parts."""
        status, out, error = run("write", "-", words=words.encode())
        self.assertEqual((status, out, error.count("\n")), (2, b"", 1), error)
        for part in ("job.py: ", "expected", *parts):
            self.assertIn(part, error)

    def test_words(self):
        lines = re.sub(" ([a-z])", r"\n\1", WHOLE)
        self.assertEqual(written(lines), WHOLE_FILE)
        self.assertEqual(run("write", "-", words=b"\xef\xbb\xbf" + lines.replace("\n", "\r\n").encode()), (0, WHOLE_FILE, ""))
        self.wrong("", "missing: route, modulus, order, outer, inner")
        self.wrong(lines.replace("order 4", ""), "missing: order;")
        self.wrong(lines.replace("order", "ordre"), "line 3: unknown word 'ordre' (perhaps order?)")
        self.wrong("7\n" + lines, "line 1: '7' stands before any word")
        self.wrong(lines + "\norder 4", "line 6: order is given twice, first at line 3")
        self.wrong(lines.replace("order 4", "order"), "line 3: order has no values; expected one number")
        self.wrong(lines.replace("order 4", "order 4 5"), "line 3: order has 2 values; expected one number")
        self.wrong(lines.replace("1 2 3", "1 x 3"), "line 4: unknown word 'x' after outer; expected a number")
        self.wrong(lines.replace("route 1", "route honer"), "line 1: route has the unknown name 'honer'", "horner")
        self.wrong(lines + "\nouter-count 3", "line 6: outer-count stands in place of outer, given at line 4")

    def test_numbers(self):
        for token in ("4294967296", "9" * 5000):
            self.wrong(WHOLE.replace("7", token), "line 1: modulus has '", "does not fit 32 bits", "0 to 4294967295")
        for token in ("-1", "1.5", "0x10", "1_0", "+1", "\u0663", "1,"):
            self.wrong(WHOLE.replace("1 2 3", token), "line 1: outer has ", "a whole number from 0 to 4294967295")
        self.assertEqual(written(WHOLE.replace("7", "0" * 5000 + "7")), WHOLE_FILE)

    def test_layout(self):
        contradiction = "line 1: inner overlaps outer (line 1) and contradicts it: byte 36 is 3 there and 0 here"
        self.wrong(WHOLE + "\ninner-offset 36", contradiction)
        self.wrong(WHOLE + "\nouter-offset 24", "outer overlaps header and contradicts it: byte 24")
        self.wrong(WHOLE + "\nspare 52 1\nspare 50 0 0 2", "line 3: spare overlaps spare (line 2) and contradicts it: byte 52")
        self.wrong(WHOLE + "\nspare 52 256", "line 2: spare has '256', which is too large", "0 to 255")
        self.wrong(WHOLE + "\nspare 52", "line 2: spare has a place and no bytes")
        self.wrong(WHOLE + "\nouter-offset 4294967284", "missing: inner-offset", "byte 4294967296")
        self.wrong(WHOLE + "\nouter-offset 4000000000", "line 1: outer ends at byte 4000000012", "at most 65536")

    def test_use(self):
        for arguments, part in [
            ([], "no command; expected write or show"),
            (["wirte"], "unknown command 'wirte'; expected write or show"),
            (["write"], "write is not followed by a file"),
            (["write", *WHOLE.split()], "write is not followed by a file"),
            (["show"], "show is not followed by a file"),
            (["show", "a", "b"], "'b' stands after the file to show"),
            (["write", "-", *WHOLE.split(), "oder", "4"], "word 15: unknown word 'oder' (perhaps order?)"),
        ]:
            status, out, error = run(*arguments)
            self.assertEqual((status, out, error.count("\n")), (2, b"", 1), error)
            self.assertIn(part, error)

    def test_files(self):
        for arguments, part in [
            (["show", "/nowhere/file"], "cannot read '/nowhere/file': No such file"),
            (["show", "/"], "cannot read '/': Is a directory"),
            (["show", "/dev/zero"], "has more than 65536 bytes"),
            (["write", "/nowhere/file", WHOLE], "cannot write '/nowhere/file': No such file"),
            (["write", "/dev/full", WHOLE], "cannot write '/dev/full': No space left"),
        ]:
            status, _, error = run(*arguments)
            self.assertEqual((status, error.count("\n")), (1, 1), error)
            self.assertIn(part, error)

    def test_help(self):
        for arguments in (["--help"], ["-h"], ["write", "--help"]):
            status, out, error = run(*arguments)
            self.assertEqual((status, error), (0, ""))
            self.assertTrue(all(word in out.decode() for word in (*job.WORDS, *job_file.ROUTES)))


if __name__ == "__main__":
    if len(sys.argv) > 1 and not sys.argv[1].startswith("-"):
        PROGRAM = sys.argv.pop(1)
    unittest.main()
