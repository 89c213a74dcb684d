"""The blocks of the outside vectors of requests 7 and 10 of document 02 against the library and, those of request 7, the program loopcheck: those of
tests/vectors/07-versions.jsonl and 10-kind32.jsonl, whose other lines test_outside.py has, those of tests/vectors/07-loops.txt, which are checked under
A 2.0, and those of tests/vectors/10-loops.txt, which are checked for the 32-bit kind.

A line of 07-loops.txt and of 10-loops.txt is the words of a block in hex, ` | ` and the line that loopcheck writes.
"""
import ctypes
import os
import struct
import subprocess
import sys
import unittest

TESTS = os.path.dirname(os.path.abspath(__file__))
ROOT = os.path.dirname(TESTS)
sys.path.insert(0, TESTS)
import outside  # noqa: E402, it stands beside this file
from test_outside import BAD_SIZE, OTHER_KINDS, OTHER_VERSIONS, SO, buffer, library, loop_answered  # noqa: E402

LOOPS, LOOPS_32 = (os.path.join(TESTS, 'vectors', name) for name in ('07-loops.txt', '10-loops.txt'))
LOOPCHECK = os.path.join(ROOT, 'target', 'bin', 'loopcheck')

A_2_0, A_2_1 = 20, 21
RV64, RV32 = 0, 1            # the kinds of core


def as_bytes(words):
    return struct.pack('<%dI' % len(words), *words)


def has_jalr(words):
    return any(word & 0x707f == 0x67 for word in words)


def blocks_of_lines(file):
    """The blocks of a file of lines: the line's number, version and kind, the words and the answer."""
    for _, number, line in outside.lines(file):
        if line['call'] == 'loop':
            yield number, (outside.version(line), outside.kind(line)), outside.words(line), line['answer']


def blocks_of_text(path, settings):
    """The same of 07-loops.txt or 10-loops.txt."""
    with open(path, encoding='utf-8') as file:
        for number, line in enumerate(file, 1):
            words, answer = line.split('|')
            said, *numbers = answer.split()
            yield number, settings, [int(word, 16) for word in words.split()], [said, *map(int, numbers)]


def versions_blocks():
    return blocks_of_lines(outside.VERSIONS)


def kinds_blocks():
    return blocks_of_lines(outside.KINDS)


def loops_blocks():
    return blocks_of_text(LOOPS, (A_2_0, RV64))


def loops_32_blocks():
    return blocks_of_text(LOOPS_32, (A_2_1, RV32))


def every_block():
    return [*versions_blocks(), *loops_blocks(), *kinds_blocks(), *loops_32_blocks()]


class Blocks(unittest.TestCase):
    """Every block, of all files, by the library's functions."""

    @classmethod
    def setUpClass(cls):
        if not os.path.exists(SO):
            raise unittest.SkipTest('no %s: the command is in the first lines of test_outside.py' % SO)
        cls.library = library()
        cls.library.floecavern_check_loop.argtypes = [ctypes.POINTER(ctypes.c_uint8), ctypes.c_size_t]
        cls.library.floecavern_check_loop.restype = ctypes.c_uint64

    def check(self, version, kind, words):
        return self.library.floecavern_check_loop_for(version, kind, *buffer(as_bytes(words)))

    def each(self, blocks):
        for number, settings, words, answer in blocks:
            with self.subTest(line=number):
                self.assertEqual(self.check(*settings, words), loop_answered(answer))

    def test_versions(self):
        self.each(versions_blocks())

    def test_loops(self):
        self.each(loops_blocks())

    def test_kinds(self):
        self.each(kinds_blocks())

    def test_loops_of_32_bits(self):
        self.each(loops_32_blocks())

    def test_without_settings(self):
        """floecavern_check_loop is the check under 2.1 of the 64-bit kind."""
        for number, _, words, _ in every_block():
            with self.subTest(line=number, words=words):
                self.assertEqual(self.library.floecavern_check_loop(*buffer(as_bytes(words))), self.check(A_2_1, RV64, words))

    def test_accepted_by_both(self):
        """Accepted under 2.1 are exactly the blocks that are accepted under 2.0 and have no JALR; and there are some of each kind."""
        for kind in (RV64, RV32):
            seen = set()
            for number, _, words, _ in every_block():
                old, new, jalr = self.check(A_2_0, kind, words) == 0, self.check(A_2_1, kind, words) == 0, has_jalr(words)
                with self.subTest(kind=kind, line=number, words=words):
                    self.assertEqual(new, old and not jalr)
                seen.add((old, new, jalr))
            self.assertEqual(seen, {(True, True, False), (True, False, True), (False, False, False), (False, False, True)})

    def test_accepted_by_both_kinds(self):
        """What the 32-bit kind accepts the 64-bit kind accepts; not the other way round."""
        seen = set()
        for number, _, words, _ in every_block():
            wide, narrow = (self.check(A_2_1, kind, words) == 0 for kind in (RV64, RV32))
            with self.subTest(line=number, words=words):
                self.assertFalse(narrow and not wide)
            seen.add((wide, narrow))
        self.assertEqual(seen, {(True, True), (True, False), (False, False)})

    def test_other_settings(self):
        """Refused by 2, before 6, whatever the words; but a length that is no multiple of 4 is told first."""
        good, wrong = (A_2_0, A_2_1), [*((version, RV64) for version in OTHER_VERSIONS), *((A_2_1, kind) for kind in OTHER_KINDS), (22, 2)]
        for settings in wrong:
            for number, _, words, _ in loops_blocks():
                with self.subTest(settings=settings, line=number):
                    self.assertEqual(self.check(*settings, words), 2)
        for settings in [*((version, kind) for version in good for kind in (RV64, RV32)), *wrong]:
            for length in (1, 2, 3, 5, 7, 63, 65, 67):
                self.assertEqual(self.library.floecavern_check_loop_for(*settings, *buffer(bytes(length))), BAD_SIZE)


@unittest.skipUnless(os.path.exists(LOOPCHECK), 'target/bin/loopcheck is not built')
class Program(unittest.TestCase):
    """Every block of the 64-bit kind, of both files, by the program loopcheck."""

    def each(self, blocks):
        for number, (version, _), words, answer in blocks:
            with self.subTest(line=number):
                done = subprocess.run([LOOPCHECK, str(version)], input=as_bytes(words), capture_output=True)
                self.assertEqual((done.returncode, done.stdout.decode(), done.stderr), (0, ' '.join(map(str, answer)) + '\n', b''))

    def test_versions(self):
        self.each(versions_blocks())

    def test_loops(self):
        self.each(loops_blocks())


class Counts(unittest.TestCase):
    """What is run. This needs no library."""

    def test_blocks(self):
        self.assertEqual((len([*versions_blocks()]), len([*kinds_blocks()])), (60, 75))
        for blocks in (loops_blocks, loops_32_blocks):
            self.assertEqual([number for number, *_ in blocks()], list(range(1, 901)))

    def test_every_call_under_both(self):
        """Each call has lines of both versions, and of others."""
        calls = {line['call'] for _, _, line in outside.lines(outside.VERSIONS)}
        for call in calls:
            versions = {line['version'] for _, _, line in outside.lines(outside.VERSIONS) if line['call'] == call}
            self.assertTrue({A_2_0, A_2_1} < versions, call)

    def test_every_call_of_both_kinds(self):
        """Each call has lines of the 32-bit kind and of a number that is no kind; and those of the other files are of the 64-bit kind."""
        calls = {line['call'] for _, _, line in outside.lines(outside.KINDS)}
        for call in calls:
            kinds = {line['kind'] for _, _, line in outside.lines(outside.KINDS) if line['call'] == call}
            self.assertTrue(RV32 in kinds and kinds - {RV64, RV32}, call)
        self.assertEqual({outside.kind(line) for _, _, line in outside.lines(outside.SIZES, outside.VERSIONS)}, {RV64})


if __name__ == '__main__':
    unittest.main()
