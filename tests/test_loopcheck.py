"""The program loopcheck on inputs of many lengths, and with a version of A. test_versions.py has outside blocks for it."""
import os
import struct
import subprocess
import unittest

from common import ROOT

PROGRAM = os.path.join(ROOT, 'target', 'bin', 'loopcheck')
# lr.w x6,(x5); jalr x0,0(x1); sc.w x7,x8,(x5)
WITH_JALR = struct.pack('<3I', 0x1002a32f, 0x00008067, 0x1882a3af)


@unittest.skipUnless(os.path.exists(PROGRAM), 'target/bin/loopcheck is not built')
class Loopcheck(unittest.TestCase):
    def line(self, given, *args):
        done = subprocess.run([PROGRAM, *args], input=given, capture_output=True)
        self.assertEqual((done.returncode, done.stderr), (0, b''))
        return done.stdout

    def test_lengths(self):
        for length in [0, 4, 68, 65532, 65536, 65540, 131072, 1000000]:
            for args, refused in [((), b'refused 6\n'), (('20',), b'refused 6\n'), (('21',), b'refused 6\n'), (('22',), b'refused 2\n')]:
                self.assertEqual(self.line(bytes(length), *args), refused)
                for more in [1, 2, 3]:
                    self.assertEqual(self.line(bytes(length + more), *args), b'bad input: length is not a multiple of 4\n')

    def test_zeros(self):
        self.assertEqual(self.line(bytes(8)), b'rejected 0 1\n')

    def test_versions(self):
        for args, line in [((), b'rejected 1 2\n'), (('21',), b'rejected 1 2\n'), (('20',), b'accepted\n'), (('020',), b'accepted\n'),
                           (('0' * 100 + '21',), b'rejected 1 2\n')]:
            self.assertEqual(self.line(WITH_JALR, *args), line)

    def test_other_versions(self):
        """A decimal number of any length is one."""
        for number in [0, 1, 2, 19, 22, 200, 210, 999, 1000, 1020, 10021, 2**8 + 20, 2**16 + 21, 2**32 + 20, 2**64 + 20, 2**64 - 1, 10**100 + 20]:
            self.assertEqual(self.line(WITH_JALR, str(number)), b'refused 2\n')

    def test_use(self):
        """What is no decimal number, and more than two arguments, get no answer."""
        for args in [[''], [' '], ['x'], ['2x'], ['x20'], ['-20'], ['+20'], [' 20'], ['20 '], ['20\n'], ['2.0'], ['0x14'], ['2_0'], ['\u0662\u0660'],
                     ['20', ''], ['', '20'], ['20', 'x'], ['21', '-1'], ['20', '0', '0'], ['--help'], ['x' * 100000]]:
            done = subprocess.run([PROGRAM, *args], input=WITH_JALR, capture_output=True)
            self.assertEqual((done.returncode, done.stdout, done.stderr), (0, b'', b'use: loopcheck [VERSION [KIND]] < WORDS\n'), args)

    def test_kinds(self):
        """The first word is read as the kind does: an LR.D is no LR of the 32-bit core; any other kind is refused, before the length."""
        words = b''.join(word.to_bytes(4, 'little') for word in (0x1002B32F, 0x1882B3AF))
        for args, answer in ((['21'], b'accepted\n'), (['21', '0'], b'accepted\n'), (['21', '1'], b'rejected 0 1\n'), (['21', '001'], b'rejected 0 1\n'),
                             (['21', '2'], b'refused 2\n'), (['21', '32'], b'refused 2\n'), (['20', '21'], b'refused 2\n'), (['22', '1'], b'refused 2\n')):
            done = subprocess.run([PROGRAM, *args], input=words, capture_output=True)
            self.assertEqual((done.returncode, done.stdout, done.stderr), (0, answer, b''), args)
        self.assertEqual(subprocess.run([PROGRAM, '21', '2'], input=b'', capture_output=True).stdout, b'refused 2\n')
        self.assertEqual(subprocess.run([PROGRAM, '21', '1'], input=b'', capture_output=True).stdout, b'refused 6\n')
