"""What the tests of boards' logs share: rows, a program that answers for logs, and a folder with a case."""
import os
import shutil
import sys
import tempfile
import unittest

from common import EXAMPLE, EXAMPLE_LINES, NIGHTLY, command

LR, SC = 0x1002a32f, 0x1882a3af         # lr.w x6,(x5) and sc.w x7,x8,(x5), as the example has them at 0 and 4


def row(hart, pc, word, rd, value):
    return b'%d %016x %08x %02d %016x\n' % (hart, pc, word, rd, value)


# The log of a right board for the example: hart 1's SC stores, hart 0's fails.
RIGHT = [row(0, 0, LR, 6, 0), row(1, 0, LR, 6, 0), row(1, 4, SC, 7, 0), row(0, 4, SC, 7, 1)]
AGREED = 'log 4 rows\nagreed 4\nend 4\n'
STOPPED = 'log 4 rows\nrow 3 value 0000000000000000 0000000000000001\nend 3\n'
DIFFERENT = RIGHT[:3] + [row(0, 4, SC, 7, 0)]

# A program that knows the answer for each log, and finds a value that is changed in a copy of one; EDIT changes what it does.
FAKE = '''#!%s -SE
import os, sys, time
case, log, *settings = sys.argv[1:]         # with a settings file, that and a board
name = os.path.basename(log)
rows, right = open(log, 'rb').read(), open(os.path.join(os.path.dirname(case), name), 'rb').read()
out = %r.get(name, %r)
found = [k for k in range(len(rows) // 48) if rows[48 * k:48 * k + 48] != right[48 * k:48 * k + 48]]
%s
if found:
    k = found[0]
    out = 'log %%d rows\\nrow %%d value %%s %%s\\nend %%d\\n' %% (
        len(rows) // 48, k, rows[48 * k + 31:48 * k + 47].decode(), right[48 * k + 31:48 * k + 47].decode(), k)
sys.stdout.write(out)
'''


def write(path, content):
    with open(path, 'wb') as file:
        file.write(content)


class LogsCase(unittest.TestCase):
    """A folder with the example as lock.case, and a program that answers for it."""

    def setUp(self):
        self.top = tempfile.mkdtemp()
        self.addCleanup(shutil.rmtree, self.top)
        self.folder, self.page = os.path.join(self.top, 'cases'), os.path.join(self.top, 'page')
        self.counts = os.path.join(self.top, 'counts.json')
        os.mkdir(self.folder)
        self.program, self.answers = os.path.join(self.top, 'program'), {}
        self.script(self.program, '#!/bin/sh\ncat %s\n' % EXAMPLE_LINES)
        self.case('lock')

    def script(self, path, text):
        write(path, text.encode())
        os.chmod(path, 0o755)

    def case(self, name):
        shutil.copy(EXAMPLE, os.path.join(self.folder, name + '.case'))

    def log(self, name, rows=RIGHT, answer=AGREED):
        write(os.path.join(self.folder, name + '.log'), b''.join(rows))
        self.answers[name + '.log'] = answer

    def three(self):
        """Three cases, and a stray: a.case with two boards of which one differs, b.case without a log, lock.case with a right board."""
        self.case('a')
        self.case('b')
        self.log('a.b7', DIFFERENT, STOPPED)
        self.log('a.b9')
        self.log('lock')
        self.log('lost')

    def night(self, *args, edit='pass', folder=None):
        """(exit status, the text page's lines, standard error)."""
        replay = os.path.join(self.top, 'replay')
        self.script(replay, FAKE % (sys.executable, self.answers, AGREED, edit))
        status, out, err = command(NIGHTLY, folder or self.folder, '--program', self.program, '--replay', replay, *args)
        return status, out.decode().splitlines(), err

    def assert_not_clean(self, verdict, lines, *args, edit='pass'):
        """A night that isn't clean: how its verdict starts, and the first lines below it."""
        status, page, err = self.night(*args, edit=edit)
        self.assertEqual(status, 1, err)
        self.assertEqual(page[2][:len(verdict) + 11], 'not clean: ' + verdict)
        self.assertEqual(page[4:4 + len(lines)], lines)
        return page
