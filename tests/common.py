"""What the tests share: the repository's files, and the outside cases in a folder of their own."""
import atexit
import os
import shutil
import subprocess
import sys
import tempfile
import unittest

ROOT = os.path.normpath(os.path.join(os.path.dirname(os.path.abspath(__file__)), '..'))
CASE, NIGHTLY, SETTINGS = (os.path.join(ROOT, 'tools', name) for name in ('case', 'nightly', 'settings'))
PROGRAM = os.path.join(ROOT, 'target', 'bin', 'floecavern')
EXAMPLE, EXAMPLE_LINES = os.path.join(ROOT, 'crates', 'floecavern', 'stdin'), os.path.join(ROOT, 'crates', 'floecavern', 'stdout')
sys.path.insert(0, os.path.join(ROOT, 'tools'))

_folder = []


def vectors():
    """The folder with all outside cases, NAME.case and NAME.out, made once."""
    if not _folder:
        _folder.append(tempfile.mkdtemp())
        atexit.register(shutil.rmtree, _folder[0])
        subprocess.run([sys.executable, os.path.join(ROOT, 'tools', 'vectors'), 'unpack', _folder[0]], check=True, capture_output=True)
    return _folder[0]


# The outside cases of request 10 of document 02, of the 32-bit kind, and those of the earlier ones whose output is another one with it.
KIND_32 = os.path.join(ROOT, 'tests', 'vectors', '10-cases')


# What examples/pair32.c and examples/pair32.py print.
PAIRS = '''\
equal: x8 22222222, x9 11111111, the words at 64 ffffffff 00000007
not equal: x8 ffffffff, x9 00000007, the words at 64 ffffffff 00000007
rd is x9: trap 2 0000000028a2b4af: illegal instruction
64 bits in x8: refusal 2: a setting other than the set size, or the state, is wrong
a memory that ends above 2^32: refusal 1: the set size or the memory's length or base is wrong
'''


def vector_pairs(folder=None):
    """(name, case, output) of every outside case, as bytes; of a folder, if one is given."""
    for path, _, files in os.walk(folder or vectors()):
        for file in sorted(files):
            if file.endswith('.case'):
                yield os.path.join(path, file), data(os.path.join(path, file)), data(os.path.join(path, file[:-5] + '.out'))


def data(path):
    with open(path, 'rb') as file:
        return file.read()


def command(tool, *args, given=b''):
    """A tool's (exit status, standard output, standard error)."""
    done = subprocess.run([sys.executable, tool, *args], input=given, capture_output=True)
    return done.returncode, done.stdout, done.stderr.decode()


class InFolder(unittest.TestCase):
    """Tests that have a folder of their own."""

    def setUp(self):
        self.folder = tempfile.TemporaryDirectory()
        self.addCleanup(self.folder.cleanup)

    def path(self, name, content=None):
        """The path of a file there, written if its content is given."""
        path = os.path.join(self.folder.name, name)
        if content is not None:
            with open(path, 'wb') as file:
                file.write(content)
        return path
