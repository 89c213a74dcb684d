"""tools/settings: settings files read, written and as a text, by its own reader and writer: against the outside vectors, against the library, and what
it says of bad texts and files."""
import os
import random
import re
import shutil
import subprocess
import sys
import tempfile
import textwrap
import unittest

from common import ROOT, SETTINGS, command, data
from settingsfile import Board, Refused, Settings, board_fault, make, read, show, write
from toolfiles import TextError
import outside

sys.path.insert(0, os.path.join(ROOT, 'python'))
import floecavern

THREE = [Board(64, 21, 0), Board(128, 20, 1), Board(4096, 21, 0)]
SO = os.path.join(ROOT, 'target', 'libfloecavern.so')


def documented():
    """The example of docs/TOOLS.md: the first block that starts with `board`."""
    text = data(os.path.join(ROOT, 'docs', 'TOOLS.md')).decode()
    return textwrap.dedent(re.search(r'(?m)^\n((?:    board .*\n)+)', text)[1])


def answer(function, *given):
    """What a reader or writer gives, or its refusal."""
    try:
        return function(*given)
    except Refused as refused:
        return refused.number, refused.place


def said(boards):
    """Any boards as a text: a version of A of 22 is 2.2."""
    return ''.join('board %d %d.%d %d\n' % (board.size, *divmod(board.version, 10), board.misaligned) for board in boards)


class Outside(unittest.TestCase):
    """All 650 lines of the outside vectors."""

    def lines(self, key):
        for number, line in outside.settings_lines():
            if key in line:
                with self.subTest(line=number, name=line['name']):
                    yield line, tuple(line['answer'].get('refused', ()))

    def test_reader(self):
        counts = {}
        for line, refused in self.lines('file'):
            file = bytes.fromhex(line['file'])
            wanted = refused or Settings(line['answer']['version'], [Board(*board) for board in outside.boards(line['answer']['boards'])])
            self.assertEqual(answer(read, file), wanted)
            self.assertEqual(answer(read, file[:201]), wanted)       # a longer file needn't be read to its end
            counts[wanted[0]] = counts.get(wanted[0], 0) + 1
            if not refused:
                again = make('\n'.join(show(wanted)))
                self.assertEqual(read(again), (2, wanted.boards))
                self.assertEqual(again == file, wanted.format == 2)
        self.assertEqual((sum(counts.values()), counts[1] + counts[2], counts[21] + counts[22] + counts[23]), (508, 66, 442))

    def test_writer(self):
        """Through the text too; it can't say how much room there is."""
        counts = {}
        for line, refused in self.lines('boards'):
            boards = [Board(*board) for board in outside.boards(line['boards'])]
            wanted = refused or bytes.fromhex(line['answer']['file'])
            self.assertEqual(answer(write, boards, line['room']), wanted)
            free = answer(write, boards, 200)
            kind = 'file' if not refused else 'room' if type(free) is bytes else refused[0]
            counts[kind] = counts.get(kind, 0) + 1
            if type(free) is bytes:
                self.assertEqual(make(said(boards)), free)
                self.assertEqual(read(free), (2, boards))
                continue
            with self.assertRaises(TextError) as caught:
                make(said(boards))
            bad = next((k for k, board in enumerate(boards) if board_fault(board)), 16 if boards else 0)
            self.assertEqual(caught.exception.line, min(bad, 16) + 1)
        self.assertEqual((sum(counts.values()), counts['file']), (142, 42))
        self.assertEqual(set(counts), {'file', 'room', 21, 23})

    def test_numbers_that_no_byte_holds(self):
        """They are judged whole, and never cut to their bytes."""
        for board in (Board(65536 + 64, 21, 0), Board(64, 256 + 21, 0), Board(64, 21, 256), Board(1 << 64, 21, 0), Board(-64, 21, 0), Board(64, 21, -1)):
            self.assertEqual(answer(write, [THREE[0], board]), (23, 28))
        self.assertEqual(answer(write, [Board(0, 0, 0)] * 17), (21, 0))


@unittest.skipUnless(os.path.exists(SO), 'there is no target/libfloecavern.so')
class Library(unittest.TestCase):
    """The same as the library's reader and writer, which are proved."""

    @classmethod
    def setUpClass(cls):
        floecavern._library.cache_clear()         # a test before this one may have loaded another shared object
        cls.addClassCleanup(floecavern._library.cache_clear)

    def its(self, function, *given):
        try:
            return function(*given)
        except floecavern.Refused as refused:
            return int(refused.refusal), refused.place

    def assert_same(self, file):
        mine, good = answer(read, file), False
        if type(mine) is Settings:
            mine, good = (mine.format, tuple(mine.boards)), True
        self.assertEqual(mine, tuple(self.its(floecavern.read_settings, file)), file.hex())
        return good

    def test_outside_files(self):
        for number, line in outside.settings_lines():
            if 'file' in line:
                self.assert_same(bytes.fromhex(line['file']))
            else:
                boards = [Board(*board) for board in outside.boards(line['boards'])]
                self.assertEqual(answer(write, boards), self.its(floecavern.write_settings, boards), number)

    def test_every_change_of_a_byte(self):
        """Of files of both formats: each byte with each bit turned, and each length."""
        read_again = 0
        for file in (write(THREE), bytes.fromhex('010000000200000018000000030000001b00000003000000200014000115')):
            for length in range(len(file) + 3):
                self.assert_same((file + b'\0\0\0')[:length])
            for place in range(len(file)):
                for bit in range(8):
                    changed = bytearray(file)
                    changed[place] ^= 1 << bit
                    read_again += self.assert_same(bytes(changed))
        self.assertGreater(read_again, 3)

    def test_drawn_files(self):
        """Good files of 1 to 16 boards with up to two numbers changed, and any bytes. The numbers are the same in every run."""
        draw, good = random.Random(11), 0
        for _ in range(4000):
            boards = [Board(draw.choice((8, 64, 4096)), draw.choice((20, 21)), draw.randrange(2)) for _ in range(draw.randint(1, 16))]
            file = bytearray(write(boards))
            for _ in range(draw.randrange(3)):
                file[draw.randrange(len(file))] = draw.randrange(256)
            good += self.assert_same(bytes(file))
            self.assert_same(draw.randbytes(draw.randrange(40)))
        self.assertGreater(good, 1000)

    def test_drawn_boards(self):
        draw = random.Random(12)
        for _ in range(2000):
            boards = [Board(*(draw.choice(numbers) for numbers in ((8, 64, 4096, 64, 4097, 0, 65600), (20, 21, 21, 20, 22, 277), (0, 1, 0, 1, 2, 256))))
                      for _ in range(draw.randrange(18))]
            self.assertEqual(answer(write, boards), self.its(floecavern.write_settings, boards))


class Text(unittest.TestCase):
    def test_documented(self):
        status, out, err = command(SETTINGS, 'make', '-', '-', given=documented().encode())
        self.assertEqual((status, out, err), (0, write(THREE), ''))
        status, out, err = command(SETTINGS, 'show', '-', given=out)
        self.assertEqual((status, err), (0, ''))
        self.assertIn('\n\n%s\n' % textwrap.indent(out.decode(), '    '), data(os.path.join(ROOT, 'docs', 'TOOLS.md')).decode())

    def test_show(self):
        text = '\n'.join(show(Settings(2, THREE)))
        self.assertEqual(text.split('\n'), [
            '# a settings file of format 2, 3 boards',
            'board 64 2.1 0     # 0: sets of 64 bytes, A 2.1, misaligned atomics give causes 4 and 6',
            'board 128 2.0 1    # 1: sets of 128 bytes, A 2.0, misaligned atomics give causes 5 and 7',
            'board 4096 2.1 0   # 2: sets of 4096 bytes, A 2.1, misaligned atomics give causes 4 and 6'])
        self.assertEqual(make(text), write(THREE))
        self.assertEqual(next(show(Settings(1, THREE[:1]))), '# a settings file of format 1 (make writes format 2), 1 board')

    def test_every_board(self):
        for boards in ([Board(1 << k, version, misaligned)] for k in range(3, 13) for version in (20, 21) for misaligned in (0, 1)):
            self.assertEqual(make('\n'.join(show(Settings(2, boards)))), write(boards))
        for count in range(1, 17):
            self.assertEqual(read(make('\n'.join(show(Settings(2, THREE[1:2] * count))))), (2, THREE[1:2] * count))

    def test_forms_of_a_text(self):
        for text in ('board 64 2.1 0', '\n\n  board\t64  2.1 0 # mine\n\n# board 8 2.0 1\n', 'board 0x40 2.1 0\n', 'board 0X40 2.1 0#x'):
            self.assertEqual(make(text), write(THREE[:1]), text)

    def test_bad_texts(self):
        for text, line, what in (
                ('', 1, 'the text ends without a board'), ('# board 64 2.1 0\n\n', 2, 'the text ends without a board'),
                ('boards 64 2.1 0', 1, "'boards': board is wanted here"), ('board 8 2.0 0\n64 2.1 0', 2, "'64': board is wanted here"),
                ('board', 1, 'write board SIZE VERSION MISALIGNED, such as board 64 2.1 0'), ('board 64 2.1', 1, 'write board SIZE'),
                ('board 64 2.1 0 0', 1, 'write board SIZE'), ('board 64, 2.1, 0', 1, "size: '64,' is no number"),
                ('\nboard 63 2.1 0', 2, 'size: 63 is no power of two from 8 to 4096'), ('board 4 2.1 0', 1, 'size: 4 is no power'),
                ('board 8192 2.1 0', 1, 'size: 8192 is no power'), ('board 0 2.1 0', 1, 'size: 0 is no power'), ('board -64 2.1 0', 1, 'size: -64 is no power'),
                ('board x 2.1 0', 1, "size: 'x' is no number"), ('board 064 2.1 0', 1, 'size: 064 has a leading zero'),
                ('board %s 2.1 0' % ('9' * 5000), 1, 'size: 99999999999999999999.. (5000 characters) is out of range'),
                ('board \u0666\u0664 2.1 0', 1, 'is no number'),
                ('board 64 21 0', 1, "version: '21' is neither 2.0 nor 2.1"), ('board 64 2 0', 1, "version: '2'"), ('board 64 2.10 0', 1, "version: '2.10'"),
                ('board 64 2.1 2', 1, "misaligned: '2' is neither 0 (causes 4 and 6) nor 1 (5 and 7)"), ('board 64 2.1 00', 1, "misaligned: '00'"),
                ('board 64 2.1 4/6', 1, "misaligned: '4/6'"), ('board 64 2.1 0\n' * 17 + 'x', 17, 'there are at most 16 boards')):
            with self.assertRaises(TextError, msg=text) as caught:
                make(text)
            self.assertEqual((caught.exception.line, what in str(caught.exception)), (line, True), (text, str(caught.exception)))


class Command(unittest.TestCase):
    def setUp(self):
        folder = tempfile.TemporaryDirectory()
        self.addCleanup(folder.cleanup)
        self.folder, self.text, self.file = folder.name, os.path.join(folder.name, 'boards.txt'), os.path.join(folder.name, 'boards')
        with open(self.text, 'w') as file:
            file.write(said(THREE))

    def assert_names(self, *names):
        self.assertEqual(sorted(os.listdir(self.folder)), sorted(names))

    def test_files_and_streams(self):
        self.assertEqual(command(SETTINGS, 'make', self.text, self.file), (0, b'', ''))
        self.assertEqual(data(self.file), write(THREE))
        self.assertEqual(command(SETTINGS, 'make', self.text, '-'), (0, write(THREE), ''))
        shown = command(SETTINGS, 'show', self.file)
        self.assertEqual(shown, command(SETTINGS, 'show', '-', given=write(THREE)))
        os.remove(self.file)
        self.assertEqual(command(SETTINGS, 'make', '-', self.file, given=shown[1]), (0, b'', ''))
        self.assertEqual(data(self.file), write(THREE))
        self.assert_names('boards.txt', 'boards')

    def test_refused_files(self):
        """On the channel and with the status that tools/case has for a refused case file."""
        good = write(THREE)
        for file, what in ((b'', 'refused 21 0: number of boards, table or end: the file has 0 bytes, fewer than 8'),
                           (b'\3' + good[1:], 'refused 22 0: format: it is 3, not 1 or 2'),
                           (good[:4] + b'\0' + good[5:], 'refused 21 0: number of boards, table or end: 0 boards, not 1 to 16'),
                           (good[:4] + b'\5' + good[5:], 'refused 21 0: number of boards, table or end: the table of 5 boards ends at 48, the file at 44'),
                           (good[:8] + b'\x21' + good[9:], 'refused 21 0: number of boards, table or end: '
                            'the body of board 0 is said to start at 33, not at 32'),
                           (good[:20] + b'\3' + good[21:], 'refused 21 0: number of boards, table or end: the body of board 1 has 3 bytes, not 4'),
                           (good + b'\n', 'refused 21 0: number of boards, table or end: the last body ends at 44, the file at 45'),
                           (good[:36] + b'\x3f' + good[37:], 'refused 23 36: board: of board 1, the set size is 63, no power of two from 8 to 4096'),
                           (good[:38] + b'\x16' + good[39:], 'refused 23 36: board: of board 1, the version of A is 22, not 20 (A 2.0) or 21 (A 2.1)'),
                           (good[:43] + b'\2', 'refused 23 40: board: of board 2, misaligned is 2, not 0 (causes 4 and 6) or 1 (5 and 7)')):
            self.assertEqual(command(SETTINGS, 'show', '-', given=file), (1, b'', 'standard input: no settings file: %s\n' % what))
            if what.startswith('refused 23 36: board: of board 1, the set size'):
                self.assertIn('\n\n    boards: no settings file: %s\n\n' % what, data(os.path.join(ROOT, 'docs', 'TOOLS.md')).decode())
        with open(self.file, 'wb') as file:
            file.write(b'\3' * 8)
        self.assertEqual(command(SETTINGS, 'show', self.file), (1, b'', self.file + ': no settings file: refused 22 0: format: it is 50529027, not 1 or 2\n'))

    def test_bad_texts(self):
        with open(self.file, 'wb') as file:
            file.write(b'old')
        for text, what in ((b'\nboard 63 2.1 0\n', '2: size: 63 is no power of two from 8 to 4096'),
                           (b'board 64 2.1 0\n\xff', '2: no text: the byte 0xff at 15 is not UTF-8')):
            self.assertEqual(command(SETTINGS, 'make', '-', self.file, given=text), (1, b'', 'standard input:%s\n' % what))
            with open(self.text, 'wb') as file:
                file.write(text)
            self.assertEqual(command(SETTINGS, 'make', self.text, self.file), (1, b'', '%s:%s\n' % (self.text, what)))
            self.assertEqual(data(self.file), b'old')
        self.assert_names('boards.txt', 'boards')

    def test_the_text_is_kept(self):
        os.symlink('boards.txt', os.path.join(self.folder, 'link'))
        os.link(self.text, os.path.join(self.folder, 'hard'))
        for name in ('boards.txt', 'link', 'hard', './boards.txt'):
            path = os.path.join(self.folder, name)
            for text, output in ((self.text, path), (path, self.text)):
                self.assertEqual(command(SETTINGS, 'make', text, output), (1, b'', 'tools/settings: %s: it is the text, and stays as it is\n' % output))
        done = subprocess.run(['/bin/sh', '-c', 'exec "$@" <"$0" 1<>"$0"', self.text, sys.executable, SETTINGS, 'make', '-', '-'], capture_output=True)
        self.assertEqual((done.returncode, done.stderr), (1, b'tools/settings: standard output: it is the text, and stays as it is\n'))
        self.assertEqual(data(self.text), said(THREE).encode())
        self.assert_names('boards.txt', 'hard', 'link')
        shutil.copy(self.text, self.file)         # a copy is another file
        self.assertEqual(command(SETTINGS, 'make', self.text, self.file), (0, b'', ''))

    def test_what_cannot_be_read_or_written(self):
        for args, name, what in ((['show', self.file], self.file, 'No such file or directory'),
                                 (['make', self.file, '-'], self.file, 'No such file or directory'),
                                 (['make', self.text, self.text + '/x'], self.text + '/x', 'Not a directory'),
                                 (['show', self.folder], self.folder, 'Is a directory')):
            self.assertEqual(command(SETTINGS, *args), (1, b'', 'tools/settings: %s: %s\n' % (name, what)))
        self.assert_names('boards.txt')

    def test_closed_and_full_streams(self):
        for how, args, what in (('>&-', ['make', self.text, '-'], 'standard output'), ('>&-', ['show', self.text], 'standard output'),
                                ('>&-', ['--help'], 'standard output'), ('<&-', ['make', '-', self.file], 'standard input'),
                                ('<&-', ['show', '-'], 'standard input')):
            done = subprocess.run(['/bin/sh', '-c', 'exec "$@" ' + how, 'sh', sys.executable, SETTINGS, *args], capture_output=True)
            self.assertEqual((done.returncode, done.stdout, done.stderr.decode()), (1, b'', 'tools/settings: %s: Bad file descriptor\n' % what))
        if os.path.exists('/dev/full'):
            for args in (['make', self.text, '-'], ['--help'], ['make', '--help']):
                with open('/dev/full', 'wb') as full:
                    done = subprocess.run([sys.executable, SETTINGS, *args], stdout=full, stderr=subprocess.PIPE)
                self.assertEqual((done.returncode, done.stderr), (1, b'tools/settings: standard output: No space left on device\n'))
        self.assert_names('boards.txt')

    def test_arguments(self):
        for args in ([], ['show'], ['make'], ['make', self.text], ['show', self.text, self.file], ['shew', self.text]):
            status, out, err = command(SETTINGS, *args)
            self.assertEqual((status, out, err[:22]), (2, b'', 'usage: tools/settings '))
        self.assert_names('boards.txt')


if __name__ == '__main__':
    unittest.main()
