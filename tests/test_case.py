"""tools/case: a case as a text and back, and what it says of bad texts and files."""
import os
import re
import resource
import shutil
import stat
import subprocess
import sys
import tempfile
import textwrap
import unittest

from common import CASE, EXAMPLE, EXAMPLE_LINES, KIND_32, ROOT, command, data, vector_pairs
import casefile
import casetext

START = 'memory 64\nhart 0\n'
# Every place of a number in a text, and the line that it is on.
NUMBERS = [('kind %s', 1), ('base %s', 1), ('memory %s', 1)] + [(START + line, 3) for line in ('x5=%s', 'pc=%s', 'at %s')] + [
    (START + 'at 0\n' + line, 4) for line in (
        '.byte %s', '.half 1 %s', '.word 1,%s', '.dword %s', '.space %s', '.space 1,%s', '.align %s', '.balign %s', '.align 2,%s', '.align 2,0,%s',
        'li x5,%s', 'addi x1,x2,%s', 'lw x1,%s(x2)', 'sw x1,%s(x2)', 'jalr x1,%s(x2)', 'jr %s(x5)', 'lui x1,%s', 'slli x1,x2,%s', 'slliw x1,x2,%s',
        'beq x1,x2,%s', 'jal x1,%s', 'bnez x5,%s', 'j %s', 'fence x0,x0,%s')] + [
    (START + 'events\n' + line, 4) for line in ('step %s', 'yield %s', 'step 0 times %s', 'device %s 1 0', 'device 0 %s 0', 'device 0 1 %s')]


def documented():
    """The example of docs/TOOLS.md: the first block that starts with `memory`."""
    text = data(os.path.join(ROOT, 'docs', 'TOOLS.md')).decode()
    return next(re.sub('(?m)^    ', '', block) for block in re.findall(r'(?:^(?:    .*)?\n)+', text, re.M) if '    memory 128' in block)


def bits(number):
    """The places of the bits that are set."""
    return [k for k in range(number.bit_length()) if number >> k & 1]


class RoundTrip(unittest.TestCase):
    def round_trip(self, pairs):
        """How many of the cases are good and how many are refused."""
        good = refused = 0
        for name, given, output in pairs:
            try:
                case = casefile.read(given)
            except casefile.Refused as error:
                refused += 1
                self.assertEqual(output.decode(), 'refused %d %d\n' % (error.number, error.place), name)
                continue
            good += 1
            self.assertEqual(casefile.write(case), given, name)
            self.assertEqual(casefile.faults(case, output.decode()), [], name)
            text = '\n'.join(casetext.show(case, casefile.numbered(output.decode().split('\n'))))
            self.assertEqual(casetext.make(text), given, name)
        return good, refused

    def test_every_outside_case(self):
        self.assertEqual(self.round_trip(vector_pairs()), (834, 158))

    def test_every_outside_case_of_32_bits(self):
        """The one good case more is that of changed/."""
        self.assertEqual(self.round_trip(vector_pairs(KIND_32)), (138, 45))

    def test_any_bytes(self):
        for kind, xlen in enumerate(casefile.WIDTHS):
            top = min(1 << 40, (1 << xlen) - 4096)
            registers = tuple((k * 0x0123456789ABCDEF) % (1 << xlen) for k in range(1, 32))
            harts = [casefile.Hart(registers, (1 << xlen) - 4)] * 8
            memory = bytes(k * k % 251 for k in range(4096))
            events = [casefile.Event(2, 0, size, top + 4096 - size, (1 << 8 * size) - 1) for size in range(1, 9)]
            given = casefile.write(casefile.Case(top, harts, memory, events + [casefile.Event(3, 7, 0, 0, 0)], kind))
            self.assertEqual(casetext.make('\n'.join(casetext.show(casefile.read(given)))), given)


class Make(unittest.TestCase):
    def test_the_documented_example(self):
        status, out, err = command(CASE, 'make', given=documented().encode())
        self.assertEqual((status, err), (0, ''))
        self.assertEqual(out, data(EXAMPLE))

    def test_labels_and_values(self):
        case = casefile.read(casetext.make('''
            base 0x1000
            memory 128
            hart 0 pc=loop a0=lock x6=-1 x7=18446744073709551615
            hart 1
            at 0x1008
            loop: lr.w x6,(a0)
                  bne x6, x0, loop   # back
                  jal x0,done
            .byte 1 2,3
            .half 0x0405
            .byte -1
            .half -2
            done: .dword loop
            at 0x1040
            lock: .word 7
            events
            step 0 times 3
            device lock 2 0xabcd
            yield 1'''))
        self.assertEqual((case.base, len(case.harts), len(case.memory), case.harts[0].pc, case.harts[1].pc), (0x1000, 2, 128, 0x1008, 0x1000))
        self.assertEqual(case.harts[0].registers[9], 0x1040)
        self.assertEqual(case.harts[0].registers[5:7], ((1 << 64) - 1,) * 2)
        self.assertEqual(case.memory[8:32].hex(), '2f230510' + 'e31e03fe' + '6f00c000' + '010203' + '0504' + 'ff' + 'feff' + '08100000')
        self.assertEqual([tuple(e) for e in case.events], [(1, 0, 0, 0, 0)] * 3 + [(2, 0, 2, 0x1040, 0xABCD), (3, 1, 0, 0, 0)])

    def test_kinds(self):
        """A 32-bit core has its own words, and registers of 32 bits."""
        lines = 'base 0xffffff80\nmemory 128\nhart 0 x5=-1 x6=0xffffffff a0=lock\nat 0xffffff80\nlr.w x6,(x5)\namocas.d x6,x8,(x5)\n%s\nlock: events\n'
        good = 'li x7,0x80000001'
        case = casefile.read(casetext.make('kind 32\n' + lines.replace('lock: ', 'lock:\n') % good))
        self.assertEqual((case.kind, case.harts[0].pc, case.harts[0].registers[4:6]), (1, 0xFFFFFF80, (0xFFFFFFFF,) * 2))
        self.assertEqual(case.harts[0].registers[9], 0xFFFFFF90)
        self.assertEqual(case.memory[:16].hex(' ', 4), '2fa30210 2fb38228 b7030080 93831300')
        shown = '\n'.join(casetext.show(case))
        self.assertIn('\nkind 32\nbase 0xffffff80\n', shown)
        self.assertRegex(shown, r'addi x7,x7,1 +# ffffff8c: 00138393')
        for text in (lines.replace('lock: ', 'lock:\n') % 'ld x1,0(x5)', 'kind 64\n' + lines.replace('lock: ', 'lock:\n') % 'ld x1,0(x5)'):
            case = casefile.read(casetext.make(text))
            self.assertEqual((case.kind, case.harts[0].registers[4]), (0, (1 << 64) - 1))
            self.assertNotIn('kind', '\n'.join(casetext.show(case)))

    def test_bad_kinds(self):
        start = 'kind 32\n' + START
        for text, line, what in (
                ('kind', 1, 'write kind 64 or kind 32'), ('kind 32 64', 1, 'write kind 64'), ('kind 33', 1, 'neither 64 nor 32'), ('kind x', 1, 'no number'),
                ('kind 128', 1, 'not 0x0 to 0x40'), ('kind 32\nkind 32', 2, 'twice'), ('kind 64\nkind 32', 2, 'twice'),
                (START + 'at 0\nnop\nkind 32', 5, 'what stands above has 64 bits: write kind 32 above'),
                (start + 'x5=0x100000000', 4, 'x5: 0x100000000 is not'), (start + 'x5=-2147483649', 4, 'x5: '), (start + 'pc=0x100000000', 4, 'pc: '),
                ('kind 32\nbase 0x100000000\nmemory 64\nhart 0\n', 5, 'ends at 0x100000040, above 2^32'),
                ('kind 32\nbase 0xffffffc0\nmemory 128\nhart 0\n', 5, 'ends at 0x100000040, above 2^32'),
                *((start + 'at 0\n' + word, 5, "'%s' is no instruction of the 32-bit kind" % word.split()[0]) for word in (
                    'ld x1,0(x2)', 'lwu x1,0(x2)', 'sd x1,0(x2)', 'addiw x1,x2,3', 'slliw x1,x2,3', 'addw x1,x2,x3', 'sraw x1,x2,x3', 'lr.d x1,(x2)',
                    'sc.d.aq x1,x3,(x2)', 'amoadd.d x1,x3,(x2)', 'amocas.q x2,x4,(x1)')),
                *((start + 'at 0\n' + word, 5, "'%s' is no instruction of the model" % word.split()[0]) for word in ('negw x1,x2', 'sext.w x1,x2')),
                (start + 'at 0\nslli x1,x2,32', 5, 'out of range: 0 to 31'), (start + 'at 0\nli x1,0x100000000', 5, 'out of range'),
                (start + 'at 0\namocas.d x1,x2,(x3)', 5, 'amocas.d takes an even rd'), (start + 'at 0\namocas.d x2,x1,(x3)', 5, 'takes an even rs2'),
                (start + 'x5=far\nat 0x100000000\nfar:', 4, 'the label far is 0x100000000, more than 32 bits')):
            with self.assertRaises(casetext.TextError, msg=text) as caught:
                casetext.make(text + '\n')
            self.assertIn(what, str(caught.exception))
            self.assertEqual(caught.exception.line, line, text)

    def test_to_a_file(self):
        with tempfile.TemporaryDirectory() as folder:
            text, out = os.path.join(folder, 'a.txt'), os.path.join(folder, 'a.case')
            with open(text, 'w') as file:
                file.write(documented())
            self.assertEqual(command(CASE, 'make', text, '-o', out), (0, b'', ''))
            self.assertEqual(data(out), data(EXAMPLE))
            with open(text, 'a') as file:
                file.write('step 9\n')
            status, out, err = command(CASE, 'make', text)
            self.assertEqual((status, out), (1, b''))
            self.assertTrue(err.startswith('%s:%d: hart 9' % (text, documented().count('\n') + 1)), err)

    def test_bad_texts(self):
        for text, line, what in (
                ('zork', 1, 'kind, base, memory, hart, elf, at or events'), ('', 1, 'memory LENGTH'), ('memory 64\n', 2, 'without a hart'),
                ('base 3', 1, 'no multiple of 64'), ('base 0x10000000040', 1, 'not 0x0 to'), ('base 0\nbase 0', 2, 'twice'), ('base', 1, 'write base'),
                ('memory 65', 1, 'no multiple of 64'), ('memory 0', 1, 'not 0x40'), ('memory 64\nmemory 64', 2, 'twice'), ('memory x', 1, 'no number'),
                ('hart 1', 1, 'write hart 0'), (START + 'hart 0', 3, 'write hart 1'),
                ('memory 64' + ''.join('\nhart %d' % k for k in range(9)), 10, 'at most 8'),
                (START + 'x5', 3, 'NAME=VALUE'), (START + 'x99=1', 3, 'neither pc nor a register'), (START + 'x5=1 t0=2', 3, 'twice'),
                (START + 'pc=2', 3, 'no multiple of 4'), (START + 'x0=1', 3, 'always zero'), (START + 'x5=0x10000000000000000', 3, 'x5: '),
                (START + 'x5=here', 3, 'no label here'), (START + 'at 0\n\nfoo x1', 5, 'no instruction'), (START + 'at 0\nbeq x1,x2,here', 4, 'no label here'),
                (START + 'at 0\nx5: .word 1', 4, 'no name for a label'), (START + 'at 0\na:\na:', 5, 'twice'), (START + 'at 2\necall', 4, 'multiple of 4'),
                (START + 'at 60\n.dword 1', 4, 'not in memory'), (START + 'at 0\n.word 1\nat 2\n.byte 1', 6, 'filled by line 4'),
                (START + 'at 0\n.byte 256', 4, '.byte: 256'), (START + 'at 0\n.word', 4, 'no number follows'), (START + 'at 0\n.word 1z', 4, 'no number'),
                (START + 'at 0\naddi x1,x2,1 0', 4, "'1 0' has a space inside"), (START + 'at 0\nadd x 1,x2,x3', 4, "'x 1' has a space inside"),
                (START + 'at 0\nlw x1,- 4(x2)', 4, "'- 4' has a space inside"), (START + 'at 0\nfence r w,w', 4, "'r w' has a space inside"),
                (START + 'at 0\nadd x1,,x3', 4, 'is empty'), (START + 'at 0\nadd x1,x2,x3,', 4, 'is empty'), (START + 'at 0\necall ,', 4, 'is empty'),
                (START + 'at 0\n.word 1,,3', 4, 'is missing'), (START + 'at 0\n.word 1, ,3', 4, 'is missing'), (START + 'at 0\n.byte ,1', 4, 'is missing'),
                (START + 'at 0\n.half 1,', 4, 'is missing'), (START + 'at 0\n.dword ,', 4, 'is missing'), (START + 'at 0\n,', 4, 'no instruction'),
                (START + 'at 0\na: ,', 4, 'no instruction'), (START + 'events\n,', 4, 'no event'), (START + ',', 3, 'NAME=VALUE'), (',', 1, 'wanted here'),
                (START + 'events\nstep', 4, 'write step HART'), (START + 'events\nstep 1', 4, 'hart 1'), (START + 'events\njump 0', 4, 'no event'),
                (START + 'events\ndevice 60 8 0', 4, 'not wholly in memory'), (START + 'events\ndevice 0 9 0', 4, 'size'),
                (START + 'events\ndevice 0 1 256', 4, 'data'), (START + 'events\ndevice 0 1', 4, 'write device'), (START + 'events 1', 3, 'alone'),
                (START + 'events\nstep 0 times 3000', 4, 'more than 65536'), (START + 'events\nyield 0 times 0', 4, 'times')):
            with self.assertRaises(casetext.TextError, msg=text) as caught:
                casetext.make(text + '\n')
            self.assertIn(what, str(caught.exception))
            self.assertEqual(caught.exception.line, line, text)

    def refused_numbers(self, numbers, what):
        """Each of the numbers is refused at each place, with its line and in few words."""
        for text, line in NUMBERS:
            for number in numbers:
                with self.assertRaises(casetext.TextError, msg=(text, number[:40])) as caught:
                    casetext.make(text % number + '\n')
                self.assertIn(what, str(caught.exception))
                self.assertLess(len(str(caught.exception)), 160)
                self.assertEqual(caught.exception.line, line, text)

    def test_leading_zeros(self):
        """GNU as takes 010 for 8."""
        self.refused_numbers(('010', '-010', '00', '-00', '08', '0' * 5000), 'has a leading zero')
        for good in ('0', '-0', '0x0', '0x0010', '-0x0010', '0x' + '0' * 5000 + '10'):
            case = casefile.read(casetext.make(START + 'x5=%s\nat 0\n.dword %s\nevents\n' % (good, good)))
            self.assertEqual((case.harts[0].registers[4], int.from_bytes(case.memory[:8], 'little')), (int(good, 16) % (1 << 64),) * 2)

    def test_long_numbers(self):
        """Python refuses to convert a decimal number of more than 4300 digits."""
        self.refused_numbers(('9' * 5000, '-' + '9' * 5000, '0x' + 'f' * 5000, '-0x1' + '0' * 16, '1' + '0' * 20), 'is out of range: it has more than 64 bits')
        said = 'standard input:3: x5: %s.. (5000 characters) is out of range: it has more than 64 bits\n' % ('9' * 20)
        self.assertEqual(command(CASE, 'make', given=(START + 'x5=' + '9' * 5000).encode()), (1, b'', said))

    def test_no_text(self):
        self.assertEqual(command(CASE, 'make', given=b'\xff'), (1, b'', 'standard input:1: no text: the byte 0xff at 0 is not UTF-8\n'))
        self.assertEqual(command(CASE, 'make', given=b'# \xc3\xa4\n\n ab\xe4'), (1, b'', 'standard input:3: no text: the byte 0xe4 at 9 is not UTF-8\n'))
        self.assertEqual(command(CASE, 'make', '/nowhere')[0], 1)

    def test_spaces_around_operands(self):
        self.assertEqual(casetext.make(START + 'at 0\nlw x1 , -4 ( x2 ) \nfence\trw , w\n.byte 1 ,2 3\t4\nevents'),
                         casetext.make(START + 'at 0\nlw x1,-4(x2)\nfence rw,w\n.byte 1 2 3 4\nevents'))

    def test_without_events(self):
        status, out, err = command(CASE, 'make', given=START.encode())
        self.assertEqual((status, err), (0, 'standard input:2: warning: the text ends without a line: events; the case has no events\n'))
        self.assertEqual(command(CASE, 'make', given=START.encode() + b'events\n'), (0, out, ''))


class NoRoom(unittest.TestCase):
    """Where not all can be written, no part of a case is left, and what was there stays."""

    def setUp(self):
        folder = tempfile.TemporaryDirectory()
        self.addCleanup(folder.cleanup)
        self.folder, self.out = folder.name, os.path.join(folder.name, 'a.case')

    def make(self, out, room=None):
        limit = None if room is None else lambda: resource.setrlimit(resource.RLIMIT_FSIZE, (room, room))
        done = subprocess.run([sys.executable, CASE, 'make', '-o', out], input=documented().encode(), capture_output=True, preexec_fn=limit)
        return done.returncode, done.stderr.decode()

    def test_new_file(self):
        self.assertEqual(self.make(self.out, 100), (1, 'tools/case: %s: File too large\n' % self.out))
        self.assertEqual(os.listdir(self.folder), [])

    def test_old_file(self):
        with open(self.out, 'wb') as file:
            file.write(b'old')
        os.chmod(self.out, 0o640)
        self.assertEqual(self.make(self.out, 100)[0], 1)
        self.assertEqual((os.listdir(self.folder), data(self.out)), (['a.case'], b'old'))
        self.assertEqual(self.make(self.out), (0, ''))
        self.assertEqual((os.listdir(self.folder), data(self.out)), (['a.case'], data(EXAMPLE)))
        self.assertEqual(os.stat(self.out).st_mode & 0o777, 0o640)

    def test_through_a_link(self):
        link = os.path.join(self.folder, 'link')
        os.symlink('a.case', link)
        self.assertEqual(self.make(link), (0, ''))
        self.assertTrue(os.path.islink(link))
        self.assertEqual(data(self.out), data(EXAMPLE))

    def test_long_name(self):
        out = os.path.join(self.folder, 'a' * 255)
        self.assertEqual(self.make(out), (0, ''))
        self.assertEqual((os.listdir(self.folder), data(out)), (['a' * 255], data(EXAMPLE)))

    def test_no_folder(self):
        self.assertEqual(self.make(self.out + '/b'), (1, 'tools/case: %s/b: No such file or directory\n' % self.out))

    def test_pipe(self):
        # a pipe of this test's own stands for every file that isn't a plain one: a fault here must not replace a device of the system
        os.mkfifo(self.out)
        with subprocess.Popen(['timeout', '20', 'cat', self.out], stdout=subprocess.PIPE) as reader:
            self.assertEqual(self.make(self.out), (0, ''))
            self.assertTrue(stat.S_ISFIFO(os.stat(self.out).st_mode))
            self.assertEqual(reader.communicate(timeout=20)[0], data(EXAMPLE))
        self.assertEqual(os.listdir(self.folder), ['a.case'])

    @unittest.skipUnless(os.path.exists('/dev/full'), 'there is no /dev/full')
    def test_full_device(self):
        for args in (['make'], ['show', EXAMPLE], ['--help'], ['make', '--help']):
            with open('/dev/full', 'wb') as full:
                done = subprocess.run([sys.executable, CASE, *args], input=documented().encode(), stdout=full, stderr=subprocess.PIPE)
            self.assertEqual((done.returncode, done.stderr), (1, b'tools/case: standard output: No space left on device\n'))


class Closed(unittest.TestCase):
    """Standard streams that are closed: Python has None for each."""

    def closed(self, how, *args, given=documented().encode()):
        done = subprocess.run(['/bin/sh', '-c', 'exec "$@" ' + how, 'sh', sys.executable, CASE, *args], input=given, capture_output=True)
        return done.returncode, done.stdout, done.stderr.decode()

    def test_output(self):
        for args in (['make'], ['show', EXAMPLE], ['show', EXAMPLE, '--lines', EXAMPLE_LINES], ['--help']):
            self.assertEqual(self.closed('>&-', *args), (1, b'', 'tools/case: standard output: Bad file descriptor\n'))

    def test_output_that_is_not_used(self):
        with tempfile.TemporaryDirectory() as folder:
            out = os.path.join(folder, 'a.case')
            self.assertEqual(self.closed('>&-', 'make', '-o', out), (0, b'', ''))
            self.assertEqual((os.listdir(folder), data(out)), (['a.case'], data(EXAMPLE)))

    def test_input(self):
        for args in (['make'], ['show', '-'], ['show', EXAMPLE, '--lines', '-']):
            self.assertEqual(self.closed('<&-', *args), (1, b'', 'tools/case: standard input: Bad file descriptor\n'))

    def test_input_that_is_not_for_reading(self):
        with tempfile.TemporaryDirectory() as folder:
            said = 'tools/case: standard input: Bad file descriptor\n'
            self.assertEqual(self.closed('0>"%s"' % os.path.join(folder, 'a'), 'make'), (1, b'', said))

    def test_warnings(self):
        """A warning that has nowhere to go doesn't go into the case."""
        self.assertEqual(self.closed('2>&-', 'make', given=START.encode()), (0, casetext.make(START), ''))


class Inputs(unittest.TestCase):
    """The text isn't replaced by its case, by whatever name."""

    def setUp(self):
        folder = tempfile.TemporaryDirectory()
        self.addCleanup(folder.cleanup)
        self.folder, self.text = folder.name, os.path.join(folder.name, 'my.txt')
        with open(self.text, 'w') as file:
            file.write(documented())

    def named(self, name):
        return os.path.join(self.folder, name)

    def assert_kept(self, output, done):
        self.assertEqual(done, (1, b'', 'tools/case: %s: it is the text, and stays as it is\n' % output))
        self.assertEqual(data(self.text), documented().encode())
        self.assertEqual([name for name in os.listdir(self.folder) if name.startswith('.')], [])

    def test_names(self):
        os.symlink('my.txt', self.named('link'))
        os.link(self.text, self.named('hard'))
        os.symlink('.', self.named('folder'))
        os.symlink('hard', self.named('to-hard'))
        for output in ('my.txt', 'link', 'hard', 'folder/my.txt', 'to-hard', './my.txt'):
            self.assert_kept(self.named(output), command(CASE, 'make', self.text, '-o', self.named(output)))
            self.assert_kept(self.text, command(CASE, 'make', self.named(output), '-o', self.text))

    def test_standard_streams(self):
        for args, how, name in (([self.text], '>>"$0"', 'standard output'), (['-o', self.text], '<"$0"', self.text),
                                (['-'], '<"$0" 1<>"$0"', 'standard output')):
            done = subprocess.run(['/bin/sh', '-c', 'exec "$@" ' + how, self.text, sys.executable, CASE, 'make', *args], capture_output=True)
            self.assert_kept(name, (done.returncode, done.stdout, done.stderr.decode()))

    def test_a_copy_is_another_file(self):
        shutil.copy(self.text, self.named('copy'))
        self.assertEqual(command(CASE, 'make', self.text, '-o', self.named('copy')), (0, b'', ''))
        self.assertEqual(data(self.named('copy')), data(EXAMPLE))


class Losers(unittest.TestCase):
    """The set of harts behind `broke` on an event's line."""

    def setUp(self):
        self.case = casefile.read(casetext.make('memory 64\nhart 0\nhart 1\nhart 2\nevents\nstep 1\ndevice 0 1 0\nyield 2\n'))
        self.lines = ['0 h1 ok', '1 d ok', '2 y2 ok']

    def text(self, n, line):
        """The program's output with this line for event n."""
        return '\n'.join([casefile.header(self.case), *self.lines[:n], line, *self.lines[n + 1:], 'end 3', ''])

    def test_right_lines(self):
        for n, line, losers in ((0, '0 h1 ok', []), (0, '0 h1 ok broke 01', ['h0']), (0, '0 h1 ok broke 05', ['h0', 'h2']), (0, '0 h1 sc 0', []),
                                (0, '0 h1 sc 0 broke 04', ['h2']), (1, '1 d ok', []), (1, '1 d ok broke 02', ['h1']),
                                (1, '1 d ok broke 07', ['h0', 'h1', 'h2'])):
            self.assertEqual(casefile.faults(self.case, self.text(n, line)), [], line)
            answer = casefile.right_line(n, self.case.events[n], line, 3)
            self.assertEqual((answer.said, answer.losers), (line.split(' ', 2)[2].split(' broke ')[0], losers))

    def test_wrong_lines(self):
        own, form, place = "bit 1 is the stepping hart's own", 'behind broke stand two lower-case hex digits', 'broke stands only behind ok and sc 0'
        for n, line, why in (
                (0, '0 h1 ok broke 00', 'broke 00 is never written'), (0, '0 h1 sc 0 broke 00', 'broke 00 is never written'),
                (1, '1 d ok broke 00', 'broke 00 is never written'),
                (0, '0 h1 ok broke 02', own), (0, '0 h1 sc 0 broke 02', own), (0, '0 h1 ok broke 07', own),
                (0, '0 h1 ok broke 08', 'bit 3 is set, but the number of harts is 3'), (0, '0 h1 sc 0 broke 81', 'bit 7 is set, but the number of harts is 3'),
                (1, '1 d ok broke 08', 'bit 3 is set, but the number of harts is 3'), (1, '1 d ok broke ff', 'bit 7 is set, but the number of harts is 3'),
                (0, '0 h1 sc 1 broke 01', place), (0, '0 h1 trap 2 0000000000000000 broke 01', place),
                (2, '2 y2 ok broke 04', "a yield's line has no broke"), (2, '2 y2 ok broke 01', "a yield's line has no broke"),
                (1, '1 d ok broke 0A', form), (0, '0 h1 ok broke 1', form), (0, '0 h1 ok broke 001', form), (0, '0 h1 ok broke 0x01', form),
                (0, '0 h1 ok broke ', form), (0, '0 h1 ok broke 01 ', form), (0, '0 h1 ok broke  01', form), (0, '0 h1 ok broke 01\r', form),
                (0, '0 h1 ok broke +1', form), (0, '0 h1 ok broke 01 broke 01', form), (0, '0 h1 ok broke h0', form)):
            self.assertEqual(casefile.faults(self.case, self.text(n, line)), [
                'event %d (%s) has the line %r: %s' % (n, self.lines[n].split()[1], line, why)], line)
            self.assertIsNone(casefile.right_line(n, self.case.events[n], line, 3))

    def test_lines_that_are_wrong_before_it(self):
        for n, line in ((0, '0 h1 ok broke'), (0, '0 h1 ok  broke 01'), (0, '0 h1 ok broke01'), (0, '0 h1 ok Broke 01'), (0, '0 h1 ok\tbroke 01'),
                        (0, '0 h1 broke 01'), (0, '0 h1 sc broke 01'), (0, '0 h0 ok broke 02'), (1, '1 d sc 0 broke 01'), (2, '2 y2 sc 0 broke 01')):
            self.assertEqual(casefile.faults(self.case, self.text(n, line)), ['event %d (%s) has the line %r' % (n, self.lines[n].split()[1], line)])

    def test_every_set(self):
        for harts in range(1, 9):
            for losers in range(256):
                fits = 0 < losers < 1 << harts
                for event, said, right in [(casefile.Event(1, hart, 0, 0, 0), said, fits and said != 'sc 1' and hart not in bits(losers))
                                           for hart in range(harts) for said in ('ok', 'sc 0', 'sc 1')] + [
                        (casefile.Event(2, 0, 1, 0, 0), 'ok', fits), (casefile.Event(3, 0, 0, 0, 0), 'ok', False)]:
                    line = '9 %s %s broke %02x' % (casefile.letters(event), said, losers)
                    answer = casefile.right_line(9, event, line, harts)
                    self.assertEqual(answer, (said, ['h%d' % k for k in bits(losers)]) if right else None, (line, harts))

    def test_counts(self):
        lines = '\n'.join([casefile.header(self.case), '0 h1 sc 0 broke 05', '1 d ok broke 07', '2 y2 ok', 'end 3', ''])
        self.assertEqual(casefile.count(self.case, lines), {
            'events': 3, 'retired': 1, 'sc 0': 1, 'device': 1, 'yield': 1, 'broke': 2, 'broke h1 h0': 1, 'broke h1 h2': 1,
            'broke d h0': 1, 'broke d h1': 1, 'broke d h2': 1})


class Show(unittest.TestCase):
    def test_lines_beside_events(self):
        status, out, err = command(CASE, 'show', EXAMPLE, '--lines', EXAMPLE_LINES)
        self.assertEqual((status, err), (0, ''))
        self.assertRegex(out.decode(), r'(?m)^  sc\.w x7,x8,\(x5\) +# 4: 1882a3af$')
        self.assertRegex(out.decode(), r'(?m)^  device 0x48 1 0x00 +# 1 d ok$')
        self.assertRegex(out.decode(), r'(?m)^  step 1 +# 3 h1 sc 0 broke 01$')
        self.assertIn('\n\n%s\n' % textwrap.indent(out.decode(), '    '), data(os.path.join(ROOT, 'docs', 'TOOLS.md')).decode())
        self.assertEqual(command(CASE, 'make', given=out), (0, data(EXAMPLE), ''))

    def test_missing_line(self):
        status, out, err = command(CASE, 'show', EXAMPLE, '--lines', '-', given=data(EXAMPLE_LINES).replace(b'3 h1 sc 0 broke 01\n', b''))
        self.assertEqual((status, err), (1, '-: event 3 (h1) has no line\n'))
        self.assertRegex(out.decode(), r'(?m)^  step 1 +# 3: no line$')

    def test_a_wrong_set_of_losers(self):
        """It is a wrong line, told with what is wrong in it; the event keeps it beside itself."""
        given = data(EXAMPLE_LINES).replace(b'broke 01', b'broke 02')
        status, out, err = command(CASE, 'show', EXAMPLE, '--lines', '-', given=given)
        self.assertEqual((status, err), (1, "-: event 3 (h1) has the line '3 h1 sc 0 broke 02': bit 1 is the stepping hart's own\n"))
        self.assertRegex(out.decode(), r'(?m)^  step 1 +# 3 h1 sc 0 broke 02$')
        self.assertEqual(command(CASE, 'make', given=out), (0, data(EXAMPLE), ''))

    def test_long_numbers(self):
        """A line with a number that Python doesn't convert is a wrong line like another."""
        long = b'9' * 5000 + b' h1 sc 0 broke 01\n'
        status, out, err = command(CASE, 'show', EXAMPLE, '--lines', '-', given=data(EXAMPLE_LINES).replace(b'3 h1 sc 0 broke 01\n', long))
        self.assertEqual((status, err), (1, '-: event 3 (h1) has no line\n-: a line of no event: %r\n' % ('9' * 60)))
        self.assertRegex(out.decode(), r'(?m)^  step 1 +# 3: no line$')
        case, text = casefile.read(data(EXAMPLE)), data(EXAMPLE_LINES).decode()
        for old, new in (('2 h1 ok', long.decode()[:-1]), ('h1 sc 0', 'h%s sc 0' % ('1' * 5000)), ('end 5', 'end ' + '5' * 5000),
                         ('case 2', 'case ' + '2' * 5000), ('sc 0 broke 01', 'trap %s 0' % ('1' * 5000)),
                         ('broke 01', 'broke ' + '0' * 5000 + '1')):
            self.assertEqual(text.count(old), 1)
            self.assertNotEqual(casefile.faults(case, text.replace(old, new)), [])
        self.assertIsNone(casefile.right_line(3, case.events[3], long.decode(), 2))
        self.assertEqual(casefile.numbered(['1 d ok', long.decode()]), {1: ['1 d ok'], None: [long.decode()]})

    def test_control_characters(self):
        """What a terminal would obey is printed as an escape."""
        given = data(EXAMPLE_LINES).replace(b'3 h1 sc 0 broke 01', b'3 h1 \x1b[2J\r\t\0\x7f\x9b\xc3\xa4')
        status, out, err = command(CASE, 'show', EXAMPLE, '--lines', '-', given=given)
        self.assertEqual(status, 1)
        self.assertRegex(out.decode('ascii'), r'(?m)^  step 1 +# 3 h1 \\x1b\[2J\\r\\t\\x00\\x7f\\x9b\\xc3\\xa4$')
        self.assertRegex((out.decode('ascii') + err).replace('\n', ''), r'^[ -~]+$')
        self.assertEqual(command(CASE, 'make', given=out), (0, data(EXAMPLE), ''))

    def test_bad_files(self):
        good = data(EXAMPLE)
        for given, what in ((b'', 'refused 7 0'), (b'\1' + good[1:], 'refused 8 0'), (good + b'\0', 'refused 8 36'),
                            (good[:40] + b'\1' + good[41:], 'refused 9 40: harts: the base'),
                            (good[:52] + b'\2' + good[53:], 'refused 9 40: harts: the kind is 2, not 0 (64-bit) or 1 (32-bit)'),
                            (good[:52] + b'\1' + good[53:68] + b'\1' + good[69:], 'refused 9 40: harts: x2 of hart 0 has more than 32 bits'),
                            (good[:52] + b'\1' + good[53:308] + b'\1' + good[309:], 'refused 9 40: harts: pc of hart 0 has more than 32 bits'),
                            (good[:44] + b'\1' + good[45:52] + b'\1' + good[53:], 'refused 10 568: length of the memory: 128 bytes at 0x100000000'),
                            (good[:697] + b'\2' + good[698:], 'refused 11 696: events: event 0: hart 2')):
            status, out, err = command(CASE, 'show', '-', given=given)
            self.assertEqual((status, out), (1, b''))
            self.assertTrue(err.startswith('standard input: no case: ' + what), err)
