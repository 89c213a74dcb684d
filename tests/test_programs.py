"""The programs where their input can't be read or their output can't be written: a line on standard error, and no answer. And on a settings file's boards."""
import os
import socket
import struct
import subprocess
import tempfile
import unittest

from common import EXAMPLE, EXAMPLE_LINES, KIND_32, ROOT, InFolder, data, vector_pairs

PROGRAMS = {name: os.path.join(ROOT, 'target', 'bin', name) for name in ('floecavern', 'loopcheck')}
BUILT = [name for name, path in PROGRAMS.items() if os.path.exists(path)]
REPLAY = os.path.join(ROOT, 'target', 'bin', 'replay')
REPLAY_CASE, REPLAY_LOG = (os.path.join(ROOT, 'crates', 'replay', 'data', name) for name in ('case', 'log'))
DEFAULT = (64, 21, 0)
LR, SC = 0x1002A32F, 0x1882A3AF           # lr.w x6,(x5) and sc.w x7,x8,(x5)
USE = {'floecavern': 'use: floecavern [SETTINGS BOARD] < CASE\n', 'replay': 'use: replay CASE LOG [SETTINGS BOARD]\n'}
NO_BOARD = '%s: BOARD is not a number below %d, as many boards as SETTINGS has\n'


def settings_of(*boards, form=2):
    """A settings file of boards: set size, version and, in format 2, misaligned."""
    bodies = [struct.pack('<HBB', *board)[:form + 2] for board in boards]
    start = 8 + 8 * len(boards)
    table = b''.join(struct.pack('<II', start + (form + 2) * k, form + 2) for k in range(len(boards)))
    return struct.pack('<II', form, len(boards)) + table + b''.join(bodies)


def step(hart=0):
    return struct.pack('<BBB5xQQ', 1, hart, 0, 0, 0)


def device(address):
    return struct.pack('<BBB5xQQ', 2, 0, 1, address, 0)


def case_of(words, events, x5=64, base=0, length=128):
    """A case of one hart, whose words stand at the base and whose pc is there."""
    registers = [0] * 31
    registers[4] = x5
    harts = struct.pack('<QII', base, 1, 0) + struct.pack('<32Q', *registers, base)
    memory = b''.join(word.to_bytes(4, 'little') for word in words).ljust(length, b'\0')
    body = b''.join(events)
    table, start = struct.pack('<I', 3), 40
    for kind, part in ((1, harts), (2, memory), (3, body)):
        table, start = table + struct.pack('<III', kind, start, len(part)), start + len(part)
    return table + harts + memory + body


def row(pc, word, rd, value):
    return b'0 %016x %08x %02d %016x\n' % (pc, word, rd, value)


@unittest.skipUnless(BUILT, 'neither target/bin/floecavern nor target/bin/loopcheck is built')
class Programs(unittest.TestCase):
    def assert_no_answer(self, name, done, why):
        self.assertEqual((done.stdout, done.stderr.decode()), (b'', '%s: standard input: %s\n' % (name, why)))

    def test_a_folder(self):
        with tempfile.TemporaryDirectory() as folder:
            for name in BUILT:
                given = os.open(folder, os.O_RDONLY)
                self.assert_no_answer(name, subprocess.run([PROGRAMS[name]], stdin=given, capture_output=True), 'Is a directory')
                os.close(given)

    def test_closed(self):
        for name in BUILT:
            done = subprocess.run(['/bin/sh', '-c', 'exec "$0" <&-', PROGRAMS[name]], capture_output=True)
            self.assert_no_answer(name, done, 'Bad file descriptor')

    def test_not_for_reading(self):
        with tempfile.TemporaryFile('w') as given:
            writing = os.open('/proc/self/fd/%d' % given.fileno(), os.O_WRONLY)
            for name in BUILT:
                self.assert_no_answer(name, subprocess.run([PROGRAMS[name]], stdin=writing, capture_output=True), 'Bad file descriptor')
            os.close(writing)

    def broken_off(self, name, sent):
        """Standard input gives so many bytes, and then a read fails: the other end is closed with bytes that it hasn't read."""
        mine, other = socket.socketpair()
        with mine, subprocess.Popen([PROGRAMS[name]], stdin=mine, stdout=subprocess.PIPE, stderr=subprocess.PIPE) as process:
            mine.sendall(b'unread')
            other.sendall(bytes(sent))
            other.close()
            out, err = process.communicate()
        return subprocess.CompletedProcess([], process.returncode, out, err)

    def test_a_read_that_fails_later(self):
        for name in BUILT:
            for sent in (1, 40, 100, 4096, 65536, 65540, 150000):
                if name == 'floecavern' and sent > 65536:         # it has seen enough: the file is too long, whatever follows
                    self.assertEqual(self.broken_off(name, sent).stdout, b'refused 7 0\n')
                else:
                    self.assert_no_answer(name, self.broken_off(name, sent), 'Connection reset by peer')

    def test_an_empty_input_is_an_answer(self):
        for name, line in (('floecavern', b'refused 7 0\n'), ('loopcheck', b'refused 6\n')):
            if name in BUILT:
                done = subprocess.run([PROGRAMS[name]], stdin=subprocess.DEVNULL, capture_output=True)
                self.assertEqual((done.stdout, done.stderr), (line, b''))

    def test_a_full_disk(self):
        for name in BUILT:
            with open('/dev/full', 'wb') as full:
                done = subprocess.run([PROGRAMS[name]], stdin=subprocess.DEVNULL, stdout=full, stderr=subprocess.PIPE)
            self.assertEqual(done.stderr.decode(), '%s: standard output: No space left on device\n' % name)

    @unittest.skipUnless('floecavern' in BUILT, 'target/bin/floecavern is not built')
    def test_an_input_in_small_parts(self):
        with subprocess.Popen([PROGRAMS['floecavern']], stdin=subprocess.PIPE, stdout=subprocess.PIPE) as process:
            for k in range(0, len(data(EXAMPLE)), 7):
                process.stdin.write(data(EXAMPLE)[k:k + 7])
                process.stdin.flush()
            process.stdin.close()
            self.assertEqual(process.stdout.read(), data(EXAMPLE_LINES))


@unittest.skipUnless('floecavern' in BUILT and os.path.exists(REPLAY), 'target/bin/floecavern or target/bin/replay is not built')
class Boards(InFolder):
    def run_on(self, case, *arguments):
        """What floecavern writes for a case: its standard output and standard error."""
        done = subprocess.run([PROGRAMS['floecavern'], *arguments], input=case, capture_output=True)
        return done.stdout.decode(), done.stderr.decode()

    def replay_on(self, *arguments):
        done = subprocess.run([REPLAY, *arguments], capture_output=True)
        return done.stdout.decode(), done.stderr.decode()

    def lines(self, case, *boards, number=0, form=2):
        """The lines of a case on one of these boards."""
        said, told = self.run_on(case, self.path('settings', settings_of(*boards, form=form)), str(number))
        self.assertEqual(told, '')
        return said.splitlines()

    def test_refused_settings(self):
        """Each refusal, by both programs, and nothing of the case or of BOARD: neither is looked at."""
        good = settings_of(DEFAULT, (16, 20, 1))
        for content, line in [(b'', 'refused 21 0'), (good[:7], 'refused 21 0'), (b'\3' + good[1:], 'refused 22 0'), (b'\0' * 8, 'refused 22 0'),
                              (good[:8], 'refused 21 0'), (good[:-1], 'refused 21 0'), (good + b'\n', 'refused 21 0'), (settings_of(), 'refused 21 0'),
                              (settings_of(*17 * [DEFAULT]), 'refused 21 0'), (good[:8] + b'\x19' + good[9:], 'refused 21 0'),
                              (settings_of((48, 21, 0)), 'refused 23 16'), (settings_of(DEFAULT, (64, 22, 0)), 'refused 23 28'),
                              (settings_of(DEFAULT, DEFAULT, (64, 21, 2)), 'refused 23 40'), (settings_of(DEFAULT, (4, 21, 0), form=1), 'refused 23 27'),
                              (good.ljust(5000, b'\0'), 'refused 21 0'), ((b'\3' + good[1:]).ljust(5000, b'\0'), 'refused 22 0')]:
            path = self.path('settings', content)
            for board in ('0', '99', 'x'):
                self.assertEqual(self.run_on(data(EXAMPLE), path, board), (line + '\n', ''))
                self.assertEqual(self.replay_on(self.path('none'), self.path('none'), path, board), (line + '\n', ''))

    def test_other_boards(self):
        """A BOARD that is no number or not below the count: a line on standard error, and no answer."""
        for count in (1, 2, 16):
            path = self.path('settings', settings_of(*count * [DEFAULT]))
            for board in ('', ' ', 'x', '0x', '-1', '+0', '0 ', '1.0', '\u0660', str(count), str(count + 1), '100', '1000', str(2**64), 'x' * 5000):
                self.assertEqual(self.run_on(data(EXAMPLE), path, board), ('', NO_BOARD % ('floecavern', count)))
                self.assertEqual(self.replay_on(REPLAY_CASE, REPLAY_LOG, path, board), ('', NO_BOARD % ('replay', count)))

    def test_other_arguments(self):
        path = self.path('settings', settings_of(DEFAULT))
        for arguments in ([path], [path, '0', '0'], [path, '0', path, '0'], [path, '0', '0', '0', '0']):
            self.assertEqual(self.run_on(data(EXAMPLE), *arguments), ('', USE['floecavern']))
        for arguments in ([], [REPLAY_CASE], [REPLAY_CASE, REPLAY_LOG, path], [REPLAY_CASE, REPLAY_LOG, path, '0', '0']):
            self.assertEqual(self.replay_on(*arguments), ('', USE['replay']))

    def test_settings_that_cannot_be_read(self):
        for path, why in ((self.path('none'), 'No such file or directory'), (self.folder.name, 'Is a directory')):
            self.assertEqual(self.run_on(data(EXAMPLE), path, '0'), ('', 'floecavern: %s: %s\n' % (path, why)))
            self.assertEqual(self.replay_on(REPLAY_CASE, REPLAY_LOG, path, '0'), ('', 'replay: %s: %s\n' % (path, why)))

    def test_the_default_board_is_no_board(self):
        """The same bytes, for every outside case."""
        path = self.path('settings', settings_of(DEFAULT))
        pairs = [('', data(EXAMPLE), data(EXAMPLE_LINES)), *vector_pairs(), *vector_pairs(KIND_32)]
        for name, case, _ in pairs:
            self.assertEqual(self.run_on(case, path, '0'), self.run_on(case), name)
        self.assertEqual(self.run_on(data(EXAMPLE), path, '0'), (data(EXAMPLE_LINES).decode(), ''))
        self.assertEqual(self.replay_on(REPLAY_CASE, REPLAY_LOG, path, '0'), self.replay_on(REPLAY_CASE, REPLAY_LOG))

    def test_the_number_of_a_board(self):
        """Boards count from 0; zeros in front change nothing."""
        case = case_of([LR], [step()], x5=66)
        boards = [(64, 21, k // 2 % 2) for k in range(16)]
        for form in (1, 2):
            for number in (*range(16), '00', '010', '0' * 100 + '2'):
                cause = 5 if form == 2 and int(number) // 2 % 2 else 4
                self.assertEqual(self.lines(case, *boards, number=number, form=form)[1], '0 h0 trap %d 0000000000000042' % cause)

    def test_set_sizes_of_memories(self):
        """9 and 10 ask for multiples of the larger of 64 and the set size."""
        for size, base, length, line in [(64, 64, 64, None), (16, 64, 64, None), (4096, 0, 64, 'refused 10 312'), (4096, 64, 4096, 'refused 9 40'),
                                         (4096, 2048, 4096, 'refused 9 40'), (4096, 4096, 2048, 'refused 10 312'), (4096, 4096, 4096, None),
                                         (4096, 4096, 8192, None), (128, 128, 192, 'refused 10 312'), (128, 64, 256, 'refused 9 40'),
                                         (8, 32, 64, 'refused 9 40'), (8, 0, 96, 'refused 10 312'), (2048, 2**40, 2048, None), (2048, 2**40 + 2048, 2048, 'refused 9 40')]:
            case = case_of([LR], [step()], x5=base, base=base, length=length)
            expected = [line] if line else ['case 1 harts %d bytes 1 events' % length, '0 h0 ok', 'end 1']
            self.assertEqual(self.lines(case, (size, 21, 0)), expected)
            self.path('log', row(base, LR, 6, LR))
            self.path('case', case)
            said = self.replay_on(self.path('case'), self.path('log'), self.path('settings'), '0')
            self.assertEqual(said, (line + '\n' if line else 'log 1 rows\nagreed 1\nend 1\n', ''))

    def test_set_sizes_of_reservations(self):
        """An SC 8 bytes behind the LR: in a set of 16 or more bytes, and not in one of 8."""
        words = [LR, 0x00828293, SC]                              # addi x5,x5,8
        for size, result in ((8, 1), (16, 0), (64, 0), (4096, 0)):
            case = case_of(words, 3 * [step()], x5=64, length=4096)
            self.assertEqual(self.lines(case, (size, 21, 0))[3], '2 h0 sc %d' % result)

    def test_versions(self):
        """A device write on what the LR read breaks the reservation under 2.1, and nothing under 2.0."""
        case = case_of([LR, SC], [step(), device(64), step()])
        for form in (1, 2):
            self.assertEqual(self.lines(case, (64, 21, 0), form=form)[2:4], ['1 d ok broke 01', '2 h0 sc 1'])
            self.assertEqual(self.lines(case, (64, 20, 0), form=form)[2:4], ['1 d ok', '2 h0 sc 0'])

    def test_misaligned(self):
        """Causes 4 and 6, or 5 and 7; those of a load and a store stay."""
        for word, causes in ((LR, (4, 5)), (SC, (6, 7)), (0x0082A32F, (6, 7)), (0x2882A32F, (6, 7)), (0x0002A303, (4, 4)), (0x0082A023, (6, 6))):
            case = self.path('case', case_of([word], [step()], x5=66))
            log = self.path('log', row(0, word, 0, 0))
            for version in (20, 21):
                for misaligned, cause in enumerate(causes):
                    self.assertEqual(self.lines(data(case), (64, version, misaligned))[1], '0 h0 trap %d 0000000000000042' % cause)
                    said = self.replay_on(case, log, self.path('settings'), '0')
                    self.assertEqual(said, ('log 1 rows\nrow 0 trap %d 0000000000000042\nend 0\n' % cause, ''))
            self.assertEqual(self.lines(data(case), (64, 21, 1), form=1)[1], '0 h0 trap %d 0000000000000042' % causes[0])

    def test_a_refused_case_and_log(self):
        """7 to 11, 12 and 13 as without a board; a refused settings file comes before."""
        path = self.path('settings', settings_of((4096, 20, 1)))
        self.assertEqual(self.run_on(b'', path, '0'), ('refused 7 0\n', ''))
        case = self.path('case', case_of([LR], [], length=4096))
        for log, line in ((b'', 'refused 13 0'), (b'0', 'refused 12 0')):
            self.assertEqual(self.replay_on(case, self.path('log', log), path, '0'), (line + '\n', ''))


if __name__ == '__main__':
    unittest.main()
