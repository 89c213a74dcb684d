"""tools/nightly --settings: each log is compared under its board's settings. The programs are small scripts, and the built ones where they are there."""
import json
import os
import shutil
import tempfile
import unittest
import xml.etree.ElementTree as xml

from common import EXAMPLE, NIGHTLY, PROGRAM, ROOT, command, data
from logs import LogsCase, row, write
from nightlyboards import name_fault, number_of, settings_of
from nightlycases import seal
from riscv import assemble, decode
from settingsfile import DEFAULT, Board
import casefile
import casetext
import nightlylogs
import nightlyrows
import nightlysheet
import outside
import settingsfile

REPLAY = os.path.join(os.path.dirname(PROGRAM), 'replay')
# Hart 1's store at 192 is in the set of hart 0's reservation at 128 if sets have 128 bytes, and not if they have 64. Then hart 0's LR of 130 traps.
CASE = '''
memory 256
hart 0 pc=0 x5=128 x9=130
hart 1 pc=12 x9=192
at 0
  lr.w x6,(x5)
  sc.w x7,x8,(x5)
  lr.w x6,(x9)
  sw x8,0(x9)
events
  step 0
  step 1
  step 0
'''
LR, SC, SKEWED, SW = (assemble(text) for text in ('lr.w x6,(x5)', 'sc.w x7,x8,(x5)', 'lr.w x6,(x9)', 'sw x8,0(x9)'))
LINES = '#!/bin/sh\nprintf "case 2 harts 256 bytes 3 events\\n0 h0 ok\\n1 h1 ok\\n2 h0 sc 0\\nend 3\\n"\n'
BOARDS = [Board(64, 21, 0), Board(128, 20, 1), Board(4096, 21, 0)]
TOLD = ['sets of 64 bytes, A 2.1, misaligned atomics give causes 4 and 6', 'sets of 128 bytes, A 2.0, misaligned atomics give causes 5 and 7',
        'sets of 4096 bytes, A 2.1, misaligned atomics give causes 4 and 6']
AGREED = 'log 3 rows\nagreed 3\nend 3\n'


def rows(sc, *more):
    """A log of the case in which the SC leaves so much in x7."""
    return [row(0, 0, LR, 6, 0), row(1, 12, SW, 0, 0), row(0, 4, SC, 7, sc), *more]


def value_stop(board, model):
    return 'log 3 rows\nrow 2 value %016x %016x\nend 2\n' % (board, model)


class SettingsCase(LogsCase):
    """A folder with the case above as sets.case, and a settings file of three boards."""
    real = False

    def setUp(self):
        super().setUp()
        os.remove(os.path.join(self.folder, 'lock.case'))
        self.case('sets')
        self.script(self.program, LINES)
        self.settings = os.path.join(self.top, 'boards')
        self.given(BOARDS)

    def case(self, name):
        write(os.path.join(self.folder, name + '.case'), casetext.make(CASE) if name != 'lock' else data(EXAMPLE))

    def given(self, boards, path=None):
        write(path or self.settings, settingsfile.write(boards))

    def log(self, name, rows, answer=AGREED):
        super().log(name, rows, answer)

    def without(self, *args, edit='pass'):
        """A night as LogsCase has it; by the built programs, if the tests are for them."""
        if not self.real:
            return super().night(*args, edit=edit)
        status, out, err = command(NIGHTLY, self.folder, *args)
        return status, out.decode().splitlines(), err

    def night(self, *args, edit='pass', settings=None):
        """A night with a settings file."""
        return self.without('--settings', settings or self.settings, *args, edit=edit)

    def table(self, page):
        """The lines of `By board`."""
        start = page.index('By board') + 2
        return page[start:page.index('', start)]


class Nights(SettingsCase):
    """What both the scripts and the built programs answer alike."""

    def test_boards_that_agree(self):
        self.log('sets.0', rows(0))
        self.log('sets.1', rows(1))
        status, page, err = self.night()
        self.assertEqual(status, 0, err)
        self.assertTrue(page[2].startswith('clean: 2 logs with 6 rows, 6 compared, 6 agreed, 0 not compared, '), page[2])
        self.assertEqual(self.table(page), ['     1              0     3       3             0      0  0: ' + TOLD[0],
                                            '     1              0     3       3             0      0  1: ' + TOLD[1],
                                            '     0              1     0       0             0      0  2: ' + TOLD[2]])

    def test_a_log_made_under_other_settings(self):
        self.log('sets.0', rows(1), value_stop(1, 0))
        self.log('sets.1', rows(0), value_stop(0, 1))
        page = self.assert_not_clean('2 stops; 2 logs with 6 rows, 6 compared, 4 agreed, 0 not compared, ', [
            'Stops: 2',
            '  sets.case, board 0 (%s): row 2, h0 at 0x4: sc.w x7,x8,(x5): value: board 1, model 0; 0 rows behind it not compared' % TOLD[0],
            '  sets.case, board 1 (%s): row 2, h0 at 0x4: sc.w x7,x8,(x5): value: board 0, model 1; 0 rows behind it not compared' % TOLD[1]])
        self.assertEqual(self.table(page)[1], '     1              0     3       2             0      1  1: ' + TOLD[1])
        self.assertIn('\n\n  %s\n\n' % page[6], data(os.path.join(ROOT, 'docs', 'TOOLS.md')).decode())

    def test_a_misaligned_lr(self):
        """The model traps by the cause of the board."""
        for board, sc, cause, means in ((0, 0, 4, 'misaligned load or LR'), (1, 1, 5, 'misaligned LR')):
            self.log('sets.%d' % board, rows(sc, row(0, 8, SKEWED, 6, 0)), 'log 4 rows\nrow 3 trap %d 0000000000000082\nend 3\n' % cause)
            self.assert_not_clean('1 stop; ', [
                'Stops: 1', '  sets.case, board %d (%s): row 3, h0 at 0x8: lr.w x6,(x9): trap: board x6 = 0, model cause %d (%s), value 0x82; '
                '0 rows behind it not compared' % (board, TOLD[board], cause, means)])
            os.remove(os.path.join(self.folder, 'sets.%d.log' % board))

    def test_names_that_are_no_boards(self):
        for name in ('sets', 'sets.b7', 'sets.3', 'sets.1.x', 'sets.-1', 'sets.99999999999999999999'):
            self.log(name, rows(0))
        self.log('sets.0', rows(0))
        page = self.assert_not_clean('6 logs without a board of the settings file; 7 logs with 21 rows, 3 compared, 3 agreed, 18 not compared, ', [
            'Not compared: 6',
            "  1: no board of the settings file: '-1' is no number; the file has 0 to 2", '      sets.-1.log',
            "  1: no board of the settings file: '1.x' is no number; the file has 0 to 2", '      sets.1.x.log',
            "  1: no board of the settings file: '3'; the file has 0 to 2", '      sets.3.log',
            "  1: no board of the settings file: '99999999999999999999'; the file has 0 to 2", '      sets.99999999999999999999.log',
            "  1: no board of the settings file: 'b7' is no number; the file has 0 to 2", '      sets.b7.log',
            '  1: no board of the settings file: its name has none; the file has 0 to 2', '      sets.log'], '--counts', self.counts)
        self.assertRegex('\n'.join(page), '(?m)^ +6  .. not compared$')
        self.assertEqual([line.split('  ')[-1] for line in self.table(page)[3:]], [
            name + ': no board of the settings file' for name in ('(no name)', '-1', '1.x', '3', '99999999999999999999', 'b7')])
        merged = command(NIGHTLY, '--merge', self.counts)
        self.assertEqual((merged[0], merged[1].decode().splitlines()[2]), (1, page[2]))

    def test_zeros_before_a_number(self):
        """As the program takes them."""
        self.log('sets.01', rows(1))
        self.log('sets.1', rows(1))
        self.log('sets.000', rows(0))
        status, page, err = self.night()
        self.assertEqual(status, 0, err)
        self.assertEqual([line.split()[0] for line in self.table(page)], ['1', '2', '0'])

    def test_a_case_that_a_board_refuses(self):
        """Its memory is no multiple of the board's set size; on the others it is a case."""
        self.log('sets.0', rows(0))
        self.log('sets.2', rows(0), 'refused 10 568\n')
        self.assert_not_clean('1 log refused; 2 logs with 6 rows, 3 compared, 3 agreed, 3 not compared, ', [
            'Not compared: 1', '  1: refused 10 568: the case file is none on a board with sets of 4096 bytes: length of the memory', '      sets.2.log'],
            '--counts', self.counts)
        self.assertEqual(command(NIGHTLY, '--merge', self.counts)[0], 1)
        write(os.path.join(self.folder, 'sets.case'), casetext.make(CASE.replace('memory', 'base 64\nmemory').replace('at 0', 'at 64')))
        os.remove(os.path.join(self.folder, 'sets.0.log'))
        self.log('sets.1', rows(0), 'refused 9 40\n')
        self.log('sets.2', rows(0), 'refused 9 40\n')
        self.assert_not_clean('2 logs refused; ', [
            'Not compared: 2',
            '  1: refused 9 40: the case file is none on a board with sets of 128 bytes: harts', '      sets.1.log',
            '  1: refused 9 40: the case file is none on a board with sets of 4096 bytes: harts', '      sets.2.log'])

    def test_parts_and_merge(self):
        self.case('also')
        for name in ('also.0', 'sets.0'):
            self.log(name, rows(0))
        files = [os.path.join(self.top, '%d.json' % k) for k in (1, 2)]
        for k, file in enumerate(files, 1):
            self.assertEqual(self.night('--part', '%d/2' % k, '--counts', file)[0], 0)
        status, out, _ = command(NIGHTLY, '--merge', *files)
        self.assertEqual(status, 0, out)
        self.assertEqual(self.table(out.decode().splitlines())[0], '     2              0     6       6             0      0  0: ' + TOLD[0])
        self.given([Board(64, 20, 0)] * 3)         # the logs agree under these too, but it is another settings file
        self.night('--part', '2/2', '--counts', files[1])
        status, out, _ = command(NIGHTLY, '--merge', *files, '--counts', self.counts)
        page = out.decode().splitlines()
        self.assertEqual((status, page[2][:56]), (1, "not clean: the model's own night is not complete; 2 logs"))
        self.assertEqual(page[4:7], ['Missing: 1', '  1: this part has another settings file than ' + files[0], '      ' + files[1]])
        self.assertEqual([line.split('  ')[-1] for line in self.table(page)[:2]], ['0: %s' % TOLD[0].replace('2.1', version) for version in ('2.0', '2.1')])
        self.assertNotIn('tools/nightly:', self.night('--since', self.counts)[2])         # the counts of the merged page can be read
        self.without('--part', '2/2', '--counts', files[1])
        self.assertIn('this part has another settings file', command(NIGHTLY, '--merge', *files)[1].decode())


@unittest.skipUnless(os.path.exists(PROGRAM) and os.path.exists(REPLAY), 'target/bin/floecavern or target/bin/replay is not built')
class BuiltNights(Nights):
    real = True

    def test_every_settings(self):
        """Logs of a board that follows each of sixteen settings: those of sets of 128 bytes and more see the store. One case, sixteen boards."""
        write(os.path.join(self.folder, 'sets.case'), casetext.make(CASE.replace('256', '4096')))
        boards = [Board(1 << 3 + k % 10, 20 + k % 2, k // 10) for k in range(16)]
        self.given(boards)
        for k, board in enumerate(boards):
            self.log('sets.%d' % k, rows(int(board.size >= 128)))
        status, page, err = self.night()
        self.assertEqual((status, page[2][:52]), (0, 'clean: 16 logs with 48 rows, 48 compared, 48 agreed,'), page[2])
        for k, board in enumerate(boards):
            self.log('sets.%d' % k, rows(int(board.size < 128)))
        self.assert_not_clean('16 stops; ', ['Stops: 16'])


class Given(SettingsCase):
    """The settings file itself, and what a night does with it. By scripts alone."""

    def test_what_the_program_is_given(self):
        self.log('sets.01', rows(1))
        self.log('lock.x', rows(1))         # without a case: the program isn't asked
        self.case('sets')
        status, page, _ = self.night(edit='assert settings == [%r, "1"] and len(sys.argv) == 5' % self.settings)
        self.assertTrue(page[2].startswith('not clean: 1 log without a case; 2 logs with 6 rows, 3 compared, 3 agreed, '), page[2])
        self.assertRegex('\n'.join(page), '(?m)^ +3  control rows: ')
        os.remove(os.path.join(self.folder, 'lock.x.log'))
        self.addCleanup(os.chdir, os.getcwd())
        os.chdir(self.top)
        self.assertEqual(self.night(settings='boards', edit='assert settings == [%r, "1"]' % self.settings)[0], 0)

    def test_without_it(self):
        self.log('sets.0', rows(0))
        status, page, _ = self.without('--counts', self.counts, edit='assert not settings')
        self.assertEqual((status, self.table(page)), (0, ['     1              0     3       3             0      0  0']))
        self.assertNotIn('settings', '\n'.join(page))
        record = json.loads(data(self.counts))
        self.assertEqual((record['settings'], record['settings_sha256'], record['boards'], record['cases'][0]['logs'][0]['settings']), ('', '', [], None))

    def test_a_file_that_is_none(self):
        """The night isn't started: no program is run, and what an earlier night wrote stays."""
        self.log('sets.0', rows(0))
        self.night('--out', self.page, '--counts', self.counts)
        before = {name: data(os.path.join(self.top, name)) for name in ('page.txt', 'page.html', 'counts.json')}
        note, good = os.path.join(self.top, 'note'), data(self.settings)
        self.script(self.program, '#!/bin/sh\ntouch %s\n' % note)
        folder, pipe = os.path.join(self.top, 'folder'), os.path.join(self.top, 'pipe')
        os.mkdir(folder)
        os.mkfifo(pipe)
        for file, what in ((good[:-1], 'no settings file: refused 21 0: number of boards, table or end: the last body ends at 44, the file at 43'),
                           (b'\3' + good[1:], 'no settings file: refused 22 0: format: it is 3, not 1 or 2'),
                           (b'', 'no settings file: refused 21 0: '), (good + bytes(5000), 'no settings file: refused 21 0: '),
                           (good[:43] + b'\2', 'no settings file: refused 23 40: board: of board 2, misaligned is 2'),
                           (None, 'the settings file cannot be read: No such file or directory'),
                           (folder, 'the settings file cannot be read: it is no plain file'), (pipe, 'the settings file cannot be read: it is no plain file')):
            path = file if type(file) is str else os.path.join(self.top, 'bad')
            if type(file) is bytes:
                write(path, file)
            elif file is None:
                os.remove(path)
            status, page, err = self.night('--out', self.page, '--counts', self.counts, settings=path)
            self.assertEqual((status, page), (1, []))
            self.assertTrue(err.startswith('tools/nightly: %s: %s' % (path, what)) and err.endswith('; nothing is run\n'), err)
            self.assertEqual({name: data(os.path.join(self.top, name)) for name in before}, before)
        self.assertFalse(os.path.exists(note))

    def test_a_folder_without_logs(self):
        status, page, _ = self.night()
        self.assertEqual((status, page[2].split('; ')[1:]), (0, ['no board was compared']))
        self.assertNotIn('By board', page)
        self.assertIn('  settings ' + self.settings, page)
        write(self.settings, b'')
        self.assertEqual(self.night()[0], 1)

    def test_it_is_no_output(self):
        self.log('sets.0', rows(0))
        before = data(self.settings)
        os.symlink('boards', os.path.join(self.top, 'link'))
        os.link(self.settings, os.path.join(self.top, 'hard'))
        for option in ('--counts', '--junit'):
            for name in ('boards', 'link', 'hard'):
                status, page, err = self.night(option, os.path.join(self.top, name))
                self.assertEqual((status, page), (1, []))
                self.assertIn('is the settings file', err)
        shutil.copy(self.settings, self.page + '.txt')
        self.assertIn('is the settings file', self.night('--out', self.page, settings=self.page + '.txt')[2])
        self.assertEqual((data(self.settings), data(self.page + '.txt')), (before, before))

    def test_it_is_changed_during_the_run(self):
        self.log('sets.0', rows(0))
        for edit, what in (("open(settings[0], 'ab').write(b'x')", 'the settings file was changed during the run'),
                           ("os.path.exists(settings[0]) and os.remove(settings[0])", 'the settings file vanished during the run')):
            page = self.assert_not_clean("1 log without an answer, the model's own night is not complete; ", [
                'Not compared: 1', '  1: no answer: ' + what, '      sets.0.log', '',
                'Missing: 1', '  1: the settings file was changed during the run', '      ' + self.settings], edit=edit)
            self.assertIn(' 3 rows, 0 compared, 0 agreed, 3 not compared, ', page[2])
            self.given(BOARDS)

    def test_merge_takes_none(self):
        status, out, err = command(NIGHTLY, '--merge', self.counts, '--settings', self.settings)
        self.assertEqual((status, out), (2, b''))
        self.assertIn('--merge takes no --settings: the parts have it', err)

    # what names it

    def three_boards(self):
        self.log('sets.0', rows(0))
        self.log('sets.1', rows(0), value_stop(0, 1))
        self.log('sets.2', rows(0), 'refused 10 568\n')
        self.log('sets.b7', rows(0))

    def test_pages(self):
        self.three_boards()
        for _ in range(2):         # the second replaces the first one's page
            self.assertNotIn('nothing is run', self.night('--out', self.page)[2])
        text, html = (data(self.page + end).decode() for end in ('.txt', '.html'))
        sha256 = json.loads(self.json())['settings_sha256']
        self.assertIn('\n  settings %s\n  SHA-256  %s\n  started ' % (self.settings, sha256), text)
        self.assertIn('<td class="">settings</td><td class="">%s</td></tr>\n<tr><td class="">SHA-256</td><td class="">%s</td>' % (self.settings, sha256), html)
        self.assertIn('sets.case</a>, board 1 (%s): row 2, h0 at 0x4' % TOLD[1], html)
        for k, told in enumerate(TOLD):
            self.assertIn('<td class="name">%d: %s</td>' % (k, told), html)
        self.assertIn('<td class="name">b7: no board of the settings file</td>', html)

    def json(self, *args):
        self.night('--counts', self.counts, *args)
        return data(self.counts)

    def test_json(self):
        self.three_boards()
        record = json.loads(self.json())
        self.assertEqual((record['format'], record['settings'], len(record['settings_sha256'])), ('floecavern nightly counts 6', self.settings, 64))
        self.assertEqual(record['boards'], [[64, 21, 0], [128, 20, 1], [4096, 21, 0]])
        self.assertEqual([(log['name'], log['board'], log['settings'], log['outcome']) for log in record['cases'][0]['logs']], [
            ('sets.0.log', '0', [64, 21, 0], 'agreed'), ('sets.1.log', '1', [128, 20, 1], 'stopped'), ('sets.2.log', '2', [4096, 21, 0], 'refused'),
            ('sets.b7.log', 'b7', None, 'unset')])

    def test_junit(self):
        self.three_boards()
        path = os.path.join(self.top, 'junit.xml')
        self.night('--junit', path)
        top = xml.parse(path).getroot()
        given = {found.get('name'): found.get('value') for found in top.iterfind('testsuite/properties/property')}
        self.assertEqual([given['board %d' % k] for k in range(3)], TOLD)
        self.assertEqual((given['settings'], len(given['settings SHA-256']), len(given)), (self.settings, 64, 6))
        messages = {test.get('name'): [(child.tag, child.get('type'), child.get('message')) for child in test if child.tag != 'system-out']
                    for test in top.iter('testcase')}
        self.assertEqual(messages, {
            'sets.case': [], 'sets.0.log': [],
            'sets.1.log': [('failure', 'stopped', 'board 1 (%s): row 2, h0 at 0x4: sc.w x7,x8,(x5): value: board 0, model 1; '
                            '0 rows behind it not compared' % TOLD[1])],
            'sets.2.log': [('error', 'refused', 'board 2 (%s): refused 10 568: the case file is none on a board with sets of 4096 bytes: '
                            'length of the memory' % TOLD[2])],
            'sets.b7.log': [('error', 'unset', "no board of the settings file: 'b7' is no number; the file has 0 to 2")]})

    # against an earlier night, and again

    def test_since(self):
        self.log('sets.0', rows(0))
        self.log('sets.1', rows(1))
        self.json()
        self.assertIn('  nothing is new and nothing is gone', self.night('--since', self.counts)[1])
        other = os.path.join(self.top, 'other')
        self.given([BOARDS[0], Board(256, 20, 1)], other)
        self.log('sets.1', rows(1), value_stop(1, 0))
        page = '\n'.join(self.night('--since', self.counts, settings=other)[1])
        self.assertIn('  that night had another settings file: %s\n  1 fail now, and did not\n      sets.1.log\n'
                      '  1 are compared under other settings\n      sets.1.log\n' % self.settings, page)
        page = '\n'.join(self.without('--since', self.counts)[1])
        self.assertIn('  only that night compared boards under a settings file\n', page)
        self.without('--counts', self.counts)
        page = '\n'.join(self.night('--since', self.counts)[1])
        self.assertIn('  only this night compared boards under a settings file\n', page)
        self.assertIn('  2 are compared under other settings\n      sets.0.log\n      sets.1.log\n', page)

    def test_only(self):
        self.case('also')
        self.log('also.1', rows(1))
        self.log('sets.0', rows(0))
        self.log('sets.1', rows(0), value_stop(0, 1))
        self.json()
        status, page, _ = self.night('--only', self.counts)
        self.assertTrue(page[2].startswith('not clean: 1 stop; only 1 of 2 files, 2 of 3 logs'), page[2])
        status, page, err = self.without('--only', self.counts)
        self.assertEqual((status, page), (1, []))
        self.assertIn('that night had the settings file %s: give it, or another, with --settings\n' % self.settings, err)
        # board 1 is set to something else now: also.case is run again too, though its log agreed
        other = os.path.join(self.top, 'other')
        self.given([BOARDS[0], Board(64, 20, 1)], other)
        self.log('sets.1', rows(0))
        self.log('also.1', rows(1), value_stop(1, 0))
        status, page, _ = self.night('--only', self.counts, settings=other)
        self.assertTrue(page[2].startswith('not clean: 1 stop; only 2 of 2 files, 3 logs with 9 rows, '), page[2])
        self.assertIn('  that night had another settings file: %s\n' % self.settings, '\n'.join(page))
        self.assertIn('  1 fail now, and did not\n      also.1.log\n', '\n'.join(page))
        self.without('--counts', self.counts)
        self.assertTrue(self.night('--only', self.counts)[1][2].endswith('complete: only 2 of 2 files, 6 events each with its line'))

    def test_only_of_a_log_that_had_no_board(self):
        self.log('sets', rows(0))
        self.log('sets.0', rows(0))
        self.json()
        os.remove(os.path.join(self.folder, 'sets.log'))
        self.log('sets.00', rows(0))
        status, page, _ = self.night('--only', self.counts)
        self.assertEqual((status, page[4:7]), (1, ['Missing: 1', '  1: is not in the folder any more', '      sets.log']))

    def test_counts_are_checked(self):
        self.log('sets.0', rows(0))
        self.log('sets.b7', rows(0))
        self.json()
        whole = data(self.counts)

        def log(k, **change):
            return lambda record: record['cases'][0]['logs'][k].update(change)

        itself, shape = 'does not agree with itself', 'is no counts file of this version of tools/nightly'
        def night(**change):
            return lambda record: record.update(change)

        for change, what in ((night(), None), (log(0, settings=[128, 21, 0]), itself), (log(0, settings=None), itself),
                             (log(1, settings=[64, 21, 0]), itself), (log(1, outcome='missing'), itself), (log(0, outcome='unset', what='x'), itself),
                             (log(0, settings=[64, 21]), shape), (log(0, settings=[63, 21, 0]), shape), (log(0, settings=[64, 21, True]), shape),
                             (log(0, settings='64'), shape), (night(boards=[]), itself), (night(boards=[[64, 22, 0]]), shape), (night(boards=[64]), shape),
                             (night(settings=''), itself), (night(settings_sha256=''), itself), (night(boards=[[64, 20, 0]]), itself),
                             (lambda r: r.pop('boards'), shape), (lambda r: r.pop('settings_sha256'), shape),
                             (night(format='floecavern nightly counts 5'), shape + ': its format is '
                              "'floecavern nightly counts 5', not 'floecavern nightly counts 6'")):
            record = json.loads(whole)
            change(record)
            write(self.counts, json.dumps(dict(record, seal=seal(record))).encode())
            status, out, err = command(NIGHTLY, '--merge', self.counts)
            self.assertEqual((status, err), (1, ''))
            self.assertIn(what or '1 log without a board of the settings file; ', out.decode())


class Judged(unittest.TestCase):
    """What an answer may say follows the board."""

    def case(self, word, board):
        case = casefile.read(data(EXAMPLE), board)
        return case._replace(memory=word.to_bytes(4, 'little') + case.memory[4:])

    def fault(self, word, board, cause, address):
        """What is wrong with a trap of this word; None if nothing is."""
        text = 'log 1 rows\nrow 0 trap %d %016x\nend 0\n' % (cause, address)
        case = self.case(word, board)
        with tempfile.NamedTemporaryFile() as log:
            log.write(row(0, 0, word, nightlyrows.rd_of(word), 0))
            log.flush()
            return nightlylogs.judged(text, case, None, nightlyrows.Rows(log.name, case, 0))[1]

    def test_misaligned_accesses(self):
        """The memory of the example has 128 bytes from 0 on."""
        for text, atomic, skewed, outside_memory in (
                ('lr.w x6,(x5)', True, 4, 5), ('lr.d x6,(x5)', True, 4, 5), ('sc.w x6,x8,(x5)', True, 6, 7), ('sc.d x6,x8,(x5)', True, 6, 7),
                ('amoadd.w x6,x8,(x5)', True, 6, 7), ('amomaxu.d x6,x8,(x5)', True, 6, 7), ('amocas.w x6,x8,(x5)', True, 6, 7),
                ('amocas.d x6,x8,(x5)', True, 6, 7), ('amocas.q x6,x8,(x5)', True, 6, 7),
                ('lw x6,0(x5)', False, 4, 5), ('lhu x6,0(x5)', False, 4, 5), ('ld x6,0(x5)', False, 4, 5), ('sw x6,0(x5)', False, 6, 7),
                ('sd x6,0(x5)', False, 6, 7)):
            word = assemble(text)
            for board in (Board(64, 21, 0), Board(8, 20, 0), Board(64, 21, 1), Board(128, 20, 1)):
                for address in (0x41, 0xfff1):         # in memory and outside it
                    due = outside_memory if atomic and board.misaligned else skewed
                    for cause in range(9):
                        self.assertEqual(self.fault(word, board, cause, address) is None, cause == due, (text, board, address, cause))
                for cause in range(9):
                    self.assertEqual(self.fault(word, board, cause, 0xfff0) is None, cause == outside_memory, (text, board, cause))
                    self.assertIsNotNone(self.fault(word, board, cause, 0x40), (text, board, cause))
        self.assertIn('lr.w has no such trap on its board', self.fault(assemble('lr.w x6,(x5)'), Board(64, 21, 1), 4, 0x41))
        self.assertIn('the address is misaligned', self.fault(assemble('lr.w x6,(x5)'), Board(64, 21, 0), 5, 0x41))

    def test_other_traps_stay(self):
        for text, cause, value in (('ecall', 8, 0), ('ebreak', 3, 0), ('jal x0,2', 0, 2), ('jalr x1,0(x5)', 0, 2)):
            for board in (DEFAULT, Board(64, 21, 1)):
                for said in range(9):
                    self.assertEqual(self.fault(assemble(text), board, said, value) is None, said == cause, (text, board, said))

    def test_every_outside_trap(self):
        """All traps of the outside vectors for misaligned, each right under its own setting; one of a misaligned atomic under that alone."""
        seen = {True: 0, False: 0}
        for _, number, line in outside.lines(outside.MISALIGNED):
            if line['call'] != 'step' or line['answer'][0] != 'trap':
                continue
            pc, memory, base = list(outside.harts(line))[line['hart']][1], outside.memory(line, line), outside.base(line)
            case = casefile.Case(base, [None] * line['count'], memory, [], outside.kind(line))
            word = int.from_bytes(memory[pc - base:pc - base + 4], 'little') if base <= pc <= base + len(memory) - 4 else 0
            given = nightlyrows.Row(str(line['hart']), '%016x' % pc, '%08x' % word, '00', '0' * 16)
            fault = [nightlylogs.trap_fault(case._replace(board=Board(64, 21, misaligned)), given, *line['answer'][1:]) for misaligned in (0, 1)]
            mine, found = line['misaligned'], decode(word, nightlyrows.width_of(case))
            self.assertIsNone(fault[mine], (number, line['answer']))
            follows = bool(found and found[1] in ('lr', 'amo') and line['answer'][2] % nightlylogs.width(found[0]))
            self.assertEqual(fault[1 - mine] is not None, follows, (number, line['answer']))
            seen[follows] += 1
        self.assertEqual((sum(seen.values()), min(seen.values()) > 100), (492, True), seen)

    def test_refusals_of_a_case(self):
        """9 and 10 ask for multiples of the larger of 64 and the board's set size."""
        for base, length in ((0, 64), (0, 128), (64, 64), (64, 128), (128, 192), (4096, 4096), (4096, 8192), (2048, 4096), (4096, 2048), (1 << 40, 64),
                             (32, 64), (8, 128), (0, 96), (64, 72)):
            data = casefile.write(casefile.Case(base, [casefile.Hart((0,) * 31, 0)], bytes(length), []))
            for size in settingsfile.SIZES:
                multiple = max(64, size)
                wanted = (9, 40) if base % multiple else (10, 312) if length % multiple else None
                try:
                    case, found = casefile.read(data, Board(size, 21, 0)), None
                    self.assertEqual(case.board.size, size)
                except casefile.Refused as refused:
                    found = refused.number, refused.place
                self.assertEqual(found, wanted, (base, length, size))

    @unittest.skipUnless(os.path.exists(REPLAY), 'target/bin/replay is not built')
    def test_refusals_by_the_program(self):
        """The tool's reading of a case on a board is the program's."""
        with tempfile.TemporaryDirectory() as folder:
            paths = [os.path.join(folder, name) for name in ('case', 'log', 'settings')]
            write(paths[1], row(0, 0, 0x13, 0, 0))
            boards = [Board(size, 21, 0) for size in settingsfile.SIZES]
            write(paths[2], settingsfile.write(boards))
            for base, length in ((0, 64), (64, 128), (128, 192), (4096, 4096), (2048, 4096), (4096, 2048), (32, 64), (0, 96)):
                write(paths[0], casefile.write(casefile.Case(base, [casefile.Hart((0,) * 31, base)], bytes(length), [])))
                for k, board in enumerate(boards):
                    with open(paths[0], 'rb') as file:
                        refusal = nightlylogs.opened(file, board)[1]
                    output = nightlylogs.run(REPLAY, None, 20, arguments=(*paths, str(k)))[0].decode()
                    self.assertEqual(output.startswith('refused'), refusal is not None, (base, length, board, output))
                    self.assertTrue(refusal is None or output == 'refused %s\n' % refusal, (base, length, board, output))


class Names(unittest.TestCase):
    def test_numbers(self):
        for name, number in (('0', 0), ('15', 15), ('007', 7), ('0000000000000000000003', 3), ('', None), ('b7', None), ('-1', None), ('+1', None),
                             (' 1', None), ('1 ', None), ('1.0', None), ('0x1', None), ('1\n', None), ('\u0661', None), ('\u00b2', None), ('9' * 30, None)):
            self.assertEqual(number_of(name), number, name)

    def test_boards(self):
        boards = [Board(64, 21, 0), Board(8, 20, 1)]
        self.assertEqual([settings_of(boards, name) for name in ('0', '01', '2', '', 'x')], [[64, 21, 0], [8, 20, 1], None, None, None])
        self.assertEqual([settings_of([], name) for name in ('0', '')], [None, None])
        self.assertEqual([name_fault([], name) for name in ('0', '', 'x')], [None] * 3)
        self.assertIsNone(name_fault(boards, '1'))
        self.assertEqual(name_fault(boards[:1], '1'), "no board of the settings file: '1'; the file has only 0")

    def test_causes(self):
        for cause, value, word, text in ((5, 0x41, 'lr.w x6,(x5)', 'misaligned LR'), (7, 0x44, 'sc.d x6,x8,(x5)', 'misaligned SC or AMO'),
                                         (5, 0x100, 'lr.w x6,(x5)', 'load or LR outside memory'), (5, 0x101, 'lw x6,0(x5)', 'load or LR outside memory'),
                                         (4, 0x41, 'lr.w x6,(x5)', 'misaligned load or LR')):
            self.assertEqual(nightlysheet.cause_text(cause, value, '%08x' % assemble(word), 64), text)


if __name__ == '__main__':
    unittest.main()
