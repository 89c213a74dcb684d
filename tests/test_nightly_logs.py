"""tools/nightly: what a night says of boards' logs. The programs are small scripts."""
import glob
import json
import os
import re
import resource
import struct
import subprocess
import sys
import tempfile
import time
import unittest
import xml.etree.ElementTree as xml

from common import CASE, EXAMPLE, EXAMPLE_LINES, NIGHTLY, ROOT, command, data
from casefile import HARTS, WRITERS
from logs import AGREED, DIFFERENT, FAKE, RIGHT, SC, STOPPED, LogsCase, row, write
from nightlyfolder import board, find
from nightlyhtml import html_page
from nightlyrows import KINDS, NO_INSTRUCTION, UNREADABLE
from riscv import INSTRUCTIONS, assemble
from test_nightly_page import CHROMIUM, shown_width


class Sheet(LogsCase):
    """What a night says of logs."""

    def test_names_of_logs(self):
        for name in ('a.case', 'a.b.case', 'deep/a.case', 'a.log', 'a.b.log', 'a.b.c.log', 'a.x.y.log', 'a..log', 'ab.log', 'deep/a.z.log',
                     'deep/b.log', '.log', 'A.LOG', 'a.b9.LOG', 'a.log.gz', 'lock.case.log'):
            os.makedirs(os.path.dirname(os.path.join(self.folder, name)), exist_ok=True)
            write(os.path.join(self.folder, name), b'')
        found = find(self.folder)
        self.assertEqual(found.logs, {'a.case': ['a..log', 'a.b9.LOG', 'a.log', 'a.x.y.log'], 'a.b.case': ['a.b.c.log', 'a.b.log'],
                                      'deep/a.case': ['deep/a.z.log'], 'lock.case': ['lock.case.log']})
        self.assertEqual((found.strays, found.others), (['.log', 'A.LOG', 'ab.log', 'deep/b.log'], ['a.log.gz']))
        named = [board(log, case) for log, case in (('a.log', 'a.case'), ('a.x.y.log', 'a.case'), ('d.e/a.b.z.log', 'd.e/a.b.case'))]
        self.assertEqual(named, ['', 'x.y', 'z'])

    def test_a_clean_night(self):
        self.log('lock.b7')
        self.log('lock.b9')
        status, page, _ = self.night('--out', self.page)
        line = ('clean: 2 logs with 8 rows, 8 compared, 8 agreed, 0 not compared, 2 of 77 instructions in agreed rows; '
                'complete: 1 file, 5 events each with its line')
        self.assertEqual((status, page), (0, [line]))
        text = data(self.page + '.txt').decode()
        self.assertEqual(text.splitlines()[2:5], [line, '', 'Boards'])
        for shown in ('2  logs', '2  .. agreed in every row', '8  rows in the logs', '8  .. compared, and agreed', '0  .. behind a stop, not compared',
                      '6  control rows: changed in a copy of a log, and found', '1 +0 +4 +4 +0 +0  b7',
                      'In no row, and seen only where a later row shows them: memory, .*, and steps that trap on a board'):
            self.assertRegex(text, '(?m)^ +%s$' % shown)
        self.assertIn('<div class="verdict good">%s</div>' % line, data(self.page + '.html').decode())

    def test_a_night_without_logs(self):
        status, page, _ = self.night('--out', self.page, '--counts', self.counts)
        self.assertEqual((status, page), (0, ['complete: 1 file, 5 events each with its line; no board was compared']))
        for end in ('.txt', '.html'):
            self.assertIn(b'No board was compared: no log was found in the folder.', data(self.page + end))
            self.assertNotIn(b'amocas', data(self.page + end))
        record = json.loads(data(self.counts))
        self.assertEqual((record['logs'], record['replay'], record['replay_sha256'], record['cases'][0]['logs']), (0, '', '', []))

    def test_the_program_is_needed_only_for_logs(self):
        missing = '--replay', os.path.join(self.top, 'nowhere')
        self.assertEqual(self.night(*missing)[0], 0)
        self.log('lock')
        status, page, err = self.night(*missing)
        self.assertEqual((status, page), (1, []))
        self.assertIn('nowhere is no program, but the folder has logs', err)

    def test_a_board_that_differs(self):
        self.log('lock.b7', DIFFERENT + RIGHT[:2], 'log 6 rows\nrow 3 value 0000000000000000 0000000000000001\nend 3\n')
        self.log('lock.b9')
        page = self.assert_not_clean('1 stop; 2 logs with 10 rows, 8 compared, 7 agreed, 2 not compared, 2 of 77 instructions in agreed rows; complete: ', [
            'Stops: 1', '  lock.case, board b7: row 3, h0 at 0x4: sc.w x7,x8,(x5): value: board 0, model 1; 2 rows behind it not compared'])
        page = '\n'.join(page)
        for shown in ('1  .. stopped', '7  .. compared, and agreed', '1  .. compared, and differ or trap: a stop', '2  .. behind a stop, not compared',
                      '1 +0 +6 +3 +2 +1  b7'):
            self.assertRegex(page, '(?m)^ +%s$' % shown)
        self.night('--out', self.page)
        text = data(self.page + '.html').decode()
        self.assertIn('<div class="verdict bad">not clean: 1 stop; ', text)
        self.assertIn('<a href="cases/lock.case">lock.case</a>, board b7: row 3, h0 at 0x4: sc.w x7,x8,(x5): value: board 0, model 1; '
                      '2 rows behind it not compared (<a href="cases/lock.b7.log">lock.b7.log</a>)', text)

    def test_how_a_stop_is_shown(self):
        for bad, stop, shown in (
                (row(0, 8, SC, 7, 1), 'pc 0000000000000008 0000000000000004', 'row 3, h0 at 0x8: sc.w x7,x8,(x5): pc: board 8, model 4'),
                (row(0, 4, SC | 1 << 26, 7, 1), 'word 1c82a3af 1882a3af',
                 'row 3, h0 at 0x4: sc.w.aq x7,x8,(x5): word: board 1c82a3af, model 1882a3af (sc.w x7,x8,(x5))'),
                (row(0, 4, 0xffffffff, 7, 1), 'word ffffffff 1882a3af',
                 'row 3, h0 at 0x4: ffffffff, no instruction of the model: word: board ffffffff, model 1882a3af (sc.w x7,x8,(x5))'),
                (row(0, 4, SC, 7, 1), 'trap 6 0000000000000042',
                 'row 3, h0 at 0x4: sc.w x7,x8,(x5): trap: board x7 = 1, model cause 6 (misaligned store, SC or AMO), value 0x42'),
                (row(0, 4, SC, 39, 1), 'rd 39 07', 'row 3, h0 at 0x4: sc.w x7,x8,(x5): rd: board 39, model 7'),
                (row(0, 4, SC, 7, 1 << 63), 'value 8000000000000000 0000000000000001',
                 'row 3, h0 at 0x4: sc.w x7,x8,(x5): value: board 0x8000000000000000, model 1'),
                (row(0, 4, SC, 7, 1)[:-1] + b'\xff', 'form', "row 3: badly formed: byte 47 is '\\xff', not a line feed; "
                 "the row is '0 0000000000000004 1882a3af 07 0000000000000001\\xff'"),
                (row(5, 4, SC, 7, 1), 'form', "row 3: badly formed: hart 5, but the case has 2; the row is '5 0000000000000004 1882a3af 07 0000000000000001'")):
            self.log('lock', RIGHT[:3] + [bad], 'log 4 rows\nrow 3 %s\nend 3\n' % stop)
            self.assert_not_clean('1 stop; ', ['Stops: 1', '  lock.case: %s; 0 rows behind it not compared' % shown])

    def test_what_is_listed_first(self):
        for name in ('bare', 'cut', 'empty', 'torn'):
            self.case(name)
        self.case('bad')
        write(os.path.join(self.folder, 'bad.case'), data(EXAMPLE) + b'x')
        self.script(self.program, '#!/bin/sh\nif [ "$(wc -c < /dev/stdin)" = 817 ]; then echo refused 8 36; else cat %s; fi\n' % EXAMPLE_LINES)
        self.log('lock', DIFFERENT, STOPPED)
        self.log('cut', [b''.join(RIGHT)[:-1]], 'refused 12 0\n')
        self.log('empty', [], 'refused 13 0\n')
        self.log('bad', RIGHT, 'refused 8 36\n')
        self.log('bad.b2', [], 'refused 8 36\n')
        self.log('torn.b1', RIGHT, 'log 4 rows\n')
        self.log('lost.b1')
        page = self.assert_not_clean(
            '1 stop, 1 case without a log, 1 log without a case, 1 empty log, 1 log with a wrong answer, 3 logs refused; '
            '7 logs with 20 rows, 4 compared, 3 agreed, 16 not compared, ', [
                'Not compared: 7', '  1: cases without a log', '      bare.case', '  1: logs without a case', '      lost.b1.log',
                '  1: empty logs', '      empty.log',
                "  1: a wrong answer: the answer is 'log 4 rows\\n', which is none", '      torn.b1.log',
                '  1: refused 12 0: the length of the log is no multiple of 48', '      cut.log',
                '  1: refused 8 36: the case file is none: table of contents', '      bad.log',
                '  1: refused 8 36: the case file is none: table of contents; the log is empty', '      bad.b2.log', '', 'Stops: 1'])
        page = '\n'.join(page)
        for shown in ('7  logs', '0  .. agreed in every row', '1  .. stopped', '6  .. not compared', '16  .. in logs that were not compared'):
            self.assertRegex(page, '(?m)^ +%s$' % shown)
        self.assertRegex(page, '(?m)^ +6 +25  . +6 not clean$')

    def test_each_alone_is_not_clean(self):
        self.log('lock')
        for change, verdict in ((lambda: self.case('bare'), '1 case without a log; '), (lambda: self.log('lost'), '1 log without a case; '),
                                (lambda: self.log('lock.b', [], 'refused 13 0\n'), '1 empty log; ')):
            before = set(os.listdir(self.folder))
            change()
            self.assert_not_clean(verdict, ['Not compared: 1'])
            for name in set(os.listdir(self.folder)) - before:
                os.remove(os.path.join(self.folder, name))
        self.assertEqual(self.night()[0], 0)

    def test_a_log_in_capitals(self):
        self.log('lock')
        path = os.path.join(self.folder, 'lock.b7.LOG')
        write(path, b''.join(DIFFERENT))
        self.answers['lock.b7.LOG'] = STOPPED
        self.assert_not_clean('1 stop; 2 logs with 8 rows, 8 compared, 7 agreed, 0 not compared, ', [
            'Stops: 1', '  lock.case, board b7: row 3, h0 at 0x4: sc.w x7,x8,(x5): value: board 0, model 1; 0 rows behind it not compared'])
        os.remove(path)
        os.mkdir(path)
        self.assertEqual(self.night()[1][4:7], ['Missing: 1', '  1: a folder has the name of a log', '      lock.b7.LOG'])
        self.assertIn('would be taken for', self.night('--counts', os.path.join(self.folder, 'a.LOG'))[2])

    def test_files_that_are_like_logs(self):
        names = ['.lock.b7.log.Ab3', 'lock.b7.LOG.1', 'lock.b7.log.gz', 'lock.b7.log~']
        for name in names + ['lock.catalog', 'lock.login', 'notes.txt']:
            write(os.path.join(self.folder, name), b''.join(DIFFERENT))
        status, page, _ = self.night()
        self.assertEqual((status, page[2]), (0, 'complete: 1 file, 5 events each with its line; no board was compared'))
        self.assertIn("  No board was compared: no log was found in the folder, but 4 files with names like a log's.", page)
        self.log('lock')
        page = self.assert_not_clean("4 files with names like a log's; 1 log with 4 rows, 4 compared, 4 agreed, ", [
            'Not compared: 4', "  4: files with names like a log's", *('      ' + name for name in names)],
            '--counts', self.counts, '--junit', self.page)
        self.assertEqual([test.get('name') for test in xml.parse(self.page).getroot().iterfind("testsuite[@name='the night']/testcase[error]")], names)
        self.assertIn('run the whole folder', self.night('--only', self.counts)[2])
        self.assertIn('  that night was not clean: 4 files with names', '\n'.join(self.night('--since', self.counts)[1]))

    def test_what_is_kept_of_a_log_is_not_like_one(self):
        self.log('lock')
        page = os.path.join(self.folder, 'page')
        self.night('--out', page, edit="out = 'nonsense'; sys.stderr.write('oops')")
        self.assertEqual(sorted(os.listdir(page + '.outputs')), ['index.txt', 'lock.log.err', 'lock.log.got'])
        self.assertEqual(self.night('--out', page)[0], 0)

    def test_logs_that_end_early(self):
        self.log('lock.b7', RIGHT[:3], 'log 3 rows\nagreed 3\nend 3\n')         # the model retires four steps of the case
        self.log('lock.b9')
        status, page, _ = self.night('--out', self.page)
        self.assertEqual((status, page[0][:116]), (0, 'clean: 2 logs with 7 rows, 7 compared, 7 agreed, 0 not compared, '
                                                   '1 log with fewer rows than its case has steps, 2 of'))
        self.assertIn(b'  1: logs with fewer rows than their cases have steps\n      lock.b7.log\n', data(self.page + '.txt'))
        self.assertIn('logs with fewer rows than their cases have steps</summary><ul><li><a href="cases/lock.b7.log">', data(self.page + '.html').decode())

    def test_boards_that_lack_a_log(self):
        self.case('a')
        self.log('a.b7')
        self.log('a.b9')
        self.log('lock.b9')
        status, page, _ = self.night()
        self.assertEqual(status, 0)
        for shown in ('1 +1 +4 +4 +0 +0  b7', '2 +0 +8 +8 +0 +0  b9'):
            self.assertRegex('\n'.join(page), '(?m)^ +%s$' % shown)

    def test_a_log_alone_has_no_case(self):
        os.remove(os.path.join(self.folder, 'lock.case'))
        self.log('lost')
        status, page, _ = self.night()
        self.assertEqual((status, page[2][:43]), (1, "not clean: 1 log without a case, the model'"))

    def test_a_night_of_the_model_that_is_not_complete_is_not_clean(self):
        self.log('lock')
        self.script(self.program, '#!/bin/sh\nsed s/end/END/ %s\n' % EXAMPLE_LINES)
        page = self.assert_not_clean("the model's own night is not complete; 1 log with 4 rows, 4 compared, 4 agreed, 0 not compared, ", ['Wrong: 1'])
        self.assertIn('; not complete: 1 wrong; 1 file, ', page[2])

    def test_no_answer(self):
        self.log('lock')
        for edit, what in (('sys.exit(3)', 'the program ended with status 3'), ("sys.stderr.write('oops')", "the program wrote to standard error: 'oops'"),
                           ("out = ''", 'the program wrote nothing'), ("out = 'x' * 999", 'the program wrote more than 200 bytes'),
                           ('time.sleep(60)', 'no answer within 1 s')):
            page = self.assert_not_clean('1 log without an answer; 1 log with 4 rows, 0 compared, 0 agreed, 4 not compared, 0 of 77 ', [
                'Not compared: 1', '  1: no answer: ' + what, '      lock.log'], '--timeout', '1', '--output-limit', '200', edit=edit)
        self.assertIn('complete: 1 file', page[2])

    def test_rows_are_counted_also_where_no_program_answers(self):
        self.log('lock')
        replay = os.path.join(self.top, 'none')
        self.script(replay, 'no program\n')
        page = self.assert_not_clean('1 log without an answer; 1 log with 4 rows, 0 compared, 0 agreed, 4 not compared, 0 of 77', [
            'Not compared: 1', '  1: no answer: Exec format error', '      lock.log'], '--replay', replay)
        self.assertRegex('\n'.join(page), '(?m)^ +0 +2  lr.w$')
        os.remove(os.path.join(self.folder, 'lock.case'))
        os.symlink('/nowhere', os.path.join(self.folder, 'lock.case'))
        self.assert_not_clean("1 log without an answer, the model's own night is not complete; 1 log with 4 rows, 0 compared, 0 agreed, 4 not compared, 0 of", [
            'Not compared: 1', '  1: no answer: its case is a link whose end cannot be reached', '      lock.log'])

    def test_what_a_failing_log_wrote_is_kept(self):
        self.log('lock.b7')
        self.night('--out', self.page, edit="out = 'nonsense'; sys.stderr.write('oops')")
        self.assertEqual(data(os.path.join(self.page + '.outputs', 'lock.b7.log.got')), b'nonsense')
        self.assertIn('(<a href="page.outputs/lock.b7.log.got">output</a>, <a href="page.outputs/lock.b7.log.err">standard error</a>)',
                      data(self.page + '.html').decode())
        self.assertEqual(self.night('--out', self.page)[0], 0)
        self.assertFalse(os.path.exists(self.page + '.outputs'))

    def test_long_logs_have_more_time(self):
        self.log('lock', RIGHT * 75000, 'log 300000 rows\nrow 4 pc 0000000000000000 0000000000000008\nend 4\n')
        self.assertIn('row 4, h0 at 0x0', '\n'.join(self.night('--timeout', '1', edit='time.sleep(2) if len(found) == 0 else None')[1]))

    # files

    def test_logs_that_are_no_files(self):
        path = os.path.join(self.folder, 'lock.log')
        for make, what in ((lambda: os.mkfifo(path), 'the log cannot be read: it is no plain file'),
                           (lambda: os.symlink('/nowhere', path), 'the log is a link whose end cannot be reached')):
            make()
            page = self.assert_not_clean(
                '1 log without an answer; 1 log with 0 rows, 0 compared, 0 agreed, 0 not compared, and the rows of 1 log that cannot be read, ',
                ['Not compared: 1', '  1: no answer: ' + what, '      lock.log'], '--counts', self.counts)
            self.assertIn('  1  logs that cannot be read: their rows are in no number', page)
            self.assertEqual(command(NIGHTLY, '--merge', self.counts)[1].decode().splitlines()[2], page[2])
            os.remove(path)
        os.mkdir(path)
        self.assertEqual(self.night()[1][4:7], ['Missing: 1', '  1: a folder has the name of a log', '      lock.log'])

    def test_strays_that_are_no_files(self):
        self.log('lock')
        os.mkfifo(os.path.join(self.folder, 'lost.log'))
        self.assert_not_clean('1 log without a case; 2 logs with 4 rows, 4 compared, 4 agreed, 0 not compared, and the rows of 1 log that cannot be read, ', [
            'Not compared: 1', '  1: logs without a case, and it cannot be read: it is no plain file', '      lost.log'])

    def test_logs_that_change_appear_or_vanish(self):
        self.log('lock')
        path = os.path.join(self.folder, 'lock.log')
        page = self.assert_not_clean('1 log without an answer', [
            'Not compared: 1', '  1: no answer: the case or the log was changed during the run'], edit="open(%r, 'ab').write(right)" % path)
        self.log('lock')
        self.assert_not_clean('1 log without an answer', ['Not compared: 1', '  1: no answer: the case or the log was changed during the run'],
                              edit="open(case, 'ab').write(b'x')")
        self.case('lock')
        self.assert_not_clean('1 log without an answer', [
            'Not compared: 1', '  1: no answer: the log vanished during the run'], edit='os.remove(log) if log.startswith(%r) else None' % self.folder)
        self.log('lock')
        new = os.path.join(self.folder, 'lock.new.log')
        page = self.assert_not_clean("the model's own night is not complete", [
            'Missing: 1', '  1: appeared during the run, and was not run', '      lock.new.log'], edit="open(%r, 'wb')" % new)
        os.remove(new)
        self.assert_not_clean("the model's own night is not complete", [
            'Missing: 1', '  1: appeared during the run, and was not run', '      lock.new.log.part'], edit="open(%r, 'wb')" % (new + '.part'))
        self.assertIn('; not complete: 1 missing; ', page[2])

    def test_a_program_that_is_replaced(self):
        self.log('lock')
        page = self.assert_not_clean("the model's own night is not complete", ['Missing: 1'], edit="open(sys.argv[0], 'a').write('#')")
        self.assertIn('the program was replaced during the run', page[5])

    def test_outputs_are_no_logs(self):
        self.log('lock')
        for name, what in (('lock.log', 'is a file of the folder'), ('new.log', 'would be taken for a case, an expected output or a log')):
            status, _, err = self.night('--counts', os.path.join(self.folder, name))
            self.assertEqual((status, what in err), (1, True), err)
        self.assertIn('is the program of --replay', self.night('--counts', os.path.join(self.top, 'replay'))[2])
        self.assertEqual(data(os.path.join(self.folder, 'lock.log')), b''.join(RIGHT))

    def test_pages_are_replaced(self):
        self.log('lock', DIFFERENT, STOPPED)
        for edit in ('pass', 'sys.exit(3)', 'pass'):
            self.assertEqual(self.night('--out', self.page, '--counts', self.counts, '--junit', self.page + '.xml', edit=edit)[2].count('nothing is run'), 0)
        self.log('lock')
        self.assertEqual(self.night('--out', self.page)[0], 0)
        self.assertEqual(self.night('--out', self.page)[0], 0)

    # what a program leaves out

    def cas(self):
        """A case with an AMOCAS and the log of a right board for it."""
        words = [assemble(text) for text in ('amocas.w x6,x8,(x5)', 'addi x9,x0,1', 'addi x9,x9,1')]
        case = bytearray(data(EXAMPLE))
        struct.pack_into('<3I', case, 568, *words)
        write(os.path.join(self.folder, 'lock.case'), case)
        return [row(0, 0, words[0], 6, 0), row(0, 4, words[1], 9, 1), row(0, 8, words[2], 9, 2)]

    def test_a_program_that_leaves_out_the_rows_it_does_not_know(self):
        rows = self.cas()
        self.log('lock', rows, 'log 3 rows\nagreed 3\nend 3\n')
        self.assertEqual(self.night()[0], 0)
        self.answers['lock.log'] = 'log 2 rows\nagreed 2\nend 2\n'
        self.assert_not_clean('1 log with a wrong answer; 1 log with 3 rows, 0 compared, 0 agreed, 3 not compared, 0 of 77 instructions', [
            'Not compared: 1', '  1: a wrong answer: it says `log 2 rows`, but the log has 3', '      lock.log'])

    def test_a_program_that_says_agreed_of_rows_it_did_not_read(self):
        rows = self.cas()
        self.log('lock', rows, 'log 3 rows\nagreed 3\nend 3\n')
        word = rows[0][19:27].decode()
        for edit, what in (("found = [k for k in found if rows[48 * k + 19:48 * k + 27] != b'%s']" % word, 'row 0 (%s)' % word),
                           ('found = [k for k in found if k < 2]', 'row 2 ('), ('found = []', 'row 0 (')):
            page = self.assert_not_clean('1 log with a wrong answer; 1 log with 3 rows, 0 compared, 0 agreed, 3 not compared, 0 of 77',
                                         ['Not compared: 1'], edit=edit)
            self.assertTrue(page[5].startswith('  1: a wrong answer: the value of %s' % what), page[5])
            self.assertIn(" was changed in a copy of the log, and the program answers 'log 3 rows\\nagreed 3\\nend 3\\n'", page[5])
        page = self.assert_not_clean('1 log with a wrong answer', ['Not compared: 1'], edit='sys.exit(3) if found else None')
        self.assertIn('and the program gave no answer: the program ended with status 3', page[5])

    def test_without_control_rows(self):
        self.log('lock.b7')
        status, page, _ = self.night('--no-controls', edit='found = []')
        self.assertEqual(status, 0)
        self.assertIn('  1: no control row was tried: not asked for\n      lock.b7.log\n', '\n'.join(page))
        self.assertRegex('\n'.join(page), '(?m)^ +0  control rows: ')
        status, page, _ = self.night('--out', self.page, '--no-controls')
        self.assertIn('no control row was tried: not asked for', data(self.page + '.html').decode())

    def test_rows_before_a_stop_are_controlled_too(self):
        self.log('lock', DIFFERENT, STOPPED)
        page = self.assert_not_clean('1 log with a wrong answer', ['Not compared: 1'], edit='found = []')
        self.assertIn('the value of row 0 (1002a32f) was changed', page[5])

    def test_the_logs_themselves_stay_as_they_are(self):
        self.log('lock')
        before = os.stat(os.path.join(self.folder, 'lock.log'))
        self.assertEqual(self.night()[0], 0)
        after = os.stat(os.path.join(self.folder, 'lock.log'))
        self.assertEqual((before.st_mtime_ns, before.st_size), (after.st_mtime_ns, after.st_size))
        self.assertEqual(glob.glob(os.path.join(tempfile.gettempdir(), 'nightly-*', 'lock.log')), [])

    # the table

    def test_the_table_has_every_instruction(self):
        self.log('lock', RIGHT + [row(0, 0, 0xffffffff, 0, 0), b'x' * 48], 'log 6 rows\nrow 3 value 0000000000000001 0000000000000000\nend 3\n')
        page = self.night()[1]
        start, end = page.index('Rows by instruction'), page.index('This run')
        table = [re.fullmatch(r' +([\d,]+) +([\d,]+)  (.+)', line).groups() for line in page[start + 2:end - 1]]
        self.assertEqual([name for _, _, name in table], list(KINDS))
        decoded = data(os.path.join(ROOT, 'crates', 'decode_table', 'stdout')).decode().splitlines()         # of the model's own decoder
        self.assertEqual({name for _, _, name in table[:-2]}, {line.split()[1] for line in decoded} - {'illegal'})
        self.assertEqual(len(table), len(INSTRUCTIONS) + 2)
        self.assertEqual({name: (a, b) for a, b, name in table if b != '0'},
                         {'lr.w': ('2', '2'), 'sc.w': ('1', '2'), NO_INSTRUCTION: ('0', '1'), UNREADABLE: ('0', '1')})
        text = ' '.join(line.strip() for line in page)
        self.assertIn('75 of the 77 instructions of the model in no agreed row: lui, auipc, ', text)
        self.assertIn('amocas.w, amocas.d, amocas.q, ', text)
        self.night('--out', self.page)
        html = data(self.page + '.html').decode()
        for name in KINDS:
            self.assertIn('<td class="name">%s</td>' % name, html)

    # at the edges

    def test_a_night_that_is_broken_off(self):
        self.log('lock')
        self.log('lock.b2')
        note, started = os.path.join(self.top, 'note'), time.monotonic()
        replay = os.path.join(self.top, 'replay')
        self.script(replay, FAKE % (sys.executable, {}, AGREED, "open(%r, 'a').write('x'); time.sleep(60)" % note))
        night = subprocess.Popen([sys.executable, NIGHTLY, self.folder, '--program', self.program, '--replay', replay],
                                 stdout=subprocess.PIPE, stderr=subprocess.PIPE)
        while not os.path.exists(note):
            time.sleep(0.05)
        night.terminate()
        self.assertIn(b'broken off; no page is written', night.communicate()[1])
        self.assertLess(time.monotonic() - started, 20)

    @unittest.skipUnless(CHROMIUM, 'there is no chromium to show the page')
    def test_the_page_fits_its_window(self):
        self.three()
        self.log('lock.' + 'x' * 100, RIGHT * 3000, 'log 12000 rows\nrow 4 pc 0000000000000000 0000000000000008\nend 4\n')
        self.log('a.b8', [RIGHT[0][:-1] + b'x'], 'log 1 rows\nrow 0 form\nend 0\n')
        self.night('--out', self.page, '--no-controls')
        for width in (360, 1200):
            shown, window = shown_width(self.page + '.html', width)
            self.assertEqual((window, shown <= width), (width, True), shown)

    @unittest.skipUnless(CHROMIUM, 'there is no chromium to show the page')
    def test_large_numbers_fit_their_window(self):
        self.log('lock')
        self.night('--counts', self.counts)
        record = json.loads(data(self.counts))
        record['counts'].update({'%s %s' % (key, kind): 1234567890 for key in ('row', 'agreed') for kind in KINDS})
        record['counts'].update({'broke %s %s' % (writer, loser): 1234567890 for writer in WRITERS for loser in HARTS if writer != loser})
        write(self.page, html_page(record).encode())
        for width in (360, 1000):
            shown, window = shown_width(self.page, width)
            self.assertEqual((window, shown <= width), (width, True), shown)

    def test_a_large_log_needs_little_memory(self):
        rows = b''.join(row(0, 0, 0x13 | (k % 4096) << 20 | (k % 32) << 7, k % 32, 0) for k in range(1 << 14)) * 64
        self.log('lock', [rows], 'log %d rows\nagreed %d\nend %d\n' % ((1 << 20,) * 3))
        replay = os.path.join(self.top, 'replay')
        self.script(replay, '#!/bin/sh\nprintf "log 1048576 rows\\nagreed 1048576\\nend 1048576\\n"\n')
        done = subprocess.run([sys.executable, NIGHTLY, self.folder, '--program', self.program, '--replay', replay, '--no-controls', '--jobs', '1'],
                              capture_output=True, preexec_fn=lambda: resource.setrlimit(resource.RLIMIT_DATA, (48 << 20, 48 << 20)))
        self.assertIn(b'clean: 1 log with 1,048,576 rows, 1,048,576 compared', done.stdout, done.stderr)

    def test_the_example_of_the_documents(self):
        using = data(os.path.join(ROOT, 'docs', 'USING.md')).decode()
        text = re.search(r'target/first.txt`.*?\n\n(    memory .*?)\n\nThen', using, re.S)[1]
        rows = [line.strip().encode() + b'\n' for line in re.search(r'`first.b7.log`:\n\n((?:    \d .*\n)+)', using)[1].splitlines()]
        os.remove(os.path.join(self.folder, 'lock.case'))
        case = command(CASE, 'make', given=text.encode())[1]
        write(os.path.join(self.folder, 'first.case'), case)
        self.script(self.program, '#!/bin/sh\necho case 2 harts 128 bytes 7 events\nfor e in "0 h0 ok" "1 h0 ok" "2 h1 ok" "3 h1 ok" "4 h1 sc 0 broke 01" '
                    '"5 h0 sc 1" "6 h0 ok"; do echo "$e"; done\necho end 7\n')
        self.log('first.b7', rows, 'log 7 rows\nrow 5 value 0000000000000000 0000000000000001\nend 5\n')
        page = self.night()[1]
        self.assertIn('\n\n    %s\n\n' % page[2], using)
        self.assertIn('\n\n    %s\n    %s\n\n' % tuple(page[4:6]), using)
        self.assertIn('\n%s\n' % page[5], command(NIGHTLY, '--help')[1].decode())
        self.log('first.b7', rows[:5] + [rows[5][:-2] + b'1\n', rows[6]], 'log 7 rows\nagreed 7\nend 7\n')
        status, page, _ = self.night()
        self.assertEqual(status, 0)
        self.assertIn('`%s; ..`' % page[2].split('; ')[0], using)


if __name__ == '__main__':
    unittest.main()
