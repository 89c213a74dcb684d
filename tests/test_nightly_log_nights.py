"""tools/nightly: boards' logs in parts and merged, against an earlier night, for machines, and the outside logs. The programs are small scripts, but
for the last test."""
import glob
import json
import os
import shutil
import subprocess
import sys
import time
import unittest
import xml.etree.ElementTree as xml

from common import NIGHTLY, PROGRAM, ROOT, command, data
from logs import AGREED, DIFFERENT, FAKE, LR, RIGHT, STOPPED, LogsCase, row, write
from nightlycases import seal, totals
from nightlyrows import Rows
from nightlyrun import stop

REPLAY = os.path.join(os.path.dirname(PROGRAM), 'replay')
VECTORS = os.path.join(ROOT, 'tools', 'vectors-logs')


class Nights(LogsCase):
    def test_parts_and_merge(self):
        self.three()
        files = [os.path.join(self.top, '%d.json' % k) for k in (1, 2, 3)]
        verdicts = [self.night('--part', '%d/3' % k, '--counts', file)[1][2] for k, file in enumerate(files, 1)]
        self.assertTrue(verdicts[0].startswith('not clean: 1 stop, 1 log without a case; part 1 of 3, 3 of 4 logs with 12 rows'), verdicts[0])
        self.assertTrue(verdicts[1].startswith('not clean: 1 case without a log, 1 log without a case; part 2 of 3, 1 of 4 logs with 4 rows'), verdicts[1])
        status, out, _ = command(NIGHTLY, '--merge', *files)
        whole, merged = '\n'.join(self.night()[1]), out.decode()
        self.assertEqual(status, 1)
        self.assertEqual(merged.splitlines()[2], whole.splitlines()[2])
        self.assertEqual(merged[merged.index('Not compared'):merged.index('This run')], whole[whole.index('Not compared'):whole.index('This run')])
        os.remove(os.path.join(self.folder, 'lost.log'))
        os.remove(os.path.join(self.folder, 'b.case'))
        self.log('a.b7')
        for k, file in enumerate(files, 1):
            status, page, _ = self.night('--part', '%d/3' % k, '--counts', file)
            self.assertEqual((status, page[2][:25]), (0, 'partly clean: part %d of 3' % k))       # never clean: it is not every log
        status, out, _ = command(NIGHTLY, '--merge', *files)
        self.assertEqual((status, out.decode().splitlines()[2][:39]), (0, 'clean: 3 logs with 12 rows, 12 compared'))
        self.assertEqual(command(NIGHTLY, '--merge', *files[:2])[0], 1)

    def test_the_page_of_a_part_gives_way_to_the_next(self):
        self.two_parts('a')
        for _ in range(2):
            status, _, err = self.night('--part', '1/2', '--out', self.page)
            self.assertEqual((status, data(self.page + '.txt').split(b'\n')[2][:25]), (0, b'partly clean: part 1 of 2'), err)

    def rewrite(self, file, change):
        record = json.loads(data(file))
        change(record)
        record['seal'] = seal(record)
        with open(file, 'w') as f:
            json.dump(record, f)

    def two_parts(self, name):
        """One more case with a log of its own; the counts of two clean parts."""
        self.case(name)
        self.log(name)
        self.log('lock')
        files = [os.path.join(self.top, '%d.json' % k) for k in (1, 2)]
        for k, file in enumerate(files, 1):
            self.assertEqual(self.night('--part', '%d/2' % k, '--counts', file)[0], 0)
        return files

    def test_counts_of_logs_are_checked(self):
        files = self.two_parts('a')
        whole = data(files[0])

        def more(key, n=1):
            def change(record):
                for counts in (record['counts'], record['cases'][0]['logs'][0]['counts']):
                    counts[key] = counts.get(key, 0) + n
            return change

        def twice(record):
            record['cases'][0]['logs'] *= 2
            record['counts'] = totals(record['cases'], [])

        log = 'does not agree with itself'
        for change, what in ((more('log rows'), log), (more('rows agreed', -1), log), (more('row lui'), log), (more('agreed lui'), log),
                             (more('rows behind'), log), (more('rows unanswered'), log), (lambda r: r['cases'][0]['logs'][0].update(outcome='stopped'), log),
                             (lambda r: r['cases'][0]['logs'][0].update(outcome='stray'), log), (lambda r: r['cases'][0].update(unlogged=True), log),
                             (lambda r: r['cases'][0]['logs'].clear(), log),
                             (lambda r: r['cases'][0]['logs'][0].update(sha256='0'), 'those of their logs are not'),
                             (lambda r: r['cases'][0]['logs'][0].update(name='a.x.log', board='x'), 'their logs are not its logs'),
                             (lambda r: r['cases'][0]['logs'][0].update(name='x.log'), log), (lambda r: r['cases'][0]['logs'][0].update(board='x'), log),
                             (lambda r: r['cases'][0]['logs'][0].update(bytes=191), log), (lambda r: r.update(logs=0), log), (twice, log),
                             (lambda r: r.update(replay_sha256='0'), 'another program of --replay'),
                             (lambda r: r['cases'][0]['logs'][0].pop('stop'), 'no counts file of this version'),
                             (lambda r: r['cases'][0]['logs'][0].update(outcome='refused', refusal='99 0'), log)):
            self.rewrite(files[0], change)
            status, out, _ = command(NIGHTLY, '--merge', *files)
            self.assertEqual(status, 1)
            self.assertIn(what, out.decode())
            write(files[0], whole)
        self.assertEqual(command(NIGHTLY, '--merge', *files)[0], 0)

    def test_parts_of_other_logs(self):
        files = self.two_parts('a')
        self.log('lock', DIFFERENT, STOPPED)
        self.night('--part', '2/2', '--counts', files[1])
        self.assertIn('the files have other contents', command(NIGHTLY, '--merge', *files)[1].decode())
        self.log('lock.b2')
        self.night('--part', '2/2', '--counts', files[1])
        self.assertIn('another list of cases', command(NIGHTLY, '--merge', *files)[1].decode())

    def test_a_log_of_two_cases(self):
        files = self.two_parts('lock.b')

        def both(record):
            record['cases'][0]['logs'].append(dict(json.loads(data(files[0]))['cases'][0]['logs'][0], board='b'))
            record['counts'] = totals(record['cases'], [])

        self.rewrite(files[1], both)
        out = command(NIGHTLY, '--merge', *files)[1].decode()
        self.assertIn('  1: is the log of more than one case: lock.b.case, lock.case\n      lock.b.log\n', out)

    def test_parts_of_which_only_one_had_logs(self):
        self.case('a')
        files = [os.path.join(self.top, '%d.json' % k) for k in (1, 2)]
        self.night('--part', '1/2', '--counts', files[0])
        self.log('lock', DIFFERENT, STOPPED)
        self.night('--part', '2/2', '--counts', files[1])
        for names in (files, files[::-1]):
            status, out, _ = command(NIGHTLY, '--merge', *names, '--counts', self.counts)
            self.assertEqual(status, 1)
            self.assertTrue(out.decode().splitlines()[2].startswith(
                "not clean: 1 stop, 1 case without a log, the model's own night is not complete; 1 log with 4 rows, "), out)
            self.assertIn('another list of cases', out.decode())
            self.assertNotIn('tools/nightly:', self.night('--since', self.counts)[2])         # the counts of the merged page can be read

    def test_counts_that_cannot_be_read_say_nothing_of_logs(self):
        write(self.counts, b'{}')
        status, out, _ = command(NIGHTLY, '--merge', self.counts)
        self.assertEqual(status, 1)
        self.assertIn('  No board was compared: no counts could be read.\n', out.decode())
        self.assertNotIn('no log was found in the folder', out.decode())

    def test_stops_of_counts_are_checked(self):
        self.log('lock', DIFFERENT, STOPPED)
        self.night('--counts', self.counts)
        whole = data(self.counts)
        self.assertIn('not clean: 1 stop; ', command(NIGHTLY, '--merge', self.counts)[1].decode())
        for key, value in (('field', 'hart'), ('line', 'x' * 47), ('line', '\udcff' * 47), ('board', '0'), ('model', None), ('row', 2), ('field', 'form')):
            self.rewrite(self.counts, lambda r: r['cases'][0]['logs'][0]['stop'].update({key: value}))
            status, out, err = command(NIGHTLY, '--merge', self.counts)
            self.assertEqual((status, err), (1, ''))
            self.assertIn('does not agree with itself', out.decode())
            write(self.counts, whole)

    def test_a_log_that_cannot_be_copied(self):
        self.log('lock')
        replay = os.path.join(self.top, 'replay')
        self.script(replay, FAKE % (sys.executable, {}, AGREED, 'pass'))
        start = 'import runpy, shutil, sys, unittest.mock as m; sys.argv[:1] = []\nsys.path.insert(0, %r)\n' % os.path.dirname(NIGHTLY)
        start += "with m.patch('shutil.copyfile', side_effect=OSError(28, 'No space left on device')): runpy.run_path(sys.argv[0], run_name='__main__')"
        done = subprocess.run([sys.executable, '-c', start, NIGHTLY, self.folder, '--program', self.program, '--replay', replay], capture_output=True)
        self.assertEqual(done.returncode, 0, done.stderr)
        self.assertIn(b'  1: no control row was tried: no copy of the log can be made: No space left on device\n      lock.log\n', done.stdout)

    def test_since(self):
        self.three()
        self.log('lock.old')
        self.night('--counts', self.counts)
        os.remove(os.path.join(self.folder, 'lock.old.log'))
        os.remove(os.path.join(self.folder, 'lost.log'))
        self.log('a.b7')
        self.log('a.b9', DIFFERENT, STOPPED)
        self.log('b.new')
        page = '\n'.join(self.night('--since', self.counts)[1])
        for lines in ('  that night was not clean: 1 stop, 1 case without a log, 1 log without a case; ', '  1 fail now, and did not\n      a.b9.log\n',
                      '  2 fail no more\n      a.b7.log\n      b.case\n', '  1 new, and right\n      b.new.log\n',
                      '  2 gone\n      lock.old.log\n      lost.log\n',
                      '  2 have other contents\n      a.b7.log\n      a.b9.log\n'):
            self.assertIn(lines, page)
        self.night('--counts', self.counts)
        self.log('a.b9', [row(0, 4, LR, 6, 0)] + RIGHT[1:], 'log 4 rows\nrow 0 pc 0000000000000004 0000000000000000\nend 0\n')
        page = '\n'.join(self.night('--since', self.counts)[1])
        self.assertIn('  1 fail still\n      a.b9.log\n  1 stop still, but in another way\n      a.b9.log\n', page)
        for name in glob.glob(os.path.join(self.folder, '*.log')):
            os.remove(name)
        page = '\n'.join(self.night('--since', self.counts)[1])
        self.assertIn('  only that night compared boards\n', page)
        self.assertIn('  4 gone\n', page)

    def test_only(self):
        self.three()
        self.night('--counts', self.counts)
        status, page, _ = self.night('--only', self.counts)
        self.assertEqual(status, 1)
        self.assertTrue(page[2].startswith('not clean: 1 stop, 1 case without a log, 1 log without a case; only 2 of 3 files, 3 of 4 logs with 12 rows'), page[2])
        self.log('a.b7')
        self.log('b')
        os.remove(os.path.join(self.folder, 'lost.log'))
        self.log('lock.new')         # a log that wasn't there: its case is run again too
        status, page, _ = self.night('--only', self.counts)
        self.assertEqual(status, 0, page)
        self.assertTrue(page[2].startswith('clean: only 3 of 3 files, 5 logs with 20 rows'), page[2])
        os.remove(os.path.join(self.folder, 'a.b7.log'))
        status, page, _ = self.night('--only', self.counts)
        self.assertEqual((status, page[4:7]), (1, ['Missing: 1', '  1: is not in the folder any more', '      a.b7.log']))

    def test_only_after_a_night_without_logs(self):
        self.case('a')
        self.night('--counts', self.counts)
        self.log('lock')
        page = self.night('--only', self.counts)[1]
        self.assertTrue(page[2].startswith('not clean: 1 case without a log; only 2 of 2 files, 1 log with 4 rows'), page[2])

    def test_only_runs_the_logs_of_a_folder_that_was_not_there(self):
        there, away = os.path.join(self.top, 'there'), os.path.join(self.top, 'away')
        self.log('lock')
        os.mkdir(away)
        for name in ('lock.case', 'lock.log'):
            shutil.copy(os.path.join(self.folder, name), os.path.join(away, name))
        os.symlink(there, os.path.join(self.folder, 'sub'))
        for args in ((), ('--part', '1/1')):
            self.assertEqual(self.night('--counts', self.counts, *args)[1][4:7], ['Missing: 1', '  1: a link whose end cannot be reached', '      sub'])
            os.rename(away, there)
            status, page, _ = self.night('--only', self.counts)
            self.assertEqual((status, page[2][:57]), (0, 'partly clean: only 1 of 2 files, 1 of 2 logs with 4 rows,'), page)
            os.rename(there, away)

    def test_only_runs_logs_that_were_missing(self):
        self.case('a')
        self.log('a')
        self.log('lock')
        for name in ('a.log', 'a.new.log'):         # one that has agreed and is gone at the end of the night, and one that appears
            path = os.path.join(self.folder, name)
            edit = 'os.path.exists(%r) and os.remove(%r)' % (path, path) if name == 'a.log' else "open(%r, 'wb').write(right)" % path
            self.night('--jobs', '1', '--counts', self.counts, edit="if name == 'lock.log': " + edit)
            record = json.loads(data(self.counts))
            self.assertEqual({log['outcome'] for case in record['cases'] for log in case['logs']}, {'agreed'})
            self.assertEqual([missing for missing, _ in record['beside']], [name])
            self.log('a')
            status, page, _ = self.night('--only', self.counts)
            self.assertEqual((status, page[2][:44]), (0, 'partly clean: only 1 of 2 files, %s logs' % ('1 of 2' if name == 'a.log' else '2 of 3')), page)

    def test_only_tells_what_is_gone(self):
        self.three()
        self.night('--counts', self.counts)
        for name in ('a.case', 'a.b7.log', 'a.b9.log', 'lost.log'):
            os.remove(os.path.join(self.folder, name))
        page = '\n'.join(self.night('--only', self.counts)[1])
        self.assertIn('  4 gone\n      a.b7.log\n      a.b9.log\n      a.case\n      lost.log\n', page)

    def test_since_where_only_that_night_had_expected_outputs(self):
        self.log('lock', DIFFERENT, STOPPED)
        write(os.path.join(self.folder, 'lock.out'), b'another\n')
        self.night('--expect', '--counts', self.counts)
        self.log('lock')
        page = '\n'.join(self.night('--since', self.counts)[1])
        self.assertIn('  1 failed, and are not compared now\n      lock.case\n  1 fail no more\n      lock.log\n', page)

    def test_signals_while_logs_are_compared(self):
        self.log('lock')
        replay, copies = os.path.join(self.top, 'replay'), os.path.join(self.top, 'copies')
        os.mkdir(copies)
        for where in (self.folder, copies):         # while the program has the log, and while it has a copy with a control row
            note = os.path.join(self.top, 'note')
            wait = "if log.startswith(%r): open(%r, 'w').write(str(os.getpid())); time.sleep(60)" % (where, note)
            self.script(replay, FAKE % (sys.executable, {}, AGREED, wait))
            night = subprocess.Popen([sys.executable, NIGHTLY, self.folder, '--program', self.program, '--replay', replay],
                                     stderr=subprocess.PIPE, stdout=subprocess.PIPE, env=dict(os.environ, TMPDIR=copies))
            while night.poll() is None and not (os.path.exists(note) and data(note)):
                time.sleep(0.05)
            for _ in range(3):
                night.terminate()
            self.assertIn(b'broken off', night.communicate(timeout=20)[1])
            self.assertEqual((os.listdir(copies), os.path.exists('/proc/%s' % data(note).decode())), ([], False))
            os.remove(note)

    def test_a_log_is_not_read_on_when_the_night_is_broken_off(self):
        self.log('lock')
        stop.flag.set()
        self.addCleanup(stop.flag.clear)
        with self.assertRaisesRegex(OSError, 'broken off'):
            Rows(os.path.join(self.folder, 'lock.log'), None, 0)

    def test_a_board_whose_name_begins_with_dots(self):
        self.log('lock... b')
        for _ in range(2):         # the second replaces the first one's page
            self.assertEqual(self.night('--out', self.page)[0], 0)
        page = data(self.page + '.html').decode()
        self.assertIn('<td class="name">.. b</td>', page)
        self.assertIn('<td class="under">agreed in every row</td>', page)
        with open(self.page + '.txt', 'a') as file:
            file.write('  checked by Ann\n')
        self.assertIn('is no page or counts that tools/nightly wrote', self.night('--out', self.page)[2])

    def test_json(self):
        self.three()
        self.night('--counts', self.counts)
        record = json.loads(data(self.counts))
        rows = {case['name']: case for case in record['cases']}
        log = rows['a.case']['logs'][0]
        self.assertEqual((record['logs'], [case['unlogged'] for case in record['cases']]), (4, [False, True, False]))
        self.assertEqual((log['name'], log['board'], log['outcome'], log['bytes'], len(log['sha256'])), ('a.b7.log', 'b7', 'stopped', 192, 64))
        self.assertEqual(log['stop'], {'row': 3, 'field': 'value', 'board': '0' * 16, 'model': '0' * 15 + '1', 'line': DIFFERENT[3][:-1].decode(),
                                       'form': None, 'xlen': 64})
        self.assertEqual(log['counts'], {'logs': 1, 'log rows': 4, 'rows agreed': 3, 'rows differ': 1, 'row lr.w': 2, 'row sc.w': 2, 'agreed lr.w': 2,
                                         'agreed sc.w': 1, 'controls': 2})
        self.assertEqual((record['counts']['log rows'], record['counts']['rows agreed'], record['counts']['rows unanswered']), (16, 11, 4))
        self.assertEqual([(log['name'], log['outcome']) for log in record['strays']], [('lost.log', 'stray')])
        self.assertEqual(record['replay'], os.path.join(self.top, 'replay'))

    def test_junit(self):
        self.three()
        self.case('c')
        self.log('c.b1', [], 'refused 13 0\n')
        self.log('c.b2', RIGHT, 'nonsense')
        self.log('c.b3', RIGHT, '')
        path = os.path.join(self.top, 'junit.xml')
        self.night('--junit', path)
        top = xml.parse(path).getroot()
        tests = {test.get('name'): [(child.tag, child.get('type')) for child in test if child.tag != 'system-out'] for test in top.iter('testcase')}
        self.assertEqual(tests, {'a.case': [], 'b.case': [], 'c.case': [], 'lock.case': [], 'a.b7.log': [('failure', 'stopped')], 'a.b9.log': [],
                                 'lock.log': [],
                                 'b.log': [('error', 'missing')], 'c.b1.log': [('error', 'empty')], 'c.b2.log': [('failure', 'wrong')],
                                 'c.b3.log': [('error', 'missing')], 'lost.log': [('error', 'missing')]})
        self.assertIn('sc.w x7,x8,(x5): value: board 0, model 1', top.find('.//failure').get('message'))
        self.assertEqual((top.get('tests'), top.get('failures'), top.get('errors')), ('12', '2', '4'))
        verdicts = [found.get('value')[:18] for found in top.iterfind('testsuite/properties/property[@name="verdict"]')]
        self.assertEqual(verdicts, ['not clean: 1 stop,'] * 2)

    # the outside logs

    def outside(self):
        """The outside logs in the folder, and their answers."""
        shutil.rmtree(self.folder)
        subprocess.run([sys.executable, VECTORS, 'unpack', self.folder], check=True, capture_output=True)
        for path in glob.glob(os.path.join(self.folder, '*.out')):
            self.answers[os.path.basename(path)[:-4] + '.log'] = data(path).decode()
            os.remove(path)

    def assert_outside(self, status, page):
        self.assertEqual((status, page[2]), (
            1, 'not clean: 162 stops, 1 empty log, 14 logs refused; 193 logs with 6,963 rows, 6,186 compared, 6,093 agreed, 777 not compared, '
            '64 of 77 instructions in agreed rows; complete: 193 files, 6 of them refused, 37 events each with its line'))
        self.assertRegex('\n'.join(page), '(?m)^ +716  control rows: ')

    @unittest.skipUnless(os.path.exists(VECTORS) and os.path.exists(PROGRAM), 'tools/vectors-logs or target/bin/floecavern is not there')
    def test_the_outside_logs_by_their_answers(self):
        self.outside()
        self.program = PROGRAM
        self.assert_outside(*self.night()[:2])

    @unittest.skipUnless(os.path.exists(VECTORS) and os.path.exists(PROGRAM) and os.path.exists(REPLAY), 'target/bin/replay is not built')
    def test_the_outside_logs_by_the_program(self):
        self.outside()
        status, out, _ = command(NIGHTLY, self.folder)
        self.assert_outside(status, out.decode().splitlines())


if __name__ == '__main__':
    unittest.main()
