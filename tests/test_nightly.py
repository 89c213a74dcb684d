"""tools/nightly: when a page says complete, and what it lists when not. The programs are small scripts, but for the last test."""
import argparse
import json
import os
import resource
import shutil
import signal
import subprocess
import sys
import tempfile
import time
import unittest
from unittest import mock

from common import EXAMPLE, EXAMPLE_LINES, NIGHTLY, PROGRAM, command, data, vectors
import nightlycases
import nightlyrun
from nightlycases import seal
from nightlyfiles import Kept

CASES = ['directed/trap_8', 'directed/breaks_yield', 'directed/refuse_10_1', 'directed/breaks_lr_x0', 'directed/branch_bne_1_2']

# A program that knows the expected outputs; EDIT changes what it writes for the example.
FAKE = '''#!%s -SE
import glob, os, re, sys, time
data = sys.stdin.buffer.read()
for path in glob.glob(%r + '/**/*.case', recursive=True):
    if open(path, 'rb').read() == data:
        name, out = os.path.basename(path), open(path[:-4] + 'out', 'rb').read()
if name == 'example.case':
    %s
sys.stdout.buffer.write(out)
'''


class NightlyCase(unittest.TestCase):
    """A folder with a few cases, and a program that knows their outputs."""

    def setUp(self):
        self.top = tempfile.mkdtemp()
        self.addCleanup(shutil.rmtree, self.top)
        self.folder = os.path.join(self.top, 'cases')
        os.makedirs(os.path.join(self.folder, 'deep', 'er'))
        for name in CASES:
            for kind in ('.case', '.out'):
                shutil.copy(os.path.join(vectors(), name + kind), os.path.join(self.folder, 'deep'))
        shutil.copy(EXAMPLE, os.path.join(self.folder, 'deep', 'er', 'example.case'))
        shutil.copy(EXAMPLE_LINES, os.path.join(self.folder, 'deep', 'er', 'example.out'))

    def only_the_example(self):
        for name in CASES:
            for kind in ('.case', '.out'):
                os.remove(os.path.join(self.folder, 'deep', os.path.basename(name) + kind))

    def fake(self, edit='pass'):
        path = os.path.join(self.top, 'program')
        with open(path, 'w') as file:
            file.write(FAKE % (sys.executable, self.folder, edit))
        os.chmod(path, 0o755)
        return path

    def night(self, *args, edit='pass', folder=None):
        """(exit status, the text page's lines, standard error)."""
        status, out, err = command(NIGHTLY, folder or self.folder, '--program', self.fake(edit), *args)
        return status, out.decode().splitlines(), err


class Nightly(NightlyCase):
    def assert_missing(self, what, *args, edit='pass', folder=None):
        status, page, _ = self.night(*args, edit=edit, folder=folder)
        self.assertEqual(status, 1)
        self.assertTrue(page[2].startswith('not complete'), page[2])
        self.assertRegex(page[4], '^(Missing|Wrong): ')
        self.assertIn(what, '\n'.join(page[5:page.index('Counts')]))

    def test_good_folder(self):
        prefix = os.path.join(self.top, 'page')
        status, page, _ = self.night('--out', prefix, '--expect')
        self.assertEqual((status, page), (0, ['complete: 6 files, 1 of them refused, 25 events each with its line; no board was compared']))
        text = data(prefix + '.txt').decode()
        self.assertEqual(text.splitlines()[2], page[0])
        for row in ('6  files', '5  .. cases, performed', '1  .. no cases, refused', '0  .. without a right answer', '6  outputs equal to the expected ones'):
            self.assertRegex(text, '(?m)^ +%s$' % row)
        page = data(prefix + '.html').decode()
        self.assertIn('<div class="verdict good">complete: 6 files, 1 of them refused, 25 events each with its line; no board was compared</div>', page)
        self.assertNotIn('src=', page)

    def test_counts_of_the_example(self):
        self.only_the_example()
        page = '\n'.join(self.night()[1])
        for row in ('5  events in the files', '4  steps retired', '1  .. SC that stored', '1  .. SC that failed', '0  steps trapped',
                    '1  device writes', '0  yields', '1  writes that broke a reservation'):
            self.assertRegex(page, '(?m)^ +%s$' % row)

    def test_empty_folder(self):
        empty = os.path.join(self.top, 'empty')
        os.mkdir(empty)
        self.assert_missing('no *.case file', folder=empty)
        self.assert_missing('no *.case file', '--part', '2/3', folder=empty)

    def test_programs_that_leave_something_out(self):
        self.only_the_example()
        for edit, what in (
                ("out = out.replace(b'3 h1 sc 0 broke 01\\n', b'')", 'event 3 (h1) has no line'),
                ("out = out.replace(b'3 h1 sc 0 broke 01\\n', b'3 h1 sc 0 broke 01\\n' * 2)", 'event 3 (h1) has 2 lines'),
                ("out = out.replace(b'1 d ok\\n2 h1 ok\\n', b'2 h1 ok\\n1 d ok\\n')", 'not in the order'),
                ("out = out.replace(b'3 h1', b'3 h0')", "event 3 (h1) has the line '3 h0 sc 0 broke 01'"),
                ("out = out.replace(b'1 d ok', b'1 y0 ok')", "event 1 (d) has the line '1 y0 ok'"),
                ("out = out.replace(b'1 d ok', b'1 d sc 0')", "event 1 (d) has the line '1 d sc 0'"),
                ("out = out.replace(b'sc 0 broke 01', b'trap 9 0000000000000000')", 'event 3 (h1) has the line'),
                ("out = out.replace(b'sc 0 broke 01', b'trap 2 ABCDEF0000000000')", 'event 3 (h1) has the line'),
                ("out = out.replace(b'broke 01', b'broke 00')", "event 3 (h1) has the line '3 h1 sc 0 broke 00': broke 00 is never written"),
                ("out = out.replace(b'broke 01', b'broke 02')", "event 3 (h1) has the line '3 h1 sc 0 broke 02': bit 1 is the stepping hart's own"),
                ("out = out.replace(b'broke 01', b'broke 05')", "has the line '3 h1 sc 0 broke 05': bit 2 is set, but the number of harts is 2"),
                ("out = out.replace(b'broke 01', b'broke 1')", "event 3 (h1) has the line '3 h1 sc 0 broke 1': behind broke stand two lower-case hex digits"),
                ("out = out.replace(b'sc 0', b'sc 1')", "event 3 (h1) has the line '3 h1 sc 1 broke 01': broke stands only behind ok and sc 0"),
                ("out = out.replace(b'5 events', b'4 events').replace(b'4 h0 sc 1\\n', b'').replace(b'end 5', b'end 4')", 'event 4 (h0) has no line'),
                ("out = out.replace(b'end 5\\n', b'5 h0 ok\\nend 5\\n')", "a line of no event: '5 h0 ok'"),
                ("out = out.replace(b'end 5\\n', b'')", 'the last line is'), ("out = out[:-1]", 'no line feed'),
                ("out = out[out.index(b'0 h0'):]", 'the first line is'),
                ("out = b'refused 8 0\\n'", 'but the file is a case of 5 events'), ("out = b''", 'wrote nothing'), ("sys.exit(3)", 'status 3'),
                ("os.kill(os.getpid(), 11)", 'signal 11'), ("sys.stderr.write('oops')", 'standard error'), ("out = b'\\xff' + out", 'the first line is')):
            with self.subTest(edit=edit):
                self.assert_missing(what, edit=edit)

    def test_a_traps_line_dropped(self):
        status, page, _ = self.night(edit='pass\nif name == "trap_8.case":\n    out = re.sub(rb"(?m)^0 h0 trap.*\\n", b"", out)')
        self.assertEqual(status, 1)
        self.assertEqual(page[4:7], ['Wrong: 1', '  1: event 0 (h0) has no line', '      deep/trap_8.case'])

    def test_a_slow_program(self):
        self.assert_missing('no answer within 1 s', '--timeout', '1', edit='time.sleep(60)')

    def test_an_exception_of_one_case_is_its_row(self):
        args = argparse.Namespace(folder=self.folder, expect=False)
        hashes = nightlycases.contents(self.folder, ['deep/trap_8.case'], False)['deep/trap_8.case']
        for error, what in ((StopIteration('x'), 'this tool failed on the case: StopIteration: x'),
                            (MemoryError(), 'this tool failed on the case: MemoryError: '), (OSError(5, 'Input/output error'), 'Input/output error')):
            with mock.patch('nightlycases.answer', side_effect=error):
                row = nightlycases.one(args, 'deep/trap_8.case', hashes, Kept(None))
            self.assertEqual((row['outcome'], row['what']), ('missing', what))

    def test_a_night_that_is_broken_off(self):
        self.only_the_example()
        note, started = os.path.join(self.top, 'note'), time.monotonic()
        program = self.fake("open(%r, 'w'); time.sleep(60)" % note)
        night = subprocess.Popen([sys.executable, NIGHTLY, self.folder, '--program', program, '--out', os.path.join(self.top, 'page')], stderr=subprocess.PIPE)
        while not os.path.exists(note):
            time.sleep(0.05)
        night.terminate()
        self.assertIn(b'broken off; no page is written', night.communicate()[1])
        self.assertEqual((night.returncode, time.monotonic() - started < 20), (1, True))
        self.assertFalse(os.path.exists(os.path.join(self.top, 'page.txt')))

    def test_a_night_in_the_background_of_a_script(self):
        # such a night doesn't hear SIGINT; it ends at SIGTERM and SIGHUP all the same, with its programs
        self.only_the_example()
        note = os.path.join(self.top, 'note')
        program = self.fake("open(%r, 'w').write(str(os.getpid())); time.sleep(60)" % note)
        for number in (signal.SIGTERM, signal.SIGHUP):
            night = subprocess.Popen([sys.executable, NIGHTLY, self.folder, '--program', program], stderr=subprocess.PIPE, stdout=subprocess.PIPE,
                                     preexec_fn=lambda: signal.signal(signal.SIGINT, signal.SIG_IGN))
            while not os.path.exists(note) or not data(note):
                time.sleep(0.05)
            night.send_signal(number)
            self.assertIn(b'broken off; no page is written', night.communicate(timeout=20)[1])
            self.assertEqual(night.returncode, 1)
            with self.assertRaises(ProcessLookupError):
                for _ in range(100):
                    os.kill(int(data(note)), 0)
                    time.sleep(0.05)
            os.remove(note)

    def test_standard_outputs_that_cannot_be_written(self):
        prefix = os.path.join(self.top, 'page')
        for name in ('2>&-', '>&-', '2>/dev/full', '>/dev/full'):
            line = 'exec "$0" "$1" "$2" --program "$3" --out "$4" %s' % name
            done = subprocess.run(['/bin/sh', '-c', line, sys.executable, NIGHTLY, self.folder, self.fake(), prefix], capture_output=True)
            self.assertNotIn(b'Traceback', done.stderr, name)
            self.assertIn(b'complete: 6 files', data(prefix + '.txt'), name)
            self.assertEqual(done.returncode, 1 if name == '>/dev/full' else 0, name)
            os.remove(prefix + '.txt')

    def test_a_page_that_is_written_nowhere(self):
        line = 'exec "$0" "$1" "$2" --program "$3" >&-'
        done = subprocess.run(['/bin/sh', '-c', line, sys.executable, NIGHTLY, self.folder, self.fake()], capture_output=True)
        self.assertEqual((done.returncode, b'standard output is closed' in done.stderr), (1, True))

    def test_signals_one_after_another(self):
        program = self.fake('time.sleep(60)')
        for pause in (0.0, 0.0005, 0.3):
            night = subprocess.Popen([sys.executable, NIGHTLY, self.folder, '--program', program, '--jobs', '2'], stderr=subprocess.PIPE, stdout=subprocess.PIPE)
            time.sleep(0.4)
            for _ in range(3):
                night.terminate()
                time.sleep(pause)
            self.assertIn(b'broken off', night.communicate(timeout=20)[1])

    def test_a_program_that_is_being_started(self):
        nightlyrun.stop.flag.set()
        self.addCleanup(nightlyrun.stop.flag.clear)
        start = time.monotonic()
        with open(EXAMPLE, 'rb') as given:
            self.assertIn('signal 9', nightlyrun.run(self.fake('time.sleep(60)'), given, 30)[2])
        self.assertLess(time.monotonic() - start, 10)

    def test_a_night_that_is_told_nothing_of_its_children(self):
        done = subprocess.run([sys.executable, NIGHTLY, self.folder, '--program', self.fake()], capture_output=True,
                              preexec_fn=lambda: signal.signal(signal.SIGCHLD, signal.SIG_IGN))
        self.assertEqual(done.returncode, 0, done.stdout)

    def test_large_limits(self):
        self.assertEqual(self.night('--timeout', '1000000000', '--output-limit', '1000000000', '--expect')[0], 0)
        self.assertEqual(self.night('--timeout', '1000000001')[0], 2)

    def test_progress_that_cannot_be_written(self):
        with mock.patch('sys.stderr') as stream:
            stream.write.side_effect = OSError(28, 'No space left on device')
            nightlycases.tell('a line')
        with mock.patch('sys.stderr', None), mock.patch('sys.stdout') as stream:
            self.assertFalse(nightlycases.Progress(1).terminal)
            nightlycases.tell('a line')
            stream.write.assert_not_called()

    def test_a_program_that_floods_its_output(self):
        self.only_the_example()
        program = self.fake("while True: sys.stdout.write('flood ' * 9999)")
        done = subprocess.run([sys.executable, NIGHTLY, self.folder, '--program', program], capture_output=True, timeout=60,
                              preexec_fn=lambda: resource.setrlimit(resource.RLIMIT_AS, (1 << 30, 1 << 30)))
        self.assertIn(b'the program wrote more than 1,048,576 bytes', done.stdout, done.stderr)
        self.assert_missing('the program wrote more than 1,048,576 bytes', edit="while True: sys.stderr.write('flood ' * 9999)")
        self.assert_missing('the program wrote more than 50 bytes', '--output-limit', '50')

    def test_a_child_that_holds_the_output(self):
        self.only_the_example()
        for leave in ('pass', 'os.setsid()'):
            start = time.monotonic()
            self.assert_missing('a process that it left behind holds its output open', '--timeout', '1',
                                edit="sys.stdout.buffer.write(out); sys.stdout.flush(); out = b''; child = os.fork()\n"
                                     "    if not child: %s; time.sleep(20); os._exit(0)" % leave)
            self.assertLess(time.monotonic() - start, 10)

    def test_a_child_is_ended_with_its_group(self):
        self.only_the_example()
        note = os.path.join(self.top, 'note')
        self.night('--timeout', '1', edit="child = os.fork()\n    if not child: time.sleep(3); open(%r, 'w'); os._exit(0)" % note)
        time.sleep(3)
        self.assertFalse(os.path.exists(note))

    def test_a_program_that_cannot_read_its_input(self):
        self.only_the_example()
        self.assert_missing("the program wrote to standard error: 'read: Input/output error'",
                            edit="out = b''; sys.stderr.write('read: Input/output error\\n')")
        self.assert_missing("status 1: 'read: Input/output error'", edit="sys.exit('read: Input/output error')")

    def test_wrong_refusal(self):
        status, page, _ = self.night(edit='pass\nif name.startswith("refuse"):\n    out = b"refused 10 0\\n"')
        self.assertEqual(status, 1)
        self.assertIn("the answer is 'refused 10 0\\n', not 'refused 10 ", '\n'.join(page))

    def test_a_refusal_without_its_line_feed(self):
        page = self.night(edit='pass\nif name.startswith("refuse"):\n    out = out[:-1]')[1]
        self.assertEqual(page[4:7], ['Wrong: 1', '  1: the last line has no line feed', '      deep/refuse_10_1.case'])

    def test_files_that_are_none(self):
        os.symlink('/nowhere', os.path.join(self.folder, 'broken.case'))
        self.assert_missing('no file is behind this name')

    def test_links_that_lead_nowhere(self):
        os.symlink(os.path.join(self.top, 'not-mounted'), os.path.join(self.folder, 'board7'))
        self.assert_missing('a link whose end cannot be reached\n      board7')

    def test_folders_that_have_the_name_of_a_case(self):
        os.mkdir(os.path.join(self.folder, 'z.case'))
        self.assert_missing('a folder has the name of a case\n      z.case')

    def test_links_to_folders(self):
        os.symlink(os.path.join(self.folder, 'deep'), os.path.join(self.folder, 'a'))
        os.symlink(self.folder, os.path.join(self.folder, 'deep', 'up'))
        elsewhere = os.path.join(self.top, 'elsewhere')
        os.rename(os.path.join(self.folder, 'deep', 'er'), elsewhere)
        os.symlink(elsewhere, os.path.join(self.folder, 'deep', 'er'))
        self.assertEqual(sorted(nightlycases.find(self.folder).names), sorted(
            ['deep/er/example.case'] + ['deep/%s.case' % os.path.basename(name) for name in CASES]))

    def test_expected_outputs(self):
        status, page, _ = self.night('--expect', edit="out = out.replace(b'sc 0 broke 01', b'sc 1')")
        self.assertEqual((status, page[2][:9], page[4]), (1, 'different', 'Different from the expected output: 1'))
        self.assertIn("line 5 is '3 h1 sc 1', expected '3 h1 sc 0 broke 01'", page[5])
        page = self.night('--expect', edit="out = out.replace(b' broke 01', b'')")[1]
        self.assertIn("line 5 is '3 h1 sc 0', expected '3 h1 sc 0 broke 01'", page[5])
        os.remove(os.path.join(self.folder, 'deep', 'er', 'example.case'))
        self.assert_missing('its .out is here, but not the case', '--expect')

    def test_expected_outputs_that_end_early_or_late(self):
        path = os.path.join(self.folder, 'deep', 'er', 'example.out')
        whole = data(path)
        for wanted, what in ((whole[:-1], "line 7 ends in a line feed, expected none"), (whole + b'more\n', "line 8 is missing, expected 'more'"),
                             (whole[:-6], "line 7 is 'end 5', expected no more lines"), (b'', "line 1 is 'case 2 harts"),
                             (whole + b'\n', "line 8 is missing, expected ''")):
            with self.subTest(wanted=wanted):
                with open(path, 'wb') as file:
                    file.write(wanted)
                status, page, err = self.night('--expect', edit="out = %r" % whole)
                self.assertEqual((status, page[2][:9], 'Traceback' in err), (1, 'different', False), err)
                self.assertIn(what, page[5])

    def test_no_expected_output(self):
        program = os.path.join(self.top, 'true.sh')
        with open(program, 'w') as file:
            file.write('#!/bin/sh\ncat %s\n' % EXAMPLE_LINES)
        os.chmod(program, 0o755)
        shutil.rmtree(os.path.join(self.folder, 'deep'))
        shutil.copy(EXAMPLE, os.path.join(self.folder, 'a.case'))
        self.assertEqual(command(NIGHTLY, self.folder, '--program', program)[0], 0)
        status, out, _ = command(NIGHTLY, self.folder, '--program', program, '--expect')
        self.assertEqual(status, 1)
        self.assertIn(b'  1: its expected output cannot be read: No such file or directory\n      a.case\n', out)

    def test_a_name_that_is_mistyped_changes_nothing(self):
        prefix, counts = os.path.join(self.top, 'page'), os.path.join(self.top, 'counts')
        self.assertEqual(self.night('--out', prefix, '--counts', counts)[0], 0)
        files = {name: data(name) for name in (prefix + '.txt', prefix + '.html', counts)}
        for args in ((self.folder, '--program', '/nowhere'), (self.folder + 'x', '--program', self.fake()), (self.folder, '--program', self.folder)):
            self.assertEqual(command(NIGHTLY, *args, '--out', prefix, '--counts', counts)[0], 1)
            self.assertEqual({name: data(name) for name in files}, files)

    def test_expected_outputs_that_are_not_compared(self):
        self.assertEqual(self.night()[1][2], 'complete: 6 files, 1 of them refused, 25 events each with its line, 6 expected outputs not compared; '
                         'no board was compared')
        self.assertIn('  6  expected outputs, not compared', '\n'.join(self.night()[1]))

    def fixed(self, lines):
        """A folder with the example alone and no expected output, and a program that writes these lines."""
        self.only_the_example()
        program, lines_at = os.path.join(self.top, 'fixed.sh'), os.path.join(self.top, 'lines')
        with open(program, 'w') as file:
            file.write('#!/bin/sh\ncat %s\n' % lines_at)
        with open(lines_at, 'wb') as file:
            file.write(lines)
        os.chmod(program, 0o755)
        path = os.path.join(self.folder, 'deep', 'er', 'example.out')
        os.remove(path)
        return path, (NIGHTLY, self.folder, '--program', program, '--expect')

    def test_an_expected_output_that_is_a_pipe(self):
        path, night = self.fixed(data(EXAMPLE_LINES))
        os.mkfifo(path)
        start = time.monotonic()
        self.assertIn(b'its expected output cannot be read: it is no plain file\n      deep/er/example.case', command(*night)[1])
        self.assertLess(time.monotonic() - start, 30)

    def test_an_expected_output_without_an_end(self):
        path, night = self.fixed(data(EXAMPLE_LINES))
        with open(path, 'wb') as file:
            file.truncate(1 << 32)
        done = subprocess.run([sys.executable, *night], capture_output=True, timeout=120,
                              preexec_fn=lambda: resource.setrlimit(resource.RLIMIT_AS, (1 << 30, 1 << 30)))
        self.assertIn(b"line 1 is 'case 2 harts 128 bytes 5 events', expected '\\x00", done.stdout)

    def test_a_fault_is_told_though_the_expected_output_is_missing(self):
        night = self.fixed(data(EXAMPLE_LINES).replace(b'3 h1 sc 0 broke 01\n', b''))[1]
        prefix = os.path.join(self.top, 'page')
        self.assertEqual(command(*night, '--out', prefix)[0], 1)
        self.assertIn(b'event 3 (h1) has no line; its expected output cannot be read: No such file or directory\n', data(prefix + '.txt'))
        self.assertIn(b'4 h0 sc 1\n', data(os.path.join(prefix + '.outputs', 'deep', 'er', 'example.got')))

    # parts

    def parts(self, n, *args):
        files = [os.path.join(self.top, '%d.json' % k) for k in range(1, n + 1)]
        for k, file in enumerate(files, 1):
            self.assertEqual(self.night('--part', '%d/%d' % (k, n), '--counts', file, *args)[0], 0)
        return files

    def merged(self, *files):
        status, out, _ = command(NIGHTLY, '--merge', *files)
        return status, out.decode()

    def assert_not_merged(self, what, *files):
        status, page = self.merged(*files)
        self.assertEqual(status, 1)
        self.assertTrue(page.splitlines()[2].startswith('not complete'))
        self.assertIn(what, page)

    def test_parts_and_merge(self):
        files = self.parts(4, '--night', 'one')
        status, page = self.merged(*files)
        self.assertEqual((status, page.splitlines()[2][:10]), (0, 'complete: '))
        whole = '\n'.join(self.night()[1])
        self.assertEqual(page[page.index('Counts'):page.index('This run')], whole[whole.index('Counts'):whole.index('This run')])
        self.assert_not_merged('part 3 of 4\n', files[0], files[1], files[3])
        self.assert_not_merged('is there 2 times', *files, files[2])
        self.assert_not_merged('No such file', *files[:3], files[3] + 'x')
        self.rewrite(files[2], lambda r: r.update(night='two'))
        self.assert_not_merged('another night', *files)

    def test_what_a_merge_does_not_take(self):
        files = self.parts(2)
        for args in (['--expect'], ['--night', 'x'], ['--part', '1/2']):
            self.assertEqual(command(NIGHTLY, '--merge', *files, *args)[0], 2)

    def test_parts_of_which_one_compared(self):
        files = [os.path.join(self.top, 'p%d' % k) for k in (1, 2)]
        self.night('--part', '1/2', '--counts', files[0], '--expect')
        self.night('--part', '2/2', '--counts', files[1])
        page = self.merged(*files)[1]
        self.assertIn('  3  outputs equal to the expected ones\n', page)
        self.assertIn('  3  expected outputs, not compared\n', page)

    def test_a_part_says_that_it_is_one(self):
        self.assertTrue(self.night('--part', '2/3')[1][2].startswith('complete: part 2 of 3, 2 files, '))

    def test_parts_of_other_days(self):
        files = self.parts(2)
        self.rewrite(files[1], lambda r: r.update(began=r['began'] - 3 * 86400, started='2026-10-01 01:02:03 UTC'))
        self.assert_not_merged(' on 2026-10-01 01:02:03 UTC: parts of one night begin within a day', *files)
        self.rewrite(files[0], lambda r: r.update(began=r['began'] - 2 * 86400 - 3600))
        self.assertEqual(self.merged(*files)[0], 0)
        for file in files:
            os.remove(file)
        third = self.parts(3)
        for file, hours in zip(third, (0, -20, 20)):
            self.rewrite(file, lambda r: r.update(began=r['began'] + 3600 * hours))
        for order in (third, third[::-1], third[1:] + third[:1]):
            self.assert_not_merged('parts of one night begin within a day', *order)
        for file in third:
            os.remove(file)
        files = self.parts(2)
        self.rewrite(files[1], lambda r: r.update(began=r['began'] - 3 * 86400))
        for file in files:
            self.rewrite(file, lambda r: r.update(night='long'))
        self.assertEqual(self.merged(*files)[0], 0)

    def rewrite(self, file, change, sealed=True):
        """Changes a counts file; with its seal made anew, so that what is inside is looked at."""
        record = json.loads(data(file))
        change(record)
        if sealed:
            record['seal'] = seal(record)
        with open(file, 'w') as f:
            json.dump(record, f)

    def test_a_case_in_two_parts_or_none(self):
        files = self.parts(2)
        other = json.loads(data(files[0]))['cases'][0]
        mine = json.loads(data(files[1]))['cases'][0]['name']
        self.rewrite(files[1], lambda r: r['cases'][0].update(name=other['name']))
        self.assert_not_merged('      %s\n' % other['name'], *files)
        self.assert_not_merged('is in more than one part', *files)
        self.assert_not_merged('1 of its 6 cases are in no part', *files)
        self.rewrite(files[1], lambda r: r['cases'][0].update(name=mine + 'x'))
        self.assert_not_merged('are not the cases of the folder', *files)

    def test_bad_counts_files(self):
        files = self.parts(2)
        whole = data(files[1])
        for change, what in ((lambda r: r['cases'].pop(), 'does not agree with itself'), (lambda r: r.pop('beside'), 'no counts file'),
                             (lambda r: r.update(sha256='0'), 'another program'), (lambda r: r.update(list='0'), 'another list of cases'),
                             (lambda r: r.update(format='floecavern nightly counts 5'), 'is no counts file of this version of tools/nightly: '
                              "its format is 'floecavern nightly counts 5', not 'floecavern nightly counts 6'\n"),
                             (lambda r: r.clear(), 'no counts file')):
            self.rewrite(files[1], change)
            self.assert_not_merged(what, *files)
            with open(files[1], 'wb') as file:
                file.write(whole)
        for text in (whole[:len(whole) // 2], b'[' * 100000, b'', b'\xff'):
            with open(files[1], 'wb') as file:
                file.write(text)
            self.assert_not_merged('no whole counts file', *files)
            self.assert_not_merged('no whole counts file', files[1])

    def test_a_changed_count(self):
        files = self.parts(2)
        whole = data(files[0])

        def more(record):
            record['counts']['retired'] += 1

        def more_of_one(record):
            more(record)
            next(row for row in record['cases'] if row['counts'].get('retired'))['counts']['retired'] += 1

        for change, sealed, what in ((more, False, 'was changed after it was written'), (more, True, 'its counts are not the sums of its cases'),
                                     (more_of_one, True, 'does not agree with itself: the counts of'),
                                     (lambda r: r['cases'][0].update(sha256='0'), True, 'the contents of the cases are not those of the folder')):
            self.rewrite(files[0], change, sealed)
            self.assert_not_merged(what, *files)
            with open(files[0], 'wb') as file:
                file.write(whole)
        self.assertEqual(self.merged(*files)[0], 0)

    def test_parts_of_two_folders_with_the_same_names(self):
        first, second = (os.path.join(self.top, name) for name in ('first', 'second'))
        self.night('--part', '1/2', '--counts', first)
        path = os.path.join(self.folder, 'deep', 'er', 'example.case')
        with open(path, 'ab') as file:
            file.write(b'more')
        with open(path[:-4] + 'out', 'w') as file:
            file.write('refused 8 36\n')
        self.assertEqual(self.night('--part', '2/2', '--counts', second)[0], 0)
        self.assert_not_merged('the files have other contents', first, second)

    def test_a_part_given_twice_is_one_line(self):
        files = self.parts(2)
        status, page = self.merged(*files, files[1])
        self.assertEqual((status, page.splitlines()[2]), (1, 'not complete: 1 missing; 6 files, 1 of them refused, 25 events, '
                                                             '6 expected outputs not compared; no board was compared'))
        self.assertIn('is there 2 times: %s, %s\n' % (files[1], files[1]), page)

    def test_a_part_that_is_not_complete(self):
        files = self.parts(2)
        self.rewrite(files[0], lambda r: r['beside'].append(['a.case', 'vanished']))
        self.assert_not_merged('  1: vanished\n      a.case\n', *files)

    def test_more_parts_than_cases(self):
        self.only_the_example()
        self.assertEqual(self.merged(*self.parts(3))[0], 0)

    def test_folder_that_changed_between_parts(self):
        first, second = (os.path.join(self.top, name) for name in ('first', 'second'))
        self.night('--part', '1/2', '--counts', first)
        shutil.copy(EXAMPLE, os.path.join(self.folder, 'new.case'))
        shutil.copy(EXAMPLE_LINES, os.path.join(self.folder, 'new.out'))
        self.night('--part', '2/2', '--counts', second)
        self.assert_not_merged('another list of cases', first, second)

    def test_wrong_use(self):
        for args in ((), ('--merge',), ('a', '--part', '5/4'), ('a', '--part', '0/4'), ('a', '--timeout', '0'), ('a', '--merge', 'b')):
            self.assertEqual(command(NIGHTLY, *args)[0], 2, args)
        self.assertEqual(command(NIGHTLY, '/nowhere')[0], 1)

    @unittest.skipUnless(os.path.exists(PROGRAM), 'target/bin/floecavern is not built')
    def test_the_program_over_all_outside_cases(self):
        status, out, _ = command(NIGHTLY, vectors(), '--expect')
        self.assertEqual(status, 0, out.decode())
        for row in ('992  files', '64,035  .. performed, each with its line', '992  outputs equal to the expected ones',
                    '1,283  writes that broke a reservation'):
            self.assertRegex(out.decode(), '(?m)^ +%s$' % row)
