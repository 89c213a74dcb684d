"""tools/nightly: what its page, its counts and its JUnit file say."""
import html
import json
import os
import re
import shutil
import subprocess
import sys
import tempfile
import time
import unittest
import xml.etree.ElementTree as xml

from common import EXAMPLE, EXAMPLE_LINES, NIGHTLY, data
from test_nightly import NightlyCase

CHROMIUM = next(filter(None, map(shutil.which, ('chromium', 'chromium-browser', 'google-chrome'))), None)


def shown_width(path, width):
    """How far to the right a browser shows something of a page in a frame of this width, and how wide the frame is: a window can't be as narrow as
    a telephone. What is inside the table of losers can be scrolled to."""
    script = ('<script>parent.document.title = "width " + Math.max(document.documentElement.scrollWidth, ...Array.from(document.querySelectorAll("main :not(.losers *)"), '
              'part => Math.floor(part.getBoundingClientRect().right))) + " of " + window.innerWidth</script></body>')
    page = html.escape(data(path).decode().replace('</body>', script))
    with tempfile.TemporaryDirectory() as folder:
        with open(os.path.join(folder, 'frame.html'), 'w') as file:
            file.write('<title></title><iframe srcdoc="%s" style="border: 0; width: %dpx; height: 800px"></iframe>' % (page, width))
        shown = subprocess.run([CHROMIUM, '--headless', '--no-sandbox', '--disable-gpu', '--hide-scrollbars', '--dump-dom', '--window-size=1300,900',
                                '--user-data-dir=' + folder + '/c', 'file://' + folder + '/frame.html'], capture_output=True, timeout=60).stdout.decode()
    return tuple(map(int, re.search(r'<title>width (\d+) of (\d+)</title>', shown).groups()))


class Page(NightlyCase):
    def setUp(self):
        super().setUp()
        self.page, self.counts = os.path.join(self.top, 'page'), os.path.join(self.top, 'counts.json')

    def add(self, name, lines=EXAMPLE_LINES):
        """One more case: the example with other bytes behind its events, so that the program tells it apart."""
        path = os.path.join(self.folder, name)
        os.makedirs(os.path.dirname(path), exist_ok=True)
        case = bytearray(data(EXAMPLE))
        case[600] = sum(os.fsencode(name)) % 251 + 1
        with open(path + '.case', 'wb') as file:
            file.write(case)
        shutil.copy(lines, path + '.out')

    def test_title_and_verdict(self):
        _, page, _ = self.night('--night', 'blue')
        self.assertEqual(page[0], 'Floecavern nightly, %s, night blue' % time.strftime('%Y-%m-%d'))
        self.assertEqual(page[2], 'complete: 6 files, 1 of them refused, 25 events each with its line, 6 expected outputs not compared; no board was compared')
        self.night('--night', 'blue', '--out', self.page)
        text = data(self.page + '.html').decode()
        self.assertIn('<title>%s: complete</title>' % page[0], text)
        self.assertIn('prefers-color-scheme: dark', text)

    def test_banner_and_groups(self):
        self.add('deep/a')
        self.add('deep/b')
        self.add('deep/c')
        edit = "out = out.replace(b'sc 0 broke 01', b'sc 1')\nif name in ('a.case', 'b.case'): sys.exit(3)\nif name == 'c.case': out = out[:-1]"
        _, page, _ = self.night('--expect', edit=edit)
        self.assertEqual(page[2], 'not complete: 2 missing, 1 wrong, 1 different; 9 files, 1 of them refused, 25 events; no board was compared')
        self.assertEqual(page[4:8], ['Missing: 2', '  2: the program ended with status 3', '      deep/a.case', '      deep/b.case'])
        self.assertEqual(page[9:12], ['Wrong: 1', '  1: the last line has no line feed', '      deep/c.case'])

    def test_refused_files_are_named(self):
        page = '\n'.join(self.night()[1])
        self.assertRegex(page, r'(?m)^ +10 +312  length of the memory  deep/refuse_10_1\.case$')
        self.night('--out', self.page)
        self.assertIn('<a href="cases/deep/refuse_10_1.case">', data(self.page + '.html').decode())

    def test_other_files_are_counted(self):
        for name in ('a.CASE', 'deep/b.case.gz', 'c.out'):
            shutil.copy(EXAMPLE, os.path.join(self.folder, name))
        page = '\n'.join(self.night()[1])
        self.assertRegex(page, r'(?m)^ +3  other files, not run$')
        self.assertIn('not run  a.CASE, c.out, deep/b.case.gz', page)

    def test_by_folder(self):
        page = '\n'.join(self.night(edit='sys.exit(3)')[1])
        self.assertRegex(page, r'(?m)^ +5 +20  deep$')
        self.assertRegex(page, r'(?m)^ +1 +0  deep/er  1 missing$')

    def test_files_that_appear_vanish_or_change(self):
        example, trap = os.path.join(self.folder, 'deep', 'er', 'example'), os.path.join(self.folder, 'deep', 'trap_8.case')
        edit = "open(%r, 'wb').write(data); open(%r, 'wb').write(out); os.remove(%r)" % (example + '2.case', example + '2.out', trap)
        page = '\n'.join(self.night('--jobs', '1', edit=edit)[1])
        self.assertIn('appeared during the run, and was not run\n      deep/er/example2.case', page)
        self.assertIn('vanished during the run\n      deep/trap_8.case', page)
        page = '\n'.join(self.night('--jobs', '1', edit="open(%r, 'ab').write(b'x')" % (example + '.case'))[1])
        self.assertIn('was changed during the run\n      deep/er/example.case', page)

    def test_a_program_that_is_replaced_or_gone(self):
        program = os.path.join(self.top, 'program')
        for edit in ("open(%r, 'a').write('#')", 'os.remove(%r)'):
            self.assertIn('the program was replaced during the run', '\n'.join(self.night('--jobs', '1', edit=edit % program)[1]))

    # against an earlier night, and again

    def test_since(self):
        self.add('deep/old')
        self.night('--counts', self.counts, '--night', 'first', edit='sys.exit(3)')
        os.remove(os.path.join(self.folder, 'deep', 'old.case'))
        self.add('deep/new')
        page = '\n'.join(self.night('--since', self.counts, edit="pass\nif name == 'trap_8.case': sys.exit(4)")[1])
        for lines in (', night first\n', '  1 fail now, and did not\n      deep/trap_8.case\n', '  1 fail no more\n      deep/er/example.case\n',
                      '  1 new, and right\n      deep/new.case\n', '  1 gone\n      deep/old.case\n'):
            self.assertIn(lines, page)
        self.night('--part', '1/2', '--counts', self.counts)
        self.assertIn('only of a part of a night', self.night('--since', self.counts)[2])
        self.assertIn('No such file', self.night('--since', '/nowhere')[2])

    def test_since_nothing(self):
        self.night('--counts', self.counts)
        self.assertIn('  nothing is new and nothing is gone', self.night('--since', self.counts)[1])

    def test_only_what_failed(self):
        self.night('--counts', self.counts, edit="sys.exit(3)\nif name == 'trap_8.case': sys.exit(4)")
        status, page, _ = self.night('--only', self.counts, edit="pass\nif name == 'trap_8.case': sys.exit(4)")
        self.assertEqual(status, 1)
        self.assertIn('only 2 of 6 files, run again', page[0])
        self.assertEqual(page[2], 'not complete: 1 missing; only 2 of 6 files, 5 events, 2 expected outputs not compared; no board was compared')
        self.assertIn('  1 fail no more', page)
        self.assertIn('  1 fail still', page)
        self.assertNotIn('gone', '\n'.join(page))
        again = os.path.join(self.top, 'again')
        self.assertEqual(self.night('--only', self.counts, '--counts', again)[0], 0)
        self.assertIn('no case failed there', self.night('--only', again)[2])

    def test_only_compares_as_the_night_did(self):
        differs = "out = out.replace(b'sc 0 broke 01', b'sc 1')"
        self.night('--expect', '--counts', self.counts, edit=differs)
        status, page, _ = self.night('--only', self.counts, edit=differs)
        self.assertEqual((status, page[2]), (1, 'different: 1 different; only 1 of 6 files, 5 events; no board was compared'))
        page = '\n'.join(self.night('--since', self.counts, edit=differs)[1])
        self.assertIn('  only that night compared with expected outputs\n  1 failed, and are not compared now\n      deep/er/example.case\n', page)
        self.assertNotIn('fail no more', page)

    def test_only_runs_what_was_not_run(self):
        self.night('--counts', self.counts, '--part', '1/1', edit='sys.exit(3)')
        self.add('deep/new')
        status, page, _ = self.night('--only', self.counts)
        self.assertEqual((status, page[2][:31]), (0, 'complete: only 2 of 7 files, 10'))
        self.night('--counts', self.counts, '--jobs', '1', edit="open(%r, 'a').write('#')\n    sys.exit(3)" % os.path.join(self.top, 'program'))
        status, page, _ = self.night('--only', self.counts)
        self.assertEqual(status, 1)
        self.assertIn('in the night that is run again: the program was replaced during the run', '\n'.join(page))

    def test_only_runs_the_cases_of_a_folder_that_was_not_there(self):
        away = os.path.join(self.top, 'away')
        os.mkdir(away)
        os.symlink(os.path.join(self.top, 'there'), os.path.join(self.folder, 'sub'))
        for args in ((), ('--part', '1/1')):
            self.night('--counts', self.counts, *args, edit='sys.exit(3)')
            page = self.night('--only', self.counts, '--counts', self.counts + '2', edit='sys.exit(3)')[1]
            self.assertEqual(('\n'.join(page).count('a link whose end cannot be reached'), page[2][:23]), (1, 'not complete: 2 missing'))
            os.rename(away, os.path.join(self.top, 'there'))
            shutil.copy(EXAMPLE, os.path.join(self.top, 'there', 'late.case'))
            for counts in (self.counts, self.counts + '2'):
                self.assertIn('only 2 of 7 files', self.night('--only', counts)[1][2])
            os.remove(os.path.join(self.top, 'there', 'late.case'))
            os.rename(os.path.join(self.top, 'there'), away)

    def test_only_after_an_empty_folder(self):
        empty = os.path.join(self.top, 'empty')
        os.mkdir(empty)
        program = os.path.join(self.top, 'cat')
        with open(program, 'w') as file:
            file.write('#!/bin/sh\ncat %s\n' % EXAMPLE_LINES)
        os.chmod(program, 0o755)
        subprocess.run([sys.executable, NIGHTLY, 'empty', '--program', program, '--counts', self.counts], cwd=self.top, capture_output=True)
        shutil.copy(EXAMPLE, os.path.join(empty, 'a.case'))
        done = subprocess.run([sys.executable, NIGHTLY, 'empty', '--program', program, '--only', self.counts], cwd=self.top, capture_output=True)
        self.assertEqual(done.returncode, 0, done.stdout)

    def test_since_where_a_case_cannot_be_found(self):
        self.night('--counts', self.counts, edit='sys.exit(3)')
        os.remove(os.path.join(self.folder, 'deep', 'er', 'example.case'))
        page = '\n'.join(self.night('--only', self.counts)[1])
        self.assertIn('is not in the folder any more', page)
        self.assertIn('  1 gone\n      deep/er/example.case', page)
        self.add('deep/another')
        self.night('--part', '1/2', '--counts', self.counts)
        self.add('aaa')
        page = '\n'.join(self.night('--part', '1/2', '--since', self.counts)[1])
        self.assertIn('that part was of another list of cases', page)

    def test_a_folder_whose_name_begins_with_dots(self):
        self.add('.. sub/a')
        self.night('--out', self.page)
        self.assertIn('<td class="name">.. sub</td>', data(self.page + '.html').decode())

    def test_since_tells_what_an_earlier_night_lacked(self):
        self.night('--expect', '--counts', self.counts, edit="open(%r, 'wb').write(data)" % os.path.join(self.folder, 'late.case'))
        example = os.path.join(self.folder, 'deep', 'er', 'example.out')
        text = data(example)
        with open(example, 'wb') as file:
            file.write(text + b'more\n')
        os.remove(os.path.join(self.folder, 'late.case'))
        page = '\n'.join(self.night('--expect', '--since', self.counts, edit='out = %r' % text)[1])
        self.assertIn('  that night was not complete: 1 missing; ', page)
        self.assertIn('  1 have other contents, or their expected outputs have\n      deep/er/example.case\n', page)

    # as a browser shows it

    @unittest.skipUnless(CHROMIUM, 'there is no chromium to show the page')
    def test_the_page_fits_its_window(self):
        self.add('a_very_long_name_of_a_folder_that_goes_on/and_on/' + 'x' * 100)
        self.night('--out', self.page, '--expect', '--night', 'n' * 80, edit="sys.exit(3)\nif name == 'trap_8.case': out = out[:-1]")
        for width in (360, 1200):
            shown, window = shown_width(self.page + '.html', width)
            self.assertEqual((window, shown <= width), (width, True), shown)

    # for machines

    def test_json_of_every_case(self):
        self.night('--counts', self.counts, edit="out = out[:-1]")
        record = json.loads(data(self.counts))
        rows = {row['name']: row for row in record['cases']}
        self.assertEqual(len(rows), 6)
        self.assertEqual((rows['deep/er/example.case']['outcome'], rows['deep/refuse_10_1.case']['refusal']), ('wrong', '10 312'))
        self.assertEqual(record['counts']['events'], sum(row['counts'].get('events', 0) for row in rows.values()))

    def test_junit(self):
        file = os.path.join(self.top, 'junit.xml')
        self.add('\x01<&"-->\udcff')
        os.remove(os.path.join(self.folder, '\x01<&"-->\udcff.out'))
        self.night('--junit', file, '--expect', '--night', 'a---b', edit="out = out.replace(b'sc 0 broke 01', b'sc 1')")
        top = xml.parse(file).getroot()
        self.assertEqual((top.get('tests'), len(top.findall('.//testcase'))), ('7', 7))
        self.assertEqual((top.get('failures'), len(top.findall('.//failure'))), ('1', 1))
        self.assertEqual((top.get('errors'), len(top.findall('.//error'))), ('1', 1))
        self.assertEqual(top.find('.//failure').get('type'), 'different')
        self.assertTrue(top.find('.//property[@name="verdict"]').get('value').startswith('not complete: 1 missing, 1 different; 7 files'))
        os.remove(os.path.join(self.folder, 'deep', 'trap_8.case'))
        self.night('--junit', file, '--expect')
        self.assertIsNotNone(xml.parse(file).getroot().find("testsuite[@name='the night']/testcase/error"))


if __name__ == '__main__':
    unittest.main()
