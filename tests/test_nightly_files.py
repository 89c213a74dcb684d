"""tools/nightly: what it may replace, where it refuses to write, and what it keeps."""
import json
import os
import stat
import subprocess
import sys
import time
import unittest
from unittest import mock

from common import EXAMPLE, NIGHTLY, command, data
from nightlyfiles import Held, Kept
from test_nightly import NightlyCase


def write(path, text):
    with open(path, 'w') as file:
        file.write(text)


class Files(NightlyCase):
    def setUp(self):
        super().setUp()
        self.page, self.counts = os.path.join(self.top, 'page'), os.path.join(self.top, 'counts.json')

    def refused(self, what, *args, edit='pass'):
        """A run that isn't started: it says why on standard error, and the program was never run."""
        ran = os.path.join(self.top, 'ran')
        status, page, err = self.night(*args, edit='pass\nopen(%r, "w")\n%s' % (ran, edit))
        self.assertEqual((status, page, os.path.exists(ran)), (1, [], False), err)
        self.assertIn('nothing is run and nothing is written', err)
        self.assertIn(what, err)
        self.assertNotIn('Traceback', err)

    def test_texts_of_a_user_stay(self):
        for end, args in (('.txt', ('--out', self.page)), ('.html', ('--out', self.page)), ('', ('--counts', self.page)), ('', ('--junit', self.page))):
            for text in ('mine\n', 'Floecavern nightly notes\nmine\n', '{"format": "mine"}', '<!doctype html>\n<title>mine</title>', ''):
                write(self.page + end, text)
                self.refused('is no page or counts that tools/nightly wrote', *args)
                self.assertEqual(data(self.page + end), text.encode())
                os.remove(self.page + end)

    def test_folders_and_pipes_stay(self):
        os.mkfifo(self.page + '.txt')
        self.refused('is no plain file', '--out', self.page)
        self.assertTrue(stat.S_ISFIFO(os.stat(self.page + '.txt').st_mode))
        os.mkdir(self.counts)
        self.refused('is no plain file', '--counts', self.counts)

    def test_a_device_stays(self):
        device = os.path.join(self.top, 'device')         # one of its own: a tool that goes wrong must not take a device of the machine
        try:
            os.mknod(device, stat.S_IFCHR | 0o666, os.makedev(1, 3))
        except PermissionError:
            self.skipTest('only root can make a device file')
        self.refused('is no plain file', '--counts', device)
        self.assertTrue(stat.S_ISCHR(os.stat(device).st_mode))

    def test_own_pages_are_replaced(self):
        args = '--out', self.page, '--counts', self.counts, '--junit', os.path.join(self.top, 'junit.xml')
        self.assertEqual(self.night(*args)[0], 0)
        self.assertEqual(self.night(*args, '--night', 'second')[0], 0)
        self.assertIn(b'night second', data(self.page + '.txt').splitlines()[0])
        self.assertEqual(json.loads(data(self.counts))['night'], 'second')
        self.assertEqual([name for name in os.listdir(self.top) if name.startswith('.')], [])

    def test_outputs_that_meet(self):
        self.refused('two outputs would have this name', '--out', self.page, '--counts', self.page + '.txt')
        self.refused('two outputs would have this name', '--junit', self.counts, '--counts', os.path.join(self.top, '.', 'counts.json'))
        os.symlink(self.page + '.html', self.counts)
        self.refused('two outputs would have this name', '--out', self.page, '--counts', self.counts)
        os.remove(self.counts)
        self.assertEqual(self.night('--counts', self.counts)[0], 0)
        other = os.path.join(self.top, 'other')
        os.link(self.counts, other)
        self.refused('two outputs would have this name', '--junit', other, '--counts', self.counts)

    def test_outputs_that_meet_an_input(self):
        self.assertEqual(self.night('--counts', self.counts)[0], 0)
        whole, link, hard = data(self.counts), os.path.join(self.top, 'link'), os.path.join(self.top, 'hard')
        os.symlink(self.counts, link)
        os.link(self.counts, hard)
        for name in (self.counts, link, hard):
            self.refused('is an input of --since', '--since', self.counts, '--counts', name)
            status, _, err = command(NIGHTLY, '--merge', self.counts, '--counts', name)
            self.assertEqual((status, 'is an input of --merge' in err), (1, True), err)
            self.assertEqual(data(self.counts), whole)
        os.rename(self.counts, os.path.join(self.top, 'in.txt'))
        status, _, err = command(NIGHTLY, '--merge', os.path.join(self.top, 'in.txt'), '--out', os.path.join(self.top, 'in'))
        self.assertEqual((status, 'is an input of --merge' in err, data(os.path.join(self.top, 'in.txt'))), (1, True, whole), err)

    def test_outputs_among_the_cases(self):
        self.refused('is the program', '--counts', self.fake())
        self.refused('is a file of the folder', '--counts', os.path.join(self.folder, 'deep', 'er', 'example.case'))
        self.refused('would be taken for a case', '--counts', os.path.join(self.folder, 'new.case'))
        hard = os.path.join(self.top, 'hard')
        os.link(os.path.join(self.folder, 'deep', 'er', 'example.out'), hard)
        self.refused('is a file of the folder', '--counts', hard)

    def test_places_are_tried_first(self):
        self.refused('cannot be written', '--out', os.path.join(self.top, 'nowhere', 'page'))
        self.assertEqual(self.night('--out', self.top + '/')[0], 2)

    def test_a_place_that_is_gone_at_the_end(self):
        place = os.path.join(self.top, 'place')
        os.mkdir(place)
        status, page, err = self.night('--out', os.path.join(place, 'page'), '--counts', os.path.join(place, 'counts'),
                                       edit='import shutil; shutil.rmtree(%r, True)' % place)
        self.assertEqual(status, 1)
        self.assertIn('cannot be written', err)
        self.assertTrue(page[2].startswith('complete: 6 files'), page)
        self.assertEqual(json.loads('\n'.join(page[page.index('{'):]))['counts']['files'], 6)

    def test_a_file_put_there_during_the_night_stays(self):
        status, page, err = self.night('--out', self.page, edit="open(%r, 'w').write('mine')" % (self.page + '.txt'))
        self.assertEqual((status, data(self.page + '.txt')), (1, b'mine'), err)
        self.assertTrue(page[2].startswith('complete: 6 files'), page)

    def test_a_link_stays_a_link(self):
        os.symlink(os.path.join(self.top, 'behind'), self.counts)
        self.assertEqual(self.night('--counts', self.counts)[0], 0)
        self.assertTrue(os.path.islink(self.counts))
        self.assertIn(b'floecavern nightly counts', data(os.path.join(self.top, 'behind')))

    # outputs that are kept

    def test_outputs_of_failing_cases_are_kept(self):
        edit = "out = out.replace(b'sc 0 broke 01', b'sc 9'); sys.stderr.write('' if len(sys.argv) else 'x')"
        self.assertEqual(self.night('--out', self.page, edit=edit)[0], 1)
        kept = os.path.join(self.page + '.outputs', 'deep', 'er', 'example.got')
        self.assertIn(b'3 h1 sc 9\n', data(kept))
        page = data(self.page + '.html').decode()
        self.assertIn('<a href="page.outputs/deep/er/example.got">output</a>', page)
        self.assertIn('<a href="cases/deep/er/example.case">deep/er/example.case</a>', page)
        mine = os.path.join(self.page + '.outputs', 'deep', 'mine.txt')
        write(mine, 'mine')
        self.assertEqual(self.night('--out', self.page, edit="sys.stderr.write('oops')")[0], 1)
        self.assertEqual(data(kept[:-3] + 'err'), b'oops')
        self.assertEqual(self.night('--out', self.page)[0], 0)
        self.assertEqual((os.path.exists(kept), data(mine)), (False, b'mine'))

    def test_files_of_a_user_among_the_outputs_stay(self):
        fail, folder = "out = out.replace(b'sc 0 broke 01', b'sc 9')", self.page + '.outputs'
        self.night('--out', self.page, edit=fail + "\nif name == 'trap_8.case': out = out[:-1]")
        kept, mine = (os.path.join(folder, 'deep', name) for name in ('trap_8.got', 'empty'))
        os.mkdir(mine)
        self.night('--out', self.page, edit=fail)
        self.assertEqual((os.path.exists(kept), os.path.isdir(mine)), (False, True))
        write(kept, 'mine')
        status, _, err = self.night('--out', self.page, edit=fail + "\nif name == 'trap_8.case': out = out[:-1]")
        self.assertEqual((status, 'Traceback' in err), (1, False), err)
        self.assertIn(b'Outputs that could not be kept: 1\n  deep/trap_8.case: File exists\n', data(self.page + '.txt'))
        self.assertIn(b'its output is not kept: File exists', data(self.page + '.html'))
        self.night('--out', self.page)
        self.assertEqual(data(kept), b'mine')
        self.night('--out', self.page, edit=fail)
        os.rename(os.path.join(folder, 'deep', 'er'), os.path.join(self.top, 'elsewhere'))
        os.symlink(os.path.join(self.top, 'elsewhere'), os.path.join(folder, 'deep', 'er'))
        self.night('--out', self.page)
        self.assertTrue(os.path.exists(os.path.join(self.top, 'elsewhere', 'example.got')))

    def test_a_full_disk_does_not_block_the_next_night(self):
        fail, folder = "out = out.replace(b'sc 0 broke 01', b'sc 9')", self.page + '.outputs'
        os.mkdir(folder)         # a night that could make the folder, and no more
        self.assertEqual(self.night('--out', self.page, edit=fail)[0], 1)
        index = os.path.join(folder, 'index.txt')
        with open(index, 'a') as file:
            file.write('"deep/cut o')         # a night that could write only a part of a line
        self.assertEqual(self.night('--out', self.page)[0], 0)
        self.assertFalse(os.path.exists(folder))

    def test_an_index_without_a_line_is_a_nights_own(self):
        kept, folder = Kept(self.page + '.outputs'), self.page + '.outputs'
        with mock.patch('os.replace', side_effect=OSError(28, 'No space left on device')), self.assertRaises(OSError):
            kept.keep('b.case', {'got': b'two', 'err': b''})
        self.assertEqual(os.listdir(folder), [])
        open(os.path.join(folder, 'index.txt'), 'w').close()
        self.assertEqual(self.night('--out', self.page)[0], 0)

    def test_a_place_without_locks(self):
        for error in (OSError(37, 'No locks available'), OSError(95, 'Operation not supported')):
            with mock.patch('fcntl.flock', side_effect=error):
                Held([(self.page + '.txt', 'text')]).free()
        self.assertEqual([name for name in os.listdir(self.top) if name.startswith('.')], [])

    def test_long_names(self):
        for name in ('a' * 240, '\u4e2d' * 80):
            self.assertEqual(self.night('--out', os.path.join(self.top, name))[0], 0, name)

    def test_an_output_is_kept_whole_or_not_at_all(self):
        kept, folder = Kept(os.path.join(self.top, 'k')), os.path.join(self.top, 'k')
        kept.keep('a.case', {'got': b'one', 'err': b''})
        index = data(os.path.join(folder, 'index.txt'))
        with mock.patch('os.replace', side_effect=OSError(28, 'No space left on device')), self.assertRaises(OSError):
            kept.keep('b.case', {'got': b'two', 'err': b''})
        self.assertEqual((sorted(os.listdir(folder)), data(os.path.join(folder, 'index.txt'))), (['a.got', 'index.txt'], index))

    def test_both_outputs_are_linked(self):
        self.night('--out', self.page, edit="out = out[:-1]; sys.stderr.write('oops')")
        page = data(self.page + '.html').decode()
        self.assertIn('(<a href="page.outputs/deep/er/example.got">output</a>, <a href="page.outputs/deep/er/example.err">standard error</a>)', page)

    def test_texts_that_only_look_like_a_page(self):
        args = '--out', self.page, '--counts', self.counts, '--junit', self.counts + '.xml'
        self.assertEqual(self.night(*args)[0], 0)
        for path, more in ((self.page + '.txt', 'my notes\n'), (self.page + '.txt', '  checked by Ann\n'), (self.counts, '{"note": "Ann"}\n'),
                           (self.page + '.html', '<p>Ann</p></main></body></html>\n'), (self.counts + '.xml', '<a></testsuites>\n')):
            own = data(path).decode()
            write(path, own + more)
            self.refused('is no page or counts that tools/nightly wrote', *args)
            self.assertEqual(data(path).decode(), own + more)
            write(path, own)
        write(self.page + '.txt', 'Floecavern nightly runs, my own diary\n\ncomplete rubbish so far\n')
        self.refused('is no page or counts that tools/nightly wrote', *args)

    def test_two_nights_of_one_name(self):
        note, go = os.path.join(self.top, 'note'), os.path.join(self.top, 'go')
        program = self.fake("open(%r, 'w')\n    while not os.path.exists(%r): time.sleep(0.02)" % (note, go))
        night = subprocess.Popen([sys.executable, NIGHTLY, self.folder, '--program', program, '--out', self.page],
                                 stdout=subprocess.PIPE, stderr=subprocess.PIPE)
        while not os.path.exists(note):
            time.sleep(0.02)
        status, _, err = command(NIGHTLY, self.folder, '--program', program, '--counts', self.counts, '--out', self.page)
        self.assertEqual((status, 'another night is writing there now' in err), (1, True), err)
        open(go, 'w').close()
        night.communicate(timeout=30)
        self.assertEqual(night.returncode, 0)
        self.assertEqual(self.night('--out', self.page, '--counts', self.counts)[0], 0)
        self.assertEqual([name for name in os.listdir(self.top) if name.startswith('.')], [])

    def test_a_folder_of_a_user_stays(self):
        os.mkdir(self.page + '.outputs')
        write(os.path.join(self.page + '.outputs', 'index.txt'), 'mine')
        self.refused('is no folder of outputs that tools/nightly kept', '--out', self.page)
        write(os.path.join(self.page + '.outputs', 'index.txt'), 'Floecavern nightly outputs\n"../cases/deep/er/example.case"\n')
        self.refused('is no folder of outputs that tools/nightly kept', '--out', self.page)
        self.assertEqual(data(os.path.join(self.folder, 'deep', 'er', 'example.case')), data(EXAMPLE))


if __name__ == '__main__':
    unittest.main()
