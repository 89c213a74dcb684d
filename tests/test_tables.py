"""The tables that programs are run on are those that the tools make."""
import os
import shutil
import subprocess
import tempfile
import unittest

from common import ROOT, data


class Tables(unittest.TestCase):
    def same(self, tool, crate, reads=()):
        """The tool run in a folder of its own, with the files that it reads, writes what stands in the repository."""
        top = tempfile.mkdtemp()
        self.addCleanup(shutil.rmtree, top)
        os.makedirs(os.path.join(top, 'crates', crate))
        os.mkdir(top + '/tools')
        shutil.copy(os.path.join(ROOT, 'tools', tool), top + '/tools')
        for name in reads:
            os.makedirs(os.path.dirname(os.path.join(top, name)), exist_ok=True)
            shutil.copy(os.path.join(ROOT, name), os.path.join(top, name))
        subprocess.run([os.path.join(top, 'tools', tool)], check=True, stdout=subprocess.DEVNULL)
        for name in ['stdin', 'stdout']:
            made, kept = (data(os.path.join(folder, 'crates', crate, name)) for folder in [top, ROOT])
            self.assertTrue(made == kept, '%s/%s' % (crate, name))

    def test_touch_table(self):
        self.same('touch-table', 'touch_table')

    def test_boards_table(self):
        self.same('boards-table', 'boards_table', ['tests/vectors/11-settings.jsonl'])

    def test_event_table(self):
        vectors = ['05-sizes.jsonl', '07-versions.jsonl', '10-kind32.jsonl', '11-misaligned.jsonl']
        self.same('event-table', 'event_table', ['tests/outside.py', *('tests/vectors/' + name for name in vectors)])

    @unittest.skipUnless(shutil.which('riscv64-linux-gnu-as') and shutil.which('riscv64-linux-gnu-objdump'), 'needs binutils-riscv64-linux-gnu')
    def test_decode_table(self):
        version = subprocess.run(['riscv64-linux-gnu-objdump', '--version'], stdout=subprocess.PIPE, encoding='utf-8').stdout.split('\n')[0]
        if not version.endswith(' 2.40'):
            self.skipTest('the table is made with binutils 2.40; here is ' + version)
        self.same('decode-table', 'decode_table')


if __name__ == '__main__':
    unittest.main()
