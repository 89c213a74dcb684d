"""The programs `replay` and `makelog` where files can't be read, change while they are read, or hold what has no row."""
import os
import shutil
import subprocess
import threading
import unittest

from common import EXAMPLE, ROOT, InFolder, data

REPLAY, MAKELOG = (os.path.join(ROOT, 'target', 'bin', name) for name in ('replay', 'makelog'))
CASE, LOG = (os.path.join(ROOT, 'crates', 'replay', 'data', name) for name in ('case', 'log'))
STEPS = os.path.join(ROOT, 'crates', 'makelog', 'stdin')
COMPILER = shutil.which('cc')
# Sets the length of a file when the program goes back to its start: between the two passes over a log.
BETWEEN = r'''
#define _GNU_SOURCE
#include <dlfcn.h>
#include <stdlib.h>
#include <unistd.h>
off_t lseek(int fd, off_t to, int from)
{
    if (truncate(getenv("CHANGED"), atol(getenv("LENGTH"))) != 0)
        abort();
    return ((off_t (*)(int, off_t, int))dlsym(RTLD_NEXT, "lseek"))(fd, to, from);
}
'''


def run(*command, **more):
    done = subprocess.run(command, stdout=subprocess.PIPE, stderr=subprocess.PIPE, **more)
    return done.stdout.decode(), done.stderr.decode()


@unittest.skipUnless(os.path.exists(REPLAY) and os.path.exists(MAKELOG), 'target/bin/replay or target/bin/makelog is not built')
class Logs(InFolder):
    def assert_no_answer(self, case, log, why):
        self.assertEqual(run(REPLAY, case, log), ('', 'replay: %s\n' % why))

    def test_other_arguments(self):
        for arguments in ([], [CASE], [CASE, LOG, LOG]):
            self.assertEqual(run(REPLAY, *arguments), ('', 'use: replay CASE LOG [SETTINGS BOARD]\n'))

    def test_files_that_are_not_there(self):
        self.assert_no_answer(self.path('none'), LOG, self.path('none') + ': No such file or directory')
        self.assert_no_answer(CASE, self.path('none'), self.path('none') + ': No such file or directory')

    def test_folders(self):
        self.assert_no_answer(self.folder.name, LOG, self.folder.name + ': Is a directory')
        self.assert_no_answer(CASE, self.folder.name, self.folder.name + ': Is a directory')

    def test_a_pipe_cannot_be_read_twice(self):
        pipe = self.path('pipe')
        os.mkfifo(pipe)

        def fill():
            with open(pipe, 'wb') as file:
                file.write(data(LOG))
        writer = threading.Thread(target=fill)
        writer.start()
        self.assert_no_answer(CASE, pipe, pipe + " can't be read twice, as a log is")
        writer.join()

    def test_the_case_comes_before_the_log(self):
        bad = self.path('bad', b'no case')
        self.assertEqual(run(REPLAY, bad, self.path('cut', b'x')), ('refused 7 0\n', ''))
        self.assertEqual(run(REPLAY, CASE, self.path('cut', b'x' * 47)), ('refused 12 0\n', ''))
        self.assertEqual(run(REPLAY, CASE, self.path('empty', b'')), ('refused 13 0\n', ''))

    @unittest.skipUnless(COMPILER, 'no C compiler is there')
    def test_a_log_that_changes_between_the_passes(self):
        between, source = self.path('between.so'), self.path('between.c', BETWEEN.encode())
        subprocess.run([COMPILER, '-shared', '-fPIC', '-o', between, source, '-ldl'], check=True)
        rows = len(data(LOG)) // 48
        for length, out, err in ((48 * rows, data(os.path.join(ROOT, 'crates', 'replay', 'stdout')).decode(), ''),
                                 (48 * rows - 48, '', ' became shorter while it was read'), (48 * rows - 1, '', ' became shorter while it was read'),
                                 (0, '', ' became shorter while it was read'), (48 * rows + 1, '', ' became longer while it was read'),
                                 (48 * rows + 48, '', ' became longer while it was read')):
            log = self.path('log', data(LOG))
            env = dict(os.environ, LD_PRELOAD=between, CHANGED=log, LENGTH=str(length))
            self.assertEqual(run(REPLAY, CASE, log, env=env), (out, 'replay: %s%s\n' % (log, err) if err else ''), length)

    def test_an_output_that_cannot_be_written(self):
        full = os.open(self.path('out', b''), os.O_RDONLY)          # not for writing
        self.addCleanup(os.close, full)
        done = subprocess.run([REPLAY, CASE, LOG], stdout=full, stderr=subprocess.PIPE)
        self.assertEqual(done.stderr, b'replay: standard output: Bad file descriptor\n')
        with open(STEPS, 'rb') as steps:
            done = subprocess.run([MAKELOG], stdin=steps, stdout=full, stderr=subprocess.PIPE)
        self.assertEqual(done.stderr, b'makelog: standard output: Bad file descriptor\n')

    def made(self, content):
        return run(MAKELOG, input=content)

    def test_what_the_model_makes_agrees(self):
        log, err = self.made(data(STEPS))
        rows = len(log) // 48
        self.assertEqual((len(log) % 48, rows > 0, err), (0, True, ''))
        self.assertEqual(run(REPLAY, STEPS, self.path('log', log.encode())), ('log %d rows\nagreed %d\nend %d\n' % (rows, rows, rows), ''))

    def test_what_has_no_row_is_told(self):
        log, err = self.made(data(EXAMPLE))          # a step, then a device write
        self.assertEqual((log, err), ('0 0000000000000000 1002a32f 06 0000000000000000\n', 'makelog: event 1 is no step\n'))
        ecall = bytearray(data(STEPS))          # its first hart is at 0x80
        at = int.from_bytes(ecall[20:24], 'little') + 0x80
        ecall[at:at + 4] = (0x73).to_bytes(4, 'little')
        self.assertEqual(self.made(bytes(ecall)), ('', 'makelog: event 0 traps: cause 8, value 0000000000000000\n'))
        self.assertEqual(self.made(b'no case'), ('', 'refused 7 0\n'))


if __name__ == '__main__':
    unittest.main()
