"""Logs of cases of the 32-bit kind in tools/nightly: what an answer to them may say, and how a stop is shown."""
import os
import tempfile
import unittest

from common import EXAMPLE, data
from logs import LR, RIGHT, SC, row
import casefile
import nightlylogs
import nightlyrows
import nightlysheet
import outside

LD, LWU, CAS_D, CAS_D_ODD = 0x0002B303, 0x0002E303, 0x2882B32F, 0x2882B3AF       # into x6, from (x5); amocas.d x6,x8,(x5) and x7,x8,(x5)
WIDE = 1 << 32


def example(kind, word=LR):
    """The example of a kind, with a word at 0."""
    file = bytearray(data(EXAMPLE))
    file[52] = kind
    case = casefile.read(bytes(file))
    return case._replace(memory=word.to_bytes(4, 'little') + case.memory[4:])


class Judged(unittest.TestCase):
    def judged(self, case, rows, text, due=None):
        """The outcome of an answer to a log, and what is wrong with it."""
        answer = nightlylogs.parsed(text)
        with tempfile.NamedTemporaryFile() as log:
            log.write(b''.join(rows))
            log.flush()
            found = nightlyrows.Rows(log.name, case, answer.row if answer else 0)
        return nightlylogs.judged(text, case, due, found)

    def test_every_outside_log(self):
        """The answer that the outside vectors have is one that can be right. None of their logs agrees in every row."""
        seen = set()
        for path in outside.cases(outside.LOGS):
            text, log = data(path + '.out').decode(), data(path + '.log')
            with self.subTest(log=os.path.basename(path)):
                due = nightlylogs.due_refusal(None, len(log))
                outcome = 'refused' if due else 'agreed' if '\nagreed ' in text else 'stopped'
                self.assertEqual(self.judged(casefile.read(data(path + '.case')), [log], text, due), (outcome, None))
            seen.add(outcome)
        self.assertEqual(seen, {'refused', 'stopped'})

    def stop(self, kind, word, said, rd=6, value=0):
        """What is wrong with an answer to a log of one row, which stops there; None if nothing is."""
        return self.judged(example(kind, word), [row(0, 0, word, rd, value)], 'log 1 rows\nrow 0 %s\nend 0\n' % said)[1]

    def test_words_of_64_bits(self):
        """They always trap of the 32-bit kind, and then by cause 2."""
        for word in (LD, LWU, CAS_D_ODD):
            trap = 'trap 2 %016x' % word
            self.assertIsNone(self.stop(1, word, trap))
            self.assertIn('has no such trap', self.stop(0, word, trap))
            for said in ('trap 4 0000000000000041', 'trap 5 0000000000000100', 'trap 6 0000000000000041', 'trap 7 0000000000000100'):
                self.assertIn('has no such trap', self.stop(1, word, said))
            self.assertIn('the row traps', self.stop(1, word, 'rd 06 05'))
            agreed = self.judged(example(1, word), [row(0, 0, word, 6, 0)], 'log 1 rows\nagreed 1\nend 1\n')[1]
            self.assertIn('no instruction of the model, which always traps', agreed)

    def test_words_of_both(self):
        for kind in (0, 1):
            self.assertIsNone(self.stop(kind, CAS_D, 'trap 7 00000000fffffff8'))
            self.assertIn('the address is misaligned', self.stop(kind, CAS_D, 'trap 7 00000000fffffffc'))
            self.assertEqual(self.judged(example(kind), RIGHT, 'log 4 rows\nagreed 4\nend 4\n'), ('agreed', None))

    def test_values_of_32_bits(self):
        """A model of 32 bits has no wider values, pcs and addresses."""
        wide, word = '%016x' % (WIDE + 64), 0x0002A303           # lw x6,0(x5)
        for said in ('value %016x %s' % (0, wide), 'pc %016x %s' % (0, wide), 'trap 5 ' + wide):
            self.assertIsNone(self.stop(0, word, said))
            self.assertRegex(self.stop(1, word, said), 'more than 32 bits')
        agreed = 'log 1 rows\nagreed 1\nend 1\n'
        self.assertEqual(self.judged(example(0), [row(0, 0, LR, 6, WIDE)], agreed), ('agreed', None))
        self.assertIn('more than the 32 bits of a register', self.judged(example(1), [row(0, 0, LR, 6, WIDE)], agreed)[1])

    def test_targets(self):
        """Of a jump down from 0."""
        word = 0xFFFFF06F                                        # jal x0,-2
        targets = 'f' * 15 + 'e', '0' * 8 + 'f' * 7 + 'e'
        for kind in (0, 1):
            self.assertIsNone(self.stop(kind, word, 'trap 0 ' + targets[kind], rd=0))
            self.assertIn('its value would be ' + targets[kind], self.stop(kind, word, 'trap 0 ' + targets[1 - kind], rd=0))


class Shown(unittest.TestCase):
    def test_words(self):
        for xlen, text in ((64, 'ld x6,0(x5)'), (32, '0002b303, no instruction of the model')):
            stop = {'row': 0, 'field': 'word', 'board': '%08x' % SC, 'model': '%08x' % LD, 'line': row(0, 0, SC, 7, 0)[:-1].decode(), 'form': None,
                    'xlen': xlen}
            self.assertTrue(nightlylogs.possible_stop(stop))
            self.assertFalse(nightlylogs.possible_stop({**stop, 'xlen': 33}))
            self.assertIn('sc.w x7,x8,(x5): word: board 1882a3af, model 0002b303 (%s)' % text, nightlysheet.stop_text({'stop': stop, 'counts': {}}))


if __name__ == '__main__':
    unittest.main()
