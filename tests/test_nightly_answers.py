"""tools/nightly: which answers of `replay` can be right, and how the rows of a log are read."""
import os
import re
import shutil
import tempfile
import unittest
import unittest.mock

from common import EXAMPLE, data
from logs import AGREED, DIFFERENT, LR, RIGHT, SC, STOPPED, row, write
from nightlyfolder import opened
from nightlylogs import Rows, due_refusal, judged, parsed, readable
from nightlyrows import NO_INSTRUCTION, UNREADABLE, form_fault, well_formed
from riscv import assemble


class Answers(unittest.TestCase):
    """The judgement of an answer, by itself."""

    def setUp(self):
        folder = tempfile.mkdtemp()
        self.addCleanup(shutil.rmtree, folder)
        self.path = os.path.join(folder, 'a.log')

    def judge(self, rows, text, case=EXAMPLE):
        write(self.path, b''.join(rows))
        with open(case, 'rb') as file:
            case, refusal = opened(file)
        answer = parsed(text)
        found = Rows(self.path, case, answer.row if answer else 0)
        return judged(text, case, due_refusal(refusal, found.size), found)

    def assert_wrong(self, rows, text, why):
        outcome, what = self.judge(rows, text)
        self.assertEqual(outcome, 'wrong', (text, what))
        self.assertIn(why, what)

    def one(self, stop):
        return 'log 1 rows\nrow 0 %s\nend 0\n' % stop

    def test_right_answers(self):
        self.assertEqual(self.judge(RIGHT, AGREED), ('agreed', None))
        self.assertEqual(self.judge(DIFFERENT, STOPPED), ('stopped', None))
        self.assertEqual(self.judge([b''], 'refused 13 0\n'), ('refused', None))
        self.assertEqual(self.judge([b'0'], 'refused 12 0\n'), ('refused', None))
        self.assertEqual(self.judge([RIGHT[0][:-1] + b'\r'], self.one('form')), ('stopped', None))

    def test_counts_that_are_not_the_logs(self):
        self.assert_wrong(RIGHT, 'log 3 rows\nagreed 3\nend 3\n', '`log 3 rows`, but the log has 4')
        self.assert_wrong(RIGHT, 'log 4 rows\nagreed 3\nend 3\n', '`agreed 3`, but the log has 4 rows')
        self.assert_wrong(RIGHT, 'log 4 rows\nagreed 4\nend 3\n', '`end 3`, but 4 rows agreed')
        self.assert_wrong(RIGHT, 'log 4 rows\nagreed 5\nend 5\n', '`agreed 5`, but the log has 4 rows')
        self.assert_wrong(RIGHT, 'log 4 rows\nrow 4 form\nend 4\n', '`row 4`, but the log has 4 rows')
        self.assert_wrong(RIGHT, 'log 4 rows\nrow 3 form\nend 4\n', '`end 4`, but 3 rows agreed')

    def test_texts_that_are_no_answer(self):
        for text in ('', 'agreed 4\n', AGREED[:-1], AGREED + '\n', AGREED.replace('4', '04'), AGREED.replace('rows', 'row'), 'log 4 rows\nrow 3\nend 3\n',
                     'log 4 rows\nagreed 4 form\nend 4\n', STOPPED.replace('0000000000000001', '1'), STOPPED.replace('value', 'Value'),
                     STOPPED.replace('value', 'hart'), STOPPED.replace('0001\n', '000A\n'), 'log 4 rows\nrow 3 rd 7 8\nend 3\n',
                     'log 4 rows\nrow 3 trap 9 0000000000000000\nend 3\n', 'log 4 rows\nrow 3 form 1\nend 3\n', 'log 4 rows\r\nagreed 4\r\nend 4\r\n'):
            self.assert_wrong(RIGHT, text, 'which is none')

    def test_refusals(self):
        for text in ('refused 12 0\n', 'refused 13 0\n', 'refused 8 0\n'):
            self.assert_wrong(RIGHT, text, 'but case and log are in order')
        for rows, due in (([], '13 0'), ([b'x'], '12 0'), (RIGHT + [b'x'], '12 0')):
            for text in ('refused 12 0\n', 'refused 13 0\n', 'refused 12 1\n', 'refused 7 0\n', 'refused %s' % due, AGREED, 'log 0 rows\nagreed 0\nend 0\n'):
                if text != 'refused %s\n' % due:
                    self.assert_wrong(rows, text, "not 'refused %s\\n'" % due)
        case = os.path.join(os.path.dirname(self.path), 'a.case')
        write(case, data(EXAMPLE) + b'x')
        for rows in ([], [b'x'], RIGHT):         # 8 comes before 12 and 13
            self.assertEqual(self.judge(rows, 'refused 8 36\n', case), ('refused', None))
            self.assertEqual(self.judge(rows, 'refused 12 0\n', case)[0], 'wrong')

    def test_form(self):
        bad = RIGHT[1].replace(b'a', b'A')
        rows = [RIGHT[0], bad, *RIGHT[2:]]
        self.assertEqual(self.judge(rows, 'log 4 rows\nrow 1 form\nend 1\n'), ('stopped', None))
        self.assert_wrong(rows, AGREED, 'it passes over row 1, which is badly formed')
        self.assert_wrong(rows, 'log 4 rows\nrow 2 form\nend 2\n', 'it passes over row 1, which is badly formed')
        self.assert_wrong(rows, 'log 4 rows\nrow 0 form\nend 0\n', '`row 0 form`, but the row is well formed')
        self.assert_wrong(rows, 'log 4 rows\nrow 1 pc 0000000000000000 0000000000000004\nend 1\n', '`row 1 pc`, but the row is badly formed')
        self.assert_wrong(RIGHT, 'log 4 rows\nrow 3 form\nend 3\n', 'but the row is well formed')

    def test_every_byte_of_a_row(self):
        good = row(1, 0xfedcba9876543210, 0x89abcdef, 99, 0x0123456789abcdef)
        self.assertTrue(well_formed(good, 2))
        self.assertFalse(well_formed(good, 1))
        for place in range(48):
            for byte in range(256):
                changed = good[:place] + bytes([byte]) + good[place + 1:]
                shape = rb'[01] [0-9a-f]{16} [0-9a-f]{8} [0-9]{2} [0-9a-f]{16}\n'
                self.assertEqual(well_formed(changed, 2), re.fullmatch(shape, changed) is not None, changed)
                self.assertEqual(well_formed(RIGHT[0] + changed + RIGHT[1], 2), re.fullmatch(shape, changed) is not None, changed)
                if not well_formed(changed, 2):
                    self.assertTrue(form_fault(changed, 2).startswith('hart 2' if changed[0] in b'23456789' and place == 0 and byte == 50 else
                                                                      'hart' if place == 0 and byte in b'23456789' else 'byte %d' % place))
        self.assertFalse(well_formed(good[:-1], 2))

    def test_rows_with_which_no_model_agrees(self):
        for odd, why in ((row(0, 0x80, LR, 6, 0), 'its pc 0x80 is not in memory'), (row(0, 0x41, LR, 6, 0), 'its pc 0x41 is no multiple of 4'),
                         (row(0, 0, 0xffffffff, 0, 0), 'no instruction of the model, which always traps'), (row(0, 0, 0x73, 0, 0), 'ecall, which always traps'),
                         (row(0, 0, 0x100073, 0, 0), 'ebreak, which always traps'), (row(0, 0, LR, 7, 0), 'its rd is 07, that of its word 1002a32f is 06'),
                         (row(0, 0, LR, 38, 0), 'its rd is 38'), (row(0, 0, assemble('beq x0,x0,16'), 16, 0), 'its rd is 16'),
                         (row(0, 0, assemble('sd x0,8(x0)'), 8, 0), 'its rd is 08'), (row(0, 0, assemble('fence x9,x9,0'), 9, 0), 'its rd is 09'),
                         (row(0, 0, assemble('addi x0,x0,0'), 0, 1), 'x0')):
            self.assert_wrong([RIGHT[0], odd, RIGHT[1]], 'log 3 rows\nagreed 3\nend 3\n', 'it says that row 1 agreed, with which no model can agree: ')
            self.assert_wrong([RIGHT[0], odd, RIGHT[1]], 'log 3 rows\nagreed 3\nend 3\n', why)
            self.assert_wrong([odd, RIGHT[1]], 'log 2 rows\nrow 1 pc 0000000000000000 0000000000000004\nend 1\n', 'row 0 agreed')
            self.assertEqual(self.judge([RIGHT[0], odd], 'log 2 rows\nrow 1 pc %s 0000000000000008\nend 1\n' % odd[2:18].decode())[0], 'stopped')

    def test_values_of_a_stop(self):
        for rows, stop, why in (
                ([RIGHT[3]], 'value 0000000000000002 0000000000000000', 'the row has the value 0000000000000001'),
                ([RIGHT[3]], 'value 0000000000000001 0000000000000001', 'the two values are equal'),
                ([RIGHT[3]], 'pc 0000000000000000 0000000000000004', 'the row has the pc 0000000000000004'),
                ([RIGHT[3]], 'pc 0000000000000004 0000000000000002', 'a multiple of 4'),
                ([RIGHT[3]], 'word 00000000 00000001', 'the row has the word 1882a3af'),
                ([row(0, 128, SC, 7, 0)], 'word 1882a3af 00000001', 'pc 0x80 is not in memory'),
                ([RIGHT[3]], 'rd 07 06', 'its word has rd 07'), ([RIGHT[3]], 'rd 06 07', 'the row has the rd 07'),
                ([row(0, 4, 0xffffffff, 7, 0)], 'rd 07 00', 'the row traps'), ([row(0, 4, 0x73, 7, 0)], 'rd 07 00', 'the row traps'),
                ([row(0, 4, SC, 8, 0)], 'value 0000000000000000 0000000000000001', 'its rd is 08'),
                ([row(0, 4, 0x13, 0, 1)], 'value 0000000000000001 0000000000000002', 'x0 is zero')):
            self.assert_wrong(rows, self.one(stop), why)
        for rows, stop in (([row(0, 4, SC, 8, 0)], 'rd 08 07'), ([row(0, 4, 0x13, 0, 1)], 'value 0000000000000001 0000000000000000'),
                           ([RIGHT[3]], 'pc 0000000000000004 0000000000000000'), ([RIGHT[3]], 'word 1882a3af 00000000')):
            self.assertEqual(self.judge(rows, self.one(stop)), ('stopped', None))

    def test_traps(self):
        for text, pc, trap, why in (
                ('sc.w x7,x8,(x5)', 0, '6 0000000000000042', None), ('sc.w x7,x8,(x5)', 0, '6 0000000000000040', 'the address is aligned'),
                ('sc.w x7,x8,(x5)', 0, '4 0000000000000042', 'sc.w has no such trap'), ('lr.d x7,(x5)', 0, '4 0000000000000044', None),
                ('lr.d x7,(x5)', 0, '5 0000000000000080', None), ('lr.d x7,(x5)', 0, '5 0000000000000078', 'the address is in memory'),
                ('lr.d x7,(x5)', 0, '5 0000000000000084', 'the address is misaligned'), ('lbu x7,0(x5)', 0, '4 0000000000000041', 'the address is aligned'),
                ('sh x7,0(x5)', 0, '7 0000000000000080', None), ('sc.d x7,x8,(x5)', 0, '7 0000000000000080', None),
                ('sc.d x7,x8,(x5)', 0, '7 0000000000000078', 'the address is in memory'), ('amocas.q x6,x8,(x5)', 0, '6 0000000000000048', None),
                ('ecall', 0, '8 0000000000000000', None), ('ecall', 0, '3 0000000000000000', 'ecall has no such trap'),
                ('ecall', 0, '8 0000000000000001', 'its value would be 0000000000000000'), ('ebreak', 0, '3 0000000000000000', None),
                ('jal x1,6', 4, '0 000000000000000a', None), ('jal x1,6', 4, '0 000000000000000e', 'its value would be 000000000000000a'),
                ('jal x1,8', 4, '0 000000000000000c', 'the address is aligned'), ('beq x0,x0,-6', 4, '0 fffffffffffffffe', None),
                ('jalr x1,0(x5)', 4, '0 0000000000000042', None), ('jalr x1,0(x5)', 4, '0 0000000000000044', 'the address is aligned'),
                ('addi x6,x6,0', 4, '2 0000000000030313', 'addi has no such trap'), ('addi x6,x6,0', 0x80, '1 0000000000000080', None),
                ('addi x6,x6,0', 0x80, '1 0000000000000000', 'its value would be 0000000000000080'),
                ('addi x6,x6,0', 4, '1 0000000000000004', 'pc 0x4 is in memory'), ('lr.d x7,(x5)', 0x80, '5 0000000000000080', 'pc 0x80 is not in memory')):
            rows = [row(0, pc, assemble(text), 0, 0)]
            if why:
                self.assert_wrong(rows, self.one('trap ' + trap), why)
            else:
                self.assertEqual(self.judge(rows, self.one('trap ' + trap)), ('stopped', None), (text, trap))
        self.assertEqual(self.judge([row(0, 0, 0xffffffff, 0, 0)], self.one('trap 2 00000000ffffffff')), ('stopped', None))
        self.assert_wrong([row(0, 0, 0xffffffff, 0, 0)], self.one('trap 2 ffffffffffffffff'), 'its value would be 00000000ffffffff')

    def test_long_logs(self):
        # the first row at fault is found in every part of a log that is read in parts
        many = [row(0, 0, LR, 6, k) for k in range(40000)]
        for k in (0, 16383, 16384, 39999):
            for bad, text in ((b'x' * 48, 'passes over row %d, which'), (row(0, 0, 0x73, 0, 0), 'says that row %d agreed')):
                rows = many[:k] + [bad] + many[k + 1:]
                self.assert_wrong(rows, 'log 40000 rows\nagreed 40000\nend 40000\n', text % k)
            self.assertEqual(self.judge(many, 'log 40000 rows\nrow %d value %016x ffffffffffffffff\nend %d\n' % (k, k, k)), ('stopped', None))

    def test_a_file_that_may_not_be_read_is_named(self):
        write(self.path, RIGHT[0])
        readable((self.path, 'the log', 'hash'))
        with unittest.mock.patch('nightlylogs.open', create=True, side_effect=PermissionError(13, 'Permission denied')):
            with self.assertRaisesRegex(OSError, 'the log cannot be read: Permission denied'):
                readable((self.path, 'the log', 'hash'))

    def test_kinds_of_rows(self):
        more = [row(0, 0, 0xffffffff, 0, 0), b'x' * 48, row(2, 0, LR, 6, 0), row(0, 0, assemble('lr.w.aq x6,(x5)'), 6, 0), b'rest']
        write(self.path, b''.join(RIGHT + more))
        with open(EXAMPLE, 'rb') as file:
            found = Rows(self.path, opened(file)[0], 3)
        self.assertEqual(dict(found.all), {'lr.w': 3, 'sc.w': 2, NO_INSTRUCTION: 1, UNREADABLE: 3})
        self.assertEqual((dict(found.agreed), found.first, found.rows, found.bad, found.at),
                         ({'lr.w': 2, 'sc.w': 1}, {'lr.w': 0, 'sc.w': 2}, 9, 5, RIGHT[3]))


if __name__ == '__main__':
    unittest.main()
