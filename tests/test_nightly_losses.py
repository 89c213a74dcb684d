"""tools/nightly: who broke whose reservations, on its pages and in its counts. The programs are small scripts, but for the last test."""
import json
import os
import random
import shutil
import textwrap
import unittest

from common import NIGHTLY, PROGRAM, ROOT, command, data
import casefile
import casetext
from nightlycases import seal, totals
from nightlymerge import agrees
from nightlypage import losses, text_losses
from test_nightly import NightlyCase

# Hart 2 only writes and hart 3 only loses; what harts 0 and 1 reserved, a device and each other's writes break too.
CONTENTION = '''
memory 256
hart 0 pc=0 x5=128
hart 1 pc=32 x5=128
hart 2 pc=64 x5=128
hart 3 pc=96 x5=128
at 0
  lr.w x6,(x5)
  lr.w x6,(x5)
  sc.w x7,x8,(x5)
  sw x8,0(x5)
at 32
  lr.w x6,(x5)
  sc.w x7,x8,(x5)
  lr.w x6,(x5)
at 64
  sw x8,0(x5)
  amoadd.w x7,x8,(x5)
at 96
  lr.w x6,(x5)
  lr.w x6,(x5)
events
  step 0
  step 1
  step 3
  step 2
  step 1
  step 0
  step 3
  device 128 1 0
  step 1
  step 0 times 2
  step 2
  yield 1
'''
LINES = '''case 4 harts 256 bytes 13 events
0 h0 ok
1 h1 ok
2 h3 ok
3 h2 ok broke 0b
4 h1 sc 1
5 h0 ok
6 h3 ok
7 d ok broke 09
8 h1 ok
9 h0 sc 1
10 h0 ok broke 02
11 h2 ok
12 y1 ok
end 13
'''
# Of a night with this case twice and the example, in which hart 1's SC breaks hart 0's reservation.
TABLE = '''Who broke whose reservations
  writer  h0 lost  h1 lost  h3 lost  in all
  h0            0        2        0       2
  h1            1        0        0       1
  h2            2        2        2       6
  d             2        0        2       4
  in all        5        4        4      13
'''
NOTHING_BROKEN = "pass\nout = re.sub(rb' broke [0-9a-f]{2}', b'', out)"


def right_answer(case, choose):
    """Lines that are right one by one, with sets of losers of any size."""
    lines = [casefile.header(case)]
    for n, event in enumerate(case.events):
        said = choose.choice(['ok', 'sc 0', 'sc 1', 'trap 8 0000000000000000']) if event.kind == casefile.STEP else 'ok'
        own = 1 << event.hart if event.kind == casefile.STEP else 0
        losers = choose.getrandbits(len(case.harts)) & ~own if event.kind != casefile.YIELD and said in ('ok', 'sc 0') else 0
        lines.append('%d %s %s%s' % (n, casefile.letters(event), said, ' broke %02x' % losers if losers else ''))
    return '\n'.join(lines + ['end %d' % len(case.events), ''])


class Losses(NightlyCase):
    """A folder with three cases, of which two have several writers and losers."""

    def setUp(self):
        super().setUp()
        self.only_the_example()
        self.page, self.counts = os.path.join(self.top, 'page'), os.path.join(self.top, 'counts.json')
        for name in ('contention', 'deep/again'):
            with open(os.path.join(self.folder, name + '.case'), 'wb') as file:
                file.write(casetext.make(CONTENTION))
            with open(os.path.join(self.folder, name + '.out'), 'w') as file:
                file.write(LINES)

    def table(self, page):
        """The lines of the table on a text page."""
        text = '\n'.join(page)
        return text[text.index('Who broke'):text.index('\nRefused files')]

    # pages

    def test_the_table(self):
        status, page, _ = self.night('--expect')
        self.assertEqual((status, page[2]), (0, 'complete: 3 files, 31 events each with its line; no board was compared'))
        self.assertEqual(self.table(page), TABLE)
        self.assertIn('   7  writes that broke a reservation', page)
        self.assertIn('\n\n%s\n' % textwrap.indent(TABLE, '    '), data(os.path.join(ROOT, 'docs', 'TOOLS.md')).decode())

    def test_the_table_as_html(self):
        self.night('--out', self.page)
        text = data(self.page + '.html').decode()
        rows = [line.split() for line in TABLE.replace(' lost', '_lost').replace('in all', 'in_all').splitlines()[1:]]
        shown = '\n'.join('<tr>%s</tr>' % ''.join(
            '<%s class="%s">%s</%s>' % (tag, kind, cell.replace('_', ' '), tag) for kind, cell in zip(['name'] + ['n'] * 4, row))
            for tag, row in zip(['th'] + ['td'] * 5, rows))
        self.assertIn('<section class="losers"><h2>Who broke whose reservations</h2><table>%s</table></section>' % shown, text)
        self.assertIn('<tr><td class="n">7</td><td class="">writes that broke a reservation</td></tr>', text)

    def test_nothing_broken(self):
        status, page, _ = self.night(edit=NOTHING_BROKEN)
        self.assertEqual((status, self.table(page)), (0, 'Who broke whose reservations\n  none\n'))
        self.assertIn('   0  writes that broke a reservation', page)
        self.night('--out', self.page, '--counts', self.counts, edit=NOTHING_BROKEN)
        self.assertIn('<h2>Who broke whose reservations</h2>None.</section>', data(self.page + '.html').decode())
        self.assertEqual([key for key in json.loads(data(self.counts))['counts'] if key.startswith('broke')], [])

    def test_only_right_answers_count(self):
        edit = "pass\nif name != 'example.case': out = out.replace(b'broke 0b', b'broke 0f')"         # hart 2's own bit
        status, page, _ = self.night(edit=edit)
        self.assertEqual((status, page[4:7]), (1, [
            'Wrong: 2', "  2: event 3 (h2) has the line '3 h2 ok broke 0f': bit 2 is the stepping hart's own", '      contention.case']))
        self.assertEqual(self.table(page), 'Who broke whose reservations\n  writer  h0 lost  in all\n  h1            1       1\n  in all        1       1\n')

    def test_all_writers_and_losers(self):
        counts = {'broke %s %s' % (writer, loser): 1000 for writer in casefile.WRITERS for loser in casefile.HARTS if writer != loser}
        heads, rows = losses({'counts': counts})
        self.assertEqual(heads, ['writer'] + ['h%d lost' % hart for hart in range(8)] + ['in all'])
        self.assertEqual([row[0] for row in rows], ['h%d' % hart for hart in range(8)] + ['d', 'in all'])
        for hart, row in enumerate(rows[:8]):
            self.assertEqual(row[1:], ['0' if hart == loser else '1,000' for loser in range(8)] + ['7,000'])
        self.assertEqual((rows[8][1:], rows[9][1:]), (['1,000'] * 8 + ['8,000'], ['8,000'] * 8 + ['64,000']))
        self.assertEqual(text_losses({'counts': counts})[3:5], [
            '  h0            0    1,000    1,000    1,000    1,000    1,000    1,000    1,000   7,000',
            '  h1        1,000        0    1,000    1,000    1,000    1,000    1,000    1,000   7,000'])

    # counts

    def test_counts_of_each_case(self):
        self.night('--counts', self.counts)
        record = json.loads(data(self.counts))
        rows = {row['name']: {key: n for key, n in row['counts'].items() if key.startswith('broke')} for row in record['cases']}
        mine = {'broke': 3, 'broke h2 h0': 1, 'broke h2 h1': 1, 'broke h2 h3': 1, 'broke d h0': 1, 'broke d h3': 1, 'broke h0 h1': 1}
        self.assertEqual(rows, {'contention.case': mine, 'deep/again.case': mine, 'deep/er/example.case': {'broke': 1, 'broke h1 h0': 1}})
        self.assertEqual({key: n for key, n in record['counts'].items() if key.startswith('broke')},
                         {'broke h1 h0': 1, 'broke': 7, **{key: 2 * n for key, n in mine.items() if key != 'broke'}})

    def parts(self, n):
        files = [os.path.join(self.top, '%d.json' % k) for k in range(1, n + 1)]
        for k, file in enumerate(files, 1):
            self.assertEqual(self.night('--part', '%d/%d' % (k, n), '--counts', file)[0], 0)
        return files

    def test_parts_and_merge(self):
        files, whole = self.parts(2), '\n'.join(self.night('--counts', self.counts)[1])
        both = os.path.join(self.top, 'both.json')
        status, out, _ = command(NIGHTLY, '--merge', *files, '--counts', both, '--out', self.page)
        merged = data(self.page + '.txt').decode()
        self.assertEqual(status, 0, out)
        self.assertIn(TABLE, merged)
        self.assertEqual(merged[merged.index('Counts'):merged.index('This run')], whole[whole.index('Counts'):whole.index('This run')])
        self.assertEqual(json.loads(data(both))['counts'], json.loads(data(self.counts))['counts'])
        self.assertEqual(command(NIGHTLY, '--merge', *files[:1])[1].decode().count('h1 lost  h3 lost'), 1)         # what there is of a part is shown
        self.night('--out', self.page, '--counts', both)
        page = data(self.page + '.html').decode()
        self.assertEqual(command(NIGHTLY, '--merge', *files, '--out', self.page)[0], 0)
        again = data(self.page + '.html').decode()
        start, end = '<section class="losers">', '<h2>By folder'
        self.assertEqual(again[again.index(start):again.index(end)], page[page.index(start):page.index(end)])

    def forged(self, change):
        """What a merge says of counts in which the first case's are changed, with all sums and the seal made anew."""
        record = json.loads(data(self.counts))
        self.assertEqual(record['cases'][0]['name'], 'contention.case')
        change(record['cases'][0])
        record['counts'] = totals(record['cases'], record['strays'])
        record['seal'] = seal(record)
        path = os.path.join(self.top, 'forged.json')
        with open(path, 'w') as file:
            json.dump(record, file)
        return command(NIGHTLY, '--merge', path)

    def test_counts_are_checked(self):
        self.night('--counts', self.counts)
        for counts in ({}, {'broke': 5}, {'broke h0 h1': 8, 'broke': 10}):         # nine retired steps that are no failed SC, and one device write
            self.assertEqual(self.forged(lambda row: row['counts'].update(counts))[0], 0, counts)
        for counts in ({'broke': 2}, {'broke': 6}, {'broke': 0}, {'broke d h0': 2}, {'broke d h0': 2, 'broke': 4}, {'broke h0 h1': 9, 'broke': 11},
                       {'broke h1 h3': 2}, {'broke h1 h1': 1, 'broke': 4}, {'broke h8 h0': 1, 'broke': 4}, {'broke d h8': 1, 'broke': 4},
                       {'broke h0 d': 1, 'broke': 4}, {'broke h0': 1}, {'broke ': 0}):
            status, out, _ = self.forged(lambda row: row['counts'].update(counts))
            self.assertEqual(status, 1, counts)
            self.assertIn("does not agree with itself: the counts of 'contention.case'\n", out.decode(), counts)

    def test_a_case_without_an_answer_broke_nothing(self):
        self.night('--counts', self.counts)
        gone = {'outcome': 'missing', 'what': 'x'}
        self.assertIn('not complete: 1 missing; ', self.forged(lambda row: row.update(gone, counts={'asked': 13}))[1].decode())
        for counts in ({'broke': 1}, {'broke h0 h1': 1}, {'broke': 1, 'broke d h1': 1}):
            self.assertIn('does not agree with itself', self.forged(lambda row: row.update(gone, counts=dict(counts, asked=13)))[1].decode())

    def test_counts_that_are_not_the_sums(self):
        self.night('--counts', self.counts)
        record = json.loads(data(self.counts))
        record['counts']['broke h2 h3'] += 1
        record['seal'] = seal(record)
        with open(self.counts, 'w') as file:
            json.dump(record, file)
        self.assertIn(b'its counts are not the sums of its cases', command(NIGHTLY, '--merge', self.counts)[1])

    def test_every_right_answer_can_be_read_again(self):
        """The counts of lines that are right agree with themselves: no night writes counts that it would not take."""
        choose = random.Random(3)
        for _ in range(300):
            harts, events = choose.randint(1, 8), []
            for kind in choose.choices((casefile.STEP, casefile.DEVICE, casefile.YIELD), (4, 2, 1), k=choose.randint(0, 12)):
                events.append(casefile.Event(kind, 0, 1, 0, 0) if kind == casefile.DEVICE else casefile.Event(kind, choose.randrange(harts), 0, 0, 0))
            case = casefile.Case(0, [casefile.Hart((0,) * 31, 0)] * harts, bytes(64), events)
            text = right_answer(case, choose)
            self.assertEqual(casefile.faults(case, text), [], text)
            row = {'outcome': 'performed', 'what': None, 'refusal': None, 'counts': dict(casefile.count(case, text), asked=len(events))}
            self.assertTrue(agrees(row), text)

    # the program itself

    @unittest.skipUnless(os.path.exists(PROGRAM), 'target/bin/floecavern is not built')
    def test_the_program(self):
        shutil.rmtree(os.path.join(self.folder, 'deep', 'er'))
        status, out, _ = command(NIGHTLY, self.folder, '--expect')
        self.assertEqual(status, 0, out.decode())


if __name__ == '__main__':
    unittest.main()
