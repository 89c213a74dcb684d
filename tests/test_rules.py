"""The tables of words in docs/RULES.md against crates/decode_table, whose lines are made from binutils' disassembler and, where it can't be asked,
from the papers. The decoder here knows no opcode, field or immediate of its own: it reads them from the page."""
import os
import re
import struct
import unittest

from common import ROOT, data

RULES = data(os.path.join(ROOT, 'docs', 'RULES.md')).decode()


def section(number):
    """The text of a section, up to the next heading."""
    return re.search(r'^#+ %s .*?(?=^#+ )' % re.escape(number), RULES, re.S | re.M).group(0)


def rows(number):
    """The cells of each row of the section's tables, their headings among them."""
    lines = [line for line in section(number).splitlines() if line.startswith('|') and not line.startswith('|---')]
    return [[cell.strip() for cell in line.strip().strip('|').split('|')] for line in lines]


def bits(word, high, low):
    return word >> low & (1 << high - low + 1) - 1


def span(text):
    """The bits that each `w[high:low]` or `w[bit]` in a text names."""
    return [(int(high), int(low or high)) for high, low in re.findall(r'`w\[(\d+)(?::(\d+))?\]`', text)]


def fields():
    found = {}
    for row in rows('4.1.2'):
        if len(row) == 5:
            for names, places in ((row[0], row[1]), (row[3], row[4])):
                found.update(zip(names.split(', '), span(places)))
    return found


def immediates():
    """For each format the pieces (the lowest bit in the immediate, the bits in the word) and the width."""
    found = {}
    for row in rows('4.1.2'):
        if len(row) == 3 and row[0] in ('I', 'S', 'B', 'U', 'J'):
            pieces = re.findall(r'imm\[(\d+)(?::(\d+))?\] = (`w\[[\d:]+\]`)', row[1])
            found[row[0]] = [(int(low or high), span(place)[0]) for high, low, place in pieces], int(row[2].split()[0])
    return found


CLASSES = {int(row[0]) * 8 + column: cell for row in rows('4.1.1')[1:] for column, cell in enumerate(row[1:]) if cell != '-'}
OPCODES = {name: int(number, 16) for name, number in re.findall(r'([A-Z0-9-]+) (0x[0-9A-F]{2})[,.]', section('4.1.1'))}
FIELDS, IMMEDIATES = fields(), immediates()
INTEGER = [row for number in ('4.1.4', '4.2', '4.3') for row in rows(number) if len(row) > 2 and re.fullmatch('0x[0-9A-F]{2}', row[1])]
ATOMICS = {int(row[0]): row for row in rows('4.4') if row[0].isdigit()}
WHOLE = {int(number, 16): row[0].lower() for row in rows('4.1.5') for number in re.findall(r'^(0x[0-9A-F]{8}) alone', row[1])}
FORMATS = {'LUI': 'U', 'AUIPC': 'U', 'JAL': 'J', 'STORE': 'S', 'BRANCH': 'B'}


def immediate(kind, word):
    pieces, width = IMMEDIATES[kind]
    value = sum(bits(word, *place) << low for low, place in pieces)
    return value if value < 1 << width - 1 else value + (1 << 64) - (1 << width)


def applies(row, word, kind):
    """Whether a row of a table of integer words has the word, of this class."""
    if row[1] != '0x%02X' % OPCODES[kind]:
        return False
    if kind in ('LUI', 'AUIPC', 'JAL'):
        return True
    upper = row[3].split() if kind in ('OP-IMM', 'OP-IMM-32') else ['funct7', row[3]] if kind in ('OP', 'OP-32') else []
    return int(row[2]) == bits(word, *FIELDS['funct3']) and (not upper or int(upper[1], 0) == bits(word, *FIELDS[upper[0]]))


def integer(word, kind):
    row = next((row for row in INTEGER if applies(row, word, kind)), None)
    if row is None:
        return 'illegal'
    of = lambda *names: ['%s=%d' % (name, bits(word, *FIELDS[name])) for name in names]
    if kind in ('OP', 'OP-32'):
        shown = of('rd', 'rs1', 'rs2')
    else:
        registers = {'U': ['rd'], 'J': ['rd'], 'S': ['rs1', 'rs2'], 'B': ['rs1', 'rs2']}.get(FORMATS.get(kind), ['rd', 'rs1'])
        amount = kind in ('OP-IMM', 'OP-IMM-32') and row[3]
        value = bits(word, 25 if kind == 'OP-IMM' else 24, 20) if amount else immediate(FORMATS.get(kind, 'I'), word)
        shown = of(*registers) + ['imm=%016x' % value]
    return ' '.join([row[0].split()[0].lower()] + shown)


def atomic(word):
    row = ATOMICS.get(bits(word, *FIELDS['funct5']))
    width = bits(word, *FIELDS['funct3'])
    if row is None or str(width) not in re.findall(r'\d', row[2]):
        return 'illegal'
    rd, rs1, rs2, aq, rl = (bits(word, *FIELDS[name]) for name in ('rd', 'rs1', 'rs2', 'aq', 'rl'))
    if 'rs2 field 0' in row[1] and rs2 or width == 4 and 'both rd and rs2 are even' in row[2] and (rd % 2 or rs2 % 2):
        return 'illegal'
    name = '%s.%s' % (row[1].split(',')[0].lower(), {2: 'w', 3: 'd', 4: 'q'}[width])
    return '%s rd=%d rs1=%d rs2=%d aq=%d rl=%d' % (name, rd, rs1, rs2, aq, rl)


def decode(word):
    """The word as the lines of decode_table have it, by the page alone."""
    kind = CLASSES.get(bits(word, 6, 2)) if word % 4 == 3 else None
    if kind is None:
        return 'illegal'
    if kind == 'SYSTEM':
        return WHOLE.get(word, 'illegal')
    if kind == 'MISC-MEM':
        rd, rs1, upper = bits(word, *FIELDS['rd']), bits(word, *FIELDS['rs1']), bits(word, 31, 20)
        return 'fence rd=%d rs1=%d imm=%016x' % (rd, rs1, upper) if bits(word, *FIELDS['funct3']) == 0 else 'illegal'
    return atomic(word) if kind == 'AMO' else integer(word, kind)


class Rules(unittest.TestCase):
    def test_opcodes_are_those_of_the_map(self):
        self.assertEqual({name: 4 * number + 3 for number, name in CLASSES.items()}, OPCODES)

    def test_every_word_of_the_table(self):
        folder = os.path.join(ROOT, 'crates', 'decode_table')
        words = [word for word, in struct.iter_unpack('<I', data(os.path.join(folder, 'stdin')))]
        lines = data(os.path.join(folder, 'stdout')).decode().splitlines()
        self.assertGreater(len(words), 2000)
        self.assertEqual(len(lines), 2 * len(words))            # of RV64I, which the page has, and then of RV32I
        for word, line in zip(words, lines):
            self.assertEqual('%08x %s' % (word, decode(word)), line)


if __name__ == '__main__':
    unittest.main()
