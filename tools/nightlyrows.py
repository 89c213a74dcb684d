"""The rows of a board's step log, as docs/USING.md gives them, read by rules of this tool's own: nothing of the program is used. Used by tools/nightly.

A row has 48 bytes: hart (one digit), pc (16 lower-case hex digits), word (8), rd (two decimal digits), the value in rd afterwards (16), one space
between, a line feed last. A log is read in parts, once, and no more of it is kept than counts.
"""
import functools
import hashlib
import re
from collections import Counter, namedtuple

from casefile import WIDTHS
from nightlyrun import stop as night
from riscv import INSTRUCTIONS, decode, get

ROW, PART = 48, 48 * 16384
NO_INSTRUCTION, UNREADABLE = 'no instruction of the model', 'rows that cannot be read'
KINDS = (*INSTRUCTIONS, NO_INSTRUCTION, UNREADABLE)         # what a row may hold
ALWAYS_TRAP = ('ecall', 'ebreak')
DIGITS, HEX = b'0123456789', b'0123456789abcdef'
CLASSES = bytes(ord('x') if byte in HEX else byte if byte in b' \n' else ord('?') for byte in range(256))
SHAPE = b'x xxxxxxxxxxxxxxxx xxxxxxxx xx xxxxxxxxxxxxxxxx\n'
FIELDS = {'hart': (0, 1), 'pc': (2, 18), 'word': (19, 27), 'rd': (28, 30), 'value': (31, 47)}
NOT_ZERO_IN_X0 = re.compile(rb' 00 (?!0{16}\n)')
Row = namedtuple('Row', 'hart pc word rd value')             # as texts


def well_formed(rows, harts):
    """Whether these bytes are whole rows, each of the form above and with a hart below the count."""
    return (rows.translate(CLASSES) == SHAPE * (len(rows) // ROW) and not rows[0::ROW].translate(None, DIGITS[:harts])
            and not (rows[28::ROW] + rows[29::ROW]).translate(None, DIGITS))


def split(row):
    """The fields of a well formed row."""
    return Row(*(row[first:last].decode('ascii') for first, last in FIELDS.values()))


def form_fault(row, harts):
    """What is wrong with the form of a row, for the page."""
    for place, byte in enumerate(row):
        name = next((name for name, (first, last) in FIELDS.items() if first <= place < last), None)
        digits = DIGITS if name in ('hart', 'rd') else HEX
        if name and byte not in digits or not name and byte != SHAPE[place]:
            wanted = {None: 'a line feed' if place == 47 else 'a space', 'hart': 'a digit', 'rd': 'a decimal digit'}.get(name, 'a lower-case hex digit')
            return 'byte %d%s is %s, not %s' % (place, ' (%s)' % name if name else '', ascii(chr(byte)), wanted)
    return 'hart %s, but the case has %d' % (row[:1].decode('ascii'), harts)


# ---- what a word says of its row

def width_of(case):
    """The width of a case's registers; 64 where there is no case."""
    return WIDTHS[case.kind] if case else 64


def rd_of(word):
    """The rd of a row that holds this instruction: 0 where it has none. It is the same for both widths."""
    return 0 if decode(word)[1] in ('store', 'branch', 'fence', 'alone') else get('rd', word)


@functools.lru_cache(1 << 16)
def meaning(key, xlen):
    """Of a row's word and rd, as their bytes stand in it: the instruction, and whether a step of it can retire and leave this rd."""
    word, found = int(key[:8], 16), decode(int(key[:8], 16), xlen)
    return (found[0], found[0] not in ALWAYS_TRAP and rd_of(word) == int(key[9:])) if found else (NO_INSTRUCTION, False)


def in_memory(case, address, size):
    return case.base <= address <= case.base + len(case.memory) - size


def cannot_agree(row, case):
    """Why no model can agree with a well formed row, whatever its state is; None if one can."""
    pc, word, rd, xlen = int(row.pc, 16), int(row.word, 16), int(row.rd), width_of(case)
    found = decode(word, xlen)
    if pc % 4 or not in_memory(case, pc, 4):
        return 'its pc %#x is %s' % (pc, 'no multiple of 4' if pc % 4 else 'not in memory')
    if not found or found[0] in ALWAYS_TRAP:
        return 'its word %s is %s, which always traps' % (row.word, found[0] if found else NO_INSTRUCTION)
    if rd != rd_of(word):
        return 'its rd is %s, that of its word %s is %02d' % (row.rd, row.word, rd_of(word))
    if int(row.value, 16) >> xlen:
        return 'its value has more than the %d bits of a register' % xlen
    return 'its value is not zero, but x0 is' if rd == 0 and int(row.value, 16) else None


# ---- a whole log

class Rows:
    """What a log holds: its size and hash, the kinds of all its rows, and of its first `stop` rows, those that a program says agreed, the kinds again,
    the first row of each kind, and the first row with which no model can agree (`odd`). `bad` is the first badly formed row of all, `at` the row behind
    the first `stop`. Without a case (it is refused, or there is none) every hart up to 7 is taken for one, and no row for agreed."""

    def __init__(self, path, case, stop):
        self.case, self.harts, self.stop = case, len(case.harts) if case else 8, stop if case else 0
        self.xlen = width_of(case)
        self.size, self.bad, self.odd, self.at = 0, None, None, b''
        self.all, self.agreed, self.first = Counter(), Counter(), {}
        sha = hashlib.sha256()
        with open(path, 'rb') as file:
            for part in iter(lambda: file.read(PART), b''):
                night.check()
                sha.update(part)
                self.take(part)
        self.sha256, self.rows = sha.hexdigest(), -(-self.size // ROW)         # what is left of a row at the end counts as one

    def take(self, part):
        start = self.size // ROW
        cut = min(max(self.stop - start, 0) * ROW, len(part))
        self.size += len(part)
        if start + cut // ROW == self.stop and not self.at:
            self.at = part[cut:cut + ROW]
        for rows, first, agreed in ((part[:cut], start, True), (part[cut:], start + cut // ROW, False)):
            if well_formed(rows, self.harts):
                self.count(rows, first, agreed)
            else:
                self.one_by_one(rows, first, agreed)

    def one_by_one(self, rows, first, agreed):
        """Counts rows that are not all well formed."""
        for k in range(0, len(rows), ROW):
            row = rows[k:k + ROW]
            if well_formed(row, self.harts):
                self.count(row, first + k // ROW, agreed)
            else:
                self.all[UNREADABLE] += 1
                self.bad = first + k // ROW if self.bad is None else self.bad

    def count(self, rows, first, agreed):
        """Counts well formed rows by what they hold."""
        keys, fit = [rows[k:k + 11] for k in range(19, len(rows), ROW)], True
        new = {}
        for key, n in Counter(keys).items():
            kind, fits = meaning(key, self.xlen)
            self.all[kind] += n
            if agreed:
                self.agreed[kind] += n
                fit = fit and fits
                if kind not in self.first:
                    new[kind] = min(new.get(kind, len(keys)), keys.index(key))
        self.first.update((kind, first + k) for kind, k in new.items())
        if agreed and rows and self.odd is None and not (fit and self.can_agree(rows)):
            self.find_odd(rows, first)

    def can_agree(self, rows):
        """Whether the pcs of these rows are in memory and multiples of 4, no value is wider than a register, and every value in x0 is zero."""
        pcs = [rows[k:k + 16] for k in range(2, len(rows), ROW)]
        if self.xlen == 32 and any(rows[k:k + 8] != b'00000000' for k in range(31, len(rows), ROW)):
            return False
        return (in_memory(self.case, int(min(pcs), 16), 4) and in_memory(self.case, int(max(pcs), 16), 4)
                and not rows[17::ROW].translate(None, b'048c') and not NOT_ZERO_IN_X0.search(rows))

    def find_odd(self, rows, first):
        for k in range(0, len(rows), ROW):
            why = cannot_agree(split(rows[k:k + ROW]), self.case)
            if why:
                self.odd = first + k // ROW, why
                return
