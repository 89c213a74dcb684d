"""The text of a case:

  # a comment goes to the end of its line (in an elf line it starts behind a space); blank lines and indentation are free
  kind 64                   the kind of core, by the width of its registers: 64 or 32 (64 if not given, or what an elf's class says); it stands
                            above the first instruction
  base 0                    the memory's first address: a multiple of 64, at most 2^40 (0 if not given); the end of a 32-bit core's memory is at
                            most 2^32
  memory 128                the memory's length in bytes, a multiple of 64
  hart 0 pc=0 x5=64         a hart, numbered from 0; what isn't given is zero, and pc the base (or an elf's entry)
    x6=-1 a0=lock           .. more of its registers
  elf prog.elf              a RISC-V program (linked, static): its segments stand in memory, and its entry is pc of each hart that gives none;
                            a relative name counts from the text's folder
  at 0x0                    what follows stands in memory from this address on; the rest of the memory is zero
  loop:                     a label: the address here
    lr.w x6,(x5)            an instruction (4 bytes)
    bne x6,x0,loop          the target of a branch or jal: a label, or a number, which counts from the instruction itself
    .word 0xffffffff 1      numbers of 4 bytes; also .byte .half .dword (1, 2, 8), the lowest byte first
    .space 8                eight zeros; `.space 8,0xff` fills with another byte
    .align 3                up to a multiple of 2^3; `.balign 8` is the same. Nops behind an instruction, else zeros; FILL and MOST may follow
  lock:
  events
    step 0                  hart 0 steps; `step 0 times 9` is nine such events
    device 72 1 0x00        a device writes at address 72 one byte, 0x00 (1 to 8 bytes, the lowest byte first)
    yield 0                 hart 0's reservation is dropped

Numbers are decimal without a leading zero (GNU as reads 010 as 8), or hex after 0x; a register's and a .word's may be negative. A label may
stand for a number where an address makes sense: registers, pc, .word, .dword, a device write's address. Registers are x0 to x31 or the ABI
names. Instructions are those of the model: RV64I without FENCE.I and CSRs, lr, sc and amo* with .w or .d, amocas with .w, .d or .q, each with
.aq, .rl or .aqrl behind it or not; fence is `fence`, `fence PRED,SUCC`, `fence.tso`, or `fence rd,rs1,NUMBER` with its upper 12 bits as a
number. These pseudo-instructions stand for the words that GNU as makes of them: nop, li (any number of 64 bits; up to 8 words), mv, not, neg,
negw, sext.w, seqz, snez, sltz, sgtz, beqz, bnez, blez, bgez, bltz, bgtz, bgt, ble, bgtu, bleu, j, jr, ret. Those of a 32-bit core are RV32I,
lr, sc and amo* with .w, and amocas with .w or, on even registers, .d; without negw and sext.w, and li takes numbers of 32 bits.

An example, which is crates/floecavern/stdin: two harts, an LR and an SC each, and a device write between them.

  memory 128
  hart 0 pc=0 x5=64
  hart 1 pc=0 x5=64
  at 0
    lr.w x6,(x5)
    sc.w x7,x8,(x5)
  events
    step 0
    device 72 1 0x00
    step 1 times 2
    step 0
"""
import functools
import os
import re
from collections import namedtuple

import elf
import riscv
from casefile import CAUSES, DEVICE, STEP, WIDTHS, YIELD, Case, Event, Hart, event_fault, right_line, write
from toolfiles import TextError

SIZES = {'.byte': 1, '.half': 2, '.word': 4, '.dword': 8}
NOP = riscv.assemble('addi x0,x0,0').to_bytes(4, 'little')
Piece = namedtuple('Piece', 'line place size encode name', defaults=('',))    # of the memory; name: of a segment, for what is said of it


# ---- a text to its case

class Maker:
    """Reads a text line by line; values are worked out at the end, when all labels are known."""

    def __init__(self, folder):
        self.folder = folder                                 # from where an elf line's file is named
        self.base = self.length = self.place = self.section = self.entry = None
        self.labels, self.harts, self.pieces, self.events = {}, [], [], []
        self.has_events, self.warnings, self.files = False, [], []
        self.code = False                                    # whether the line before in memory is an instruction
        self.xlen = self.kind_line = None                    # the width, once a line says it or needs it; whether a kind line does

    def line(self, n, text):
        self.n = n
        words = text.split()
        if words[0] == 'elf':
            self.section = None
            self.do_elf(text[len('elf'):].strip())           # the name of a file may have spaces
        elif words[0] in ('kind', 'base', 'memory', 'hart', 'at', 'events'):
            self.section = None
            getattr(self, 'do_' + words[0])(words[1:])
        elif self.section == 'hart':
            self.settings(words)
        elif self.section == 'at':
            self.contents(text)
        elif self.section == 'events':
            self.event(words)
        else:
            self.fail('%r: kind, base, memory, hart, elf, at or events is wanted here' % words[0])

    def fail(self, what):
        raise TextError(self.n, what)

    def warn(self, what):
        self.warnings.append((self.n, what))

    def number(self, text, low, high, what):
        try:
            value = riscv.number(text)
        except ValueError as error:
            self.fail('%s: %s' % (what, error))
        if value is None:
            self.fail('%s: %r is no number' % (what, text))
        if not low <= value <= high:
            self.fail('%s: %s is not %#x to %#x' % (what, text, low, high))
        return value

    def value(self, text, bits, what):
        """A number of so many bits, also a negative one, or a label's address."""
        if re.fullmatch(r'[A-Za-z_.][\w.]*', text):
            value = self.label(text)
            if value >> bits:
                self.fail('%s: the label %s is %#x, more than %d bits' % (what, text, value, bits))
            return value
        return self.number(text, -(1 << bits - 1), (1 << bits) - 1, what) % (1 << bits)

    def label(self, name):
        if name not in self.labels:
            raise TextError(self.n, 'there is no label %s' % name)
        return self.labels[name]

    def only(self, words, what):
        if len(words) != 1:
            self.fail('write ' + what)
        return words[0]

    # the sections

    def do_kind(self, words):
        if self.kind_line:
            self.fail('kind is given twice')
        xlen = self.number(self.only(words, 'kind 64 or kind 32'), 0, 64, 'kind')
        if xlen not in WIDTHS:
            self.fail('kind: %s is neither 64 nor 32' % words[0])
        if self.xlen not in (None, xlen):
            self.fail('kind: what stands above has %d bits: write kind %d above the first instruction and the elf' % (self.xlen, xlen))
        self.xlen, self.kind_line = xlen, True

    def do_base(self, words):
        if self.base is not None:
            self.fail('base is given twice')
        self.base = self.number(self.only(words, 'base ADDRESS'), 0, 1 << 40, 'base')
        if self.base % 64:
            self.fail('base: %s is no multiple of 64' % words[0])

    def do_memory(self, words):
        if self.length is not None:
            self.fail('memory is given twice')
        self.length = self.number(self.only(words, 'memory LENGTH'), 64, 65536, 'memory')
        if self.length % 64:
            self.fail('memory: %s is no multiple of 64' % words[0])

    def do_hart(self, words):
        if not words or words[0] != str(len(self.harts)):
            self.fail('the next hart is number %d: write hart %d' % (len(self.harts), len(self.harts)))
        if len(self.harts) == 8:
            self.fail('there are at most 8 harts')
        self.harts.append({})
        self.section = 'hart'
        self.settings(words[1:])

    def settings(self, words):
        for word in words:
            name, equals, value = word.partition('=')
            if not equals or not value:
                self.fail('%r: write NAME=VALUE, NAME pc or a register' % word)
            key = 'pc' if name == 'pc' else riscv.REGISTERS.get(name)
            if key is None:
                self.fail('%r is neither pc nor a register' % name)
            if key in self.harts[-1]:
                self.fail('%s is given twice' % name)
            self.harts[-1][key] = (self.n, value)

    def do_elf(self, name):
        if not name:
            self.fail('write elf FILE')
        if self.entry is not None:
            self.fail('elf is given twice')
        path = os.path.join(self.folder, name)
        self.files.append(path)
        if os.path.exists(path) and not os.path.isfile(path):    # a device might never end
            self.fail('elf %s: it is no file' % name)
        try:
            with open(path, 'rb') as file:
                program = elf.read(file.read())
        except OSError as error:
            self.fail('elf %s: %s' % (name, error.strerror))
        except ValueError as error:
            self.fail('elf %s: %s' % (name, error))
        if self.xlen not in (None, program.xlen):
            self.fail('elf %s: it is of %d bits: the case has %d' % (name, program.xlen, self.xlen))
        self.xlen = program.xlen
        if program.compressed:
            self.warn('elf %s: it may have compressed words, which the model has not: compile it with -march=rv%dia' % (name, self.xlen))
        self.entry = program.entry
        for s in program.segments:
            headers = ' (with the headers of the file: link with -N)' if s.data.startswith(elf.MAGIC) else ''
            encode = functools.partial(s.data.ljust, s.size, b'\0')
            self.pieces.append(Piece(self.n, s.address, s.size, encode, 'elf %s: segment %d%s, ' % (name, s.number, headers)))

    def do_at(self, words):
        self.place = self.number(self.only(words, 'at ADDRESS'), 0, (1 << 64) - 1, 'at')
        self.section, self.code = 'at', False

    def do_events(self, words):
        if words:
            self.fail('events stands alone on its line')
        self.section, self.has_events = 'events', True

    # lines of a section

    def contents(self, text):
        name, colon, rest = text.partition(':')
        if colon:
            name = name.strip()
            if not re.fullmatch(r'[A-Za-z_.][\w.]*', name) or name in riscv.REGISTERS or name == 'pc':
                self.fail('%r is no name for a label' % name)
            if name in self.labels:
                self.fail('the label %s is given twice' % name)
            self.labels[name] = self.place
            text = rest.strip()
        if text:
            size, encode = self.piece(text.split()[0], text)
            self.pieces.append(Piece(self.n, self.place, size, encode))
            self.place += size

    def piece(self, name, text):
        """The size of a line in memory, and what gives its bytes when all labels are known."""
        behind_code, self.code = self.code, False
        if name in SIZES:
            words = self.listed(text)
            return SIZES[name] * len(words), lambda: b''.join(self.value(w, 8 * SIZES[name], name).to_bytes(SIZES[name], 'little') for w in words)
        if name == '.space':
            return self.space(text)
        if name in ('.align', '.balign'):
            self.code = behind_code
            return self.align(name, text)
        self.code = True
        if self.place % 4:
            self.fail('an instruction stands at a multiple of 4, not at %#x' % self.place)
        xlen = self.xlen = self.xlen or 64
        lines = self.tried(riscv.expand, text, xlen)
        places = range(self.place, self.place + 4 * len(lines), 4)
        return 4 * len(lines), lambda: b''.join(self.tried(riscv.assemble, t, self.label, p, xlen).to_bytes(4, 'little') for t, p in zip(lines, places))

    def tried(self, function, *args):
        try:
            return function(*args)
        except ValueError as error:
            self.fail(str(error))

    def arguments(self, name, text, usage, most):
        """The operands of .space, .align or .balign: the first is there, any other may be missing or empty."""
        args = [arg.strip() for arg in text[len(name):].split(',')]
        if not args[0] or len(args) > most or not args[-1]:
            self.fail('write ' + usage)
        return args + [''] * (most - len(args))

    def space(self, text):
        count, fill = self.arguments('.space', text, '.space SIZE or .space SIZE,FILL', 2)
        size = self.number(count, 0, (1 << 64) - 1, '.space')
        byte = self.number(fill or '0', -128, 255, '.space: fill') % 256
        if not size:
            self.warn('.space 0 fills nothing')
        return size, lambda: bytes([byte]) * size

    def align(self, name, text):
        """GNU as fills with nops in code and with zeros in data; here the line before tells which it is."""
        usage = '%s NUMBER, %s NUMBER,FILL or %s NUMBER,FILL,MOST' % (name, name, name)
        count, fill, most = self.arguments(name, text, usage, 3)
        to = 1 << self.number(count, 0, 31, name) if name == '.align' else self.number(count, 0, 1 << 31, name) or 1
        if to & to - 1:
            self.fail('%s: %s is no power of 2' % (name, count))
        size, most = -self.place % to, self.number(most or '0', 0, 1 << 31, name + ': most')
        byte = self.number(fill, -128, 255, name + ': fill') % 256 if fill else None
        if most and size > most:
            size = 0
        nops = byte is None and self.code
        return size, lambda: NOP * (size // 4) if nops else bytes([byte or 0]) * size

    def listed(self, text):
        """The numbers behind .byte to .dword, separated by spaces or commas."""
        name, *rest = text.split(None, 1)
        if not rest:
            self.fail('%s: no number follows' % name)
        words = re.split(r'\s*,\s*|\s+', rest[0])
        if '' in words:
            self.fail('%s: a number beside a comma is missing' % name)
        return words

    def event(self, words):
        if words[0] == 'device':
            if len(words) != 4:
                self.fail('write device ADDRESS SIZE DATA')
            self.events.append((self.n, DEVICE, words[1:]))
        elif words[0] in ('step', 'yield') and (len(words) == 2 or len(words) == 4 and words[2] == 'times'):
            times = self.number(words[3], 1, 65536, 'times') if len(words) == 4 else 1
            self.events += [(self.n, STEP if words[0] == 'step' else YIELD, words[1:2])] * times
        elif words[0] in ('step', 'yield'):
            self.fail('write %s HART or %s HART times NUMBER' % (words[0], words[0]))
        else:
            self.fail('%r is no event: step, device or yield' % words[0])

    # the case

    def hart(self, settings):
        registers, pc = [0] * 32, self.base if self.entry is None else self.entry
        for key, (self.n, text) in settings.items():
            value = self.value(text, self.xlen, 'pc' if key == 'pc' else 'x%d' % key)
            if key == 'pc':
                pc = value
                if pc % 4:
                    self.fail('pc: %#x is no multiple of 4' % pc)
            elif key == 0 and value:
                self.fail('x0 is always zero')
            else:
                registers[key] = value
        return Hart(tuple(registers[1:]), pc)

    def memory(self):
        memory, lines = bytearray(self.length), [0] * self.length
        for self.n, place, size, encode, name in self.pieces:
            start, last = place - self.base, self.base + self.length - 1
            if size and (start < 0 or start + size > self.length):
                self.fail('%s%#x to %#x is not in memory, %#x to %#x' % (name, place, place + size - 1, self.base, last))
            for k in range(start, start + size):
                if lines[k]:
                    self.fail('%saddress %#x is already filled by line %d' % (name, self.base + k, lines[k]))
                lines[k] = self.n
            memory[start:start + size] = encode()
        return bytes(memory)

    def made(self, kind, words):
        """The event of a line's words."""
        if kind == DEVICE:
            size = self.number(words[1], 1, 8, 'size')
            event = Event(kind, 0, size, self.value(words[0], 64, 'address'), self.number(words[2], 0, (1 << 8 * size) - 1, 'data'))
        else:
            event = Event(kind, self.number(words[0], 0, 255, 'hart'), 0, 0, 0)
        fault = event_fault(event, b'', self.base, self.length, len(self.harts))
        if fault:
            self.fail(fault)
        return event

    def case(self):
        if self.length is None:
            self.fail('the text ends without a line: memory LENGTH')
        if not self.harts:
            self.fail('the text ends without a hart')
        if not self.has_events:
            self.warn('the text ends without a line: events; the case has no events')
        self.base, self.xlen = self.base or 0, self.xlen or 64
        if self.xlen == 32 and self.base + self.length > 1 << 32:
            self.fail('the memory ends at %#x, above 2^32: the case has 32 bits' % (self.base + self.length))
        total = 56 + 256 * len(self.harts) + self.length + 24 * len(self.events)
        if total > 65536:
            self.fail('the file would have %d bytes, more than 65536' % total)
        harts, memory, events = [self.hart(h) for h in self.harts], self.memory(), []
        for self.n, kind, words in self.events:
            events.append(self.made(kind, words))
        return Case(self.base, harts, memory, events, WIDTHS.index(self.xlen))


def uncommented(line):
    """A line without its comment. The name of a file may have a #: in an elf line a comment starts behind a space."""
    if line.split()[:1] == ['elf']:
        return re.split(r'\s#', line, maxsplit=1)[0].strip()
    return line.partition('#')[0].strip()


def make(text, warnings=None, folder='.', files=None):
    """The bytes of the case file that a text describes. folder: from where the file of an elf line is named. (line, what) of each warning and
    the names of the files that were read are put to the lists. Raises TextError."""
    maker = Maker(folder)
    lines = text.removesuffix('\n').split('\n')
    for n, line in enumerate(lines, 1):
        line = uncommented(line)
        if line:
            maker.line(n, line)
    maker.n = len(lines)
    data = write(maker.case())
    if warnings is not None:
        warnings += maker.warnings
    if files is not None:
        files += maker.files
    return data


# ---- a case to its text

def beside(left, comment):
    return '%-38s # %s' % (left, comment)


def hart_lines(number, hart):
    settings = ['pc=%#x' % hart.pc] + ['x%d=%#x' % (k, value) for k, value in enumerate(hart.registers, 1) if value]
    yield 'hart %d %s' % (number, settings[0])
    for k in range(1, len(settings), 4):
        yield '  ' + ' '.join(settings[k:k + 4])


def memory_lines(case):
    """Every word that isn't zero: as an instruction where it is one, else as a number, up to four on a line. Short runs of zeros stay."""
    words = [int.from_bytes(case.memory[k:k + 4], 'little') for k in range(0, len(case.memory), 4)]
    k, following, xlen = 0, False, WIDTHS[case.kind]
    while k < len(words):
        run = next((j for j in range(k, len(words)) if words[j]), len(words)) - k
        if run == len(words) - k:
            return
        if run > 2 or not following:
            k, following = k + run, True
            yield ''
            yield 'at %#x' % (case.base + 4 * k)
        text = riscv.disassemble(words[k], xlen)
        if text:
            offset, place = riscv.target(words[k]), case.base + 4 * k
            to = '' if offset is None else ', to %#x' % ((place + offset) % (1 << xlen))
            yield beside('  ' + text, '%x: %08x%s' % (place, words[k], to))
            k += 1
        else:
            end = min(k + 4, len(words))
            end = next((j for j in range(k + 1, end) if riscv.disassemble(words[j], xlen) or not any(words[j:j + 3])), end)
            yield beside('  .word ' + ' '.join('%#x' % word for word in words[k:end]), '%x' % (case.base + 4 * k))
            k = end


def event_text(event):
    if event.kind == DEVICE:
        return 'device %#x %d 0x%0*x' % (event.address, event.size, 2 * event.size, event.data)
    return '%s %d' % ('step' if event.kind == STEP else 'yield', event.hart)


def printable(line):
    """A line with an escape for each character that a terminal might obey."""
    return re.sub(r'[^ -~]', lambda found: found.group().encode('unicode_escape').decode(), line)


# The lines may be those of a board whose misaligned atomics give 5 and 7; they don't say which word trapped.
BY_BOARD = {5: ', or a misaligned LR by its board', 7: ', or a misaligned SC or AMO by its board'}


def event_line(number, event, lines, case):
    """An event with its number or, where lines are given, what the program wrote for it; behind a device write of a word, its disassembly."""
    mine = ['%d' % number] if lines is None else lines.get(number, ['%d: no line' % number])
    comment = ' | '.join(map(printable, mine))
    if len(mine) == 1 and ' trap ' in comment and right_line(number, event, comment, len(case.harts)):
        cause = int(comment.split()[3])
        comment += '  (%s%s)' % (CAUSES[cause], BY_BOARD.get(cause, ''))
    word = riscv.disassemble(event.data, WIDTHS[case.kind]) if event.size == 4 and event.address % 4 == 0 else None
    if word:
        comment += '  (%s)' % word
    return beside('  ' + event_text(event), comment)


def show(case, lines=None):
    """The text of a case; make() of it gives the same case. lines: what the program wrote, by number of event."""
    yield '# %d harts, %d bytes of memory at %#x, %d events' % (len(case.harts), len(case.memory), case.base, len(case.events))
    if WIDTHS[case.kind] != 64:
        yield 'kind %d' % WIDTHS[case.kind]
    yield 'base %#x' % case.base
    yield 'memory %d' % len(case.memory)
    yield ''
    for number, hart in enumerate(case.harts):
        yield from hart_lines(number, hart)
    yield from memory_lines(case)
    yield ''
    yield 'events'
    for number, event in enumerate(case.events):
        yield event_line(number, event, lines, case)
