"""Case files and the program's lines, read as docs/USING.md gives them. Used by tools/case and tools/nightly; nothing of the program is used."""
import re
import struct
from collections import Counter, namedtuple

from settingsfile import DEFAULT

STEP, DEVICE, YIELD = 1, 2, 3
Hart = namedtuple('Hart', 'registers pc')                    # registers: x1 to x31
Event = namedtuple('Event', 'kind hart size address data')
# kind: of the core, a place in WIDTHS; board: that the case was read on
Case = namedtuple('Case', 'base harts memory events kind board', defaults=(0, DEFAULT))
Answer = namedtuple('Answer', 'said losers')                 # said: 'ok', 'sc 0', 'sc 1', 'trap CAUSE VALUE'; losers: of HARTS, those behind `broke`
WIDTHS = (64, 32)                                            # of the registers, by the kind
HARTS = tuple('h%d' % hart for hart in range(8))
WRITERS = (*HARTS, 'd')                                      # of a write that breaks reservations, as the lines name them

CAUSES = {
    0: 'jump or taken branch to a misaligned target', 1: 'the word at pc is not in memory', 2: 'no instruction of the model', 3: 'ebreak',
    4: 'misaligned load or LR', 5: 'load or LR outside memory', 6: 'misaligned store, SC or AMO', 7: 'store, SC or AMO outside memory', 8: 'ecall',
}
REFUSALS = {7: 'length of the file', 8: 'table of contents', 9: 'harts', 10: 'length of the memory', 11: 'events'}


class Refused(Exception):
    """A file that is no case: the refusal's number, its place, and what is wrong there."""

    def __init__(self, number, place, why):
        super().__init__('refused %d %d: %s: %s' % (number, place, REFUSALS[number], why))
        self.number, self.place = number, place


# ---- a case file

def read_table(data):
    """The three bodies of a file."""
    number, *entries = struct.unpack('<10I', data[:40])
    if number != 3:
        raise Refused(8, 0, 'the first number is %d, not 3' % number)
    bodies, start = [], 40
    for k in range(3):
        kind, offset, length = entries[3 * k:3 * k + 3]
        if kind != k + 1:
            raise Refused(8, 4 + 12 * k, 'entry %d has kind %d, not %d' % (k + 1, kind, k + 1))
        if offset != start:
            raise Refused(8, 8 + 12 * k, 'body %d is said to start at %d, not at %d' % (k + 1, offset, start))
        start = offset + length
        bodies.append(data[offset:start])
    if start != len(data):
        raise Refused(8, 36, 'the last body ends at %d, the file at %d' % (start, len(data)))
    return bodies


def granule(board):
    """What the memory's base and length are multiples of, on a board."""
    return max(64, board.size)


def read_harts(body, board):
    """The base, the harts and the kind."""
    if len(body) < 16:
        raise Refused(9, 40, 'the body has %d bytes, fewer than 16' % len(body))
    base, count, kind = struct.unpack('<QII', body[:16])
    if not 1 <= count <= 8:
        raise Refused(9, 40, 'the count is %d, not 1 to 8' % count)
    if len(body) != 16 + 256 * count:
        raise Refused(9, 40, 'the body of %d harts has %d bytes, not %d' % (count, len(body), 16 + 256 * count))
    if kind >= len(WIDTHS):
        raise Refused(9, 40, 'the kind is %d, not 0 (64-bit) or 1 (32-bit)' % kind)
    if base % granule(board) or base > 1 << 40:
        raise Refused(9, 40, 'the base %#x is no multiple of %d, or above 2^40' % (base, granule(board)))
    harts = []
    for h in range(count):
        *registers, pc = struct.unpack_from('<32Q', body, 16 + 256 * h)
        if pc % 4:
            raise Refused(9, 40, 'the pc of hart %d, %#x, is no multiple of 4' % (h, pc))
        wide = next((name for name, value in zip([*('x%d' % r for r in range(1, 32)), 'pc'], [*registers, pc]) if value >> WIDTHS[kind]), None)
        if wide:
            raise Refused(9, 40, '%s of hart %d has more than 32 bits' % (wide, h))
        harts.append(Hart(tuple(registers), pc))
    return base, harts, kind


def event_fault(event, zeros, base, length, harts):
    """What is wrong with an event; None if nothing is."""
    if event.kind not in (STEP, DEVICE, YIELD):
        return 'kind %d, not 1 to 3' % event.kind
    if any(zeros):
        return 'one of its five zero bytes is not zero'
    if event.kind != DEVICE:
        if event.hart >= harts:
            return 'hart %d, but there are %d' % (event.hart, harts)
        return 'size, address or data is not zero' if event.size or event.address or event.data else None
    if event.hart:
        return 'a device write with hart %d, not 0' % event.hart
    if not 1 <= event.size <= 8:
        return 'a device write of %d bytes, not 1 to 8' % event.size
    if not base <= event.address <= base + length - event.size:
        return 'a device write of %d bytes at %#x, not wholly in memory' % (event.size, event.address)
    return 'data %#x, more than its size of %d bytes' % (event.data, event.size) if event.data >> 8 * event.size else None


def read_events(body, start, base, length, harts):
    if len(body) % 24:
        raise Refused(11, start, 'the body has %d bytes, no multiple of 24' % len(body))
    events = []
    for n, (kind, hart, size, zeros, address, data) in enumerate(struct.iter_unpack('<3B5sQQ', body)):
        event = Event(kind, hart, size, address, data)
        fault = event_fault(event, zeros, base, length, harts)
        if fault:
            raise Refused(11, start + 24 * n, 'event %d: %s' % (n, fault))
        events.append(event)
    return events


def read(data, board=DEFAULT):
    """The case of a file's bytes, read on a board. Raises Refused, tried in the program's order."""
    if not 40 <= len(data) <= 65536:
        raise Refused(7, 0, '%d bytes, not 40 to 65536' % len(data))
    harts_body, memory, events_body = read_table(data)
    base, harts, kind = read_harts(harts_body, board)
    start = 40 + len(harts_body)
    if not 64 <= len(memory) <= 1 << 20 or len(memory) % granule(board):
        raise Refused(10, start, '%d bytes, no multiple of %d from 64 on' % (len(memory), granule(board)))
    if WIDTHS[kind] == 32 and base + len(memory) > 1 << 32:
        raise Refused(10, start, '%d bytes at %#x, which end above 2^32' % (len(memory), base))
    return Case(base, harts, memory, read_events(events_body, start + len(memory), base, len(memory), len(harts)), kind, board)


def write(case):
    """The bytes of a case; read() of them gives it back."""
    harts = struct.pack('<QII', case.base, len(case.harts), case.kind) + b''.join(struct.pack('<32Q', *h.registers, h.pc) for h in case.harts)
    events = b''.join(struct.pack('<3B5xQQ', *event) for event in case.events)
    table, start = struct.pack('<I', 3), 40
    for kind, body in enumerate((harts, case.memory, events), 1):
        table += struct.pack('<3I', kind, start, len(body))
        start += len(body)
    return table + harts + case.memory + events


# ---- the program's lines

def letters(event):
    """What stands behind the number on an event's line, before its answer."""
    return 'd' if event.kind == DEVICE else ('h%d' if event.kind == STEP else 'y%d') % event.hart


def line_parts(number, event, line):
    """What an event's line says, and what stands behind its `broke` (None without one), which is not looked at; None if it is no line of this event."""
    start = '%d %s ' % (number, letters(event))
    said, broke, digits = line[len(start):].partition(' broke ')
    if line.startswith(start) and (said == 'ok' or event.kind == STEP and re.fullmatch(r'sc [01]|trap [0-8] [0-9a-f]{16}', said)):
        return said, digits if broke else None
    return None


def broke_fault(event, said, digits, harts):
    """What is wrong with `broke` and what stands behind it on the line of an event of so many harts; None if nothing is."""
    if event.kind == YIELD:
        return "a yield's line has no broke"
    if said not in ('ok', 'sc 0'):
        return 'broke stands only behind ok and sc 0'
    if not re.fullmatch('[0-9a-f]{2}', digits):
        return 'behind broke stand two lower-case hex digits'
    losers = int(digits, 16)
    if not losers:
        return 'broke 00 is never written'
    if losers >> harts:
        return 'bit %d is set, but the number of harts is %d' % (losers.bit_length() - 1, harts)
    return "bit %d is the stepping hart's own" % event.hart if event.kind == STEP and losers >> event.hart & 1 else None


def right_line(number, event, line, harts):
    """The answer on an event's line; None if it is no line of this event in a case of so many harts."""
    said, digits = line_parts(number, event, line) or (None, None)
    if said is None or digits is not None and broke_fault(event, said, digits, harts):
        return None
    losers = int(digits or '0', 16)
    return Answer(said, [hart for k, hart in enumerate(HARTS) if losers >> k & 1])


def wrong_line(number, event, line, harts):
    """What is told of a line that is not right: the line and, where all before its `broke` is right, what is wrong from there on."""
    parts = line_parts(number, event, line)
    return 'event %d (%s) has the line %r%s' % (number, letters(event), line[:60], ': ' + broke_fault(event, *parts, harts) if parts else '')


def header(case):
    return 'case %d harts %d bytes %d events' % (len(case.harts), len(case.memory), len(case.events))


def numbered(lines):
    """The lines under the number that each starts with; under None those that start with none, or with one that no event has."""
    found = {}
    for line in lines:
        match = re.match(r'(0|[1-9][0-9]{0,8}) ', line)      # Python doesn't convert a number of thousands of digits
        found.setdefault(int(match.group(1)) if match else None, []).append(line)
    return found


def faults(case, text):
    """What is missing or wrong in the program's output for a good case: a list of sentences, empty if there is one line for every event."""
    lines, count, harts, wrong = text.split('\n'), len(case.events), len(case.harts), []
    if lines.pop() != '':
        wrong.append('the last line has no line feed')
        lines = text.split('\n')
    if not lines or lines[0] != header(case):
        wrong.append('the first line is %r, not %r' % (''.join(lines[:1])[:60], header(case)))
    if not lines or lines[-1] != 'end %d' % count:
        wrong.append('the last line is %r, not %r' % (''.join(lines[-1:])[:60], 'end %d' % count))
    body = lines[bool(lines) and lines[0].startswith('case '):]
    body = body[:len(body) - (bool(body) and body[-1].startswith('end '))]
    if len(body) == count and all(right_line(n, event, line, harts) for n, (event, line) in enumerate(zip(case.events, body))):
        return wrong
    found = numbered(body)
    for n, event in enumerate(case.events):
        mine = found.pop(n, [])
        if len(mine) != 1:
            wrong.append('event %d (%s) has %s' % (n, letters(event), '%d lines' % len(mine) if mine else 'no line'))
        elif not right_line(n, event, mine[0], harts):
            wrong.append(wrong_line(n, event, mine[0], harts))
    wrong += ['a line of no event: %r' % line[:60] for rest in found.values() for line in rest]
    return wrong or ['the lines are not in the order of their events']


def count(case, text):
    """What the lines of a good answer say: events, retired, sc 0, sc 1, device, yield, `trap C` for each cause, broke (the writes that broke a
    reservation) and `broke WRITER LOSER` (the reservations that they broke)."""
    counts = Counter(events=len(case.events))
    for n, (event, line) in enumerate(zip(case.events, text.split('\n')[1:])):
        answer = right_line(n, event, line, len(case.harts))
        if event.kind != STEP:
            counts['device' if event.kind == DEVICE else 'yield'] += 1
        elif answer.said.startswith('trap'):
            counts[answer.said[:6]] += 1
        else:
            counts['retired'] += 1
            if answer.said != 'ok':
                counts[answer.said] += 1
        if answer.losers:
            counts['broke'] += 1
            counts.update('broke %s %s' % (letters(event), loser) for loser in answer.losers)
    return counts
