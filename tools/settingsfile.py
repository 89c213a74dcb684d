"""The text of a settings file:

  # a comment goes to the end of its line; blank lines and indentation are free
  board 64 2.1 0        a board: the size of its sets in bytes, the version of A that it follows, and what its misaligned atomics give
  board 128 2.0 1       the next one

Boards are numbered from 0, in the order of their lines; there are 1 to 16. The size is a power of two from 8 to 4096, decimal without a leading
zero, or hex after 0x; the version is 2.0 or 2.1. The last number is 0 where a misaligned LR gives cause 4 and a misaligned SC, AMO or AMOCAS cause 6,
and 1 where they give 5 and 7.
"""
import struct
from collections import namedtuple

import riscv
from toolfiles import TextError

# Settings files are read and written here as docs/RULES.md, section 16, gives them; nothing of the program or its library is used. Used by
# tools/settings and tools/nightly.

Board = namedtuple('Board', 'size version misaligned')
Settings = namedtuple('Settings', 'format boards')           # format: the version of the file itself
DEFAULT = Board(64, 21, 0)                                   # what holds where no board is given
SIZES = tuple(1 << k for k in range(3, 13))
VERSIONS = {20: '2.0', 21: '2.1'}
CAUSES = {0: '4 and 6', 1: '5 and 7'}                        # of a misaligned LR, and of a misaligned SC, AMO or AMOCAS
BODIES = {1: 3, 2: 4}                                        # the bytes of a body, by the format
MOST, LONGEST = 16, 200                                      # boards, and bytes of a file that has so many
REFUSALS = {21: 'number of boards, table or end', 22: 'format', 23: 'board'}


class Refused(Exception):
    """A file that is no settings file, or boards of which none can be made: the refusal's number, its place, and what is wrong there."""

    def __init__(self, number, place, why):
        super().__init__('refused %d %d: %s: %s' % (number, place, REFUSALS[number], why))
        self.number, self.place = number, place


def means(board):
    """What a board is set to, in words."""
    return 'sets of %d bytes, A %s, misaligned atomics give causes %s' % (board.size, VERSIONS[board.version], CAUSES[board.misaligned])


def board_fault(board):
    """What is wrong with a board; None if nothing is."""
    if board.size not in SIZES:
        return 'the set size is %d, no power of two from 8 to 4096' % board.size
    if board.version not in VERSIONS:
        return 'the version of A is %d, not 20 (A 2.0) or 21 (A 2.1)' % board.version
    return None if board.misaligned in CAUSES else 'misaligned is %d, not 0 (causes 4 and 6) or 1 (5 and 7)' % board.misaligned


def check(boards, first, size):
    """Raises Refused for the first bad one of boards whose bodies stand from `first` on and have so many bytes."""
    for k, board in enumerate(boards):
        fault = board_fault(board)
        if fault:
            raise Refused(23, first + size * k, 'of board %d, %s' % (k, fault))


# ---- bytes

def read_table(data, size):
    """Where each body of a file starts, by its table, if that and the end of the file are in order. size: the bytes that a body must have."""
    count, = struct.unpack_from('<I', data, 4)
    if not 1 <= count <= MOST:
        raise Refused(21, 0, '%d boards, not 1 to %d' % (count, MOST))
    end = 8 + 8 * count
    if end > len(data):
        raise Refused(21, 0, 'the table of %d boards ends at %d, the file at %d' % (count, end, len(data)))
    starts = []
    for k, (offset, length) in enumerate(struct.iter_unpack('<II', data[8:end])):
        if offset != end:
            raise Refused(21, 0, 'the body of board %d is said to start at %d, not at %d' % (k, offset, end))
        if length != size:
            raise Refused(21, 0, 'the body of board %d has %d bytes, not %d' % (k, length, size))
        starts.append(offset)
        end = offset + length
    if end != len(data):
        raise Refused(21, 0, 'the last body ends at %d, the file at %d' % (end, len(data)))
    return starts


def read(data):
    """The settings of a file's bytes. Raises Refused, tried in the program's order. Of a file that is longer than LONGEST its first LONGEST + 1 bytes
    give the same refusal, whatever follows."""
    if len(data) < 8:
        raise Refused(21, 0, 'the file has %d bytes, fewer than 8' % len(data))
    form, = struct.unpack_from('<I', data)
    if form not in BODIES:
        raise Refused(22, 0, 'it is %d, not 1 or 2' % form)
    starts = read_table(data, BODIES[form])
    # a file of format 1 says nothing of misaligned, and means 0
    boards = [Board(*struct.unpack_from('<HB', data, start), data[start + 3] if form == 2 else 0) for start in starts]
    check(boards, starts[0], BODIES[form])
    return Settings(form, boards)


def write(boards, room=LONGEST):
    """The bytes of a settings file of these boards, of format 2, for a place that has room for so many; read() of them gives the boards back.
    Raises Refused."""
    size, first = BODIES[2], 8 + 8 * len(boards)
    if not 1 <= len(boards) <= MOST:
        raise Refused(21, 0, '%d boards, not 1 to %d' % (len(boards), MOST))
    if room < first + size * len(boards):
        raise Refused(21, 0, 'there is room for %d bytes, not for %d' % (room, first + size * len(boards)))
    check(boards, first, size)
    table = b''.join(struct.pack('<II', first + size * k, size) for k in range(len(boards)))
    return struct.pack('<II', 2, len(boards)) + table + b''.join(struct.pack('<HBB', *board) for board in boards)


# ---- text

def size_of(text, n):
    """The set size that a text on line n writes."""
    try:
        size = riscv.number(text)
    except ValueError as error:
        raise TextError(n, 'size: %s' % error)
    if size is None:
        raise TextError(n, 'size: %r is no number' % text)
    if size not in SIZES:
        raise TextError(n, 'size: %s is no power of two from 8 to 4096' % text)
    return size


def board_of(words, n):
    """The board of the words behind `board` on line n."""
    if len(words) != 3:
        raise TextError(n, 'write board SIZE VERSION MISALIGNED, such as board 64 2.1 0')
    size, version = size_of(words[0], n), next((number for number, text in VERSIONS.items() if text == words[1]), None)
    if version is None:
        raise TextError(n, 'version: %r is neither 2.0 nor 2.1' % words[1])
    if words[2] not in ('0', '1'):
        raise TextError(n, 'misaligned: %r is neither 0 (causes 4 and 6) nor 1 (5 and 7)' % words[2])
    return Board(size, version, int(words[2]))


def make(text):
    """The bytes of the settings file that a text describes. Raises TextError."""
    lines, boards = text.removesuffix('\n').split('\n'), []
    for n, line in enumerate(lines, 1):
        name, *words = line.partition('#')[0].split() or ['']
        if name not in ('', 'board'):
            raise TextError(n, '%r: board is wanted here' % name)
        if name:
            boards.append(board_of(words, n))
        if len(boards) > MOST:
            raise TextError(n, 'there are at most %d boards' % MOST)
    if not boards:
        raise TextError(len(lines), 'the text ends without a board')
    return write(boards)


def show(settings):
    """The lines of a text; make() of them gives the same boards."""
    count = '%d board%s' % (len(settings.boards), '' if len(settings.boards) == 1 else 's')
    yield '# a settings file of format %d%s, %s' % (settings.format, '' if settings.format == 2 else ' (make writes format 2)', count)
    for k, board in enumerate(settings.boards):
        yield '%-18s # %d: %s' % ('board %d %s %d' % (board.size, VERSIONS[board.version], board.misaligned), k, means(board))
