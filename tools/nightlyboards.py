"""The settings file of a night: the boards that it has, and which of them a log is of. Used by tools/nightly.

With a settings file, BOARD of `NAME.BOARD.log` is the number of a board of it, decimal and from 0, and the log is compared under what that board is
set to. In a record, a board is a list of its three numbers.
"""
import hashlib
import re

from nightlyfolder import plain
from settingsfile import LONGEST, Board, Refused, board_fault, means, read

NO_BOARD = 'no board of the settings file'


def load(path):
    """The boards of a settings file, and its hash. Raises ValueError with why it is none: no log may be compared under settings that nobody gave."""
    try:
        plain(path)
        with open(path, 'rb') as file:
            data = file.read(LONGEST + 1)         # a longer one is refused, whatever follows
        return read(data).boards, hashlib.sha256(data).hexdigest()
    except OSError as error:
        raise ValueError('%s: the settings file cannot be read: %s; nothing is run' % (path, error.strerror))
    except Refused as refused:
        raise ValueError('%s: no settings file: %s; nothing is run' % (path, refused))


def number_of(name):
    """The number that a board's name in the name of a log is; None if it is none. Zeros before it change nothing."""
    digits = re.fullmatch('0*([0-9]{1,9})', name)
    return int(digits[1]) if digits else None


def settings_of(boards, name):
    """What the board of this name is set to, as a record has it; None if the file has no such board, or there is no file."""
    number = number_of(name)
    return list(boards[number]) if boards and number is not None and number < len(boards) else None


def name_fault(boards, name):
    """Why a board's name in the name of a log is none of the settings file; None if it is one, or there is no file."""
    if not boards or settings_of(boards, name):
        return None
    said = ascii(name) + (' is no number' if not re.fullmatch('[0-9]+', name) else '') if name else 'its name has none'
    return '%s: %s; the file has %s' % (NO_BOARD, said, 'only 0' if len(boards) == 1 else '0 to %d' % (len(boards) - 1))


def is_board(value):
    """Whether a value of a record is what a board can be set to."""
    return type(value) is list and [type(n) for n in value] == [int] * 3 and board_fault(Board(*value)) is None


def settings_text(settings):
    """What a board is set to, in words."""
    return means(Board(*settings))
