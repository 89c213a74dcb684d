"""The outside vectors of requests 5, 7, 10 and 11 of document 02, tests/vectors/05-sizes.jsonl, 07-versions.jsonl, 10-kind32.jsonl and
11-misaligned.jsonl: a line is a call of the library, its answer and what it leaves.

They were made from the documents alone by an independent model. A line is a dict: call (step, device, yield, run, replay, loop); base (hex), len
and mem (hex of the first bytes, the rest zero); count, size, version, kind, misaligned and harts (eight of [x0 to x31, pc, None or [address, width]],
hex but for the width); the call's arguments; answer, broke, each and after. A loop has words (hex), version and kind alone. The functions below give the
parts of it as numbers and bytes.

Of request 10 there are case files too, 10-cases/NAME.case with what the program writes in NAME.out, and logs of such cases, 10-logs/NAME.case and
NAME.log with what the program replay writes in NAME.out, and in NAME.json what the replay leaves, as a line has it. 10-cases/changed has the case of the
older vectors whose output is another one with request 10.

Of request 11 there are settings files too, 11-settings.jsonl. A line is a dict: name; file (hex) and answer, which is refused (number and place) or
version, the file's own, and boards; or boards and room, the length of the buffer to write to, and answer, which is refused or file (hex). A board has size,
a, the version of the A extension, and misaligned.
"""
import json
import os

FOLDER = os.path.join(os.path.dirname(os.path.abspath(__file__)), 'vectors')
SIZES, VERSIONS, KINDS, MISALIGNED = '05-sizes.jsonl', '07-versions.jsonl', '10-kind32.jsonl', '11-misaligned.jsonl'
FILES = (SIZES, VERSIONS, KINDS, MISALIGNED)
CASES, LOGS = '10-cases', '10-logs'
SETTINGS = '11-settings.jsonl'


def lines(*files):
    """Each line of the files, of all if none is named: the file's name, the line's number in it, from 1, and the dict."""
    for name in files or FILES:
        with open(os.path.join(FOLDER, name), encoding='utf-8') as file:
            for number, line in enumerate(file, 1):
                yield name, number, json.loads(line)


def settings_lines():
    """Each line of the settings files: its number, from 1, and the dict."""
    with open(os.path.join(FOLDER, SETTINGS), encoding='utf-8') as file:
        yield from ((number, json.loads(line)) for number, line in enumerate(file, 1))


def boards(given):
    """The boards of a settings line: set size, version of the A extension and misaligned of each."""
    return [(board['size'], board['a'], board['misaligned']) for board in given]


def set_size(line):
    """A setting that is missing has its default."""
    return line.get('size', 64)


def version(line):
    return line.get('version', 21)


def kind(line):
    return line.get('kind', 0)


def misaligned(line):
    return line.get('misaligned', 0)


def base(line):
    return int(line['base'], 16)


def memory(line, part):
    """The bytes of memory; part is the line itself or what it has under `after`."""
    given = bytes.fromhex(part['mem'])
    return given + bytes(line['len'] - len(given))


def harts(part):
    """The eight harts: x0 to x31, pc, and None or the reservation's address and width."""
    for x, pc, held in part['harts']:
        yield [int(value, 16) for value in x], int(pc, 16), held and (int(held[0], 16), held[1])


def device(line):
    """A device write: address, number of bytes, and the lowest 8 of these as a number. More than 8 are refused whatever they are."""
    data = bytes.fromhex(line['data'])
    return int(line['address'], 16), len(data), int.from_bytes(data[:8], 'little')


def words(line):
    """The words of a block."""
    return [int(word, 16) for word in line['words']]


def cases(folder):
    """The paths of a folder's case files without `.case`, by name."""
    found = (os.path.join(path, name) for path, _, names in os.walk(os.path.join(FOLDER, folder)) for name in names)
    return sorted(path[:-len('.case')] for path in found if path.endswith('.case'))


def afterwards(line):
    """What holds the harts and the memory after the call: `after`, or the line itself where all is as given."""
    return line.get('after', line)
