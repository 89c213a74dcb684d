"""The outside vectors of requests 5, 7, 10 and 11 of document 02, all lines of tests/vectors/05-sizes.jsonl, 07-versions.jsonl, 10-kind32.jsonl and
11-misaligned.jsonl, against the library, byte for byte; the settings files of 11-settings.jsonl, read and written by the library; and the case files of
10-cases and the logs of 10-logs against the library and, where they are built, the programs.

The library is called as include/floecavern.h has it, on target/libfloecavern.so (FLOECAVERN_SO names a shared object at another place):

    cc -shared -o target/libfloecavern.so -Wl,--whole-archive target/staticlib/libcapi.a -Wl,--no-whole-archive

Each line is one call. Compared are the answer, what is told, every byte of the state (all eight harts, unused ones too, the set size, the version,
the kind and what a misaligned atomic gives) and all of memory; of a loop the answer. The events of a run are performed by single calls as well, since
the line has the answer of each of them.
"""
import ctypes
import importlib.machinery
import importlib.util
import json
import os
import struct
import subprocess
import sys
import unittest

TESTS = os.path.dirname(os.path.abspath(__file__))
ROOT = os.path.dirname(TESTS)
sys.path.insert(0, TESTS)
import outside  # noqa: E402, it stands beside this file

SO = os.environ.get('FLOECAVERN_SO', os.path.join(ROOT, 'target', 'libfloecavern.so'))

PROGRAM, REPLAY = (os.path.join(ROOT, 'target', 'bin', name) for name in ('floecavern', 'replay'))

LINES = {outside.SIZES: 739, outside.VERSIONS: 336, outside.KINDS: 629, outside.MISALIGNED: 688}
IN_EVENT_TABLE = {outside.SIZES: 611, outside.VERSIONS: 221, outside.KINDS: 483, outside.MISALIGNED: 652}
# Of 11-settings.jsonl: files to be read and lists of boards to be written.
TO_READ, TO_WRITE = 508, 142

BAD_SIZE = 2 ** 64 - 1
TRAP, REFUSED = 256, 512
STATE, PC, RESERVATION, SET_SIZE, VERSION, KIND, MISALIGNED = 2344, 2056, 2120, 2312, 2320, 2328, 2336
BOARD, BOARDS = 24, 16
REPORT_ROOM = 262144
EVENT = 24
# No version of A, but some have the number of one in a part of their bits.
OTHER_VERSIONS = (0, 1, 2, 19, 22, 32, 33, 210, 20 << 8, 20 << 32, (1 << 32) + 20, (1 << 63) + 21, 2 ** 64 - 1)
# The same of the kind of core.
OTHER_KINDS = (2, 3, 32, 64, 255, 256, 257, 1 << 32, (1 << 32) + 1, 1 << 63, (1 << 63) + 1, 2 ** 64 - 1)
# The same of what a misaligned atomic gives.
OTHER_MISALIGNED = (2, 3, 4, 5, 6, 7, 255, 256, 257, 1 << 32, (1 << 32) + 1, 1 << 63, (1 << 63) + 1, 2 ** 64 - 1)
# What stands where the library reads nothing, or has not written yet.
RUBBISH = 0xA5A5A5A5A5A5A5A5


def library():
    """The functions that take a state, the one that takes a case file, and the loop checker that takes a version and a kind, with the types that
    include/floecavern.h gives them."""
    found = ctypes.CDLL(os.path.abspath(SO))
    number, size, place = ctypes.c_uint64, ctypes.c_size_t, ctypes.POINTER(ctypes.c_uint8)
    machine, told = [place, size, number, place, size], [place, size]
    arguments = {'step': [size], 'yield': [size], 'device_write': [number, size, number], 'run': [place, size, size], 'replay': [place, size]}
    for name, own in arguments.items():
        function = getattr(found, 'floecavern_' + name)
        function.argtypes, function.restype = machine + own + told, number
    found.floecavern_check_loop_for.argtypes, found.floecavern_check_loop_for.restype = [number, number, place, size], number
    found.floecavern_report.argtypes, found.floecavern_report.restype = [place, size, place, size], number
    return found


def buffer(data):
    """A buffer of bytes, which is no NULL where there are none, and its length."""
    return (ctypes.c_uint8 * max(len(data), 1)).from_buffer_copy(bytes(data) or b'\0'), len(data)


class Machine:
    """A state of 2344 bytes and a memory, lent to one call after another."""

    def __init__(self, library, state, base, memory):
        self.library, self.base = library, base
        self.state, self.state_len = buffer(state)
        self.memory, self.memory_len = buffer(memory)

    def call(self, name, arguments, told):
        """The answer, and the numbers that are told."""
        out, length = buffer(struct.pack('<%dQ' % told, *[RUBBISH] * told))
        answer = getattr(self.library, 'floecavern_' + name)(self.state, self.state_len, self.base, self.memory, self.memory_len, *arguments,
                                                             out, length)
        return answer, struct.unpack('<%dQ' % told, out)

    def event(self, kind, hart, address, size, data):
        """A single event."""
        if kind == 'device':
            return self.call('device_write', (address, size, data), 1)
        return self.call(kind, (hart,), 1)

    def bytes(self):
        return bytes(self.state)[:self.state_len], bytes(self.memory)[:self.memory_len]


def settings_of(line):
    """Set size, version, kind and misaligned."""
    return outside.set_size(line), outside.version(line), outside.kind(line), outside.misaligned(line)


def state_bytes(line):
    """The state that a line gives. Where a hart has no reservation, address and width mean nothing, and are rubbish."""
    harts = list(outside.harts(line))
    numbers = [line['count']] + [value for x, _, _ in harts for value in x] + [pc for _, pc, _ in harts]
    for _, _, held in harts:
        numbers += [0, RUBBISH, RUBBISH] if held is None else [1, *held]
    return struct.pack('<293Q', *numbers, *settings_of(line))


def written(line):
    """The state after a call that writes it: registers and pcs of all harts, and the reservations of the used ones, three zeros where there is
    none. The reservations of unused harts stay as given."""
    state = bytearray(state_bytes(line))
    for h, (x, pc, held) in enumerate(outside.harts(outside.afterwards(line))):
        struct.pack_into('<32Q', state, 8 + 256 * h, *x)
        struct.pack_into('<Q', state, PC + 8 * h, pc)
        if h < line['count']:
            struct.pack_into('<3Q', state, RESERVATION + 24 * h, *((0, 0, 0) if held is None else (1, *held)))
    return bytes(state)


def meaning(state):
    """Count, settings and harts of a state's bytes; the harts as the module outside has them."""
    numbers = struct.unpack('<293Q', state)
    x, pcs, held = numbers[1:257], numbers[257:265], numbers[265:289]
    harts = [(list(x[32 * h:32 * h + 32]), pcs[h], tuple(held[3 * h + 1:3 * h + 3]) if held[3 * h] else None) for h in range(8)]
    return numbers[0], *numbers[289:], harts


def answered(answer, broke):
    """The number that the library answers an event with, and what it tells: the harts that lost their reservation, a trap's value, or 0."""
    kind, *numbers = answer
    if kind == 'trap':
        return TRAP + numbers[0], (numbers[1],)
    if kind == 'refused':
        return REFUSED + numbers[0], (0,)
    return {'ok': 0, 'sc': 1 + sum(numbers)}[kind], (broke,)


def run_answered(answer):
    """The same of a run: how many events it performed, and the place of refusal 11."""
    kind, *numbers = answer
    assert numbers[-2] == 'performed'
    if kind == 'done':
        return 0, (numbers[-1], 0)
    return REFUSED + numbers[0], (0, sum(numbers[1:-2]))


def replay_answered(answer):
    """The same of a replay: how many rows there are before the stop, the board's value and the model's."""
    kind, *numbers = answer
    assert numbers[-2] == 'performed'
    rows, numbers = numbers[-1], numbers[:-2]
    if kind == 'refused':
        return REFUSED + numbers[0], (0, 0, 0)
    if kind == 'agreed':
        return 0, (rows, 0, 0)
    assert kind == 'row' and numbers[0] == rows
    reason, *values = numbers[1:]
    if reason == 'trap':
        return TRAP + values[0], (rows, 0, values[1])
    return ['form', 'pc', 'word', 'rd', 'value'].index(reason) + 1, (rows, *(values or (0, 0)))


def loop_answered(answer):
    """The same of a block."""
    kind, *numbers = answer
    if kind == 'rejected':
        place, reason = numbers
        return 256 * (place + 1) + reason
    return {'accepted': 0, 'refused': sum(numbers)}[kind]


def events_of(body):
    """The events of an events body: kind, hart, address, size and data."""
    for at in range(0, len(body) - len(body) % EVENT, EVENT):
        kind, hart, size, address, data = struct.unpack_from('<BBB5xQQ', body, at)
        yield {1: 'step', 2: 'device', 3: 'yield'}[kind], hart, address, size, data


class Vectors(unittest.TestCase):
    """Every line by its call."""

    @classmethod
    def setUpClass(cls):
        if not os.path.exists(SO):
            raise unittest.SkipTest('no %s: the command is in the first lines of this file' % SO)
        cls.library = library()

    def machine(self, line):
        return Machine(self.library, state_bytes(line), outside.base(line), outside.memory(line, line))

    def left(self, machine, line, writes):
        """The bytes after the call: as the line has them, if the call writes the state, else as given; and they mean what the line says."""
        state, memory = machine.bytes()
        part = outside.afterwards(line)
        self.assertEqual(memory, outside.memory(line, part))
        self.assertEqual(state, written(line) if writes else state_bytes(line))
        self.assertEqual(meaning(state), (line['count'], *settings_of(line), list(outside.harts(part))))

    def single(self, line):
        machine = self.machine(line)
        event = (0, *outside.device(line)) if line['call'] == 'device' else (line['hart'], 0, 0, 0)
        expected = answered(line['answer'], line['broke'])
        self.assertEqual(machine.event(line['call'], *event), expected)
        self.left(machine, line, expected[0] < TRAP)

    def run_of_events(self, line):
        machine, body = self.machine(line), bytes.fromhex(line['body'])
        expected = run_answered(line['answer'])
        self.assertEqual(machine.call('run', (*buffer(body), line['budget']), 2), expected)
        self.left(machine, line, expected[0] == 0)
        if expected[0] == 0:
            self.one_by_one(line, body)

    def one_by_one(self, line, body):
        """The events of a run by single calls. A trap writes nothing, so that the bytes may differ where they mean nothing."""
        machine, performed = self.machine(line), line['answer'][-1]
        self.assertEqual(len(line['each']), performed)
        for event, (*answer, broke) in zip(events_of(body), line['each']):
            self.assertEqual(machine.event(*event), answered(answer, broke))
        state, memory = machine.bytes()
        self.assertEqual((meaning(state), memory), (meaning(written(line)), outside.memory(line, outside.afterwards(line))))

    def replay(self, line):
        machine, log = self.machine(line), line['log'].encode('latin-1')
        expected = replay_answered(line['answer'])
        self.assertEqual(machine.call('replay', buffer(log), 3), expected)
        self.left(machine, line, expected[0] < REFUSED)

    def loop(self, line):
        block = b''.join(struct.pack('<I', word) for word in outside.words(line))
        settings = outside.version(line), outside.kind(line)
        self.assertEqual(self.library.floecavern_check_loop_for(*settings, *buffer(block)), loop_answered(line['answer']))

    CALLS = {'step': single, 'device': single, 'yield': single, 'run': run_of_events, 'replay': replay, 'loop': loop}

    def each(self, *calls):
        for file, number, line in outside.lines():
            if line['call'] in calls:
                with self.subTest(file=file, line=number):
                    self.CALLS[line['call']](self, line)

    def test_steps(self):
        self.each('step')

    def test_device_writes(self):
        self.each('device')

    def test_yields(self):
        self.each('yield')

    def test_runs(self):
        self.each('run')

    def test_replays(self):
        self.each('replay')

    def test_loops(self):
        self.each('loop')

    def others(self, file, setting, numbers):
        """The first line of each call that isn't refused, with another number of a setting: refused by 2, and nothing is written."""
        for call in ('step', 'device', 'yield', 'run', 'replay'):
            line = next(line for _, _, line in outside.lines(file) if line['call'] == call and 'after' in line)
            refused = {**line, 'answer': ['refused', 2] + (['performed', 0] if call in ('run', 'replay') else []), 'broke': 0}
            del refused['after']
            for number in numbers:
                with self.subTest(call=call, **{setting: number}):
                    self.CALLS[call](self, {**refused, setting: number})

    def test_other_versions(self):
        """The vectors have none above 255."""
        self.others(outside.VERSIONS, 'version', OTHER_VERSIONS)

    def test_other_kinds(self):
        self.others(outside.KINDS, 'kind', OTHER_KINDS)

    def test_other_numbers_for_misaligned(self):
        self.others(outside.MISALIGNED, 'misaligned', OTHER_MISALIGNED)

    def test_loops_have_no_misaligned(self):
        """The loop checker is given version and kind alone: its lines say nothing of misaligned atomics."""
        loops = [line for _, _, line in outside.lines() if line['call'] == 'loop']
        self.assertEqual({name for line in loops for name in line} - {'open'}, {'call', 'words', 'version', 'kind', 'answer'})

    def test_length_of_a_state(self):
        """Every function takes 2344 bytes of a state and no other number of them; then nothing is written."""
        _, _, line = next(outside.lines())
        for name, arguments, told in (('step', (0,), 1), ('yield', (0,), 1), ('device_write', (0, 1, 0), 1), ('run', (*buffer(b''), 0), 2),
                                      ('replay', buffer(b''), 3)):
            for length in (0, 8, 2304, SET_SIZE, VERSION, KIND, MISALIGNED, STATE - 1, STATE + 1, STATE + 8):
                with self.subTest(call=name, length=length):
                    state = (state_bytes(line) + bytes(8))[:length]
                    machine = Machine(self.library, state, outside.base(line), outside.memory(line, line))
                    self.assertEqual(machine.call(name, arguments, told), (BAD_SIZE, (RUBBISH,) * told))
                    self.assertEqual(machine.bytes(), (state, outside.memory(line, line)))


class SettingsFiles(unittest.TestCase):
    """Every line of 11-settings.jsonl by the library's reader or writer: the answer, what is told, and every byte that was lent."""

    @classmethod
    def setUpClass(cls):
        if not os.path.exists(SO):
            raise unittest.SkipTest('no %s: the command is in the first lines of this file' % SO)
        cls.library = library()
        for function in cls.library.floecavern_read_settings, cls.library.floecavern_write_settings:
            function.argtypes, function.restype = [ctypes.POINTER(ctypes.c_uint8), ctypes.c_size_t] * 3, ctypes.c_uint64

    def call(self, name, given, out, told):
        """The answer of a call, and the bytes of the two buffers that were lent, which held rubbish before."""
        (lent, room), (said, length) = (buffer(b'\xA5' * size) for size in (out, told))
        answer = getattr(self.library, 'floecavern_%s_settings' % name)(*buffer(given), lent, room, said, length)
        return answer, bytes(lent)[:room], bytes(said)[:length]

    @staticmethod
    def lent(boards):
        return b''.join(struct.pack('<3Q', *board) for board in boards)

    def reads(self, file, answer):
        if 'refused' in answer:
            number, place = answer['refused']
            expected = REFUSED + number, bytes(BOARD * BOARDS), struct.pack('<2Q', place, 0)
        else:
            boards = outside.boards(answer['boards'])
            expected = 0, self.lent(boards + [(0, 0, 0)] * (BOARDS - len(boards))), struct.pack('<2Q', answer['version'], len(boards))
        self.assertEqual(self.call('read', file, BOARD * BOARDS, 16), expected)

    def writes(self, boards, room, answer):
        if 'refused' in answer:
            number, place = answer['refused']
            expected = REFUSED + number, b'\xA5' * room, struct.pack('<Q', place)
        else:
            file = bytes.fromhex(answer['file'])
            expected = 0, file + b'\xA5' * (room - len(file)), struct.pack('<Q', len(file))
        self.assertEqual(self.call('write', self.lent(boards), room, 8), expected)

    def test_reader(self):
        for number, line in outside.settings_lines():
            if 'file' in line:
                with self.subTest(line=number, name=line['name']):
                    self.reads(bytes.fromhex(line['file']), line['answer'])

    def test_writer(self):
        for number, line in outside.settings_lines():
            if 'boards' in line:
                with self.subTest(line=number, name=line['name']):
                    self.writes(outside.boards(line['boards']), line['room'], line['answer'])

    def test_written_again(self):
        """What is read is written as the same boards; a file of version 2 as itself."""
        for number, line in outside.settings_lines():
            if 'file' in line and 'boards' in line['answer']:
                with self.subTest(line=number, name=line['name']):
                    boards = outside.boards(line['answer']['boards'])
                    length = 8 + 12 * len(boards)
                    answer, file, told = self.call('write', self.lent(boards), length, 8)
                    self.assertEqual((answer, told), (0, struct.pack('<Q', length)))
                    self.reads(file, {**line['answer'], 'version': 2})
                    if line['answer']['version'] == 2:
                        self.assertEqual(file, bytes.fromhex(line['file']))

    def test_numbers_of_more_bytes(self):
        """A number that a body has no room for is a bad one, and not cut. The vectors have none above 65535."""
        for bad in ((65536 + 64, 21, 0), (64, 256 + 21, 0), (64, 21, 256), (64, 21, 257), (1 << 32 | 64, 20, 0), (64, 1 << 63 | 20, 0),
                    (64, 20, 1 << 63)):
            for k in range(3):
                with self.subTest(bad=bad, place=k):
                    boards = [(64, 21, 0)] * k + [bad] * (3 - k)
                    self.writes(boards, 44, {'refused': [23, 32 + 4 * k]})
                    self.writes(boards, 43, {'refused': [21, 0]})
        self.writes([(0, 0, 2 ** 64 - 1)] * 17, 1000, {'refused': [21, 0]})

    def test_lengths(self):
        """Buffers of any other length are a bad size, and nothing is written."""
        file = bytes.fromhex('0200000001000000100000000400000040001501')
        for out, told in ((0, 16), (BOARD, 16), (383, 16), (385, 16), (408, 16), (384, 0), (384, 8), (384, 15), (384, 17)):
            with self.subTest(boards=out, told=told):
                self.assertEqual(self.call('read', file, out, told), (BAD_SIZE, b'\xA5' * out, b'\xA5' * told))
        for given, told in ((1, 8), (23, 8), (25, 8), (47, 8), (24, 0), (24, 7), (24, 9), (24, 16)):
            with self.subTest(boards=given, told=told):
                boards = self.lent([(64, 21, 1)] * 2)[:given]
                self.assertEqual(self.call('write', boards, 64, told), (BAD_SIZE, b'\xA5' * 64, b'\xA5' * told))


def read(path):
    with open(path, 'rb') as file:
        return file.read()


class CaseFiles(unittest.TestCase):
    """The case files of request 10, and that of the older ones whose text is another one with it."""

    def each(self, answer):
        for path in outside.cases(outside.CASES):
            with self.subTest(case=os.path.relpath(path, outside.FOLDER)):
                self.assertEqual(answer(path + '.case'), read(path + '.out'))

    def reported(self, path):
        file, (out, room) = read(path), buffer(bytes(REPORT_ROOM))
        length = self.library.floecavern_report(*buffer(file), out, room)
        self.assertLessEqual(length, room)
        return bytes(out)[:length]

    @unittest.skipUnless(os.path.exists(SO), 'the library is not built')
    def test_library(self):
        self.library = library()
        self.each(self.reported)

    @unittest.skipUnless(os.path.exists(PROGRAM), 'target/bin/floecavern is not built')
    def test_program(self):
        self.each(lambda path: subprocess.run([PROGRAM], input=read(path), capture_output=True, check=True).stdout)


def line_of(path):
    """A case with its log as a line of the vectors has it, for a replay by the library; None where the case is refused. Harts that the case has not hold
    zeros."""
    told = json.loads(read(path + '.json'))
    file = read(path + '.case')
    offsets = struct.unpack_from('<10I', file)[2::3]
    if 'after' not in told:
        return None
    base, count, kind = struct.unpack_from('<QII', file, 40)
    none = [['0'] * 32, '0', None]
    used = [struct.unpack_from('<32Q', file, 56 + 256 * h) for h in range(count)]
    harts = [[['0', *('%x' % value for value in x)], '%x' % pc, None] for *x, pc in used] + [none] * (8 - count)
    after = {'harts': told['after']['harts'][:count] + [none] * (8 - count), 'mem': told['after']['mem']}
    return {'call': 'replay', 'base': '%x' % base, 'len': told['len'], 'mem': file[offsets[1]:offsets[2]].hex(), 'count': count, 'kind': kind, 'harts': harts,
            'log': read(path + '.log').decode('latin-1'), 'answer': told['answer'] + ['performed', told['performed']], 'after': after}


class Logs(unittest.TestCase):
    """The logs of request 10."""

    @unittest.skipUnless(os.path.exists(REPLAY), 'target/bin/replay is not built')
    def test_program(self):
        for path in outside.cases(outside.LOGS):
            with self.subTest(log=os.path.basename(path)):
                done = subprocess.run([REPLAY, path + '.case', path + '.log'], capture_output=True)
                self.assertEqual((done.returncode, done.stdout, done.stderr), (0, read(path + '.out'), b''))

    @unittest.skipUnless(os.path.exists(SO), 'the library is not built')
    def test_library(self):
        """Where the case and the log aren't refused: what the replay leaves, too."""
        vectors = Vectors()
        vectors.library = library()
        for path in outside.cases(outside.LOGS):
            line = line_of(path)
            if line:
                with self.subTest(log=os.path.basename(path)):
                    vectors.replay(line)


def event_table():
    """The tool tools/event-table as a module."""
    loader = importlib.machinery.SourceFileLoader('event_table', os.path.join(ROOT, 'tools', 'event-table'))
    module = importlib.util.module_from_spec(importlib.util.spec_from_loader('event_table', loader))
    loader.exec_module(module)
    return module


class EventTable(unittest.TestCase):
    """The model in tools/event-table, also on the lines that are no cases of its table. This needs no library."""

    def test_single_events(self):
        table = event_table()
        for file, number, line in outside.lines():
            if line['call'] in ('step', 'device', 'yield'):
                with self.subTest(file=file, line=number):
                    self.assertEqual(table.by_model(table.event_of(line), table.state_of(line, line)), table.by_vector(line))


class Counts(unittest.TestCase):
    """What is run where. This needs no library."""

    def test_lines(self):
        self.assertEqual(set(LINES), set(outside.FILES))
        for file, count in LINES.items():
            self.assertEqual([number for _, number, _ in outside.lines(file)], list(range(1, count + 1)))

    def test_all_are_run_here(self):
        """A test method for each call that a line has."""
        self.assertEqual({line['call'] for _, _, line in outside.lines()}, set(Vectors.CALLS))

    def test_settings_files(self):
        """Each line is a file to be read or a list of boards to be written, and every number that it has fits into 8 bytes."""
        lines = [line for _, line in outside.settings_lines()]
        to_read, to_write = (sum(name in line for line in lines) for name in ('file', 'boards'))
        self.assertEqual((to_read, to_write, len(lines)), (TO_READ, TO_WRITE, TO_READ + TO_WRITE))
        for line in lines:
            given = outside.boards(line.get('boards', [])) + outside.boards(line['answer'].get('boards', []))
            self.assertTrue(all(0 <= number < 2 ** 64 for board in given for number in board), line['name'])
            self.assertEqual((len(line.get('file', '')) % 2, len(line['answer'].get('file', '')) % 2), (0, 0), line['name'])

    def test_files(self):
        """One case more than the 182 of request 10 is the older one that changes with it."""
        self.assertEqual((len(outside.cases(outside.CASES)), len(outside.cases(outside.LOGS))), (183, 20))
        self.assertEqual(len([path for path in outside.cases(outside.LOGS) if line_of(path)]), 19)

    def test_event_table(self):
        """Most lines are cases of the event table too. Not so: runs and replays, loops, and more memory than the program has."""
        cases, others = event_table().sorted_vectors()
        self.assertEqual({kind: len(numbers) for kind, numbers in others.items()},
                         {(outside.SIZES, 'runs and replays'): 78, (outside.SIZES, 'more memory than 8192 bytes'): 50,
                          (outside.VERSIONS, 'runs and replays'): 55, (outside.VERSIONS, 'loops'): 60,
                          (outside.KINDS, 'runs and replays'): 70, (outside.KINDS, 'more memory than 8192 bytes'): 1, (outside.KINDS, 'loops'): 75,
                          (outside.MISALIGNED, 'runs and replays'): 34, (outside.MISALIGNED, 'loops'): 2})
        for name in outside.FILES:
            told = [number for file, number, _ in cases if file == name]
            self.assertEqual(len(told), IN_EVENT_TABLE[name])
            rest = sum((numbers for (file, _), numbers in others.items() if file == name), [])
            self.assertEqual(sorted(told + rest), list(range(1, LINES[name] + 1)))


if __name__ == '__main__':
    unittest.main()
