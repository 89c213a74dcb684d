"""Floecavern, a proved reference model of RISC-V atomics, from Python: ctypes over the static library, made a shared object.

In the repository's root, after `tools/build capi`, on x86-64 Linux:

    cc -shared -o target/libfloecavern.so -Wl,--whole-archive target/staticlib/libcapi.a -Wl,--no-whole-archive

FLOECAVERN_SO names a shared object at another place; a relative name counts from the current folder. Python 3.9 or later, no dependencies.

    import floecavern
    machine = floecavern.Machine(2, 0, 128)                     # two harts with their pc at 0, 128 bytes of memory there
    machine.put_words(0, [0x1002a32f, 0x1882a3af])              # lr.w x6,(x5); sc.w x7,x8,(x5)
    machine.state.x[0][5] = 64
    machine.step(0)                                             # floecavern.RETIRED
    machine.state.reservation(0)                                # Reservation(addr=64, width=4)
    floecavern.harts(machine.device_write(64, 1, 7).broke)      # (0,): hart 0's reservation is broken

The set of a reservation has 64 bytes, SET_SIZE, or as many as Machine(2, 0, 128, set_size=16) says. The machine follows version 2.1 of A, or 2.0
with Machine(2, 0, 128, version=A_2_0): there a device write breaks no reservation. check_loop(words, version=A_2_0) checks a loop under 2.0.

The core has registers of 64 bits, or of 32 with Machine(2, 0, 128, kind=KIND_32); `State` says what that asks. check_loop(words, kind=KIND_32)
reads the words of a loop as RV32I. (The class Kind is another thing: what an event came to.)

A misaligned LR gives cause 4 and a misaligned SC, AMO or AMOCAS cause 6, or 5 and 7 with Machine(2, 0, 128, misaligned=MISALIGNED_5_AND_7). What
boards are set to can be kept in a settings file: read_settings(file) gives its boards, write_settings(boards) the bytes of one, and
Machine(2, 0, 128, **board._asdict()) is a machine that is set as the board is.

The names are those of include/floecavern.h and of rust/, whose `Answer` is the outcome here. What the model refuses is the exception Refused,
and state and memory are as they were; a trap is an outcome. A value that isn't the model's at all is a TypeError or a ValueError before the
library is called: a number that doesn't fit its bits, a memory that can't be written. One machine is for one thread at a time.
"""
import ctypes
import enum
import functools
import operator
import os
import struct
from dataclasses import dataclass
from typing import NamedTuple, Optional

__version__ = '0.9.0'

BUILD = 'cc -shared -o target/libfloecavern.so -Wl,--whole-archive target/staticlib/libcapi.a -Wl,--no-whole-archive'
ROOT = os.path.dirname(os.path.dirname(os.path.abspath(__file__)))

STATE_SIZE, EVENT_SIZE, ROW_SIZE, REPORT_ROOM, MAX_HARTS, MAX_MEMORY = 2344, 24, 48, 262_144, 8, 1_048_576
SET_SIZE = 64  # the set size that a state has by default, and that the machine of a case file always has
A_2_0, A_2_1 = 20, 21  # the versions of A; a state has 2.1 by default, and the machine of a case file always has it
KIND_64, KIND_32 = 0, 1  # the kinds of core; a state has the 64-bit one by default, and a case file says which one
# what a misaligned LR and a misaligned SC, AMO or AMOCAS give; a state has the first by default, and the machine of a case file always has it
MISALIGNED_4_AND_6, MISALIGNED_5_AND_7 = 0, 1
BOARD_SIZE, MAX_BOARDS, SETTINGS_ROOM = 24, 16, 200  # the bytes of a board for the library, and the most of a settings file

_BAD_SIZE, _TRAP, _REFUSED, _ALL = 2**64 - 1, 256, 512, 2**64 - 1


@functools.lru_cache(maxsize=None)
def _library():
    """The shared object, loaded once, at the first call."""
    path = os.environ.get('FLOECAVERN_SO', os.path.join(ROOT, 'target', 'libfloecavern.so'))
    if not os.path.exists(path):
        raise OSError('%s is missing. In the repository, after `tools/build capi`: %s' % (path, BUILD))
    library = ctypes.CDLL(os.path.abspath(path))                # a name without a folder would be looked for among the system's libraries
    lent, read, number, size = ctypes.c_void_p, ctypes.c_char_p, ctypes.c_uint64, ctypes.c_size_t
    machine = [lent, size, number, lent, size]
    for name, arguments in [('report', [read, size, lent, size]), ('check_loop_for', [number, number, read, size]),
                            ('step', machine + [size, lent, size]), ('yield', machine + [size, lent, size]),
                            ('device_write', machine + [number, size, number, lent, size]),
                            ('run', machine + [read, size, size, lent, size]), ('replay', machine + [read, size, lent, size]),
                            ('read_settings', [read, size, lent, size, lent, size]), ('write_settings', [read, size, lent, size, lent, size])]:
        function = getattr(library, 'floecavern_' + name, None)
        if function is None:
            raise _other_version('has no floecavern_' + name)
        function.argtypes, function.restype = arguments, number
    # One of another version may take other arguments, which a function without a state doesn't tell. A state of zeros is refused: nothing is done.
    zeros, none, value = ((ctypes.c_uint8 * length)() for length in (STATE_SIZE, 1, 8))
    if library.floecavern_yield(zeros, STATE_SIZE, 0, none, 0, 0, value, 8) == _BAD_SIZE:
        raise _other_size()
    return library


def _other_size():
    return _other_version('takes no state of %d bytes' % STATE_SIZE)


def _other_version(what):
    """The error of a shared object that isn't of this version, as one that wasn't made again."""
    return OSError('the shared object %s: it is of another version. In the repository, after `tools/build capi`: %s' % (what, BUILD))


def _number(name, value, bits=64):
    """A whole number of so many bits. ctypes would cut a larger one off, and take a negative one for another."""
    try:
        value = operator.index(value)
    except TypeError:
        raise TypeError('%s is %r: not a whole number' % (name, value)) from None
    if not 0 <= value < 2**bits:
        raise ValueError('%s is %d: not from 0 to 2^%d - 1' % (name, value, bits))
    return value


class _Numbered(enum.IntEnum):
    """Numbers with a short text each, which is the header's."""

    def __new__(cls, number, text):
        one = int.__new__(cls, number)
        one._value_ = number
        one.text = text
        return one

    def __str__(self):
        return '%s %d: %s' % (type(self).__name__.lower(), self.value, self.text)


class Cause(_Numbered):
    """Why a step trapped, by the names that the privileged manual has for the causes."""
    INSTRUCTION_ADDRESS_MISALIGNED = 0, 'instruction address misaligned'
    INSTRUCTION_ACCESS_FAULT = 1, 'instruction access fault'
    ILLEGAL_INSTRUCTION = 2, 'illegal instruction'
    BREAKPOINT = 3, 'breakpoint'
    LOAD_ADDRESS_MISALIGNED = 4, 'load address misaligned'
    LOAD_ACCESS_FAULT = 5, 'load access fault'
    STORE_ADDRESS_MISALIGNED = 6, 'store/AMO address misaligned'
    STORE_ACCESS_FAULT = 7, 'store/AMO access fault'
    ENVIRONMENT_CALL = 8, 'environment call'


class Refusal(_Numbered):
    """Why a call is refused: 1 to 5 an event, 2 and 6 a block, 7 to 11 a case file, 1, 2 and 11 a run, 1, 2, 12 and 13 a replay, 21
    to 23 a settings file."""
    MEMORY = 1, "the set size or the memory's length or base is wrong"
    STATE = 2, 'a setting other than the set size, or the state, is wrong'
    HART = 3, 'the hart is not below the count'
    DEVICE_SIZE = 4, 'a device write of 0 or more than 8 bytes'
    DEVICE_ADDRESS = 5, 'a device write not wholly in memory'
    BLOCK = 6, 'a block of fewer than 2 or more than 16 words'
    FILE_LENGTH = 7, "the file's length is not 40 to 65536"
    TABLE = 8, 'the table of contents is wrong'
    HARTS_BODY = 9, 'the harts body is wrong'
    MEMORY_BODY = 10, "the memory body's length, or base plus length, is wrong"
    EVENTS = 11, 'an event or the length of the events is wrong'
    LOG_LENGTH = 12, "the log's length is not a multiple of 48"
    LOG_EMPTY = 13, 'the log has no rows'
    SETTINGS_TABLE = 21, "the settings file's length, number of boards, table or room is wrong"
    SETTINGS_FORMAT = 22, "the settings file's format is not 1 or 2"
    SETTINGS_BOARD = 23, "a board's set size, version of A or misaligned is wrong"


class Reason(_Numbered):
    """Why a block is rejected. docs/USING.md has each in full."""
    NO_LR = 1, 'place 0 is not an LR'
    NOT_PERMITTED = 2, 'a word that a retry loop may not hold'
    JUMP = 3, 'a jump or branch that a retry loop may not make'
    WRITES_RS1 = 4, "the LR's rs1 is written before the SC"
    OTHER_SC = 5, 'the SC has another width or rs1 than the LR'
    NO_SC = 6, 'no SC'


class Refused(Exception):
    """A call that the model refuses: nothing has changed. `place` is that of a run, a report or a settings file, else None."""

    def __init__(self, refusal, place=None):
        super().__init__(refusal, place)
        self.refusal, self.place = Refusal(refusal), place

    def __str__(self):
        if self.place is None:
            return str(self.refusal)
        return 'refusal %d at %d: %s' % (self.refusal, self.place, self.refusal.text)


class Kind(enum.Enum):
    RETIRED = 0
    SC_STORED = 1
    SC_FAILED = 2
    TRAP = _TRAP


class Outcome(NamedTuple):
    """The answer to an event that isn't refused. Of a trap it has the cause and the value; nothing has changed then.

    `broke` is the harts whose reservation the event broke, bit 0 for hart 0; `harts` lists them. A retired write of another hart (a store, an
    AMO, an equal AMOCAS, an SC that stored) breaks a reservation if it touches a byte of its set, the aligned bytes around the LR's address, as
    many as the state's `set_size`; a device write if it touches a byte that the LR read; both also where they write the bytes that were there.
    Under A 2.0 a device write breaks none. A step never sets the bit of its own hart, also where it drops that hart's reservation (an SC) or
    replaces it (an LR). A yield, a trap and everything else that writes nothing has 0. Only bits below the count are ever set; what an unused
    hart seems to hold isn't looked at. Two outcomes that differ in `broke` aren't equal: RETIRED, SC_STORED and SC_FAILED are those that broke
    none.
    """
    kind: Kind
    cause: Optional[Cause] = None
    value: int = 0
    broke: int = 0

    def __str__(self):
        """What it came to; behind it, as on a report's line, whose reservation was broken."""
        text = self.kind.name.lower().replace('_', ' ')
        if self.kind is Kind.TRAP:
            text = 'trap %d %016x: %s' % (self.cause, self.value, self.cause.text)
        return text + (' broke %02x' % self.broke if self.broke else '')


RETIRED, SC_STORED, SC_FAILED = Outcome(Kind.RETIRED), Outcome(Kind.SC_STORED), Outcome(Kind.SC_FAILED)


def harts(bits):
    """The harts of a set such as `Outcome.broke`, the lowest first: harts(0b1001) is (0, 3)."""
    bits = _number('set of harts', bits, MAX_HARTS)
    return tuple(hart for hart in range(MAX_HARTS) if bits >> hart & 1)


def trap(cause, value):
    return Outcome(Kind.TRAP, Cause(cause), value)


class StopKind(enum.Enum):
    AGREED = 0
    FORM = 1
    PC = 2
    WORD = 3
    RD = 4
    VALUE = 5
    TRAP = _TRAP


class Stop(NamedTuple):
    """Why a replay ended. Of a difference (PC, WORD, RD, VALUE) it has the board's value and the model's, of a trap the cause and the value."""
    kind: StopKind
    board: int = 0
    model: int = 0
    cause: Optional[Cause] = None
    value: int = 0

    def __str__(self):
        name = self.kind.name.lower()
        if self.kind is StopKind.TRAP:
            return str(trap(self.cause, self.value))
        digits = {StopKind.PC: '%016x', StopKind.WORD: '%08x', StopKind.RD: '%02d', StopKind.VALUE: '%016x'}.get(self.kind)
        return name if digits is None else ' '.join([name, digits % self.board, digits % self.model])


class Replayed(NamedTuple):
    """What a replay came to: how many rows there are before the stop, and the stop. State and memory are the ones after exactly those rows."""
    rows: int
    stop: Stop


class Verdict(NamedTuple):
    """What the checker says of a block: accepted, or the lowest place that has a reason and the lowest reason there."""
    accepted: bool
    place: Optional[int] = None
    reason: Optional[Reason] = None


class Reservation(NamedTuple):
    """What an LR made: the `width` bytes, 4 or 8, at `addr`; of the 32-bit kind 4."""
    addr: int
    width: int


class State:
    """The state: of harts 0 to count - 1, 1 to 8 of them, the registers x[hart][register], pc[hart] and the reservation; and for all of them
    set_size, how many bytes the set of a reservation has, a power of two from 8 to 4,096, version, that of A which the machine follows, A_2_0 or
    A_2_1, kind, that of the core, KIND_64 or KIND_32, and misaligned, what a misaligned LR, SC, AMO or AMOCAS gives, MISALIGNED_4_AND_6 or
    MISALIGNED_5_AND_7. No call changes these four.

    The registers and pcs of a 32-bit core have 32 bits, and an upper half that is zero: -1 is 2**32 - 1. In a used hart any other is refused by 2,
    and so is a reservation 8 wide. Every event keeps the upper halves zero.

    Two states are equal if all of this is, of unused harts too. How a reservation is written down in bytes doesn't count.
    """
    __slots__ = '_bytes', '_numbers', '_x', '_pc'
    __hash__ = None

    def __init__(self, count, *, set_size=SET_SIZE, version=A_2_1, kind=KIND_64, misaligned=MISALIGNED_4_AND_6):
        """Registers and pcs are 0, and there are no reservations. What isn't allowed is refused when it is used: a set size by 1, a version, a kind,
        a misaligned or a count by 2."""
        self._bytes = bytearray(STATE_SIZE)
        # Numbers of 64 bits over the bytes: assigning one that doesn't fit is an error, of Python's own.
        self._numbers = memoryview(self._bytes).cast('Q')
        self._x = tuple(self._numbers[1 + 32 * h:33 + 32 * h] for h in range(MAX_HARTS))
        self._pc = self._numbers[257:265]
        self.count, self.set_size, self.version, self.kind, self.misaligned = count, set_size, version, kind, misaligned

    @property
    def count(self):
        return self._numbers[0]

    @count.setter
    def count(self, count):
        self._numbers[0] = _number('count', count)

    @property
    def set_size(self):
        return self._numbers[289]

    @set_size.setter
    def set_size(self, set_size):
        self._numbers[289] = _number('set_size', set_size)

    @property
    def version(self):
        return self._numbers[290]

    @version.setter
    def version(self, version):
        self._numbers[290] = _number('version', version)

    @property
    def kind(self):
        return self._numbers[291]

    @kind.setter
    def kind(self, kind):
        self._numbers[291] = _number('kind', kind)

    @property
    def misaligned(self):
        return self._numbers[292]

    @misaligned.setter
    def misaligned(self, misaligned):
        self._numbers[292] = _number('misaligned', misaligned)

    @property
    def x(self):
        return self._x

    @property
    def pc(self):
        return self._pc

    def _slot(self, hart):
        if _number('hart', hart) >= MAX_HARTS:
            raise IndexError('hart is %d: a state has places for %d' % (hart, MAX_HARTS))
        return 265 + 3 * hart

    def reservation(self, hart):
        """The reservation that a hart holds, or None."""
        held, addr, width = self._numbers[self._slot(hart):self._slot(hart) + 3]
        return Reservation(addr, width) if held else None

    def set_reservation(self, hart, reservation):
        """Gives a hart a reservation, or none."""
        numbers = (0, 0, 0)
        if reservation is not None:
            addr, width = reservation
            numbers = (1, _number('addr', addr), _number('width', width))
        for n, number in enumerate(numbers, self._slot(hart)):
            self._numbers[n] = number

    def to_bytes(self):
        """Its 2344 bytes, as the header says: every number 8 bytes, the lowest first."""
        return bytes(self._bytes)

    @classmethod
    def from_bytes(cls, data):
        """The state that has these 2344 bytes: any bytes are one."""
        data = _read(data)
        if len(data) != STATE_SIZE:
            raise ValueError('%d bytes: a state has %d' % (len(data), STATE_SIZE))
        state = cls(0)
        state._bytes[:] = data
        return state

    def _meaning(self):
        return self._numbers[:265].tolist(), [self.reservation(h) for h in range(MAX_HARTS)], self._numbers[289:].tolist()

    def __eq__(self, other):
        return self._meaning() == other._meaning() if isinstance(other, State) else NotImplemented

    def __reduce__(self):
        return State.from_bytes, (self.to_bytes(),)

    def __repr__(self):
        pcs = ' '.join('%#x' % pc for pc in self.pc[:min(self.count, MAX_HARTS)])
        version = {A_2_0: 'A 2.0', A_2_1: 'A 2.1'}.get(self.version, 'version %d' % self.version)
        kind = {KIND_64: '64 bits', KIND_32: '32 bits'}.get(self.kind, 'kind %d' % self.kind)
        # The default goes without saying.
        misaligned = {MISALIGNED_4_AND_6: '', MISALIGNED_5_AND_7: ', misaligned 5 and 7'}.get(self.misaligned, ', misaligned %d' % self.misaligned)
        return '<State of %d harts, %s, %s, sets of %d bytes%s, pcs %s>' % (self.count, kind, version, self.set_size, misaligned, pcs)


@dataclass(frozen=True)
class Event:
    """An event, as a run takes it: Event.step(hart), Event.device_write(addr, size, data) or Event.yield_hart(hart)."""
    kind: int
    hart: int = 0
    size: int = 0
    addr: int = 0
    data: int = 0

    def __post_init__(self):
        for name, bits in [('kind', 8), ('hart', 8), ('size', 8), ('addr', 64), ('data', 64)]:
            object.__setattr__(self, name, _number(name, getattr(self, name), bits))
        used = {1: ['hart'], 2: ['size', 'addr', 'data'], 3: ['hart']}.get(self.kind)
        if used is None:
            raise ValueError('kind is %d: not 1, 2 or 3' % self.kind)
        for name in ['hart', 'size', 'addr', 'data']:
            if getattr(self, name) != 0 and name not in used:
                raise ValueError('%s is %d: an event of kind %d has none' % (name, getattr(self, name), self.kind))
        if self.size <= 8:
            _number('data', self.data, 8 * self.size)

    @classmethod
    def step(cls, hart):
        return cls(1, hart=hart)

    @classmethod
    def device_write(cls, addr, size, data):
        """Data above the size is left out, as `device_write` leaves it out: a run refuses an event that has it."""
        low = 2**(8 * min(_number('size', size, 8), 8)) - 1
        return cls(2, size=size, addr=addr, data=_number('data', data) & low)

    @classmethod
    def yield_hart(cls, hart):
        return cls(3, hart=hart)

    def to_bytes(self):
        """The 24 bytes of an event: kind, hart, size, five zeros, address, data."""
        return struct.pack('<BBB5xQQ', self.kind, self.hart, self.size, self.addr, self.data)


def _read(data):
    """A copy of bytes, so that it overlaps nothing that is written. A number or a text isn't bytes."""
    return bytes(memoryview(data))


def _words(words):
    """A list of words, numbers of 32 bits. Bytes, and any other buffer whose items aren't 4 bytes, hold no words."""
    try:
        with memoryview(words) as view:
            size = view.itemsize
    except TypeError:
        size = None
    if size not in (None, 4) or isinstance(words, str):
        raise TypeError('%s is no list of words%s' % (type(words).__name__, '' if size is None else ': its items have a length of %d' % size))
    return [_number('word', word, 32) for word in words]


def _lent(state, mem):
    """The bytes of a memory that the library may write, as an array of ctypes, and how many they are."""
    view = memoryview(mem)
    if view.readonly:
        raise TypeError('the memory is read-only: lend a bytearray')
    if view.nbytes == 0:
        return (ctypes.c_uint8 * 1)(), 0
    lent = (ctypes.c_uint8 * view.nbytes).from_buffer(view.cast('B'))
    start, other = ctypes.addressof(lent), ctypes.addressof(ctypes.c_uint8.from_buffer(state._bytes))
    if start < other + STATE_SIZE and other < start + view.nbytes:
        raise ValueError('the memory is part of the state')
    return lent, view.nbytes


def _call(name, told, state, base, mem, *arguments):
    """A call on a state and a memory: the answer, and the numbers that it told."""
    if not isinstance(state, State):
        raise TypeError('%r is no State' % (state,))
    base, (lent, length) = _number('base', base), _lent(state, mem)
    numbers = (ctypes.c_uint64 * told)()
    answer = getattr(_library(), 'floecavern_' + name)(
        (ctypes.c_uint8 * STATE_SIZE).from_buffer(state._bytes), STATE_SIZE, base, lent, length, *arguments, numbers, 8 * told)
    if answer == _BAD_SIZE:  # the sizes are right, so the shared object is of another version, in which a state has another size
        raise _other_size()
    return answer, list(numbers)


def _outcome(answer, numbers):
    """What an event came to. The number told is a trap's value, or else whose reservation was broken."""
    if answer >= _REFUSED:
        raise Refused(answer - _REFUSED)
    if answer >= _TRAP:
        return trap(answer - _TRAP, numbers[0])
    return Outcome(Kind(answer), broke=numbers[0])


def step(state, base, mem, hart):
    """A step of a hart on the memory, a bytearray, at `base`: fetches the word at its pc and performs it. Refusals 1 to 3."""
    return _outcome(*_call('step', 1, state, base, mem, _number('hart', hart)))


def device_write(state, base, mem, addr, size, data):
    """A device writes the `size` lowest bytes of `data` at `addr`, the lowest first. Under A 2.0 it breaks no reservation. Refusals 1, 2, 4 and
    5."""
    return _outcome(*_call('device_write', 1, state, base, mem, _number('addr', addr), _number('size', size), _number('data', data)))


def yield_hart(state, base, mem, hart):
    """A yield: drops a hart's reservation. Refusals 1 to 3."""
    return _outcome(*_call('yield', 1, state, base, mem, _number('hart', hart)))


def run(state, base, mem, events, budget=None):
    """A run of the first `budget` events, or of all: how many that were. Traps don't stop it. Whose reservation they broke isn't told;
    `Machine.perform` tells it of an event. Refusals 1, 2 and 11."""
    events = list(events)
    for event in events:
        if not isinstance(event, Event):
            raise TypeError('%r is no Event' % (event,))
    return run_bytes(state, base, mem, b''.join(event.to_bytes() for event in events), budget)


def run_bytes(state, base, mem, events, budget=None):
    """The same of events that are bytes already, 24 for each, such as a case file's."""
    events, budget = _read(events), _ALL if budget is None else _number('budget', budget)
    answer, (performed, place) = _call('run', 2, state, base, mem, events, len(events), budget)
    if answer >= _REFUSED:
        raise Refused(answer - _REFUSED, place)
    return performed


def replay(state, base, mem, log):
    """A board's step log, 48 bytes for each row, replayed: the hart of each row steps, up to the first row that doesn't agree with the model.
    Refusals 1, 2, 12 and 13."""
    log = _read(log)
    answer, (rows, board, model) = _call('replay', 3, state, base, mem, log, len(log))
    if answer >= _REFUSED:
        raise Refused(answer - _REFUSED)
    if answer >= _TRAP:
        return Replayed(rows, Stop(StopKind.TRAP, cause=Cause(answer - _TRAP), value=model))
    return Replayed(rows, Stop(StopKind(answer), board, model))


def report_text(file):
    """All that the program `floecavern` writes for the bytes of a case file, whatever they are."""
    file, out = _read(file), (ctypes.c_uint8 * REPORT_ROOM)()
    length = _library().floecavern_report(file, len(file), out, REPORT_ROOM)
    return bytes(memoryview(out)[:length]).decode('ascii')


def report(file):
    """The lines of a case file. Refusals 7 to 11."""
    text = report_text(file)
    if text.startswith('refused '):
        _, number, place = text.split()
        raise Refused(int(number), int(place))
    return text


def check_loop(words, *, version=A_2_1, kind=KIND_64):
    """Whether a block of instruction words, numbers of 32 bits, is a retry loop that is accepted under a version of A, read as a kind of core reads
    them. Under A_2_0 a later word may be a JALR too. As KIND_32 the words are those of RV32I, LR.W and SC.W. Refusals 2, of any other version or
    kind, and 6. That an accepted loop finishes if it is left alone is claimed of the blocks that are accepted under A_2_1, on a machine of the kind
    that they were read as: of each kind these are exactly those that are accepted under 2.0 and have no JALR."""
    version, kind = _number('version', version), _number('kind', kind)
    # A block of 17 or more words is refused whatever the words are, so that 17 of them say it.
    block = b''.join(struct.pack('<I', word) for word in _words(words)[:17])
    answer = _library().floecavern_check_loop_for(version, kind, block, len(block))
    assert answer != _BAD_SIZE, 'whole words'
    if answer == 0:
        return Verdict(True)
    if answer in (Refusal.STATE, Refusal.BLOCK):
        raise Refused(answer)
    return Verdict(False, answer // 256 - 1, Reason(answer % 256))


class Board(NamedTuple):
    """What a board is set to, as a settings file has it; a case says the kind of core itself. The defaults are a state's."""
    set_size: int = SET_SIZE
    version: int = A_2_1
    misaligned: int = MISALIGNED_4_AND_6


class SettingsFile(NamedTuple):
    """A settings file: its format, 1 or 2, and its boards, 1 to 16. Those of a file of format 1 have MISALIGNED_4_AND_6."""
    format: int
    boards: tuple


def read_settings(file):
    """The settings file that bytes are, whatever they are. Refusals 21, 22, 21 again and 23, in this order; the place of 23 is where the first bad
    board's body starts, that of the others 0."""
    file, boards, told = _read(file), (ctypes.c_uint64 * (3 * MAX_BOARDS))(), (ctypes.c_uint64 * 2)()
    answer = _library().floecavern_read_settings(file, len(file), boards, MAX_BOARDS * BOARD_SIZE, told, 16)
    assert answer != _BAD_SIZE, 'the sizes are right'
    if answer != 0:
        raise Refused(answer - _REFUSED, told[0])
    return SettingsFile(told[0], tuple(Board(*boards[3 * k:3 * k + 3]) for k in range(told[1])))


def write_settings(boards):
    """The bytes of the settings file of these boards, of format 2. Refusals 21, if there are none or more than 16, and 23, whose place is where the
    body of the first bad board would start."""
    given = b''.join(struct.pack('<3Q', *(_number(name, number) for name, number in zip(Board._fields, Board(*board)))) for board in boards)
    out, told = (ctypes.c_uint8 * SETTINGS_ROOM)(), (ctypes.c_uint64 * 1)()
    answer = _library().floecavern_write_settings(given, len(given), out, SETTINGS_ROOM, told, 8)
    assert answer != _BAD_SIZE, 'the sizes are right'
    if answer != 0:
        raise Refused(answer - _REFUSED, told[0])
    return bytes(out[:told[0]])


class Machine:
    """A state and a memory, a bytearray, at `base`. All of it may be read and written between calls: what the model doesn't take is
    refused by the next call."""
    __slots__ = 'state', 'base', 'mem'
    __hash__ = None

    def __init__(self, harts, base, length, *, set_size=SET_SIZE, version=A_2_1, kind=KIND_64, misaligned=MISALIGNED_4_AND_6):
        """`harts` harts with their pc at `base`, registers 0 and no reservations; `length` bytes of memory, all 0; sets of `set_size` bytes; the
        `version` of A that it follows; the `kind` of its core; what a `misaligned` LR, SC, AMO or AMOCAS gives. Refusals 1 and 2: 1 also if the size
        isn't a power of two from 8 to 4,096, if the length or the base isn't a multiple of it, or if the memory of a 32-bit machine would end above
        2^32, 2 also if the version, the kind or misaligned is neither of its two."""
        state, base = State(harts, set_size=set_size, version=version, kind=kind, misaligned=misaligned), _number('base', base)
        for hart in range(min(state.count, MAX_HARTS)):
            state.pc[hart] = base
        # Before so much is allocated.
        if _number('length', length) > MAX_MEMORY:
            raise Refused(Refusal.MEMORY)
        self._take(state, base, bytearray(length))

    @classmethod
    def from_parts(cls, state, base, mem):
        """A machine of a state and a memory that are there already. Refusals 1 and 2."""
        machine = cls.__new__(cls)
        machine._take(state, base, mem)
        return machine

    def _take(self, state, base, mem):
        self.state, self.base, self.mem = state, base, mem
        try:
            self.run_bytes(b'', 0)  # tries both refusals and changes nothing
        except Refused as refused:
            raise Refused(refused.refusal) from None

    def __eq__(self, other):
        if not isinstance(other, Machine):
            return NotImplemented
        return (self.state, self.base, self.mem) == (other.state, other.base, other.mem)

    def _part(self, addr, length):
        """The `length` bytes of memory from `addr` on, to read and write, or None if they aren't wholly in it."""
        view = memoryview(self.mem)
        place = _number('addr', addr) - self.base
        if not 0 <= place <= view.nbytes - length:
            return None
        return view.cast('B')[place:place + length] if length else memoryview(b'')

    def put_words(self, addr, words):
        """Puts words into memory from `addr` on, 4 bytes each with the lowest first. This is no event: it breaks no reservation.
        Refusal 5, and nothing is written, if they aren't wholly in memory."""
        data = b''.join(struct.pack('<I', word) for word in _words(words))
        part = self._part(addr, len(data))
        if part is None:
            raise Refused(Refusal.DEVICE_ADDRESS)
        if data:
            part[:] = data

    def bytes(self, addr, length):
        """The `length` bytes from `addr` on, or None if they aren't wholly in memory."""
        part = self._part(addr, _number('length', length))
        return None if part is None else part.tobytes()

    def step(self, hart):
        return step(self.state, self.base, self.mem, hart)

    def device_write(self, addr, size, data):
        return device_write(self.state, self.base, self.mem, addr, size, data)

    def yield_hart(self, hart):
        return yield_hart(self.state, self.base, self.mem, hart)

    def perform(self, event):
        """An event by itself."""
        if not isinstance(event, Event):
            raise TypeError('%r is no Event' % (event,))
        if event.kind == 1:
            return self.step(event.hart)
        if event.kind == 3:
            return self.yield_hart(event.hart)
        return self.device_write(event.addr, event.size, event.data)

    def run(self, events, budget=None):
        return run(self.state, self.base, self.mem, events, budget)

    def run_bytes(self, events, budget=None):
        return run_bytes(self.state, self.base, self.mem, events, budget)

    def replay(self, log):
        return replay(self.state, self.base, self.mem, log)
