"""python/floecavern.py over a shared object of the static library, which is made by the command that the documents give."""
import copy
import ctypes
import os
import pickle
import re
import shutil
import subprocess
import sys
import tempfile
import textwrap
import unittest
import unittest.mock
from array import array

from common import EXAMPLE, EXAMPLE_LINES, PAIRS, ROOT, data, vector_pairs
from common import KIND_32 as CASES_32
import casetext

sys.path.insert(0, os.path.join(ROOT, 'python'))
import floecavern
from floecavern import (A_2_0, A_2_1, KIND_32, KIND_64, MISALIGNED_4_AND_6, MISALIGNED_5_AND_7, RETIRED, SC_FAILED, SC_STORED, Board, Cause, Event, Kind,
                        Machine, Outcome, Reason, Refusal, Refused, Replayed, Reservation, SettingsFile, State, Stop, StopKind, Verdict, check_loop,
                        device_write, harts, read_settings, replay, report, report_text, run, run_bytes, step, trap, write_settings, yield_hart)

LIBRARY = os.path.join(ROOT, 'target', 'staticlib', 'libcapi.a')
LR, SC = 0x1002a32f, 0x1882a3af  # lr.w x6,(x5); sc.w x7,x8,(x5)
LOOP = [0x1002a32f, 0x00031663, 0x1882a3af, 0xfe039ae3]


def setUpModule():
    """The documented command, but for where the shared object goes."""
    if not (shutil.which('cc') and os.path.exists(LIBRARY)):
        raise unittest.SkipTest('no shared object for python/: no C compiler, or target/staticlib/libcapi.a is not built')
    folder = tempfile.mkdtemp()
    unittest.addModuleCleanup(shutil.rmtree, folder)
    made = os.path.join(folder, 'libfloecavern.so')
    subprocess.run(floecavern.BUILD.replace('target/libfloecavern.so', made), shell=True, cwd=ROOT, check=True)
    os.environ['FLOECAVERN_SO'] = made
    unittest.addModuleCleanup(os.environ.pop, 'FLOECAVERN_SO')


def machine(harts=2, base=0, words=(LR, SC), length=256):
    """Harts at pc `base`, x5 = `base + 64` in each, with the words at `base`."""
    made = Machine(harts, base, length)
    made.put_words(base, words)
    for hart in range(harts):
        made.state.x[hart][5] = base + 64
    return made


class Refuses(unittest.TestCase):
    def refuses(self, refusal, call, *arguments, place=None):
        with self.assertRaises(Refused) as caught:
            call(*arguments)
        self.assertEqual((caught.exception.refusal, caught.exception.place), (refusal, place))

    def refuses_unchanged(self, refusal, of, call, *arguments, place=None):
        state, mem = of.state.to_bytes(), bytes(of.mem)
        self.refuses(refusal, call, of.state, of.base, of.mem, *arguments, place=place)
        self.assertEqual((of.state.to_bytes(), bytes(of.mem)), (state, mem))


class Calls(Refuses):
    def test_example(self):
        m = machine()
        m.state.x[1][8] = 0x123456789abcdef0
        self.assertEqual(m.step(0), RETIRED)
        self.assertEqual(m.state.reservation(0), Reservation(64, 4))
        self.assertEqual(m.device_write(72, 1, 0xff), RETIRED)
        self.assertEqual([m.step(1), m.step(1), m.step(0)], [RETIRED, SC_STORED._replace(broke=1), SC_FAILED])
        self.assertEqual((m.bytes(64, 4), m.bytes(72, 1)), (b'\xf0\xde\xbc\x9a', b'\xff'))
        self.assertEqual((m.state.x[0][7], m.state.x[1][7], list(m.state.pc[:2])), (1, 0, [8, 8]))
        self.assertEqual([m.state.reservation(h) for h in range(8)], [None] * 8)

    def test_traps(self):
        m = machine(1, 4096, [LR, 0x73, 0x100073, 0x12345678, 0x0020006f, 0x0002a023, 0x0082a3af])
        for pc, x5, cause, value in [(4100, 0, Cause.ENVIRONMENT_CALL, 0), (4104, 0, Cause.BREAKPOINT, 0), (4108, 0, Cause.ILLEGAL_INSTRUCTION, 0x12345678),
                                     (4112, 0, Cause.INSTRUCTION_ADDRESS_MISALIGNED, 4114), (8192, 0, Cause.INSTRUCTION_ACCESS_FAULT, 8192),
                                     (4096, 4097, Cause.LOAD_ADDRESS_MISALIGNED, 4097), (4096, 2**64 - 4, Cause.LOAD_ACCESS_FAULT, 2**64 - 4),
                                     (4116, 4098, Cause.STORE_ADDRESS_MISALIGNED, 4098), (4120, 4352, Cause.STORE_ACCESS_FAULT, 4352)]:
            m.state.pc[0], m.state.x[0][5] = pc, x5
            before = copy.deepcopy(m)
            self.assertEqual(m.step(0), trap(cause, value))
            self.assertEqual(m, before)
        self.assertEqual(str(m.step(0)), 'trap 7 0000000000001100: store/AMO access fault')

    def test_refusals(self):
        m = machine()
        for base, mem in [(1, m.mem), (2**41, m.mem), (0, bytearray()), (0, bytearray(63)), (0, bytearray(2**20 + 64))]:
            bad = machine()
            bad.base, bad.mem = base, mem
            self.refuses_unchanged(Refusal.MEMORY, bad, step, 0)
            self.refuses_unchanged(Refusal.MEMORY, bad, yield_hart, 9)
            self.refuses_unchanged(Refusal.MEMORY, bad, device_write, 0, 0, 0)
            self.refuses_unchanged(Refusal.MEMORY, bad, run, [], place=0)
        for field, value in [('count', 0), ('count', 9), ('count', 2**64 - 1)]:
            bad = machine()
            setattr(bad.state, field, value)
            self.refuses_unchanged(Refusal.STATE, bad, step, 0)
            self.refuses_unchanged(Refusal.STATE, bad, run, [], place=0)
        bad = machine()
        bad.state.set_reservation(1, Reservation(64, 16))
        self.refuses_unchanged(Refusal.STATE, bad, step, 0)
        for hart in [2, 8, 2**64 - 1]:
            self.refuses_unchanged(Refusal.HART, m, step, hart)
            self.refuses_unchanged(Refusal.HART, m, yield_hart, hart)
        for size in [0, 9, 2**64 - 1]:
            self.refuses_unchanged(Refusal.DEVICE_SIZE, m, device_write, 64, size, 0)
        for addr, size in [(256, 1), (249, 8), (2**64 - 1, 8)]:
            self.refuses_unchanged(Refusal.DEVICE_ADDRESS, m, device_write, addr, size, 0)

    def test_runs(self):
        m = machine()
        events = [Event.step(0), Event.device_write(72, 1, 0xfff), Event.step(1), Event.step(1), Event.step(0)]
        for n in range(6):
            one_by_one, at_once = machine(), machine()
            for event in events[:n]:
                one_by_one.perform(event)
            self.assertEqual(at_once.run(iter(events), n), n)
            self.assertEqual(at_once, one_by_one)
        self.assertEqual((m.run(events), m.run([]), m.run_bytes(b''.join(e.to_bytes() for e in events), 2**64 - 1)), (5, 0, 5))
        for bad in [Event.step(2), Event.yield_hart(255), Event.device_write(64, 0, 9), Event.device_write(64, 9, 0), Event.device_write(249, 8, 0)]:
            self.refuses_unchanged(Refusal.EVENTS, m, run, events + [bad] + events, 1, place=120)
        self.refuses_unchanged(Refusal.EVENTS, m, run_bytes, bytes(23), place=0)

    def test_replays(self):
        """The log of an LR and an SC, and the log with another byte: the machine is then the one after the rows before it."""
        log = b'1 0000000000000000 1002a32f 06 0000000000000000\n1 0000000000000004 1882a3af 07 0000000000000000\n'
        m = machine()
        self.assertEqual((m.replay(log), m.state.pc[1]), (Replayed(2, Stop(StopKind.AGREED)), 8))
        for place, byte, stop, text in [(0, '2', Stop(StopKind.FORM), 'form'), (17, '0', Stop(StopKind.PC, 0, 4), 'pc 0000000000000000 0000000000000004'),
                                        (26, 'e', Stop(StopKind.WORD, SC - 1, SC), 'word 1882a3ae 1882a3af'),
                                        (28, '9', Stop(StopKind.RD, 97, 7), 'rd 97 07'),
                                        (31, 'f', Stop(StopKind.VALUE, 15 << 60, 0), 'value f000000000000000 0000000000000000')]:
            m, before = machine(), machine()
            before.step(1)
            changed = bytearray(log)
            changed[48 + place] = ord(byte)
            self.assertEqual((m.replay(changed), m, str(stop)), (Replayed(1, stop), before, text))
        m.state.x[1][5] = 66
        stop = Stop(StopKind.TRAP, cause=Cause.STORE_ADDRESS_MISALIGNED, value=66)
        self.assertEqual(m.replay(memoryview(log)[48:]), Replayed(0, stop))
        self.assertEqual(str(stop), 'trap 6 0000000000000042: store/AMO address misaligned')
        self.refuses_unchanged(Refusal.LOG_LENGTH, m, replay, log[1:])
        self.refuses_unchanged(Refusal.LOG_EMPTY, m, replay, b'')
        self.refuses(Refusal.STATE, replay, State(0), 0, bytearray(64), b'')
        self.refuses(Refusal.MEMORY, replay, State(1), 1, bytearray(64), b'x')

    def test_loops(self):
        self.assertEqual(check_loop(LOOP), Verdict(True))
        self.assertEqual(check_loop(LOOP[:2]), Verdict(False, 2, Reason.NO_SC))
        self.assertEqual(check_loop(iter(LOOP[1:])), Verdict(False, 0, Reason.NO_LR))
        for block in [[], LOOP[:1], [LR] * 17, [LR] * 100]:
            self.refuses(Refusal.BLOCK, check_loop, block)

    def test_report(self):
        self.assertEqual(report(data(EXAMPLE)), data(EXAMPLE_LINES).decode())
        self.refuses(Refusal.FILE_LENGTH, report, b'', place=0)
        self.refuses(Refusal.TABLE, report, bytearray(40), place=0)
        self.assertEqual(report_text(bytes(65537)), 'refused 7 0\n')

    def test_machines(self):
        for harts, base, length, refusal in [(0, 0, 64, Refusal.STATE), (9, 0, 64, Refusal.STATE), (1, 32, 64, Refusal.MEMORY), (1, 0, 0, Refusal.MEMORY),
                                             (1, 0, 2**20 + 64, Refusal.MEMORY), (1, 0, 2**64 - 1, Refusal.MEMORY)]:
            self.refuses(refusal, Machine, harts, base, length)
        self.refuses(Refusal.STATE, Machine.from_parts, State(0), 0, bytearray(64))
        self.refuses(Refusal.MEMORY, Machine.from_parts, State(1, set_size=0), 0, bytearray(64))
        m = machine(1, 4096)
        before = copy.deepcopy(m)
        for addr in [0, 4092, 4349, 4352, 2**64 - 1]:
            self.refuses(Refusal.DEVICE_ADDRESS, m.put_words, addr, [SC])
            self.assertIsNone(m.bytes(addr, 4))
        m.put_words(4352, [])
        self.assertEqual((m, m.bytes(4352, 0), m.bytes(4096, 2**64 - 1)), (before, b'', None))
        of_words = Machine.from_parts(State(1), 0, array('Q', [0x73] * 8))
        self.assertEqual(of_words.step(0), trap(8, 0))

    def test_outside_cases(self):
        """What the calls answer, event by event, is what the lines of every outside case say; and a run does the same. The harts whose reservation an
        event broke are those that held one before it and don't after it, but for the hart of a step or a yield."""
        self.assertEqual(self.outside(vector_pairs()), (834, 64_035, 1_283))

    def test_outside_cases_of_32_bits(self):
        """The same of the cases of request 10; one of them is among those above too."""
        self.assertEqual(self.outside(vector_pairs(CASES_32))[0], 138)

    def outside(self, pairs):
        """How many cases aren't refused, their events, and how many of these broke a reservation."""
        cases = events = breaks = 0
        for name, file, expected in pairs:
            self.assertEqual(report_text(file).encode(), expected, name)
            if expected.startswith(b'refused'):
                continue
            start, body = read(file)
            one_by_one, lines = copy.deepcopy(start), []
            for n in range(0, len(body), 24):
                event, before = body[n:n + 24], held(one_by_one)
                who, outcome = perform(one_by_one, event)
                lines.append('%d %s %s' % (n // 24, who, said(outcome)))
                own = 0 if event[0] == 2 else 1 << event[1]
                self.assertEqual(outcome.broke, before & ~held(one_by_one) & ~own, (name, n // 24))
            self.assertEqual(lines, expected.decode().splitlines()[1:-1], name)
            self.assertEqual((start.run_bytes(body), start), (len(body) // 24, one_by_one), name)
            cases, events, breaks = cases + 1, events + len(body) // 24, breaks + expected.count(b' broke ')
        return cases, events, breaks


def number(bytes_):
    return int.from_bytes(bytes_, 'little')


def read(file):
    """The machine and the events body of a case file that isn't refused."""
    mem, events = number(file[20:24]), number(file[32:36])
    state = State(number(file[48:52]), kind=number(file[52:56]))
    for hart in range(state.count):
        at = 56 + 256 * hart
        for r in range(1, 32):
            state.x[hart][r] = number(file[at + 8 * (r - 1):at + 8 * r])
        state.pc[hart] = number(file[at + 248:at + 256])
    return Machine.from_parts(state, number(file[40:48]), bytearray(file[mem:events])), file[events:]


def perform(m, e):
    """An event performed: its name on a line, and its outcome."""
    if e[0] == 1:
        return 'h%d' % e[1], m.step(e[1])
    if e[0] == 2:
        return 'd', m.device_write(number(e[8:16]), e[2], number(e[16:]))
    return 'y%d' % e[1], m.yield_hart(e[1])


def said(outcome):
    """What a line says of an outcome."""
    text = {Kind.RETIRED: 'ok', Kind.SC_STORED: 'sc 0', Kind.SC_FAILED: 'sc 1'}.get(outcome.kind)
    if text is None:
        text = 'trap %d %016x' % (outcome.cause, outcome.value)
    return text + (' broke %02x' % outcome.broke if outcome.broke else '')


def held(m):
    """The harts that hold a reservation, as bits."""
    return sum(1 << hart for hart in range(8) if m.state.reservation(hart) is not None)


class Broke(Refuses):
    """Whose reservation an event breaks."""
    SW, LW = 0x0082a023, 0x0002a303  # sw x8,0(x5); lw x6,0(x5)
    AMOADD, AMOCAS = 0x0082a4af, 0x2882a4af  # amoadd.w x9,x8,(x5); amocas.w x9,x8,(x5)

    def contended(self, word=0, **registers):
        """Four harts with x5 = 64 and the word at their pc; all other registers and bytes are 0, but for those given of hart 1. Harts 0, 1 and 2 hold the
        4 bytes at 64, hart 3 the 8 bytes at 128."""
        m = machine(4, words=[word], length=320)
        for hart in range(4):
            m.state.set_reservation(hart, Reservation(128, 8) if hart == 3 else Reservation(64, 4))
        for name, value in registers.items():
            m.state.x[1][int(name[1:])] = value
        return m

    def check(self, m, event, outcome, broke, left):
        """The event is answered so, and the harts that hold a reservation afterwards are `left`."""
        self.assertEqual((m.perform(event), held(m)), (outcome._replace(broke=broke), left))

    def test_retired_writes(self):
        """A write of hart 1 breaks the reservations of harts 0 and 2, also if it writes the zeros that are there. Its own stays, or an SC drops it: its bit
        isn't set either way."""
        for word, outcome, left in [(self.SW, RETIRED, 0b1010), (self.AMOADD, RETIRED, 0b1010), (self.AMOCAS, RETIRED, 0b1010), (SC, SC_STORED, 0b1000)]:
            for x8 in [0, 0x12345678]:
                self.check(self.contended(word, x8=x8), Event.step(1), outcome, 0b0101, left)

    def test_writes_in_the_set(self):
        """Where a hart writes in the set doesn't matter, only that it does."""
        for addr, broke in [(60, 0), (64, 0b0101), (68, 0b0101), (124, 0b0101), (128, 0b1000), (188, 0b1000), (192, 0)]:
            self.check(self.contended(self.SW, x5=addr), Event.step(1), RETIRED, broke, 0b1111 & ~broke)

    def test_steps_that_break_none(self):
        self.check(self.contended(self.AMOCAS, x9=1), Event.step(1), RETIRED, 0, 0b1111)
        self.check(self.contended(self.LW), Event.step(1), RETIRED, 0, 0b1111)
        m = self.contended(LR, x5=128)
        self.check(m, Event.step(1), RETIRED, 0, 0b1111)
        self.assertEqual(m.state.reservation(1), Reservation(128, 4))
        # An SC that fails: outside the set, or without a reservation.
        self.check(self.contended(SC, x5=128), Event.step(1), SC_FAILED, 0, 0b1101)
        m = self.contended(SC)
        m.state.set_reservation(1, None)
        self.check(m, Event.step(1), SC_FAILED, 0, 0b1101)
        self.check(self.contended(), Event.yield_hart(1), RETIRED, 0, 0b1101)

    def test_device_writes(self):
        """A device write breaks a reservation only if it touches a byte that the LR read. It has no hart of its own."""
        for addr, size, broke in [(63, 1, 0), (63, 2, 0b0111), (67, 1, 0b0111), (68, 1, 0), (68, 8, 0), (120, 8, 0), (121, 8, 0b1000), (135, 1, 0b1000),
                                  (136, 1, 0)]:
            self.check(self.contended(), Event.device_write(addr, size, 0), RETIRED, broke, 0b1111 & ~broke)

    def test_only_what_is_held(self):
        """What is broken once isn't broken again, and unused harts aren't looked at."""
        m = self.contended(self.SW)
        self.check(m, Event.step(1), RETIRED, 0b0101, 0b1010)
        m.state.pc[1] = 0
        self.check(m, Event.step(1), RETIRED, 0, 0b1010)
        for event, broke in [(Event.step(1), 0b0001), (Event.device_write(64, 1, 0), 0b0011)]:
            m = self.contended(self.SW)
            m.state.count = 2
            self.check(m, event, RETIRED, broke, 0b1111 & ~broke)

    def test_eight_harts(self):
        m = machine(8)
        self.assertEqual([m.step(hart) for hart in range(8)], [RETIRED] * 8)
        self.check(copy.deepcopy(m), Event.device_write(64, 8, 0), RETIRED, 0xff, 0)
        for hart in range(8):
            self.check(copy.deepcopy(m), Event.step(hart), SC_STORED, 0xff & ~(1 << hart), 0)

    def test_traps_and_refusals(self):
        """The value of a trap is no set of harts, whatever its bits are; a trap and a refusal break none."""
        for addr, cause in [(66, Cause.STORE_ADDRESS_MISALIGNED), (4160, Cause.STORE_ACCESS_FAULT)]:
            for word in [self.SW, SC, self.AMOADD, self.AMOCAS]:
                self.check(self.contended(word, x5=addr), Event.step(1), trap(cause, addr), 0, 0b1111)
        m = self.contended(self.SW)
        self.refuses_unchanged(Refusal.HART, m, step, 4)
        self.refuses_unchanged(Refusal.HART, m, yield_hart, 4)
        self.refuses_unchanged(Refusal.DEVICE_SIZE, m, device_write, 64, 9, 0)
        self.refuses_unchanged(Refusal.DEVICE_ADDRESS, m, device_write, 316, 8, 0)

    def test_texts(self):
        for outcome, text in [(RETIRED, 'retired'), (RETIRED._replace(broke=1), 'retired broke 01'), (SC_STORED._replace(broke=0xfe), 'sc stored broke fe'),
                              (SC_FAILED, 'sc failed'), (trap(2, 3), 'trap 2 0000000000000003: illegal instruction')]:
            self.assertEqual(str(outcome), text)
        self.assertNotEqual(Outcome(Kind.RETIRED, broke=1), RETIRED)

    def test_sets(self):
        for bits in range(256):
            self.assertEqual((sum(1 << hart for hart in harts(bits)), harts(bits)), (bits, tuple(sorted(harts(bits)))))
        self.assertEqual((harts(0), harts(0b1001), harts(0xff)), ((), (0, 3), tuple(range(8))))
        for error, bad in [(ValueError, -1), (ValueError, 256), (TypeError, 1.0), (TypeError, None)]:
            self.assertRaises(error, harts, bad)


class Sets(Refuses):
    """The size of a reservation's set: which are allowed, and what they change."""
    SIZES = [8, 16, 32, 64, 128, 256, 512, 1024, 2048, 4096]
    WRONG = [0, 1, 2, 4, 7, 9, 12, 24, 63, 65, 96, 4095, 4097, 8192, 2**63, 2**64 - 1]
    SW = 0x0082a023  # sw x8,0(x5)

    def reserved(self, set_size, lr, word, x5):
        """Two harts that hold the 4 bytes at `lr`, with the word at their pc."""
        m = Machine(2, 8192, 8192, set_size=set_size)
        m.put_words(8192, [word])
        for hart in range(2):
            m.state.x[hart][5] = x5
            m.state.set_reservation(hart, Reservation(lr, 4))
        return m

    def test_default(self):
        self.assertEqual((floecavern.SET_SIZE, State(1).set_size, Machine(1, 0, 64).state.set_size), (64, 64, 64))
        self.assertEqual(State(2).to_bytes(), b'\x02' + bytes(2311) + b'\x40' + bytes(7) + b'\x15' + bytes(7) + bytes(16))
        self.assertEqual((State(1, set_size=64), State(1, set_size=16).set_size), (State(1), 16))
        self.assertNotEqual(State(1, set_size=16), State(1))
        self.assertEqual(repr(State(2, set_size=16)), '<State of 2 harts, 64 bits, A 2.1, sets of 16 bytes, pcs 0x0 0x0>')
        # By its name alone: a later version may have more of them.
        self.assertRaises(TypeError, State, 1, 64)
        self.assertRaises(TypeError, Machine, 1, 0, 64, 64)

    def test_wrong_sizes(self):
        """Refusal 1, before 2, of every call; of a state of zeros too."""
        for size in self.WRONG:
            self.refuses(Refusal.MEMORY, lambda: Machine(1, 0, 64, set_size=size))
            for count in [0, 1, 9]:
                m = machine()
                m.state.count, m.state.set_size = count, size
                self.refuses_unchanged(Refusal.MEMORY, m, step, 0)
                self.refuses_unchanged(Refusal.MEMORY, m, yield_hart, 9)
                self.refuses_unchanged(Refusal.MEMORY, m, device_write, 0, 0, 0)
                self.refuses_unchanged(Refusal.MEMORY, m, run, [], place=0)
                self.refuses_unchanged(Refusal.MEMORY, m, replay, b'')
        zeros = State.from_bytes(b'\x01' + bytes(2343))
        self.refuses(Refusal.MEMORY, step, zeros, 0, bytearray(64), 0)
        self.assertEqual(str(Refused(1)), "refusal 1: the set size or the memory's length or base is wrong")

    def test_memories(self):
        """Length and base are multiples of the larger of 64 and the size."""
        for size in self.SIZES:
            most = max(64, size)
            for base, length in [(0, most), (most, most), (3 * most, 2 * most), (2**40, 2**20)]:
                self.assertEqual(Machine(1, base, length, set_size=size).state.set_size, size)
            for base, length in [(0, most // 2), (0, 3 * most // 2), (0, 0), (0, size // 2), (most // 2, most), (size // 2, most), (2**40 + most, most)]:
                self.refuses(Refusal.MEMORY, lambda: Machine(1, base, length, set_size=size))

    def test_store_beside(self):
        """A store of hart 1 at 72, and hart 0's LR at 64."""
        for size, broke in [(8, 0), (16, 1), (64, 1), (4096, 1)]:
            m = Machine(2, 0, 4096, set_size=size)
            m.put_words(0, [LR, self.SW])
            m.state.x[0][5], m.state.x[1][5], m.state.pc[1] = 64, 72, 4
            self.assertEqual((m.step(0), m.step(1), held(m)), (RETIRED, RETIRED._replace(broke=broke), 1 - broke))
            self.assertEqual(m.state.set_size, size)

    def test_every_size(self):
        """Two addresses that differ in one bit alone are in one set if the bit is worth less than the size."""
        lr = 8192 + 0x6a8
        for size in self.SIZES:
            for bit in [2**n for n in range(2, 13)]:
                within = int(bit < size)
                m = self.reserved(size, lr, self.SW, lr ^ bit)
                self.assertEqual((m.step(1), held(m)), (RETIRED._replace(broke=within), 0b10 if within else 0b11), (size, bit))
                m = self.reserved(size, lr, SC, lr ^ bit)
                expected = (SC_STORED._replace(broke=1), 0b00) if within else (SC_FAILED, 0b01)
                self.assertEqual((m.step(1), held(m)), expected, (size, bit))
                # A device write goes by the bytes that the LR read, whatever the size.
                m = self.reserved(size, lr, LR, lr)
                self.assertEqual((m.device_write(lr ^ bit, 4, 0), m.device_write(lr + 3, 1, 0)), (RETIRED, RETIRED._replace(broke=0b11)))

    def test_runs_and_replays(self):
        for size, value in [(8, 0), (16, 1)]:
            m = Machine(2, 0, 128, set_size=size)
            m.put_words(0, [LR, SC, self.SW])
            m.state.x[0][5], m.state.x[1][5], m.state.pc[1] = 64, 72, 8
            replayed = copy.deepcopy(m)
            self.assertEqual((m.run([Event.step(0), Event.step(1), Event.step(0)]), m.state.x[0][7], m.state.set_size), (3, value, size))
            log = '0 %016x %08x 06 %016x\n1 %016x %08x 00 %016x\n0 %016x %08x 07 %016x\n' % (0, LR, 0, 8, self.SW, 0, 4, SC, value)
            self.assertEqual((replayed.replay(log.encode()), replayed), (Replayed(3, Stop(StopKind.AGREED)), m))


class Versions(Refuses):
    """The version of A that a machine follows, and that a loop is read by."""
    WRONG = [0, 1, 2, 19, 22, 32, 210, 20 << 32, 2**8 + 20, 2**16 + 21, 2**32 + 20, 2**63 + 21, 2**64 - 1]  # some have 20 or 21 in a part of their bits
    RET = 0x00008067  # jalr x0,0(x1)

    def contended(self, version, word=0):
        """Four harts with x5 = 64 and the word at their pc. Harts 0, 1 and 2 hold the 4 bytes at 64, hart 3 the 8 bytes at 128."""
        m = Machine(4, 0, 320, version=version)
        m.put_words(0, [word])
        for hart in range(4):
            m.state.x[hart][5] = 64
            m.state.set_reservation(hart, Reservation(128, 8) if hart == 3 else Reservation(64, 4))
        return m

    def test_default(self):
        self.assertEqual((A_2_0, A_2_1, State(1).version, Machine(1, 0, 64).state.version), (20, 21, 21, 21))
        self.assertEqual((State(1, version=A_2_1), State(1, version=A_2_0).version), (State(1), 20))
        self.assertEqual(Machine(1, 0, 64, version=A_2_0).state, Machine(1, 0, 64, set_size=64, version=20).state)
        self.assertNotEqual(State(1, version=A_2_0), State(1))
        self.assertEqual(State(2, version=A_2_0).to_bytes()[2312:], b'\x40' + bytes(7) + b'\x14' + bytes(23))
        self.assertEqual(repr(State(1, version=A_2_0)), '<State of 1 harts, 64 bits, A 2.0, sets of 64 bytes, pcs 0x0>')
        self.assertEqual(repr(State(1, version=0)), '<State of 1 harts, 64 bits, version 0, sets of 64 bytes, pcs 0x0>')

    def test_wrong_versions(self):
        """Refusal 2 of every call, after 1 and before what is asked of a call alone."""
        for version in self.WRONG:
            self.refuses(Refusal.STATE, lambda: Machine(1, 0, 64, version=version))
            self.refuses(Refusal.MEMORY, lambda: Machine(1, 0, 65, version=version))
            self.refuses(Refusal.MEMORY, lambda: Machine(1, 0, 64, set_size=24, version=version))
            m = machine()
            m.state.version = version
            self.refuses_unchanged(Refusal.STATE, m, step, 0)
            self.refuses_unchanged(Refusal.STATE, m, yield_hart, 9)
            self.refuses_unchanged(Refusal.STATE, m, device_write, 64, 8, 1)
            self.refuses_unchanged(Refusal.STATE, m, device_write, 0, 0, 0)
            self.refuses_unchanged(Refusal.STATE, m, run, [Event.step(9)], place=0)
            self.refuses_unchanged(Refusal.STATE, m, replay, b'')
            m.base = 1
            self.refuses_unchanged(Refusal.MEMORY, m, step, 0)
        self.assertEqual(str(Refused(2)), 'refusal 2: a setting other than the set size, or the state, is wrong')

    def test_device_writes(self):
        """They break what the LR read under 2.1 and nothing under 2.0. The memory is written under both."""
        for addr, size, broke in [(63, 1, 0), (63, 2, 0b0111), (64, 4, 0b0111), (67, 1, 0b0111), (68, 8, 0), (121, 8, 0b1000), (128, 8, 0b1000),
                                  (136, 1, 0)]:
            for version, lost in [(A_2_1, broke), (A_2_0, 0)]:
                m = self.contended(version)
                self.assertEqual((m.device_write(addr, size, 2**64 - 1), held(m)), (RETIRED._replace(broke=lost), 0b1111 & ~lost), (version, addr))
                self.assertEqual((m.bytes(addr, size), m.mem.count(0xff)), (b'\xff' * size, size))
        for version in [A_2_0, A_2_1]:
            self.refuses_unchanged(Refusal.DEVICE_SIZE, self.contended(version), device_write, 64, 9, 0)
            self.refuses_unchanged(Refusal.DEVICE_ADDRESS, self.contended(version), device_write, 313, 8, 0)

    def test_sc_after_a_device_write(self):
        """By single calls and by a run. A log has no device writes, so that its replay is the same under both versions."""
        log = b'0 0000000000000000 1002a32f 06 0000000000000000\n0 0000000000000004 1882a3af 07 0000000000000000\n'
        for version, outcomes, value in [(A_2_1, [RETIRED, RETIRED._replace(broke=1), SC_FAILED], 1), (A_2_0, [RETIRED, RETIRED, SC_STORED], 0)]:
            m = Machine(1, 0, 128, version=version)
            m.put_words(0, [LR, SC])
            m.state.x[0][5] = 64
            ran, replayed = copy.deepcopy(m), copy.deepcopy(m)
            events = [Event.step(0), Event.device_write(64, 4, 7), Event.step(0)]
            self.assertEqual([m.perform(event) for event in events], outcomes)
            self.assertEqual((m.state.x[0][7], m.state.version, m.bytes(64, 1)), (value, version, bytes([7 * value])))
            self.assertEqual((ran.run(events), ran), (3, m))
            self.assertEqual((replayed.replay(log), replayed.state.version), (Replayed(2, Stop(StopKind.AGREED)), version))

    def test_all_else(self):
        """What harts write, and a yield, are the same under both versions."""
        for version in [A_2_0, A_2_1]:
            m = self.contended(version, 0x0082a023)  # sw x8,0(x5)
            self.assertEqual((m.step(1), held(m)), (RETIRED._replace(broke=0b0101), 0b1010))
            m = self.contended(version, SC)
            self.assertEqual((m.step(1), held(m)), (SC_STORED._replace(broke=0b0101), 0b1000))
            m = self.contended(version)
            self.assertEqual((m.yield_hart(1), held(m)), (RETIRED, 0b1101))

    def test_loops(self):
        accepted, writes, reads, none = Verdict(True), 0x000082e7, 0x00028367, 0x000090e7  # jalr x5,0(x1); jalr x6,0(x5); no instruction
        for block, old, new in [([LR, SC], accepted, accepted), (LOOP, accepted, accepted),
                                ([LR, self.RET, SC], accepted, Verdict(False, 1, Reason.NOT_PERMITTED)),
                                ([LR, SC, self.RET], accepted, Verdict(False, 2, Reason.NOT_PERMITTED)),
                                ([LR, reads, SC], accepted, Verdict(False, 1, Reason.NOT_PERMITTED)),
                                ([LR, writes, SC], Verdict(False, 1, Reason.WRITES_RS1), Verdict(False, 1, Reason.NOT_PERMITTED)),
                                ([LR, SC, writes], accepted, Verdict(False, 2, Reason.NOT_PERMITTED)),
                                ([LR, none, SC], Verdict(False, 1, Reason.NOT_PERMITTED), Verdict(False, 1, Reason.NOT_PERMITTED)),
                                ([self.RET, SC], Verdict(False, 0, Reason.NO_LR), Verdict(False, 0, Reason.NO_LR)),
                                ([LR, self.RET], Verdict(False, 2, Reason.NO_SC), Verdict(False, 1, Reason.NOT_PERMITTED))]:
            self.assertEqual((check_loop(block, version=A_2_0), check_loop(block, version=A_2_1), check_loop(block)), (old, new, new))
            for version in self.WRONG:
                self.refuses(Refusal.STATE, lambda: check_loop(block, version=version))
        for block in [[], [LR], [self.RET] * 17, [LR] * 100]:
            for version in [A_2_0, A_2_1]:
                self.refuses(Refusal.BLOCK, lambda: check_loop(block, version=version))
            self.refuses(Refusal.STATE, lambda: check_loop(block, version=22))
        # By its name alone: a later version may have more of them.
        self.assertRaises(TypeError, check_loop, LOOP, A_2_0)


class Kinds(Refuses):
    """The kind of core that a machine has, and that a loop is read by."""
    WRONG = [2, 3, 32, 64, 256, 257, 2**32, 2**32 + 1, 2**63 + 1, 2**64 - 1]  # some have 0 or 1 in a part of their bits
    LR_D, SC_D, ADDW, SLLI_31, SLLI_32 = 0x1002b32f, 0x1882b3af, 0x0082833b, 0x01f29313, 0x02029313
    PAIR = 0x28a2b42f  # amocas.d x8,x10,(x5)
    # Legal words of the 64-bit core that the 32-bit one doesn't have; behind sc.d amoadd.d, amocas.q, and amocas.d of an odd rd and of an odd rs2.
    WIDE = [0x0002b303, 0x0002e303, 0x0082b023, ADDW, 0x0012831b, SLLI_32, LR_D, SC_D, 0x0082b4af, 0x28a2c42f, 0x28a2b4af, 0x28b2b42f]

    def machine(self, kind, word, **registers):
        """A hart of the kind with the word at its pc, 0, x5 = 64 and 0x80000001 there."""
        m = Machine(1, 0, 128, kind=kind)
        m.put_words(0, [word])
        m.put_words(64, [0x80000001])
        for name, value in {'x5': 64, **registers}.items():
            m.state.x[0][int(name[1:])] = value
        return m

    def test_default(self):
        self.assertEqual((KIND_64, KIND_32, State(1).kind, Machine(1, 0, 64).state.kind), (0, 1, 0, 0))
        self.assertEqual((State(1, kind=KIND_64), State(1, kind=KIND_32).kind), (State(1), 1))
        self.assertNotEqual(State(1, kind=KIND_32), State(1))
        self.assertEqual(State(2, kind=KIND_32).to_bytes()[2328:], b'\x01' + bytes(15))
        self.assertEqual(repr(State(1, kind=KIND_32)), '<State of 1 harts, 32 bits, A 2.1, sets of 64 bytes, pcs 0x0>')
        self.assertEqual(repr(State(1, kind=7)), '<State of 1 harts, kind 7, A 2.1, sets of 64 bytes, pcs 0x0>')

    def test_wrong_kinds(self):
        """Refusal 2 of every call, after 1 and before what is asked of a call alone."""
        for kind in self.WRONG:
            self.refuses(Refusal.STATE, lambda: Machine(1, 0, 64, kind=kind))
            self.refuses(Refusal.STATE, lambda: Machine(1, 2**32, 64, kind=kind))
            self.refuses(Refusal.MEMORY, lambda: Machine(1, 0, 65, kind=kind))
            m = machine()
            m.state.kind = kind
            self.refuses_unchanged(Refusal.STATE, m, step, 0)
            self.refuses_unchanged(Refusal.STATE, m, yield_hart, 9)
            self.refuses_unchanged(Refusal.STATE, m, device_write, 0, 0, 0)
            self.refuses_unchanged(Refusal.STATE, m, run, [Event.step(9)], place=0)
            self.refuses_unchanged(Refusal.STATE, m, replay, b'')

    def test_end_of_memory(self):
        for base, length, fits in [(0, 64, True), (2**32 - 64, 64, True), (2**32 - 128, 128, True), (2**32 - 64, 128, False), (2**32, 64, False)]:
            self.assertEqual(Machine(1, base, length).base, base)
            if fits:
                self.assertEqual(Machine(1, base, length, kind=KIND_32).base, base)
            else:
                self.refuses(Refusal.MEMORY, lambda: Machine(1, base, length, kind=KIND_32))

    def test_upper_halves(self):
        """Of a used hart every register and the pc have a zero one, and a reservation is 4 wide. An unused one isn't looked at."""
        def widen(state, hart, n):
            if n < 32:
                state.x[hart][n] = 2**32
            elif n < 34:
                state.pc[hart] = [2**32, 2**63 + 4][n - 32]
            else:
                state.set_reservation(hart, Reservation(64, 8))

        for n in range(1, 35):
            for hart in range(8):
                m = Machine(4, 0, 128)
                widen(m.state, hart, n)
                self.assertEqual(m.yield_hart(3 if hart == 2 else 2), RETIRED)
                m.state.kind = KIND_32
                if hart < 4:
                    self.refuses_unchanged(Refusal.STATE, m, step, 0)
                else:
                    before = m.state.to_bytes()
                    self.assertEqual((m.yield_hart(0), m.state.to_bytes()), (RETIRED, before))

    def test_words(self):
        for word in self.WIDE:
            m = self.machine(KIND_32, word)
            before = copy.deepcopy(m)
            self.assertEqual((m.step(0), m), (trap(Cause.ILLEGAL_INSTRUCTION, word), before))
            self.assertNotEqual(self.machine(KIND_64, word).step(0), trap(Cause.ILLEGAL_INSTRUCTION, word))

    def test_results(self):
        """What a step leaves has a zero upper half: addi x6,x0,-1; lui x6,0x80000; lw, lr.w; sub x6,x0,x8. By a run and a replay too."""
        for word, value in [(0xfff00313, -1), (0x80000337, -2**31), (0x0002a303, 1 - 2**31), (LR, 1 - 2**31), (0x40800333, -3)]:
            for kind, bits in [(KIND_32, 32), (KIND_64, 64)]:
                m = self.machine(kind, word, x8=3)
                ran, replayed, differs = copy.deepcopy(m), copy.deepcopy(m), copy.deepcopy(m)
                self.assertEqual((m.step(0), m.state.x[0][6], m.state.kind), (RETIRED, value % 2**bits, kind))
                self.assertEqual((ran.run([Event.step(0)]), ran), (1, m))
                row = '0 %016x %08x 06 %016x\n'
                log = (row % (0, word, value % 2**bits)).encode()
                self.assertEqual((replayed.replay(log), replayed), (Replayed(1, Stop(StopKind.AGREED)), m))
                log = (row % (0, word, value % 2**(96 - bits))).encode()
                self.assertEqual(differs.replay(log), Replayed(0, Stop(StopKind.VALUE, value % 2**(96 - bits), value % 2**bits)))

    def test_sums(self):
        """Modulo 2^32: lw x6,4(x5), and the pc behind the last word that there is."""
        for kind, x5, outcome in [(KIND_32, 2**32 - 4, RETIRED), (KIND_32, 2**32 - 8, trap(Cause.LOAD_ACCESS_FAULT, 2**32 - 4)),
                                  (KIND_64, 2**32 - 4, trap(Cause.LOAD_ACCESS_FAULT, 2**32))]:
            self.assertEqual(self.machine(kind, 0x0042a303, x5=x5).step(0), outcome)
        m = Machine(1, 2**32 - 64, 64, kind=KIND_32)
        m.put_words(2**32 - 4, [0x13])  # addi x0,x0,0
        m.state.pc[0] = 2**32 - 4
        self.assertEqual((m.step(0), m.state.pc[0], m.step(0)), (RETIRED, 0, trap(Cause.INSTRUCTION_ACCESS_FAULT, 0)))

    def test_pairs(self):
        """AMOCAS.D, whose even register is the lower 4 bytes. The pair of x0 is zero, whatever x1 holds, and isn't written."""
        old, new = (0x80000001, 0), (2**32 - 1, 7)
        for word, x8, x9, left, rd in [(self.PAIR, *old, new, old), (self.PAIR, 0, 0x80000001, old, old), (self.PAIR, 0x80000001, 1, old, old),
                                       (0x2802b42f, *old, (0, 0), old),                   # amocas.d x8,x0,(x5)
                                       (0x28a2b02f, 5, 6, old, (5, 6))]:                  # amocas.d x0,x10,(x5)
            m = self.machine(KIND_32, word, x1=9, x8=x8, x9=x9, x10=new[0], x11=new[1])
            self.assertEqual(m.step(0), RETIRED)
            self.assertEqual(((number(m.bytes(64, 4)), number(m.bytes(68, 4))), tuple(m.state.x[0][8:10]), m.state.x[0][1]), (left, rd, 9))
        self.assertEqual(self.machine(KIND_32, self.PAIR, x5=68).step(0), trap(Cause.STORE_ADDRESS_MISALIGNED, 68))

    def test_device_writes(self):
        """Of up to 8 bytes, at an address that isn't cut to 32 bits."""
        m = self.machine(KIND_32, LR)
        self.assertEqual(m.step(0), RETIRED)
        self.refuses_unchanged(Refusal.DEVICE_ADDRESS, m, device_write, 2**32 + 64, 1, 0)
        self.assertEqual((m.device_write(64, 8, 2**64 - 1), m.bytes(64, 8)), (RETIRED._replace(broke=1), b'\xff' * 8))

    def test_loops(self):
        accepted, no_lr, other_sc = Verdict(True), Verdict(False, 0, Reason.NO_LR), Verdict(False, 1, Reason.OTHER_SC)
        for block, narrow, wide in [([LR, SC], accepted, accepted), (LOOP, accepted, accepted), ([LR, self.SLLI_31, SC], accepted, accepted),
                                    ([self.LR_D, self.SC_D], no_lr, accepted), ([self.LR_D, SC], no_lr, other_sc),
                                    ([LR, self.SC_D], Verdict(False, 1, Reason.NOT_PERMITTED), other_sc),
                                    ([LR, self.ADDW, SC], Verdict(False, 1, Reason.NOT_PERMITTED), accepted),
                                    ([LR, SC, self.ADDW], Verdict(False, 2, Reason.NOT_PERMITTED), accepted),
                                    ([LR, self.SLLI_32, SC], Verdict(False, 1, Reason.NOT_PERMITTED), accepted)]:
            for version in [A_2_0, A_2_1]:
                self.assertEqual(check_loop(block, version=version, kind=KIND_32), narrow)
                self.assertEqual((check_loop(block, version=version, kind=KIND_64), check_loop(block, version=version)), (wide, wide))
            for kind in self.WRONG:
                self.refuses(Refusal.STATE, lambda: check_loop(block, kind=kind))
        jalr = [LR, 0x00008067, SC]
        self.assertEqual(check_loop(jalr, version=A_2_0, kind=KIND_32), accepted)
        self.assertEqual(check_loop(jalr, kind=KIND_32), Verdict(False, 1, Reason.NOT_PERMITTED))
        for block in [[], [LR], [self.LR_D] * 17]:
            self.refuses(Refusal.BLOCK, lambda: check_loop(block, kind=KIND_32))
            self.refuses(Refusal.STATE, lambda: check_loop(block, kind=2))


class Misaligned(Refuses):
    """What a misaligned LR, SC, AMO or AMOCAS gives, by the state."""
    WRONG = [2, 3, 4, 7, 255, 256, 257, 2**32, 2**32 + 1, 2**63, 2**64 - 1]
    # With x5 for the address: lr.w, lr.d; sc.w, amoadd.w, amocas.w, amocas.q; lw; sw.
    ACCESSES = [(LR, 4, 5), (0x1002b32f, 4, 5), (SC, 6, 7), (0x0082a3af, 6, 7), (0x2882a3af, 6, 7), (0x2882c32f, 6, 7), (0x0002a303, 4, 4), (0x0082a023, 6, 6)]

    def test_default(self):
        self.assertEqual((MISALIGNED_4_AND_6, MISALIGNED_5_AND_7, State(1).misaligned, Machine(1, 0, 64).state.misaligned), (0, 1, 0, 0))
        self.assertNotEqual(State(1, misaligned=1), State(1))
        self.assertEqual(State(2, misaligned=1).to_bytes()[2336:], b'\x01' + bytes(7))
        self.assertEqual(repr(State(1, misaligned=1)), '<State of 1 harts, 64 bits, A 2.1, sets of 64 bytes, misaligned 5 and 7, pcs 0x0>')
        self.assertEqual(repr(State(1, misaligned=7)), '<State of 1 harts, 64 bits, A 2.1, sets of 64 bytes, misaligned 7, pcs 0x0>')

    def test_causes(self):
        """A trap leaves all as it was, in memory and outside; an aligned access doesn't ask."""
        for word, *causes in self.ACCESSES:
            for misaligned, cause in enumerate(causes):
                for address in [65, 66, 255, 257, 2**64 - 1]:
                    m = machine(words=[word])
                    m.state.misaligned, m.state.x[0][5] = misaligned, address
                    before = copy.deepcopy(m)
                    self.assertEqual(m.step(0), trap(cause, address))
                    self.assertEqual(m, before)
            low, high = machine(words=[word]), machine(words=[word])
            high.state.misaligned = 1
            self.assertEqual(low.step(0), high.step(0))
            low.state.misaligned = 1
            self.assertEqual(low, high)

    def test_wrong_numbers(self):
        """Refusal 2 of every call, after 1 and before what is asked of a call alone."""
        for misaligned in self.WRONG:
            self.refuses(Refusal.STATE, lambda: Machine(1, 0, 64, misaligned=misaligned))
            self.refuses(Refusal.MEMORY, lambda: Machine(1, 0, 65, misaligned=misaligned))
            m = machine()
            m.state.misaligned = misaligned
            self.refuses_unchanged(Refusal.STATE, m, step, 0)
            self.refuses_unchanged(Refusal.STATE, m, yield_hart, 9)
            self.refuses_unchanged(Refusal.STATE, m, device_write, 0, 0, 0)
            self.refuses_unchanged(Refusal.STATE, m, run, [Event.step(9)], place=0)
            self.refuses_unchanged(Refusal.STATE, m, replay, b'')
        self.assertRaises(ValueError, State, 1, misaligned=-1)
        self.assertRaises(TypeError, State, 1, misaligned='1')


class Settings(Refuses):
    """Settings files. tests/test_settings.py has the outside vectors."""
    BOARDS = [Board(8 << k % 10, 20 + k % 2, k // 2 % 2) for k in range(16)]

    def test_files(self):
        for n in range(1, 17):
            file = write_settings(self.BOARDS[:n])
            self.assertEqual(len(file), 8 + 12 * n)
            self.assertEqual(read_settings(file), SettingsFile(2, tuple(self.BOARDS[:n])))
            self.refuses(Refusal.SETTINGS_TABLE, read_settings, file[:-1], place=0)
            self.refuses(Refusal.SETTINGS_TABLE, read_settings, file + b'\0', place=0)
        self.assertEqual(read_settings(bytearray(file)), read_settings(memoryview(file)))
        self.assertEqual(write_settings(iter([(64, 21, 0)])), write_settings([Board()]))
        self.assertEqual(Board(), Board(64, A_2_1, MISALIGNED_4_AND_6))

    def test_refusals(self):
        self.refuses(Refusal.SETTINGS_TABLE, read_settings, b'', place=0)
        self.refuses(Refusal.SETTINGS_FORMAT, read_settings, b'\3' + bytes(7), place=0)
        self.refuses(Refusal.SETTINGS_TABLE, write_settings, [], place=0)
        self.refuses(Refusal.SETTINGS_TABLE, write_settings, [Board()] * 17, place=0)
        for bad in [Board(24), Board(65536 + 64), Board(64, 22), Board(64, 256 + 21), Board(64, 21, 2), Board(64, 21, 256), Board(64, 21, 2**63)]:
            self.refuses(Refusal.SETTINGS_BOARD, write_settings, [Board(), bad, bad], place=36)
        self.assertEqual(str(Refused(23, 36)), "refusal 23 at 36: a board's set size, version of A or misaligned is wrong")
        for bad in [[Board(-1)], [Board(2**64)]]:
            self.assertRaises(ValueError, write_settings, bad)
        for bad in [[Board('64')], [(64, 21, 0, 0)], [64], None]:
            self.assertRaises(TypeError, write_settings, bad)
        self.assertRaises(TypeError, read_settings, 'text')

    def test_machine(self):
        m = Machine(1, 0, 4096, **Board(4096, A_2_0, 1)._asdict())
        self.assertEqual((m.state.set_size, m.state.version, m.state.kind, m.state.misaligned), (4096, 20, 0, 1))
        self.refuses(Refusal.MEMORY, lambda: Machine(1, 0, 64, **Board(4096)._asdict()))


class Values(Refuses):
    """What isn't the model's at all is an error before the library is called."""

    def unchanged(self, error, call, *arguments):
        m = machine()
        before = m.state.to_bytes(), bytes(m.mem)
        self.assertRaises(error, call, m.state, m.base, m.mem, *arguments)
        self.assertEqual((m.state.to_bytes(), bytes(m.mem)), before)

    def test_numbers(self):
        for error, bad in [(ValueError, -1), (ValueError, 2**64), (TypeError, 1.0), (TypeError, '1'), (TypeError, None)]:
            self.unchanged(error, step, bad)
            self.unchanged(error, yield_hart, bad)
            self.unchanged(error, device_write, bad, 1, 0)
            self.unchanged(error, device_write, 64, bad, 0)
            self.unchanged(error, device_write, 64, 1, bad)
            self.assertRaises(error, step, State(1), bad, bytearray(64), 0)
            self.assertRaises(error, State, bad)
            self.assertRaises(error, State, 1, set_size=bad)
            self.assertRaises(error, Machine, 1, bad, 64)
            self.assertRaises(error, Machine, 1, 0, bad)
            self.assertRaises(error, Machine, 1, 0, 64, set_size=bad)
            for call in [lambda: State(1, version=bad), lambda: Machine(1, 0, 64, version=bad), lambda: check_loop(LOOP, version=bad)]:
                self.assertRaisesRegex(error, '^version is ', call)
            for call in [lambda: State(1, kind=bad), lambda: Machine(1, 0, 64, kind=bad), lambda: check_loop(LOOP, kind=bad)]:
                self.assertRaisesRegex(error, '^kind is ', call)
            self.assertRaises(error, check_loop, [LR, bad])
            for make in [Event.step, Event.yield_hart, lambda n: Event.device_write(n, 1, 0), lambda n: Event.device_write(64, 1, n)]:
                self.assertRaises(error, make, bad)
            state = State(1)
            for assign in [lambda: state.x[0].__setitem__(5, bad), lambda: state.pc.__setitem__(0, bad), lambda: setattr(state, 'count', bad),
                           lambda: setattr(state, 'set_size', bad), lambda: setattr(state, 'version', bad), lambda: setattr(state, 'kind', bad),
                           lambda: state.set_reservation(0, (bad, 4)), lambda: state.set_reservation(0, (64, bad))]:
                self.assertRaises(error, assign)
            self.assertEqual(state, State(1))
        for bad in [-1, 2**64, 1.5]:
            self.unchanged((ValueError, TypeError), run_bytes, b'', bad)

    def test_events(self):
        for fields in [{'kind': 0}, {'kind': 4}, {'kind': 1, 'size': 1}, {'kind': 3, 'addr': 64}, {'kind': 2, 'hart': 1}, {'kind': 2, 'size': 1, 'data': 256},
                       {'kind': 1, 'hart': 256}]:
            self.assertRaises(ValueError, Event, **fields)
        self.assertRaises(ValueError, Event.device_write, 64, 256, 0)
        self.assertEqual(Event.device_write(0x1048, 3, 2**64 - 2).to_bytes(),
                         bytes([2, 0, 3, 0, 0, 0, 0, 0, 0x48, 0x10, 0, 0, 0, 0, 0, 0, 0xfe, 0xff, 0xff, 0, 0, 0, 0, 0]))
        for bad in [1.0, 2.0, 3.0, '1', None, [1]]:
            self.assertRaises(TypeError, Event, bad)

        class One:
            def __index__(self):
                return 1

        self.assertEqual((Event(One(), hart=One()), Event(True)), (Event(1, hart=1), Event(1)))
        for bad in [bytes(24), None, 1]:
            self.unchanged(TypeError, run, [Event.step(0), bad])
            self.assertRaises(TypeError, machine().perform, bad)

    def test_buffers(self):
        for mem in [bytes(64), 'x' * 64, 64, None, memoryview(bytes(64)), memoryview(bytearray(128))[::2]]:
            self.assertRaises(TypeError, step, State(1), 0, mem, 0)
        state = State(1)
        self.assertRaises(ValueError, step, state, 0, state.x[0], 0)
        self.assertRaises(TypeError, step, bytearray(2344), 0, bytearray(64), 0)
        for bad in [24, 'text', None]:
            self.assertRaises(TypeError, report, bad)
            self.unchanged(TypeError, run_bytes, bad)
            self.unchanged(TypeError, replay, bad)
        for bad in [bytes(8), bytearray(8), 'text', None, 5]:
            self.assertRaises(TypeError, check_loop, bad)

    def test_words(self):
        """A buffer of bytes isn't taken for words; numbers are, and a buffer of items of 4 bytes."""
        block = b''.join(word.to_bytes(4, 'little') for word in LOOP)
        m = machine(words=[])
        for bad in [block, bytearray(block), memoryview(block), memoryview(block).cast('H'), memoryview(block).cast('Q'), array('B', block), array('H', block),
                    array('Q', LOOP), array('b', [0] * 8), (ctypes.c_uint8 * 16)(), (ctypes.c_uint64 * 4)(*LOOP), b'', bytearray(), 'text', '', None, 5]:
            self.assertRaises(TypeError, check_loop, bad)
            self.assertRaises(TypeError, m.put_words, 0, bad)
        self.assertEqual(m, machine(words=[]))
        for good in [LOOP, tuple(LOOP), array('I', LOOP), memoryview(array('I', LOOP)), memoryview(block).cast('I'), (ctypes.c_uint32 * 4)(*LOOP)]:
            m = machine(words=[])
            m.put_words(0, good)
            self.assertEqual((m.bytes(0, 16), check_loop(good), check_loop(iter(good))), (block, Verdict(True), Verdict(True)))

    def test_events_in_the_memory(self):
        """A body that is part of the memory it runs on is read as it was."""
        m = machine()
        m.mem[128:152] = Event.device_write(128, 8, 2**64 - 1).to_bytes()
        self.assertEqual(m.run_bytes(memoryview(m.mem)[128:152]), 1)
        self.assertEqual(m.bytes(128, 9), b'\xff' * 8 + b'\x80')

    def test_states(self):
        given = bytes(i % 251 for i in range(2344))
        state = State.from_bytes(given)
        self.assertEqual(state.to_bytes(), given)
        self.assertEqual((state.count, state.x[7][31], state.pc[7], state.set_size, state.version, state.kind, state.misaligned),
                         tuple(number(given[at:at + 8]) for at in [0, 2048, 2112, 2312, 2320, 2328, 2336]))
        self.assertEqual(state.reservation(7), Reservation(number(given[2296:2304]), number(given[2304:2312])))
        self.assertEqual(State.from_bytes(given[:2288] + bytes([given[2288] ^ 1]) + given[2289:]), state)
        for at in [2296, 2311, 2312, 2319, 2320, 2327, 2328, 2335, 2336, 2343]:
            self.assertNotEqual(State.from_bytes(given[:at] + bytes([given[at] ^ 1]) + given[at + 1:]), state)
        self.assertEqual((pickle.loads(pickle.dumps(state)), copy.deepcopy(state)), (state, state))
        state.set_reservation(7, None)
        self.assertEqual(state.to_bytes()[2288:], bytes(24) + given[2312:])
        for bad in [given[:-1], given + b'\0', b'', given[:2320], given[:2328], given[:2336]]:
            self.assertRaisesRegex(ValueError, '^%d bytes: a state has 2344$' % len(bad), State.from_bytes, bad)
        self.assertRaises(IndexError, state.reservation, 8)
        self.assertRaises(AttributeError, setattr, state, 'pcs', 1)
        self.assertRaises(AttributeError, setattr, state, 'pc', [0] * 8)

    def test_memory_can_grow_after_a_refusal(self):
        """Nothing of a refused call holds on to the memory."""
        m = machine()
        try:
            m.step(9)
        except Refused:
            m.mem.extend(bytes(64))
        self.assertEqual((len(m.mem), m.step(0)), (320, RETIRED))


class Interface(unittest.TestCase):
    def header(self):
        return data(os.path.join(ROOT, 'include', 'floecavern.h')).decode()

    def test_texts(self):
        """The header has the same numbers, names and texts."""
        for enum_, none in [(Cause, {}), (Refusal, {0: 'not refused'}), (Reason, {0: 'not rejected'})]:
            name = enum_.__name__.lower()
            body = re.search(r'floecavern_%s_text\(uint64_t.*?default:' % name, self.header(), re.S).group(0)
            texts = {int(n): text for n, text in re.findall(r'case (\d+): return "(.*)";', body)}
            self.assertEqual(texts, {**none, **{one.value: one.text for one in enum_}})
            names = {n: int(v) for n, v in re.findall(r'FLOECAVERN_%s_(\w+) = (\d+)' % name.upper(), self.header())}
            names.pop('NONE', None)
            self.assertEqual(names, {one.name: one.value for one in enum_})
        self.assertEqual(str(Refused(11, 96)), 'refusal 11 at 96: an event or the length of the events is wrong')
        self.assertEqual(str(pickle.loads(pickle.dumps(Refused(3)))), 'refusal 3: the hart is not below the count')

    def test_version_sizes_and_command(self):
        self.assertIn('#define FLOECAVERN_VERSION "%s"\n' % floecavern.__version__, self.header())
        for name in ['STATE_SIZE', 'EVENT_SIZE', 'ROW_SIZE', 'REPORT_ROOM', 'SET_SIZE', 'A_2_0', 'A_2_1', 'KIND_64', 'KIND_32']:
            self.assertIn('#define FLOECAVERN_%s %d\n' % (name, getattr(floecavern, name)), self.header())
        for path in [os.path.join('docs', 'USING.md'), os.path.join('python', 'floecavern.py')]:
            self.assertIn('    ' + floecavern.BUILD + '\n', data(os.path.join(ROOT, path)).decode())

    def test_example_of_the_documents(self):
        """What USING.md shows is what it prints."""
        block = data(os.path.join(ROOT, 'docs', 'USING.md')).decode().split('    import floecavern\n', 1)[1]
        code, printed = (textwrap.dedent(part) for part in block.split('\n\n', 3)[:3:2])
        env = dict(os.environ, PYTHONPATH=os.path.join(ROOT, 'python'))
        done = subprocess.run([sys.executable, '-c', 'import floecavern\n' + code], env=env, capture_output=True, text=True)
        self.assertEqual((done.stdout, done.stderr), (printed + '\n', ''))

    def test_case_with_other_settings(self):
        """The program that USING.md shows, on a case whose device write an SC survives under A 2.0 alone."""
        block = data(os.path.join(ROOT, 'docs', 'USING.md')).decode().split('### A case with other settings\n', 1)[1].split('    import sys\n', 1)[1]
        code = textwrap.dedent('    import sys\n' + block.split('\n\n', 1)[0])
        text = 'memory 128\nhart 0 x5=64\nat 0\nlr.w x6,(x5)\nsc.w x7,x8,(x5)\nevents\nstep 0\ndevice 64 1 7\nstep 0\n'
        with tempfile.TemporaryDirectory() as folder:
            case = os.path.join(folder, 'case')
            with open(case, 'wb') as file:
                file.write(casetext.make(text))
            self.assertEqual(report(data(case)), 'case 1 harts 128 bytes 3 events\n0 h0 ok\n1 d ok broke 01\n2 h0 sc 1\nend 3\n')
            for version, lines in [('A_2_0', '0 retired\n1 retired\n2 sc stored\n'), ('A_2_1', '0 retired\n1 retired broke 01\n2 sc failed\n')]:
                done = subprocess.run([sys.executable, '-c', code.replace('A_2_0', version), case], cwd=ROOT, capture_output=True, text=True)
                self.assertEqual((done.stdout, done.stderr), (lines, ''))
            # The kind is the case's own: a word that the 32-bit core doesn't have.
            for kind, line in [(0, '0 retired\n'), (1, '0 trap 2 000000000002b303: illegal instruction\n')]:
                narrow = bytearray(casetext.make('memory 128\nhart 0 x5=64\nat 0\nld x6,0(x5)\nevents\nstep 0\n'))
                narrow[52] = kind
                with open(case, 'wb') as file:
                    file.write(narrow)
                done = subprocess.run([sys.executable, '-c', code, case], cwd=ROOT, capture_output=True, text=True)
                self.assertEqual((done.stdout, done.stderr), (line, ''))

    def test_relative_name(self):
        """A shared object in the current folder, or named from it."""
        folder, name = os.path.split(os.environ['FLOECAVERN_SO'])
        for cwd, path in [(folder, name), (folder, './' + name), (os.path.dirname(folder), os.path.join(os.path.basename(folder), name))]:
            env = dict(os.environ, FLOECAVERN_SO=path, PYTHONPATH=os.path.join(ROOT, 'python'))
            code = 'import floecavern; print(floecavern.report_text(b""), end="")'
            done = subprocess.run([sys.executable, '-c', code], env=env, cwd=cwd, capture_output=True, text=True)
            self.assertEqual((done.stdout, done.stderr), ('refused 7 0\n', ''))

    def test_other_version(self):
        """A shared object that takes no state of this size, as one that wasn't made again, is told; the state is as it was."""
        with unittest.mock.patch.object(floecavern, 'STATE_SIZE', floecavern.STATE_SIZE + 8):
            state = State(1)
            before = state.to_bytes()
            for call in [lambda: step(state, 0, bytearray(64), 0), lambda: run(state, 0, bytearray(64), []), lambda: Machine(1, 0, 64)]:
                self.assertRaisesRegex(OSError, 'takes no state of 2352 bytes: it is of another version', call)
            self.assertEqual(state.to_bytes(), before)

    def test_older_version(self):
        """A shared object that lacks a function, as those before 0.7.0 do, is told at the first call, whatever it is."""
        with tempfile.TemporaryDirectory() as folder:
            made = os.path.join(folder, 'old.so')
            source = ''.join('void floecavern_%s(void) {}\n' % name for name in ['report', 'check_loop', 'step', 'device_write', 'yield', 'run', 'replay'])
            subprocess.run(['cc', '-shared', '-fPIC', '-x', 'c', '-', '-o', made], input=source.encode(), check=True)
            env = dict(os.environ, FLOECAVERN_SO=made, PYTHONPATH=os.path.join(ROOT, 'python'))
            for call in ['report_text(b"")', 'check_loop([])', 'Machine(1, 0, 64)']:
                done = subprocess.run([sys.executable, '-c', 'import floecavern; floecavern.' + call], env=env, capture_output=True, text=True)
                self.assertEqual(done.stderr.splitlines()[-1], 'OSError: the shared object has no floecavern_check_loop_for: it is of another version. '
                                 'In the repository, after `tools/build capi`: ' + floecavern.BUILD)

    def test_version_without_a_kind(self):
        """A shared object whose states have another size, and one of whose functions may have other arguments, as 0.7.0 had: told at the first call too,
        whatever it is."""
        with tempfile.TemporaryDirectory() as folder:
            made = os.path.join(folder, 'old.so')
            names = ['report', 'check_loop', 'check_loop_for', 'step', 'device_write', 'yield', 'run', 'replay', 'read_settings', 'write_settings']
            source = ''.join('unsigned long floecavern_%s(void) { return -1; }\n' % name for name in names)
            subprocess.run(['cc', '-shared', '-fPIC', '-x', 'c', '-', '-o', made], input=source.encode(), check=True)
            env = dict(os.environ, FLOECAVERN_SO=made, PYTHONPATH=os.path.join(ROOT, 'python'))
            for call in ['report_text(b"")', 'check_loop([])', 'Machine(1, 0, 64)']:
                done = subprocess.run([sys.executable, '-c', 'import floecavern; floecavern.' + call], env=env, capture_output=True, text=True)
                self.assertEqual(done.stderr.splitlines()[-1], 'OSError: the shared object takes no state of 2344 bytes: it is of another version. '
                                 'In the repository, after `tools/build capi`: ' + floecavern.BUILD)

    def test_pairs(self):
        """examples/pair32.py; and where standard output is full, or closed."""
        example = [sys.executable, os.path.join(ROOT, 'examples', 'pair32.py')]
        done = subprocess.run(example, capture_output=True, text=True)
        self.assertEqual((done.returncode, done.stdout, done.stderr), (0, PAIRS, ''))
        with open('/dev/full', 'wb') as full:
            done = subprocess.run(example, stdout=full, stderr=subprocess.PIPE)
        self.assertEqual((done.returncode, done.stderr), (1, b'standard output: No space left on device\n'))
        done = subprocess.run(['/bin/sh', '-c', 'exec "$@" >&-', 'sh', *example], capture_output=True)
        self.assertEqual((done.returncode, done.stderr), (1, b'standard output: Bad file descriptor\n'))

    def test_missing(self):
        env = dict(os.environ, FLOECAVERN_SO='/nowhere/libfloecavern.so', PYTHONPATH=os.path.join(ROOT, 'python'))
        done = subprocess.run([sys.executable, '-c', 'import floecavern; floecavern.report(b"")'], env=env, capture_output=True, text=True)
        self.assertEqual(done.returncode, 1)
        self.assertIn('/nowhere/libfloecavern.so is missing. In the repository, after `tools/build capi`: ' + floecavern.BUILD, done.stderr)
