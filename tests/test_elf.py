"""elf lines of tools/case: what of a program goes into memory, what is said of files that are none, and a compiled C program on the machine."""
import os
import random
import shutil
import struct
import subprocess
import tempfile
import unittest
from unittest import mock

from common import CASE, PROGRAM, ROOT, command, data
import casefile
import casetext
import elf

GCC = next(filter(None, map(shutil.which, ('riscv64-linux-gnu-gcc', 'riscv64-unknown-elf-gcc'))), None)
FLAGS = ('-nostdlib -static -ffreestanding -march=rv64ia -mabi=lp64 -mno-relax -Wall -Wextra').split()
COUNTER = os.path.join(ROOT, 'examples', 'counter.c')
TEXT = 'base 0x1000\nmemory 128\nhart 0\nhart 1 pc=0x1004\nelf a.elf\nevents\n'
CODE = bytes.fromhex('73000000' '73001000')                  # ecall, ebreak
LOAD = (1, 5, 0x200, 0x1000, 0x1000, 8, 8, 4)                # type flags offset vaddr paddr filesz memsz align


def program(*segments, entry=0x1000, content=CODE, bits=2, order=1, **changed):
    """A file with a header of 64 bytes, a table of segments, and its content at 0x200."""
    fields = {'type': 2, 'machine': 243, 'version': 1, 'entry': entry, 'phoff': 64, 'shoff': 0, 'flags': 0, 'ehsize': 64, 'phentsize': 56,
              'phnum': len(segments), 'shentsize': 0, 'shnum': 0, 'shstrndx': 0, **changed}
    header = b'\x7fELF' + bytes([bits, order, 1]) + bytes(9) + struct.pack('<HHIQQQIHHHHHH', *fields.values())
    return (header + b''.join(struct.pack('<IIQQQQQQ', *s) for s in segments)).ljust(0x200, b'\xcc') + content


def of_32_bits(flags=0):
    """A program of a 32-bit core: a header of 52 bytes and a segment."""
    header = b'\x7fELF' + bytes([1, 1, 1]) + bytes(9) + struct.pack('<HHIIIIIHHHHHH', 2, 243, 1, 0x1000, 52, 0, flags, 52, 32, 1, 0, 0, 0)
    return header + struct.pack('<IIIIIIII', 1, 84, 0x1000, 0x1000, 8, 8, 5, 4) + CODE


def of_high_bytes():
    """A program whose numbers have the highest byte first."""
    header = b'\x7fELF' + bytes([2, 2, 1]) + bytes(9) + struct.pack('>HHIQQQIHHHHHH', 2, 243, 1, 0x1000, 64, 0, 0, 64, 56, 1, 0, 0, 0)
    return header + struct.pack('>IIQQQQQQ', 1, 5, 120, 0x1000, 0x1000, 8, 8, 4) + CODE


@unittest.skipUnless(elf.ELFFile, 'pyelftools is not there for this Python: install python3-pyelftools')
class Files(unittest.TestCase):
    def setUp(self):
        folder = tempfile.TemporaryDirectory()
        self.addCleanup(folder.cleanup)
        self.folder = folder.name

    def put(self, name, content):
        with open(os.path.join(self.folder, name), 'wb') as file:
            file.write(content)
        return os.path.join(self.folder, name)

    def case(self, content, text=TEXT, warnings=None):
        self.put('a.elf', content)
        return casefile.read(casetext.make(text, warnings, self.folder))


class Loaded(Files):
    def test_memory_and_entry(self):
        case = self.case(program(LOAD, (1, 6, 0x204, 0x1020, 0x1020, 4, 12, 4), (0x6474E551, 6, 0, 0, 0, 0, 0, 16), (1, 4, 0, 0, 0, 0, 0, 4), entry=0x1004))
        self.assertEqual((case.harts[0].pc, case.harts[1].pc), (0x1004, 0x1004))
        self.assertEqual(case.memory, (CODE.ljust(32, b'\0') + CODE[4:]).ljust(128, b'\0'))
        self.assertEqual(self.case(program(LOAD)).harts[0].pc, 0x1000)

    def test_zeros_behind_the_data(self):
        self.assertEqual(self.case(program((*LOAD[:6], 128, 4))).memory, CODE.ljust(128, b'\0'))
        with self.assertRaisesRegex(casetext.TextError, 'address 0x107f is already filled by line 5'):
            self.case(program((*LOAD[:6], 128, 4)), TEXT + 'at 0x107f\n.byte 0')

    def test_other_lines_beside_it(self):
        case = self.case(program(LOAD), TEXT + 'at 0x1040\nlock: .word 5\nhart 2 x5=lock')
        self.assertEqual((case.memory[64], case.harts[2].registers[4], case.harts[2].pc), (5, 0x1040, 0x1000))

    def test_physical_addresses(self):
        case = self.case(program(LOAD, (1, 6, 0x204, 0x90000, 0x1040, 4, 4, 4)))
        self.assertEqual(case.memory[64:68], CODE[4:])
        self.assertEqual(self.case(program((*LOAD[:4], 0, *LOAD[5:]))).memory[:8], CODE)

    def test_named_from_the_text(self):
        os.mkdir(os.path.join(self.folder, 'b c'))
        self.put('b c/a b.elf', program(LOAD))
        text = self.put('b c/a.txt', TEXT.replace('a.elf', 'a b.elf  # with a space').encode())
        status, out, err = command(CASE, 'make', text)
        self.assertEqual((status, err, casefile.read(out).memory[:8]), (0, '', CODE))

    def test_comments(self):
        """A # inside a name is part of it."""
        other = program(LOAD, content=CODE[::-1])
        for name, content in (('prog', program(LOAD)), ('prog#2.elf', other), ('prog##', other), ('#', other)):
            self.put(name, content)
        for line, code in (('elf prog', CODE), ('elf prog #2.elf', CODE), ('elf prog\t# x', CODE), ('elf prog#2.elf', CODE[::-1]),
                           ('  elf\tprog#2.elf # elf prog', CODE[::-1]), ('elf prog##  ## x', CODE[::-1]), ('elf ./#', CODE[::-1])):
            self.assertEqual(self.case(b'', TEXT.replace('elf a.elf', line)).memory[:8], code, line)
        for line, what in (('elf #', 'write elf FILE'), ('elf#prog', 'write elf FILE'), ('elf prog#3.elf', 'elf prog#3.elf: No such file'),
                           ('elf prog# x', 'elf prog# x: No such file')):
            with self.assertRaisesRegex(casetext.TextError, what):
                self.case(b'', TEXT.replace('elf a.elf', line))

    def test_it_is_not_replaced(self):
        """The case isn't written over the program that it is made of, by whatever name."""
        made, text = self.put('a.elf', program(LOAD)), self.put('a.txt', TEXT.encode())
        link, hard = os.path.join(self.folder, 'link'), os.path.join(self.folder, 'hard')
        os.symlink('a.elf', link)
        os.link(made, hard)
        for output in (made, link, hard):
            said = 'tools/case: %s: it is the file of an elf line, and stays as it is\n' % output
            self.assertEqual(command(CASE, 'make', text, '-o', output), (1, b'', said))
            self.assertEqual(data(output), program(LOAD))

    def test_of_32_bits(self):
        """An ELF file of 32 bits makes a case of the 32-bit kind; a kind line has to say the same."""
        case = self.case(of_32_bits())
        self.assertEqual((case.kind, case.harts[0].pc, case.memory), (1, 0x1000, CODE.ljust(128, b'\0')))
        self.assertEqual(self.case(program(LOAD)).kind, 0)
        for line, content in (('kind 32', of_32_bits()), ('kind 64', program(LOAD))):
            for text in (line + '\n' + TEXT, TEXT + line):
                self.assertEqual(self.case(content, text).kind, int(line == 'kind 32'))
        for line, content, bits in (('kind 64', of_32_bits(), 32), ('kind 32', program(LOAD), 64)):
            with self.assertRaisesRegex(casetext.TextError, 'elf a.elf: it is of %d bits: the case has %d' % (bits, 96 - bits)):
                self.case(content, line + '\n' + TEXT)
            with self.assertRaisesRegex(casetext.TextError, 'kind: what stands above has %d bits' % bits):
                self.case(content, TEXT + line)
        # An instruction above the elf line is one of the 64-bit kind, if no kind line stands above it.
        above = TEXT.replace('elf a.elf', 'at 0x1040\nnop\nelf a.elf')
        self.assertEqual(self.case(of_32_bits(), 'kind 32\n' + above).kind, 1)
        with self.assertRaisesRegex(casetext.TextError, 'it is of 32 bits: the case has 64'):
            self.case(of_32_bits(), above)

    def test_compressed(self):
        warnings = []
        self.case(of_32_bits(flags=1), warnings=warnings)
        self.assertEqual(warnings, [(5, 'elf a.elf: it may have compressed words, which the model has not: compile it with -march=rv32ia')])
        warnings = []
        self.case(program(LOAD, flags=5), warnings=warnings)
        self.assertEqual(warnings, [(5, 'elf a.elf: it may have compressed words, which the model has not: compile it with -march=rv64ia')])


class Refused(Files):
    def test_files(self):
        good = program(LOAD)
        for content, what in (
                (b'', 'no ELF'), (b'memory 64\n', 'no ELF'), (good[:63], 'no whole ELF'),
                (program(LOAD, bits=0), 'no whole ELF file: Invalid EI_CLASS'), (of_high_bytes(), 'highest byte first'),
                (program(LOAD, machine=62), 'for the machine EM_X86_64'), (program(LOAD, machine=0xfedc), 'for the machine 65244'),
                (program(LOAD, type=1), 'not linked'), (program(LOAD, type=3), 'position-independent'), (program(LOAD, type=9), 'its type is 9'),
                (program(LOAD, phentsize=32), 'entries of 32 bytes'), (good[:100], 'no whole ELF'), (program(LOAD, phoff=1 << 63), 'no whole ELF'),
                (program(LOAD, (3, 4, 0, 0, 0, 0, 0, 1)), 'dynamic linker'), (program(LOAD, (2, 4, 0, 0, 0, 0, 0, 1)), 'dynamic linker'),
                (program(), 'nothing to load'), (program((1, 5, 0, 0, 0, 0, 0, 1)), 'nothing to load'),
                (program((*LOAD[:6], 4, 4)), 'more than the 4 in memory'),
                (good[:-1], 'segment 0 ends behind the file'), (program(LOAD, entry=0x1008), 'entry 0x1008'), (program(LOAD, entry=0), 'entry 0x0'),
                (program(LOAD, entry=0x1002), 'no multiple of 4'),
                (program(LOAD, (*LOAD[:3], 0x1080, 0x1080, *LOAD[5:])), 'segment 1, 0x1080 to 0x1087 is not in memory, 0x1000 to 0x107f'),
                (program(LOAD, (*LOAD[:3], 0xFFC, 0xFFC, *LOAD[5:])), 'segment 1, 0xffc to 0x1003 is not in memory'),
                (program((*LOAD[:6], 129, 4)), 'segment 0, 0x1000 to 0x1080 is not in memory'), (program((*LOAD[:6], 1 << 63, 4)), 'is not in memory'),
                (program(LOAD, (*LOAD[:3], 0x1004, 0x1004, *LOAD[5:])), 'segment 1, address 0x1004 is already filled by line 5')):
            with self.assertRaises(casetext.TextError, msg=what) as caught:
                self.case(content)
            self.assertIn('elf a.elf: ', str(caught.exception))
            self.assertIn(what, str(caught.exception))
            self.assertEqual(caught.exception.line, 5)

    def test_any_damage_to_a_file(self):
        rng, good = random.Random(5), program(LOAD, (1, 6, 0x204, 0x1020, 0x1020, 4, 12, 4))
        for _ in range(2000):
            content = bytearray(good)
            for _ in range(rng.randint(1, 4)):
                content[rng.choice((rng.randrange(64), rng.randrange(176)))] = rng.choice((0, 1, 2, 3, 0x7F, 0x80, 0xFF, rng.randrange(256)))
            try:
                self.case(content)
            except casetext.TextError as error:
                self.assertEqual(error.line, 5)

    def test_any_part_of_a_file(self):
        good = program(LOAD)
        for k in range(len(good)):
            with self.assertRaises(casetext.TextError):
                self.case(good[:k])

    def test_lines(self):
        for line, what in (('elf', 'write elf FILE'), ('elf nowhere', 'elf nowhere: No such file'), ('elf .', 'elf .: it is no file'),
                           ('elf /dev/null', 'it is no file'), ('elf a.elf\nelf a.elf', 'given twice')):
            with self.assertRaises(casetext.TextError, msg=line) as caught:
                self.case(program(LOAD), 'memory 64\n' + line)
            self.assertIn(what, str(caught.exception))
            self.assertEqual(caught.exception.line, 2 + line.count('\n'))


class Missing(unittest.TestCase):
    def test_no_pyelftools(self):
        with mock.patch('elf.ELFFile', None), self.assertRaisesRegex(ValueError, 'pyelftools is needed.*apt-get install python3-pyelftools'):
            elf.read(program(LOAD))


@unittest.skipUnless(GCC, 'there is no C compiler for RISC-V: install gcc-riscv64-linux-gnu')
class Compiled(Files):
    def compiled(self, *flags, text=0x1000):
        made = os.path.join(self.folder, 'counter.elf')
        subprocess.run([GCC, *FLAGS, *flags, '-Wl,-N,-Ttext=%#x,--build-id=none' % text, COUNTER, '-o', made], check=True, capture_output=True)

    def lines(self, text):
        """What the program's lines for a case's text say, by hart, without the reservations that a step broke."""
        given = casetext.make(text, None, self.folder)
        done = subprocess.run([PROGRAM], input=given, capture_output=True, check=True)
        self.assertEqual(casefile.faults(casefile.read(given), done.stdout.decode()), [])
        return [[line.split(' ', 2)[2].partition(' broke ')[0] for line in done.stdout.decode().splitlines() if ' h%d ' % hart in line] for hart in range(8)]

    @unittest.skipUnless(os.path.exists(PROGRAM), 'target/bin/floecavern is not built')
    def test_the_example(self):
        self.compiled('-O2')
        text = data(os.path.join(ROOT, 'examples', 'counter.txt')).decode().replace('../target/counter.elf', 'counter.elf')
        for mine in self.lines(text)[:2]:
            self.assertEqual(mine[-1], 'trap 8 0000000000000000')
            self.assertEqual(mine.count('sc 0'), 5)
            self.assertEqual({line for line in mine if line.startswith('trap')}, {mine[-1]})

    @unittest.skipUnless(os.path.exists(PROGRAM), 'target/bin/floecavern is not built')
    def test_harts_by_turns(self):
        failed = 0
        for flags, base, harts, turns in (('-O0', 0, 2, 1200), ('-O1', 0x10000000000, 3, 700), ('-O2', 0x80000000, 4, 550), ('-Os', 0x1000, 2, 1000)):
            self.compiled(flags, '-mcmodel=medany', text=base)
            text = ['base %#x' % base, 'memory 4096', 'elf counter.elf']
            text += ['hart %d a0=%d a1=%d sp=%#x' % (h, h, harts, base + 4096 - 256 * h) for h in range(harts)]
            text += ['events'] + ['step %d' % h for _ in range(turns) for h in range(harts)]
            for mine in self.lines('\n'.join(text))[:harts]:
                self.assertEqual((mine[-1], mine.count('sc 0')), ('trap 8 0000000000000000', 5), flags)
                failed += mine.count('sc 1')
        self.assertGreater(failed, 0)

    def test_wrong_memory(self):
        self.compiled('-O2', text=0x3000)
        with self.assertRaisesRegex(casetext.TextError, 'segment [0-9], 0x3000 to 0x3[0-9a-f]+ is not in memory, 0x0 to 0xfff'):
            casetext.make('memory 4096\nhart 0\nelf counter.elf\nevents', None, self.folder)
        made = os.path.join(self.folder, 'a.elf')
        subprocess.run([GCC, *FLAGS, '-O2', '-Wl,-Ttext=0x1000', COUNTER, '-o', made], check=True)
        with self.assertRaisesRegex(casetext.TextError, r'segment [0-9] \(with the headers of the file: link with -N\), 0x0 to 0x1[0-9a-f]+ is not in memory'):
            casetext.make(TEXT, None, self.folder)
        subprocess.run([GCC, '-c', COUNTER, '-o', made], check=True)
        with self.assertRaisesRegex(casetext.TextError, 'it is not linked'):
            casetext.make(TEXT, None, self.folder)
