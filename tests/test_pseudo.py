"""Pseudo-instructions, .space and .align of tools/case: against GNU as word by word, and by what the machine makes of them."""
import os
import random
import shutil
import subprocess
import tempfile
import unittest

from common import PROGRAM
import casefile
import casetext
import riscv

AS = next(filter(None, map(shutil.which, ('riscv64-linux-gnu-as', 'riscv64-unknown-elf-as'))), None)
OBJCOPY = AS and AS[:-2] + 'objcopy'
HEAD = 'base 0x10000000000\nmemory 57344\nhart 0\nat 0x10000000000\n'
HEAD_32 = 'kind 32\nbase 0xffff0000\nmemory 57344\nhart 0\nat 0xffff0000\n'
RV32 = ('-march=rv32ia', '-mabi=ilp32')


def constants(count, xlen=64):
    """Numbers of so many bits around every place where the expansion of li changes, and others of all lengths."""
    rng, edges = random.Random(8), set(range(-9, 10))
    for bit in range(64):
        for more in (-2049, -2048, -2047, -1, 0, 1, 2047, 2048, 2049):
            edges |= {(1 << bit) + more, -(1 << bit) + more, (0x5555 << bit) + more}
    others = {rng.getrandbits(rng.randint(1, 64)) << rng.randint(0, 63) for _ in range(count)}
    others |= {signs ^ rng.getrandbits(rng.randint(1, 64)) for signs in (0, (1 << 64) - 1) for _ in range(count)}
    return sorted({riscv.signed(value, xlen) for value in edges | others})


def ours(lines, head=HEAD):
    """The bytes in memory of lines of a text."""
    case = casefile.read(casetext.make(head + '\n'.join(lines) + '\nend:\nhart 1 x1=end\nevents\n'))
    return case.memory[:case.harts[1].registers[0] - case.base]


def of_gnu_as(lines, section='.text', target=('-march=rv64ia', '-mabi=lp64')):
    """The bytes that GNU as makes of lines in a section, without compressed words and without anything left to the linker."""
    with tempfile.TemporaryDirectory() as folder:
        made, raw = os.path.join(folder, 'a.o'), os.path.join(folder, 'a.bin')
        text = '\n'.join(['.option norvc', '.option norelax', section, *lines, ''])
        subprocess.run([AS, *target, '-o', made], input=text.encode(), check=True, capture_output=True)
        subprocess.run([OBJCOPY, '-O', 'binary', '-j', section, made, raw], check=True)
        with open(raw, 'rb') as file:
            return file.read()


def every_pseudo(without=()):
    """Each pseudo-instruction but li in each of its forms, with many registers, and targets before and behind it."""
    rng = random.Random(3)
    for name in sorted(set(riscv.PSEUDO) - {'li', *without}):
        for shape in riscv.PSEUDO[name]:
            for _ in range(20):
                text = shape
                for field in ('rd', 'rs1', 'rs2'):
                    text = text.replace(field, rng.choice(['x%d' % rng.randrange(32), rng.choice(riscv.ABI)]))
                text = text.replace('imm', str(rng.randint(-2048, 2047)))
                yield (name + ' ' + text.replace('branch', 'jump').replace('jump', rng.choice(('before', 'behind')))).strip()


class Expansions(unittest.TestCase):
    def test_known_words(self):
        for text, words in (
                ('nop', '00000013'), ('ret', '00008067'), ('mv a0,a1', '00058513'), ('not x5,x6', 'fff34293'), ('neg x5,x6', '406002b3'),
                ('negw x5,x6', '406002bb'), ('sext.w x5,x6', '0003029b'), ('seqz x5,x6', '00133293'), ('snez x5,x6', '006032b3'),
                ('sltz x5,x6', '000322b3'), ('sgtz x5,x6', '006022b3'), ('jr x5', '00028067'), ('jr 4(x5)', '00428067'), ('jr x5,4', '00428067'),
                ('j -4', 'ffdff06f'), ('beqz x5,8', '00028463'), ('bnez x5,8', '00029463'), ('blez x5,8', '00505463'), ('bgez x5,8', '0002d463'),
                ('bltz x5,8', '0002c463'), ('bgtz x5,8', '00504463'), ('bgt x5,x6,8', '00534463'), ('ble x5,x6,8', '00535463'),
                ('bgtu x5,x6,8', '00536463'), ('bleu x5,x6,8', '00537463'), ('li x5,1', '00100293'), ('li x5,0xffffffffffffffff', 'fff00293'),
                ('li x5,0x7fffffff', '800002b7 fff2829b'), ('li x5,0x12345000', '123452b7'), ('li x5,0x100000000', '0010029b 02029293'),
                ('li x5,0x7fffffffffffffff', 'fff0029b 03f29293 fff28293')):
            found = ours([text])
            self.assertEqual(' '.join('%08x' % int.from_bytes(found[k:k + 4], 'little') for k in range(0, len(found), 4)), words, text)

    def test_labels_and_sizes(self):
        case = casefile.read(casetext.make('''
            memory 128
            hart 0 pc=start x5=behind x6=data
            at 0
            start: li x7,0x123456789abcdef0
            back:  beqz x7,behind
                   li x8,0x7fffffff
                   j back
            behind: ret
                   .align 4
            data:  .byte 1
                   .balign 8
                   .space 3,0xee
            rest:  .byte 2
            events
            device rest 1 0'''))
        length = 4 * len(riscv.expand('li x7,0x123456789abcdef0'))
        self.assertEqual((length, case.harts[0].pc, case.harts[0].registers[4:6], case.events[0].address), (32, 0, (48, 64), 75))
        words = [int.from_bytes(case.memory[k:k + 4], 'little') for k in range(0, 64, 4)]
        self.assertEqual([riscv.disassemble(word) for word in words[8:]],
                         ['beq x7,x0,16', 'lui x8,0x80000', 'addiw x8,x8,-1', 'jal x0,-12', 'jalr x0,0(x1)'] + ['addi x0,x0,0'] * 3)
        self.assertEqual(case.memory[64:80].hex(), '0100000000000000' + 'eeeeee' + '02' + '00000000')

    def test_wrong_lines(self):
        for text, what in (
                ('li x5', 'write li rd,constant'), ('li x5,x', "'x' is no number"), ('li x5,0x10000000000000000', 'out of range'),
                ('li x5,-9223372036854775809', 'out of range'), ('li x5,1 0', 'a space inside'), ('li y,1', 'no register'), ('li y,0x12345678', 'no register'),
                ('mv x1', 'write mv rd,rs1'), ('mv x1,5', "'5' is no register"), ('nop 1', 'write nop'), ('beqz x5', 'write beqz rs1,target'),
                ('beqz x5,4096', 'out of range'), ('bgt x5,x6,nowhere', 'no label nowhere'), ('j 3', 'odd'), ('jr 2048(x5)', 'out of range'),
                ('jr 1,2,3', 'write jr rs1 or jr imm(rs1) or jr rs1,imm'), ('call x', 'no instruction'), ('.space', 'write .space SIZE'),
                ('.space 1,', 'write .space SIZE'), ('.space 1,2,3', 'write .space SIZE'), ('.space -1', '.space: -1 is not'), ('.space 1 2', 'no number'),
                ('.space 1,256', '.space: fill'), ('.space 57345', 'not in memory'), ('.space 0xffffffffffffffff', 'not in memory'), ('.align', 'write .align'),
                ('.align 32', '.align: 32 is not'), ('.align 3,256', '.align: fill'), ('.align 2,0,4,4', 'write .align'), ('.balign 3', 'no power of 2'),
                ('.balign 2,,', 'write .balign'), ('.word 1\n.align 31', 'not in memory'), ('.byte 1\nnop', 'multiple of 4')):
            with self.assertRaises(casetext.TextError, msg=text) as caught:
                casetext.make(HEAD + text + '\nevents\n')
            self.assertIn(what, str(caught.exception))
            self.assertEqual(caught.exception.line, 5 + text.count('\n'), text)

    def test_nothing_to_fill(self):
        warnings = []
        casetext.make(HEAD + '.space 0\nevents\n', warnings)
        self.assertEqual(warnings, [(5, '.space 0 fills nothing')])

    def test_filled_twice(self):
        for lines in ('.space 8\nat 0x10000000004\nnop', 'nop\n.align 3\nat 0x10000000004\n.byte 0', 'li x5,0x12345678\nat 0x10000000004\nnop'):
            with self.assertRaisesRegex(casetext.TextError, 'already filled by line'):
                casetext.make(HEAD + lines + '\nevents\n')


@unittest.skipUnless(AS, 'there is no GNU as for RISC-V: install binutils-riscv64-linux-gnu')
class AgainstGnuAs(unittest.TestCase):
    def test_constants(self):
        values = constants(500)
        for k in range(0, len(values), 1000):
            lines = ['li x%d,%d' % (value % 32, value) for value in values[k:k + 1000]]
            self.assertEqual(ours(lines).hex(' ', 4), of_gnu_as(lines).hex(' ', 4))
        self.assertGreater(len(values), 2500)

    def test_spelt_without_sign(self):
        lines = ['li x5,%s' % text for text in ('0xffffffffffffffff', '18446744073709551615', '0x8000000000000000', '0xffffffff', '0xfffff800', '-0x800')]
        self.assertEqual(ours(lines).hex(' ', 4), of_gnu_as(lines).hex(' ', 4))

    def test_every_other_pseudo_instruction(self):
        lines = ['before:', *every_pseudo(), 'behind:']
        self.assertEqual(ours(lines).hex(' ', 4), of_gnu_as(lines).hex(' ', 4))

    def test_constants_of_rv32(self):
        values = constants(500, 32)
        for k in range(0, len(values), 1000):
            lines = ['li x%d,%d' % (value % 32, value) for value in values[k:k + 1000]] + ['li x5,%#x' % (value % (1 << 32)) for value in values[k:k + 1000]]
            self.assertEqual(ours(lines, HEAD_32).hex(' ', 4), of_gnu_as(lines, target=RV32).hex(' ', 4))
        self.assertGreater(len(values), 1500)

    def test_every_other_pseudo_instruction_of_rv32(self):
        lines = ['before:', *every_pseudo(('negw', 'sext.w')), 'behind:']
        self.assertEqual(ours(lines, HEAD_32).hex(' ', 4), of_gnu_as(lines, target=RV32).hex(' ', 4))

    def test_instructions_of_rv32(self):
        """Each instruction of RV32 that GNU as has, with many operands."""
        rng, lines = random.Random(4), []
        while len(lines) < 2000:
            word = rng.randrange(1 << 25) << 7 | rng.choice(sorted(riscv.BY_OPCODE[32]))
            text = riscv.disassemble(word, 32)
            if text and not text.startswith(('fence', 'amocas', 'b', 'jal')):
                lines.append(text)
        self.assertEqual(ours(lines, HEAD_32).hex(' ', 4), of_gnu_as(lines, target=RV32).hex(' ', 4))

    def test_code(self):
        lines = []
        for k, align in enumerate(('.align 3', '.balign 16', '.align 4,0xff', '.align 5,,4', '.align 5,,0', '.balign 8,,8', '.align 0', '.balign 0',
                                   '.align 2', '.balign 32,-1', '.align 3,0', '.align 6,7,60', '.balign 1')):
            lines += ['li x5,%d' % (0x1234567 << 3 * k), align, 'nop']
        lines.append('.align 6')                             # GNU as fills a section up to the largest alignment in it
        self.assertEqual(ours(lines).hex(' ', 4), of_gnu_as(lines).hex(' ', 4))

    def test_data(self):
        lines = ['.byte 1', '.align 1', '.byte 2', '.align 2', '.byte 3', '.align 3', '.byte 4', '.balign 16', '.space 3', '.space 3,7', '.align 3,0xee',
                 '.byte 5', '.align 4,,14', '.byte 6', '.align 4,,13', '.byte 7', '.balign 4,-1,3', '.dword 8', '.space 5,-2', '.align 6', '.half 9',
                 '.balign 64', '.byte 10', '.align 4,,15', '.byte 11', '.align 4,,14', '.byte 12']
        self.assertEqual(ours(lines).hex(' ', 1), of_gnu_as(lines, '.data').hex(' ', 1))


@unittest.skipUnless(os.path.exists(PROGRAM), 'target/bin/floecavern is not built')
class OnTheMachine(unittest.TestCase):
    """A load from the address in a register, outside memory, traps with that address: so the program's lines tell what the register holds. A
    device write then makes a nop of the load, and the hart goes on."""

    def held(self, blocks, after=5):
        """What x5 holds after each of the blocks of lines, one after another."""
        lines, events = [], []
        for k, block in enumerate(blocks):
            steps = sum(len(riscv.expand(line)) for line in block)
            lines += block + ['load%d: lb x0,0(x%d)' % (k, after)]
            events += ['step 0 times %d' % (steps + 1), 'device load%d 4 0x13' % k, 'step 0']
        memory = (4 * sum(len(riscv.expand(line.split(': ')[-1])) for line in lines) + 63) // 64 * 64
        text = '\n'.join(['base 0x10000000000', 'memory %d' % memory, 'hart 0', 'at 0x10000000000', *lines, 'events', *events])
        done = subprocess.run([PROGRAM], input=casetext.make(text), capture_output=True, check=True)
        found = [line.split() for line in done.stdout.decode().splitlines() if ' trap ' in line]
        self.assertEqual({line[3] for line in found}, {'5'})
        return [int(line[4], 16) for line in found]

    def test_constants(self):
        values = constants(150)
        for k in range(0, len(values), 150):
            part = [value for value in values[k:k + 150] if not 1 << 40 <= value < (1 << 40) + 65536]
            self.assertEqual(self.held([['li x5,%d' % value] for value in part]), [value % (1 << 64) for value in part])
        self.assertGreater(len(values), 1800)

    def test_operations(self):
        words = (0, 1, -1, 5, -5, 1 << 31, -1 << 31, 0x80000001, 0x123456789, -1 << 63)
        results = {'mv': lambda a: a, 'not': lambda a: ~a, 'neg': lambda a: -a, 'negw': lambda a: riscv.signed(-a, 32),
                   'sext.w': lambda a: riscv.signed(a, 32), 'seqz': lambda a: a == 0, 'snez': lambda a: a != 0,
                   'sltz': lambda a: a < 0, 'sgtz': lambda a: a > 0}
        for name, result in results.items():
            self.assertEqual(self.held([['li x6,%d' % word, '%s x5,x6' % name] for word in words]), [result(word) % (1 << 64) for word in words], name)

    def taken(self, lines):
        """Whether the branch that ends the lines goes over the ebreak behind it."""
        text = '\n'.join(['memory 64', 'hart 0', 'at 0', *lines, 'ebreak', 'over: ecall', 'events',
                          'step 0 times %d' % (sum(len(riscv.expand(line)) for line in lines) + 1)])
        done = subprocess.run([PROGRAM], input=casetext.make(text), capture_output=True, check=True)
        return {'3': False, '8': True}[done.stdout.decode().splitlines()[-2].split()[3]]

    def test_branches(self):
        for a in (-2, 0, 3):
            for name, rule in (('beqz', a == 0), ('bnez', a != 0), ('blez', a <= 0), ('bgez', a >= 0), ('bltz', a < 0), ('bgtz', a > 0)):
                self.assertEqual(self.taken(['li x5,%d' % a, name + ' x5,over']), rule, (name, a))
            for b in (-2, 0, 3):
                u, v = a % (1 << 64), b % (1 << 64)
                for name, rule in (('bgt', a > b), ('ble', a <= b), ('bgtu', u > v), ('bleu', u <= v)):
                    self.assertEqual(self.taken(['li x5,%d' % a, 'li x6,%d' % b, name + ' x5,x6,over']), rule, (name, a, b))
        for jump in (['j over'], ['li x5,12', 'jr x5'], ['li x5,4', 'jr 8(x5)'], ['li x1,12', 'ret'], ['nop', 'j over']):
            self.assertTrue(self.taken(jump), jump)
