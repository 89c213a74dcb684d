"""The disassembler and the assembler against crates/decode_table, whose lines are made from binutils' disassembler."""
import os
import random
import re
import struct
import unittest

from common import ROOT, data
import riscv


def table():
    """(word, the table's text for it) of each line of RV64I, which come first, and the words of the table's input."""
    folder = os.path.join(ROOT, 'crates', 'decode_table')
    words = [word for word, in struct.iter_unpack('<I', data(os.path.join(folder, 'stdin')))]
    lines = data(os.path.join(folder, 'stdout')).decode().splitlines()
    return words, [(int(line[:8], 16), line[9:]) for line in lines[:len(words)]]


def in_table_layout(text):
    """Our text of an instruction in the table's layout: the mnemonic, then the fields in the order rd rs1 rs2 imm aq rl."""
    name, _, rest = text.partition(' ')
    if name.startswith('fence'):
        word = riscv.assemble(text)
        return 'fence rd=%d rs1=%d imm=%016x' % (word >> 7 & 31, word >> 15 & 31, word >> 20)
    match = re.fullmatch(r'((?:lr|sc|amo\w+)\.[wdq])(\.aqrl|\.aq|\.rl)?', name)
    args = re.findall(r'-?\w+', rest)
    if match:
        rs2 = args.pop(1) if len(args) == 3 else 'x0'
        order = match.group(2) or ''
        return '%s rd=%s rs1=%s rs2=%s aq=%d rl=%d' % (match.group(1), args[0][1:], args[1][1:], rs2[1:], 'aq' in order, 'rl' in order)
    fields = {'b': 'rs1 rs2 imm', 's': 'rs2 imm rs1', 'l': 'rd imm rs1', 'u': 'rd imm', 'i': 'rd rs1 imm', 'r': 'rd rs1 rs2', '': ''}
    kind = ('' if name in ('ecall', 'ebreak') else 'u' if name in ('lui', 'auipc', 'jal') else 'b' if name[0] == 'b' else
            's' if name in ('sb', 'sh', 'sw', 'sd') else 'l' if name[0] == 'l' or name == 'jalr' else 'i' if 'x' not in args[2] else 'r')
    values = dict(zip(fields[kind].split(), args))
    if 'imm' in values:
        value = int(values['imm'], 0)
        value = (value ^ 0x80000) - 0x80000 << 12 if name in ('lui', 'auipc') else value
        values['imm'] = '%016x' % (value % (1 << 64))
    return ' '.join([name] + ['%s=%s' % (f, values[f].lstrip('x') if f != 'imm' else values[f]) for f in ('rd', 'rs1', 'rs2', 'imm') if f in values])


class Words(unittest.TestCase):
    def test_every_word_of_the_table(self):
        words, lines = table()
        self.assertEqual(words, [word for word, _ in lines])
        legal = 0
        for word, line in lines:
            text = riscv.disassemble(word)
            self.assertEqual(in_table_layout(text) if text else 'illegal', line, '%08x' % word)
            if text:
                legal += 1
                self.assertEqual(riscv.assemble(text), word, text)
        self.assertGreater(legal, 700)

    def test_any_word_comes_back(self):
        rng = random.Random(1)
        for opcode in range(3, 128, 4):
            for _ in range(600):
                word = rng.randrange(1 << 25) << 7 | opcode
                text = riscv.disassemble(word)
                if text:
                    self.assertEqual(riscv.assemble(text), word, text)

    def test_mnemonics(self):
        names = ('lui auipc jal jalr beq bne blt bge bltu bgeu lb lh lw ld lbu lhu lwu sb sh sw sd addi slti sltiu xori ori andi slli srli srai '
                 'addiw slliw srliw sraiw add sub sll slt sltu xor srl sra or and addw subw sllw srlw sraw fence ecall ebreak').split()
        names += ['%s.%s' % (op, w) for op in 'lr sc amoswap amoadd amoxor amoand amoor amomin amomax amominu amomaxu amocas'.split() for w in 'wd']
        self.assertEqual(sorted(riscv.INSTRUCTIONS), sorted(names + ['amocas.q']))

    def test_mnemonics_of_rv32(self):
        names = ('lui auipc jal jalr beq bne blt bge bltu bgeu lb lh lw lbu lhu sb sh sw addi slti sltiu xori ori andi slli srli srai '
                 'add sub sll slt sltu xor srl sra or and fence ecall ebreak lr.w sc.w amocas.w amocas.d').split()
        names += ['amo%s.w' % op for op in 'swap add xor and or min max minu maxu'.split()]
        self.assertEqual(sorted(riscv.BY_XLEN[32]), sorted(names))

    def test_words_of_rv32(self):
        """A word of RV32 is one of RV64 with the same text. RV64 alone has: words of other names, shifts by 32 and more, amocas.d on odd registers."""
        rng, alone = random.Random(2), set()
        words = [rng.randrange(1 << 25) << 7 | opcode for opcode in range(3, 128, 4) for _ in range(2000)] + table()[0]
        for word in words:
            narrow, wide = riscv.disassemble(word, 32), riscv.disassemble(word, 64)
            if narrow:
                self.assertEqual((narrow, riscv.assemble(narrow, xlen=32), riscv.target(word)), (wide, word, riscv.target(word)))
            elif wide:
                alone.add(riscv.decode(word)[0])
                with self.assertRaises(ValueError, msg=wide):
                    riscv.assemble(wide, xlen=32)
        self.assertEqual(alone, set(riscv.BY_XLEN[64]) - set(riscv.BY_XLEN[32]) | {'slli', 'srli', 'srai', 'amocas.d'})

    def test_pairs_of_rv32(self):
        for rd in range(32):
            for rs2 in range(32):
                word, even = 0x2802B02F | rd << 7 | rs2 << 20, rd % 2 == rs2 % 2 == 0
                self.assertEqual(riscv.disassemble(word), 'amocas.d x%d,x%d,(x5)' % (rd, rs2))
                self.assertEqual(riscv.disassemble(word, 32), 'amocas.d x%d,x%d,(x5)' % (rd, rs2) if even else None)

    def test_spellings(self):
        for text, word in (('lr.w x6,(x5)', 0x1002A32F), ('sc.w t2, s0, 0(t0)', 0x1882A3AF), ('sc.w.aqrl x7,x8,(x5)', 0x1E82A3AF),
                           ('bne x7,x0,-12', 0xFE039AE3), ('lui a0,-1', 0xFFFFF537), ('fence', 0x0FF0000F), ('fence rw,w', 0x0310000F)):
            self.assertEqual(riscv.assemble(text), word, text)

    def test_wrong_texts(self):
        for text, what in (('nop', 'no instruction'), ('addi.aq x1,x1,1', 'no instruction'), ('lw x1,x2', 'write lw rd,imm(rs1)'),
                           ('lr.w x1,4(x2)', 'write lr.w'), ('addi x1,x2,2048', 'out of range'), ('slliw x1,x2,32', 'out of range'),
                           ('beq x1,x2,3', 'odd'), ('jal x1,1048576', 'out of range'), ('amocas.q x5,x2,(x1)', 'even rd'),
                           ('amocas.q x2,x5,(x1)', 'even rs2'), ('add x1,x2,x32', 'no register'), ('addi x1,x2,y', 'no number'),
                           ('fence wr,r', 'iorw'), ('fence x0,x0,4096', '0xfff'), ('ecall x1', 'write ecall'), ('lui x1,0x100000', 'out of range')):
            with self.assertRaisesRegex(ValueError, re.escape(what), msg=text):
                riscv.assemble(text)
