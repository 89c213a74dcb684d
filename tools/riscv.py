"""The 32-bit words of the model as text, and back: RV64I and RV32I without FENCE.I and CSRs, A, and AMOCAS; and what pseudo-instructions stand for.
xlen is the width of the registers, 64 or 32. Used by tools/case and tools/nightly."""
import functools
import re

ABI = 'zero ra sp gp tp t0 t1 t2 s0 s1 a0 a1 a2 a3 a4 a5 a6 a7 s2 s3 s4 s5 s6 s7 s8 s9 s10 s11 t3 t4 t5 t6'.split()
REGISTERS = {**{name: n for n, name in enumerate(ABI)}, 'fp': 8, **{'x%d' % n: n for n in range(32)}}
ORDERINGS = ('', '.rl', '.aq', '.aqrl')      # by bits 26 and 25

# Where a field's bits stand: (its lowest bit, how many, their place in the word) for each piece.
PIECES = {
    'rd': [(0, 5, 7)], 'rs1': [(0, 5, 15)], 'rs2': [(0, 5, 20)], 'order': [(0, 2, 25)],
    'imm': [(0, 12, 20)], 'store': [(0, 5, 7), (5, 7, 25)], 'upper': [(0, 20, 12)],
    'branch': [(11, 1, 7), (1, 4, 8), (5, 6, 25), (12, 1, 31)],
    'jump': [(12, 8, 12), (11, 1, 20), (1, 10, 21), (20, 1, 31)],
    'amount5': [(0, 5, 20)], 'amount6': [(0, 6, 20)],
}
SIGNED = {'imm': 12, 'store': 12, 'branch': 13, 'jump': 21}
UNSIGNED = {'upper': 20, 'amount5': 5, 'amount6': 6}
SPOKEN = {'store': 'imm', 'upper': 'imm', 'branch': 'target', 'jump': 'target', 'amount5': 'amount', 'amount6': 'amount'}

# A form: the bits that name the instruction, and how its operands are written.
FORMS = {
    'r': (0xFE00707F, 'rd,rs1,rs2'), 'i': (0x0000707F, 'rd,rs1,imm'), 'load': (0x0000707F, 'rd,imm(rs1)'),
    'store': (0x0000707F, 'rs2,store(rs1)'), 'branch': (0x0000707F, 'rs1,rs2,branch'), 'upper': (0x0000007F, 'rd,upper'),
    'jump': (0x0000007F, 'rd,jump'), 'shift': (0xFC00707F, 'rd,rs1,amount6'), 'shiftw': (0xFE00707F, 'rd,rs1,amount5'),
    'lr': (0xF9F0707F, 'rd,(rs1)'), 'amo': (0xF800707F, 'rd,rs2,(rs1)'), 'fence': (0x0000707F, ''), 'alone': (0xFFFFFFFF, ''),
}
FUNCT5 = {'amoadd': 0, 'amoswap': 1, 'lr': 2, 'sc': 3, 'amoxor': 4, 'amocas': 5, 'amoor': 8, 'amoand': 12, 'amomin': 16, 'amomax': 20,
          'amominu': 24, 'amomaxu': 28}

# Pseudo-instructions as GNU as has them: how each may be written, and the instruction that it stands for. li is load_constant's.
PSEUDO = {
    'nop': {'': 'addi x0,x0,0'}, 'ret': {'': 'jalr x0,0(x1)'}, 'j': {'jump': 'jal x0,jump'}, 'li': {'rd,constant': ''},
    'jr': {'rs1': 'jalr x0,0(rs1)', 'imm(rs1)': 'jalr x0,imm(rs1)', 'rs1,imm': 'jalr x0,imm(rs1)'},
    'mv': {'rd,rs1': 'addi rd,rs1,0'}, 'not': {'rd,rs1': 'xori rd,rs1,-1'}, 'sext.w': {'rd,rs1': 'addiw rd,rs1,0'},
    'neg': {'rd,rs2': 'sub rd,x0,rs2'}, 'negw': {'rd,rs2': 'subw rd,x0,rs2'},
    'seqz': {'rd,rs1': 'sltiu rd,rs1,1'}, 'snez': {'rd,rs2': 'sltu rd,x0,rs2'}, 'sltz': {'rd,rs1': 'slt rd,rs1,x0'}, 'sgtz': {'rd,rs2': 'slt rd,x0,rs2'},
    'beqz': {'rs1,branch': 'beq rs1,x0,branch'}, 'bnez': {'rs1,branch': 'bne rs1,x0,branch'},
    'blez': {'rs2,branch': 'bge x0,rs2,branch'}, 'bgez': {'rs1,branch': 'bge rs1,x0,branch'},
    'bltz': {'rs1,branch': 'blt rs1,x0,branch'}, 'bgtz': {'rs2,branch': 'blt x0,rs2,branch'},
    'bgt': {'rs2,rs1,branch': 'blt rs1,rs2,branch'}, 'ble': {'rs2,rs1,branch': 'bge rs1,rs2,branch'},
    'bgtu': {'rs2,rs1,branch': 'bltu rs1,rs2,branch'}, 'bleu': {'rs2,rs1,branch': 'bgeu rs1,rs2,branch'},
}


def instructions():
    """name: (form, the bits that name it)."""
    table = {'lui': ('upper', 0x37), 'auipc': ('upper', 0x17), 'jal': ('jump', 0x6F), 'jalr': ('load', 0x67), 'fence': ('fence', 0x0F),
             'ecall': ('alone', 0x00000073), 'ebreak': ('alone', 0x00100073)}

    def row(form, opcode, names, funct7=0):
        for funct3, name in enumerate(names.split()):
            if name != '-':
                table[name] = (form, opcode | funct3 << 12 | funct7 << 25)

    row('branch', 0x63, 'beq bne - - blt bge bltu bgeu')
    row('load', 0x03, 'lb lh lw ld lbu lhu lwu')
    row('store', 0x23, 'sb sh sw sd')
    row('i', 0x13, 'addi - slti sltiu xori - ori andi')
    row('shift', 0x13, '- slli - - - srli')
    row('shift', 0x13, '- - - - - srai', 32)
    row('i', 0x1B, 'addiw')
    row('shiftw', 0x1B, '- slliw - - - srliw')
    row('shiftw', 0x1B, '- - - - - sraiw', 32)
    row('r', 0x33, 'add sll slt sltu xor srl or and')
    row('r', 0x33, 'sub - - - - sra', 32)
    row('r', 0x3B, 'addw sllw - - - srlw')
    row('r', 0x3B, 'subw - - - - sraw', 32)
    for name, funct5 in FUNCT5.items():
        for funct3, width in ((2, '.w'), (3, '.d'), (4, '.q')):
            if width != '.q' or name == 'amocas':
                table[name + width] = ('lr' if name == 'lr' else 'amo', 0x2F | funct3 << 12 | funct5 << 27)
    return table


def of_rv32(table):
    """The instructions of RV32 among those of RV64: the amount of a shift has 5 bits there, and of all D and Q there is amocas.d alone."""
    alone = 'ld lwu sd addiw slliw srliw sraiw addw subw sllw srlw sraw'.split()
    kept = (name for name in table if name not in alone and (name == 'amocas.d' or not name.endswith(('.d', '.q'))))
    return {name: ({'shift': 'shiftw'}.get(table[name][0], table[name][0]), table[name][1]) for name in kept}


def by_opcode(table):
    found = {}
    for name, (form, bits) in table.items():
        found.setdefault(bits & 127, []).append((name, form, bits, FORMS[form][0]))
    return found


INSTRUCTIONS = instructions()
BY_XLEN = {64: INSTRUCTIONS, 32: of_rv32(INSTRUCTIONS)}
BY_OPCODE = {xlen: by_opcode(table) for xlen, table in BY_XLEN.items()}
PAIRS = {64: 'amocas.q', 32: 'amocas.d'}                     # of even registers and those behind them


def get(field, word):
    value = sum((word >> place & (1 << width) - 1) << low for low, width, place in PIECES[field])
    bits = SIGNED.get(field)
    return value - (1 << bits) if bits and value >> bits - 1 else value


def put(field, value):
    return sum((value >> low & (1 << width) - 1) << place for low, width, place in PIECES[field])


# ---- a word to its text

def decode(word, xlen=64):
    """(name without its ordering, form) of a word, or None of one that is no instruction of the model."""
    for name, form, bits, mask in BY_OPCODE[xlen].get(word & 127, ()):
        if word & mask == bits:
            return None if name == PAIRS[xlen] and word & 0x00100080 else (name, form)
    return None


def fence_text(word):
    rest, odd = word >> 20, word >> 7 & 31 or word >> 15 & 31
    if word == 0x0FF0000F:
        return 'fence'
    if word == 0x8330000F:
        return 'fence.tso'
    if odd or rest >> 8:
        return 'fence x%d,x%d,0x%03x' % (word >> 7 & 31, word >> 15 & 31, rest)
    return 'fence ' + ','.join(''.join(c for c, bit in zip('iorw', (8, 4, 2, 1)) if four & bit) or '0' for four in (rest >> 4, rest & 15))


@functools.lru_cache(1 << 16)
def disassemble(word, xlen=64):
    """The text of a word; None of one that is no instruction of the model. Offsets of branches and jal count from their own address."""
    found = decode(word, xlen)
    if found is None:
        return None
    name, form = found
    if form == 'fence':
        return fence_text(word)

    def written(match):
        field = match.group()
        value = get(field, word)
        return 'x%d' % value if field in ('rd', 'rs1', 'rs2') else hex(value) if field == 'upper' else str(value)

    if form in ('lr', 'amo'):
        name += ORDERINGS[get('order', word)]
    return (name + ' ' + re.sub(r'\w+', written, FORMS[form][1])).rstrip()


def target(word):
    """The offset that a branch or jal word may go to; None of any other word."""
    found = decode(word)
    return get(found[1], word) if found and found[1] in ('branch', 'jump') else None


# ---- a text to its word

def number(text):
    """The number that a text writes in decimal or, after 0x, in hex; None of any other text. ValueError of one that no line takes: GNU as reads
    a decimal with a leading zero as octal, and nothing has more than 64 bits. Python doesn't convert a decimal of thousands of digits at all."""
    decimal = re.fullmatch(r'-?([0-9]+)', text)
    if not decimal and not re.fullmatch(r'-?0[xX][0-9a-fA-F]+', text):
        return None
    shown = text if len(text) <= 40 else '%s.. (%d characters)' % (text[:20], len(text))
    if decimal and len(decimal[1]) > 1 and decimal[1][0] == '0':
        raise ValueError('%s has a leading zero, which is octal in GNU as: write it without, or in hex after 0x' % shown)
    value = 1 << 64 if decimal and len(decimal[1]) > 20 else int(text, 10 if decimal else 16)
    if abs(value) >> 64:
        raise ValueError('%s is out of range: it has more than 64 bits' % shown)
    return value


def register(text):
    if text not in REGISTERS:
        raise ValueError('%r is no register: x0 to x31, or the ABI names' % text)
    return REGISTERS[text]


def immediate(field, text, resolve, address):
    """The number for a field; a label, where resolve knows it, is the target of a branch or jal."""
    value = number(text)
    if value is None and field in ('branch', 'jump') and resolve is not None:
        value = resolve(text) - address
    if value is None:
        raise ValueError('%r is no number' % text)
    if field in SIGNED:
        low, high = -(1 << SIGNED[field] - 1), (1 << SIGNED[field] - 1) - 1
    else:
        low, high = -(1 << 19) if field == 'upper' else 0, (1 << UNSIGNED[field]) - 1
    if not low <= value <= high:
        raise ValueError('%d is out of range: %d to %d' % (value, low, high))
    if field in ('branch', 'jump') and value % 2:
        raise ValueError('%d is odd: an offset of a branch or jal is even' % value)
    return value


def operands(text):
    """The operands of a line without the spaces around them. A space inside one, or an empty one, is refused: what was meant isn't known."""
    parts = [part.strip() for part in re.split(r'([,()])', text)]
    for part in parts:
        if len(part.split()) > 1:
            raise ValueError('%r has a space inside: operands are separated by commas' % part)
    text = ''.join(parts)
    if text.startswith(',') or text.endswith(',') or ',,' in text:
        raise ValueError('an operand beside a comma is empty')
    return text


def fields(name, shapes, rest):
    """The first of the shapes that the operands have, and the text of each of its fields."""
    for shape in shapes:
        match = re.fullmatch(re.sub(r'\w+', '([^,()]+)', re.escape(shape)).replace(r',\(', r',0?\('), rest)
        if match:
            return shape, dict(zip(re.findall(r'\w+', shape), match.groups()))
    spoken = (re.sub(r'\w+', lambda m: SPOKEN.get(m.group(), m.group()), shape) for shape in shapes)
    raise ValueError('write ' + ' or '.join((name + ' ' + shape).rstrip() for shape in spoken))


def signed(value, bits):
    """The signed meaning of a number's low bits."""
    value %= 1 << bits
    return value - (1 << bits) if value >> bits - 1 else value


def load_constant(rd, value, xlen=64):
    """The instructions by which GNU as loads a number beyond 12 bits. One of 32 bits: lui, and addiw (in RV32 addi) for the low 12 bits. Any other:
    what stands above the low 12 bits, without the zeros at its end, in the same way; then a shift, and addi for the low 12 bits. GNU as writes addiw
    also where addi would do, and into x0 also where the low bits are zero."""
    low = signed(value, 12)
    high = signed(value - low, 64)
    if value == signed(value, 32):
        upper, add = ['lui %s,%#x' % (rd, high >> 12 & 0xFFFFF)] if high else [], 'addiw' if xlen == 64 else 'addi'
        return upper + (['%s %s,%s,%d' % (add, rd, rd if high else 'x0', low)] if low or not high or rd == 'x0' else [])
    shift = (high & -high).bit_length() - 1
    return load_constant(rd, high >> shift) + ['slli %s,%s,%d' % (rd, rd, shift)] + (['addi %s,%s,%d' % (rd, rd, low)] if low else [])


def expand(text, xlen=64):
    """The instructions, as texts, that a line stands for: one or more of a pseudo-instruction, else the line itself."""
    name, *rest = text.split(None, 1)
    if name not in PSEUDO or xlen == 32 and name in ('negw', 'sext.w'):      # these two stand for words of RV64 alone
        return [text]
    shape, given = fields(name, PSEUDO[name], operands(''.join(rest)))
    if name != 'li':
        return [re.sub(r'\w+', lambda m: given.get(m.group(), m.group()), PSEUDO[name][shape])]
    value = number(given['constant'])
    if value is None:
        raise ValueError('%r is no number' % given['constant'])
    if not -1 << xlen - 1 <= value < 1 << xlen:
        raise ValueError('%d is out of range: %d to %d' % (value, -1 << xlen - 1, (1 << xlen) - 1))
    rd, value = 'x%d' % register(given['rd']), signed(value, xlen)
    return ['addi %s,x0,%d' % (rd, value)] if value == signed(value, 12) else load_constant(rd, value, xlen)


def assemble_fence(name, args):
    if name == 'fence.tso' and not args:
        return 0x8330000F
    if name == 'fence' and not args:
        return 0x0FF0000F
    if name == 'fence' and len(args) == 2:
        for arg in args:
            if not re.fullmatch('0|i?o?r?w?', arg) or not arg:
                raise ValueError('%r: letters of iorw in this order, or 0' % arg)
        before, after = (sum(bit for c, bit in zip('iorw', (8, 4, 2, 1)) if c in arg) for arg in args)
        return 0x0F | before << 24 | after << 20
    if name == 'fence' and len(args) == 3:
        top = number(args[2])
        if top is None or not 0 <= top <= 0xFFF:
            raise ValueError('%r: a number from 0 to 0xfff is wanted' % args[2])
        return 0x0F | register(args[0]) << 7 | register(args[1]) << 15 | top << 20
    raise ValueError('write fence, fence PRED,SUCC, fence rd,rs1,NUMBER, or fence.tso')


def known(name, xlen):
    """An instruction by its name: the name without its ordering, the form, the bits that name it, and the ordering. ValueError of one that the model
    has not."""
    plain, order = name, 0
    for bits in (3, 2, 1):
        if name.endswith(ORDERINGS[bits]):
            plain, order = name[:-len(ORDERINGS[bits])], bits
            break
    table = BY_XLEN[xlen]
    if plain in INSTRUCTIONS and plain not in table:
        raise ValueError('%r is no instruction of the 32-bit kind' % name)
    if plain not in table or order and table[plain][0] not in ('lr', 'amo'):
        raise ValueError('%r is no instruction of the model' % name)
    return plain, *table[plain], order


def assemble(text, resolve=None, address=0, xlen=64):
    """The word of an instruction's text. resolve gives a label's address, for branches and jal; ValueError says what is wrong."""
    name, *rest = text.split(None, 1)
    rest = operands(''.join(rest))
    if name in ('fence', 'fence.tso'):
        return assemble_fence(name, rest.split(',') if rest else [])
    plain, form, word, order = known(name, xlen)
    for field, arg in fields(name, [FORMS[form][1]], rest)[1].items():
        value = register(arg) if field in ('rd', 'rs1', 'rs2') else immediate(field, arg, resolve, address)
        if plain == PAIRS[xlen] and field in ('rd', 'rs2') and value % 2:
            raise ValueError('%s takes an even %s, x%d is odd' % (plain, field, value))
        word |= put(field, value)
    return word | put('order', order)
