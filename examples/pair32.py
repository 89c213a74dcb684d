"""A machine of the 32-bit kind: AMOCAS.D compares and swaps 8 bytes with pairs of its registers. examples/pair32.c does the same from C. From the
repository's root, after `tools/build capi`:

    cc -shared -o target/libfloecavern.so -Wl,--whole-archive target/staticlib/libcapi.a -Wl,--no-whole-archive
    python3 examples/pair32.py
"""
import os
import sys

sys.path.insert(0, os.path.join(os.path.dirname(os.path.dirname(os.path.abspath(__file__))), 'python'))
from floecavern import KIND_32, Kind, Machine, Refused  # noqa: E402, it stands in the folder named above

CODE = [0x28a2b42f, 0x28a2b42f, 0x28a2b4af]  # amocas.d x8,x10,(x5), twice; amocas.d x9,x10,(x5), whose rd is odd
DATA = [0x22222222, 0x11111111]


def started():
    """A hart at pc 0 with x5 = 64, where two words stand: in x8 and x9 the same, in x10 and x11 what is to replace them."""
    machine = Machine(1, 0, 128, kind=KIND_32)
    machine.put_words(0, CODE)
    machine.put_words(64, DATA)
    x = machine.state.x[0]
    x[5], x[8], x[9] = 64, *DATA
    x[10], x[11] = -1 % 2**32, 7  # a register's upper half is zero
    return machine


def stepped(machine):
    """What a step came to."""
    outcome = machine.step(0)
    if outcome.kind is Kind.TRAP:
        return str(outcome)
    words = (int.from_bytes(machine.bytes(addr, 4), 'little') for addr in (64, 68))
    return 'x8 %08x, x9 %08x, the words at 64 %08x %08x' % (machine.state.x[0][8], machine.state.x[0][9], *words)


def told(call, *arguments, **names):
    """What a call gives, or its refusal."""
    try:
        return call(*arguments, **names)
    except Refused as refused:
        return refused


def lines():
    machine = started()
    for what in ['equal', 'not equal', 'rd is x9']:
        yield '%s: %s' % (what, told(stepped, machine))
    machine.state.x[0][8] = 2**64 - 1
    yield '64 bits in x8: %s' % told(stepped, machine)
    yield 'a memory that ends above 2^32: %s' % told(Machine, 1, 2**32 - 64, 128, kind=KIND_32)


def main():
    text = ''.join(line + '\n' for line in lines())
    try:
        with open(1, 'w', closefd=False) as out:  # print would tell a full disk too late, and a closed standard output not at all
            out.write(text)
    except OSError as error:
        sys.exit('standard output: %s' % error.strerror)


if __name__ == '__main__':
    main()
