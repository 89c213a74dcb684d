"""What of a RISC-V program goes into memory: an ELF file of 64 or 32 bits, the lowest byte first, linked to fixed addresses. Used by tools/case.

The file is read by pyelftools (Debian: apt-get install python3-pyelftools). All else of the tools works without it.
"""
import io
from collections import namedtuple

try:
    from elftools.elf.elffile import ELFFile
except ImportError:
    ELFFile = None

Segment = namedtuple('Segment', 'number address data size')  # size: with the zeros behind the data (.bss)
Program = namedtuple('Program', 'entry segments compressed xlen')
MAGIC, COMPRESSED = b'\x7fELF', 1                            # how a file begins; a bit of e_flags
TYPES = {'ET_REL': 'it is not linked', 'ET_DYN': 'it is position-independent: link it with -static and -no-pie', 'ET_CORE': 'it is a core dump'}


def opened(data):
    """The file behind the bytes, and its segments. pyelftools raises errors of many kinds for a file that is damaged or cut off."""
    try:
        file = ELFFile(io.BytesIO(data))
        if file['e_phnum'] and file['e_phentsize'] != (56 if file.elfclass == 64 else 32):
            raise ValueError('its table of segments has entries of %d bytes' % file['e_phentsize'])
        return file, list(file.iter_segments())
    except Exception as error:
        raise ValueError('it is no whole ELF file: %s' % (str(error) or type(error).__name__))


def check(file, segments):
    if not file.little_endian:
        raise ValueError('it has the highest byte first: the model has the lowest first')
    if file['e_machine'] != 'EM_RISCV':
        raise ValueError('it is for the machine %s, not for RISC-V' % file['e_machine'])
    if file['e_type'] != 'ET_EXEC':
        raise ValueError(TYPES.get(file['e_type'], 'its type is %s: it is no linked program' % file['e_type']))
    if any(segment['p_type'] in ('PT_DYNAMIC', 'PT_INTERP') for segment in segments):
        raise ValueError('it needs a dynamic linker: link it with -static and -no-pie')


def loaded(segments):
    """The segments to be loaded that aren't empty."""
    loads = [(k, s) for k, s in enumerate(segments) if s['p_type'] == 'PT_LOAD' and s['p_memsz'] | s['p_filesz']]
    # Without address translation a segment stands at its physical address; linkers that have none leave it zero everywhere.
    physical, found = any(s['p_paddr'] for _, s in loads), []
    for k, s in loads:
        if s['p_filesz'] > s['p_memsz']:
            raise ValueError('its segment %d has %d bytes in the file, more than the %d in memory' % (k, s['p_filesz'], s['p_memsz']))
        size = s.stream.seek(0, io.SEEK_END)
        if s['p_offset'] + s['p_filesz'] > size:
            raise ValueError('its segment %d ends behind the file' % k)
        found.append(Segment(k, s['p_paddr'] if physical else s['p_vaddr'], s.data(), s['p_memsz']))
    return found


def read(data):
    """The program of a file's bytes. ValueError says what is wrong."""
    if ELFFile is None:
        raise ValueError('to read it, pyelftools is needed, which this Python has not: apt-get install python3-pyelftools')
    if not data.startswith(MAGIC):
        raise ValueError('it is no ELF file')
    file, segments = opened(data)
    check(file, segments)
    loads, entry = loaded(segments), file['e_entry']
    if not loads:
        raise ValueError('it has nothing to load')
    if not any(s.address <= entry < s.address + len(s.data) for s in loads):
        raise ValueError('its entry %#x is not in what it loads' % entry)
    if entry % 4:
        raise ValueError('its entry %#x is no multiple of 4' % entry)
    return Program(entry, loads, bool(file['e_flags'] & COMPRESSED), file.elfclass)
