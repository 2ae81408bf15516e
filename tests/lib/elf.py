"""ELF files of a few sections, in either class and order, and line tables for them.

System V ABI, chapter 4; DWARF 5, section 6.2."""
import struct
from dataclasses import dataclass

# e_type
ET_REL, ET_EXEC, ET_DYN, ET_CORE = 1, 2, 3, 4
# sh_type
PROGBITS, SYMTAB, STRTAB, RELA, NOTE, NOBITS, REL, SYMTAB_SHNDX, CREL = 1, 2, 3, 4, 7, 8, 9, 18, 0x40000014
# sh_flags
WRITE, ALLOC, EXECINSTR, COMPRESSED = 1, 2, 4, 0x800
EM_X86_64 = 62


@dataclass(frozen=True)
class Form:
    """How a file is laid out."""
    wide: bool = True  # of 64 bits, or of 32
    big: bool = False
    file_type: int = ET_EXEC
    empty: int = 0  # how many sections without a name come before the others
    escapes: bool = False  # the number of sections and that of the name table stand in section 0
    machine: int = EM_X86_64

    def pack(self, codes, *numbers):
        return struct.pack((">" if self.big else "<") + codes, *numbers)

    def address(self, number):
        return self.pack("Q" if self.wide else "I", number)


LITTLE_64 = Form()
BIG_64 = Form(big=True)
LITTLE_32 = Form(wide=False)
BIG_32 = Form(wide=False, big=True)
OBJECT = Form(file_type=ET_REL)


@dataclass(frozen=True)
class Section:
    name: str
    data: bytes = b""
    section_type: int = PROGBITS
    flags: int = 0
    address: int = 0
    link: int = 0
    info: int = 0


def section_header(form, *numbers):
    """sh_name, sh_type, sh_flags, sh_addr, sh_offset, sh_size, sh_link and sh_info come as numbers."""
    return form.pack("IIQQQQIIQQ" if form.wide else "10I", *numbers, 1, 0)


def file_header(form, table, count):
    """The header of a file with `count` sections, whose headers begin at `table`."""
    ident = b"\x7fELF" + bytes([2 if form.wide else 1, 2 if form.big else 1, 1]) + bytes(9)
    count, names = (0, 0xFFFF) if form.escapes else (count, count - 1)
    size, entry = (64, 64) if form.wide else (52, 40)
    return ident + form.pack("HHIQQQIHHHHHH" if form.wide else "HHIIIIIHHHHHH", form.file_type, form.machine, 1, 0, 0,
                             table, 0, size, 0, 0, entry, count, names)


def image(form, sections):
    """A file with section 0, the sections without a name, these sections, and the name table. The header comes first,
    then the sections' bytes, the names, and the section headers."""
    start = 64 if form.wide else 52
    contents, names, headers = b"", b"\0", b""
    for section in sections:
        headers += section_header(form, len(names), section.section_type, section.flags, section.address,
                                  start + len(contents), len(section.data), section.link, section.info)
        contents += section.data
        names += section.name.encode() + b"\0"
    count = len(sections) + form.empty + 2
    size, link = (count, count - 1) if form.escapes else (0, 0)
    first = section_header(form, 0, 0, 0, 0, 0, size, link, 0)
    empty = section_header(form, 0, PROGBITS, 0, 0, 0, 0, 0, 0) * form.empty
    last = section_header(form, 0, STRTAB, 0, 0, start + len(contents), len(names), 0, 0)
    table = start + len(contents) + len(names)
    return file_header(form, table, count) + contents + names + first + empty + headers + last


def place_of(file, number, field):
    """Where a field of section header `number` stands in a little-endian file of 64 bits."""
    table, = struct.unpack_from("<Q", file, 40)
    fields = {"name": 0, "type": 4, "flags": 8, "offset": 24, "size": 32, "link": 40}
    return table + 64 * number + fields[field]


def changed(file, at, byte):
    """The file with this byte at a place of it."""
    return file[:at] + bytes([byte]) + file[at + 1:]


def replaced(file, at, those):
    """The file with these bytes at a place of it."""
    return file[:at] + those + file[at + len(those):]


def uleb(number):
    spelled = b""
    while number >= 0x80:
        spelled += bytes([number & 0x7F | 0x80])
        number >>= 7
    return spelled + bytes([number])


def sleb(number):
    spelled = b""
    while not -0x40 <= number < 0x40:
        spelled += bytes([number & 0x7F | 0x80])
        number >>= 7
    return spelled + bytes([number & 0x7F])


def sequence(form, address, line):
    """The operations of a sequence of two rows, at an address and 4 bytes after it."""
    word = form.address(address)
    set_address = b"\0" + uleb(1 + len(word)) + b"\2" + word
    return set_address + b"\3" + sleb(line - 1) + b"\1\2\4\0\1\1"


# The formats and entries of the tables: none; and a directory at 0 of .debug_line_str with a file at 0 of .debug_str.
NO_TABLES = bytes(4)
DIRECTORY = b"\1\1\x1f\1" + bytes(4)
DIRECTORY_AND_FILE = DIRECTORY + b"\1\1\x0e\1" + bytes(4)


def line_unit(form, sequences, tables=NO_TABLES):
    """A unit of 32-bit DWARF with these sequences, each with its address and line, and where the numbers of their
    addresses stand in it."""
    fields = b"\1\1\1\xfb\x0e\x0d" + bytes([0, 1, 1, 1, 1, 0, 0, 0, 1, 0, 0, 1]) + tables
    size = 8 if form.wide else 4
    head = form.pack("HBBI", 5, size, 0, len(fields)) + fields
    places, program = [], b""
    for address, line in sequences:
        places.append(4 + len(head) + len(program) + 3)
        program += sequence(form, address, line)
    return form.pack("I", len(head) + len(program)) + head + program, places


def unit_text(form, sequences, tables=()):
    """The dump of such a unit at the beginning of a section, with these lines of its tables. A section that isn't there
    has no strings."""
    lines = [f"unit 0x0 dwarf32 version 5 address_size {8 if form.wide else 4}", *tables]
    for address, line in sequences:
        lines.append(f"row 0x{address:016x} 0 1 {line} 0 stmt")
        lines.append(f"row 0x{address + 4:016x} 0 1 {line} 0 stmt end")
    return "".join(line + "\n" for line in lines)


def relocation(form, place, symbol, kind, addend=None):
    """An entry of SHT_RELA, or without an addend of SHT_REL."""
    info = symbol << 32 | kind if form.wide else symbol << 8 | kind
    entry = form.address(place) + form.address(info)
    return entry if addend is None else entry + form.address(addend)


def compact(entries):
    """The contents of a section of type SHT_CREL, of entries with a place, a symbol, a type and maybe an addend: how
    many there are, times 8, with 4 where they have addends; and of each, how it differs from the one before it."""
    bits, flags, high = (3, 7, 4) if len(entries[0]) == 4 else (2, 3, 0)
    contents, last = uleb(8 * len(entries) + high), (0, 0, 0, 0)
    for entry in entries:
        place, *others = (now - before for now, before in zip(entry, last))
        contents += uleb(place << bits | flags) + b"".join(map(sleb, others))
        last = entry
    return contents


def symbol(form, value=0, section=0):
    """A symbol with st_value and st_shndx."""
    if form.wide:
        return form.pack("IBBHQQ", 0, 0, 0, section, value, 0)
    return form.pack("IIIBBH", 0, value, 0, 0, 0, section)


def sections_of(elf):
    """The sections of an ELF file: the name of each, where its bytes begin and end, and whether it has code."""
    order = "<" if elf[5] == 1 else ">"
    wide = elf[4] == 2
    table, = struct.unpack_from(order + ("Q" if wide else "I"), elf, 40 if wide else 32)
    size, count, names = struct.unpack_from(order + "HHH", elf, 58 if wide else 46)
    form = order + ("IIQQQQ" if wide else "IIIIII")
    headers = [struct.unpack_from(form, elf, table + number * size) for number in range(count)]
    at = headers[names][4]
    return [(elf[at + name:elf.index(0, at + name)].decode(), offset, offset + length, flags & 4 != 0)
            for name, _, flags, _, offset, length in headers]


def section_of(elf, name):
    """The number of the first section of a name, and where its bytes begin and end."""
    for number, (other, start, end, _) in enumerate(sections_of(elf)):
        if other == name:
            return number, start, end
    raise KeyError(name)
