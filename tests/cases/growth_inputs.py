"""Inputs of any size: line sections, ELF files and addresses that are made of a number of parts.

They are little-endian, of 64 bits; units are of version 5 unless said otherwise. DWARF 5, section 6.2; System V ABI,
chapter 4."""
import struct
import zlib
from dataclasses import dataclass, field

from lib.elf import (
    ALLOC, COMPRESSED, CREL, EXECINSTR, LITTLE_64, OBJECT, RELA, SYMTAB, Form, Section, compact, image, line_unit,
    relocation,
    symbol)
from cases.units import FIELDS, table, uleb, unit_of

# Content codes and forms of the tables.
PATH, DIRECTORY = 1, 2
STRING, STRP, UDATA, LINE_STRP = 0x08, 0x0E, 0x0F, 0x1F
# Where the first sequence begins, and how many bytes of code a row stands for.
BASE, STEP = 0x10000, 4


@dataclass(frozen=True)
class Input:
    """The words of a run, what it reads on the input, files by their names, the words of a run that comes before, and
    the status that is wanted."""
    words: list
    input: bytes = b""
    files: dict = field(default_factory=dict)
    before: list = ()
    status: int = 0


def sequence(address, rows=16):
    """The operations of a sequence of rows, each STEP bytes and a line after the one before it."""
    return b"\0\x09\x02" + struct.pack("<Q", address) + b"\x01" + b"\x4b" * (rows - 1) + b"\x02\x04\0\x01\x01"


def tables(directory, *files):
    """A directory, and files in it; the first of them is there twice, as file 0 and as file 1."""
    entries = [file + b"\0\0" for file in (files[0], *files)]
    return table([(PATH, STRING)], directory + b"\0") + table([(PATH, STRING), (DIRECTORY, UDATA)], *entries)


def unit(number, rows=16):
    """A unit with a file and a sequence of its own, behind those of the units before it."""
    return unit_of(tables(b"/src", b"part_%d.c" % number), sequence(BASE + rows * STEP * number, rows))


def older_unit(number, rows=16, names=None):
    """The same of version 4, maybe with other tables."""
    names = names or b"/src\0\0" + b"part_%d.c\0\1\0\0\0" % number
    after_length = FIELDS + names
    body = struct.pack("<HI", 4, len(after_length)) + after_length + sequence(BASE + rows * STEP * number, rows)
    return struct.pack("<I", len(body)) + body


def units(count):
    return b"".join(map(unit, range(count)))


def older_units(count):
    return b"".join(map(older_unit, range(count)))


def elf(section, *others):
    """A linked file without code, so that all sequences count."""
    return {"elf": image(LITTLE_64, [Section(".debug_line", section), *others])}


def compressed(name, data):
    """A section with a compression header. The bytes repeat themselves, so the least work is enough."""
    return Section(name, struct.pack("<IIQQ", 1, 0, len(data), 1) + zlib.compress(data, 1), flags=COMPRESSED)


def compressed_elf(section):
    return {"elf": image(LITTLE_64, [compressed(".debug_line", section)])}


def asked(count, step=STEP, size=1 << 40):
    """Addresses as words, of so many bytes of code over and over."""
    return [f"0x{BASE + step * number % size:x}" for number in range(count)]


def lines(words):
    return "".join(word + "\n" for word in words).encode()


def program(sequences, names=None):
    """A unit with these sequences."""
    return unit_of(names or tables(b"/src", b"a.c"), b"".join(sequences))


def directories(count):
    """A unit with as many directories and a file in each."""
    parts = range(count)
    places = table([(PATH, STRING)], *(b"/src/%d\0" % part for part in parts))
    files = table([(PATH, STRING), (DIRECTORY, UDATA)], *(b"a.c\0" + uleb(part) for part in parts))
    return unit_of(places + files, b"".join(b"\x04" + uleb(part) + sequence(BASE + 64 * part) for part in parts))


def older_directories(count):
    """The same of version 4, with a sequence of its first file."""
    names = b"".join(b"/src/%d\0" % part for part in range(count)) + b"\0"
    files = b"".join(b"a.c\0" + uleb(part + 1) + b"\0\0" for part in range(count)) + b"\0"
    return older_unit(0, names=names + files)


def same_file(count):
    """A unit with one path as many times, each with a sequence."""
    parts = range(count)
    names = tables(b"/src", *[b"a.c"] * count)
    return unit_of(names, b"".join(b"\x04" + uleb(part) + sequence(BASE + 64 * part) for part in parts))


def alike(count):
    """Sequences over the same addresses."""
    return program(sequence(BASE) for _ in range(count))


def nested(count):
    """Each sequence lies inside the one before it."""
    def ring(part):
        start = struct.pack("<Q", BASE + STEP * part)
        return b"\0\x09\x02" + start + b"\x13\x02" + uleb(2 * STEP * (count - part)) + b"\0\x01\x01"
    return program(map(ring, range(count)))


def stairs(count):
    """Each sequence begins a row after the one before it."""
    return program(sequence(BASE + STEP * part) for part in range(count))


def falling(count):
    """Each sequence lies before the one before it."""
    return program(sequence(BASE + 64 * part) for part in reversed(range(count)))


def one_address(count):
    """A sequence with as many rows at an address."""
    return program([b"\0\x09\x02" + struct.pack("<Q", BASE) + b"\x13" * count + b"\x02\x04\0\x01\x01"])


def damaged(count):
    """Units whose size of addresses is none, and a whole one."""
    return struct.pack("<IHBBI", 8, 5, 3, 0, 0) * count + unit(0)


def cut_short(count):
    """Units whose last opcode is damaged."""
    return b"".join(part[:-2] + b"\0\1" for part in map(unit, range(count)))


def foreign(count):
    """Units of version 6, and a whole one of version 5."""
    return b"\2\0\0\0\6\0" * count + unit(0)


def long_name(length):
    """A unit whose directory has a name of this length."""
    return program([sequence(BASE)], tables(b"/" + b"d" * length, b"a.c"))


def lent_name(form, length):
    """A unit whose file has its name in a string section, and a text of this length."""
    names = table([(PATH, STRING)], b"/src\0") + table([(PATH, form)], *[bytes(4)] * 2)
    name = ".debug_str" if form == STRP else ".debug_line_str"
    return elf(program([sequence(BASE)], names), Section(name, b"n" * length + b"\0"))


def padded(length):
    """A unit with an operand in as many bytes, and an operation that is passed over of as many."""
    passed_over = b"\0" + uleb(length) + b"\x70" + bytes(length - 1)
    return program([b"\x05\x83" + b"\x80" * length + b"\0" + passed_over, sequence(BASE)])


def blocks(count):
    """A file whose line section is compressed, in a stream of as many empty blocks more."""
    data = unit(0)
    stream = b"\x78\x01" + b"\0\0\0\xff\xff" * count + zlib.compress(data)[2:]
    return {"elf": image(LITTLE_64, [Section(".debug_line", struct.pack("<IIQQ", 1, 0, len(data), 1) + stream,
                                             flags=COMPRESSED)])}


def code(count, more=0):
    """A linked file with a section of code for each sequence, and as many more without one."""
    parts = [Section(".text", bytes(64), flags=ALLOC | EXECINSTR,
                     address=BASE + 64 * part) for part in range(count + more)]
    return {"elf": image(LITTLE_64, [Section(".debug_line", units(count)), *parts])}


def sections(count):
    """A file with as many sections, each with a name of its own that begins as one that is looked for."""
    parts = [Section(f".debug_line_string_{part}") for part in range(count)]
    return {"elf": image(Form(escapes=True), [Section(".debug_line", unit(0)), *parts])}


def object_file(count, section_type=RELA, falls=False):
    """An object file of as many units with a sequence each, whose addresses are relocations by a symbol each, maybe
    from the last one to the first."""
    unit_of_object, (place,) = line_unit(OBJECT, [(0, 2)])
    size, parts = len(unit_of_object), range(count)
    entries = [(size * part + place, part + 1, 1, 0x100) for part in (reversed(parts) if falls else parts)]
    relocations = compact(entries) if section_type == CREL else b"".join(relocation(OBJECT,
                                                                                    *entry) for entry in entries)
    symbols = symbol(OBJECT) + b"".join(symbol(OBJECT, 16 * part, 1) for part in parts)
    return {"elf": image(OBJECT, [
        Section(".text", b"code", flags=EXECINSTR), Section(".debug_line", unit_of_object * count),
        Section(".symtab", symbols, SYMTAB), Section(".rela.debug_line", relocations, section_type, link=3, info=2)])}


# The code of a compilation unit (DW_TAG_compile_unit), and its attributes: DW_AT_stmt_list and DW_AT_comp_dir.
def abbreviation(number, form):
    return uleb(number) + b"\x11\0\x10\x17\x1b" + bytes([form]) + b"\0\0"


def info_unit(number, directory, table_at):
    """A unit of .debug_info of version 4 whose entry says a directory."""
    entry = uleb(number) + struct.pack("<I", table_at) + directory
    return struct.pack("<IHIB", 7 + len(entry), 4, 0, 8) + entry


def with_info(count, number, form, directory, abbreviations, *others):
    """A file of as many units of version 4, each compiled in a directory that .debug_info says."""
    tables_of = [older_unit(part, names=b"\0a.c\0\0\0\0\0") for part in range(count)]
    size = len(tables_of[0])
    info = b"".join(info_unit(number, directory(part), size * part) for part in range(count))
    return elf(b"".join(tables_of), Section(".debug_info", info), Section(".debug_abbrev", abbreviations), *others)


def own_directories(count):
    return with_info(count, 1, STRING, lambda part: b"/build/%d\0" % part, abbreviation(1, STRING) + b"\0")


def lent_directories(count):
    texts = b"".join(b"/build/%07d\0" % part for part in range(count))
    return with_info(count, 1, STRP, lambda part: struct.pack("<I", 15 * part), abbreviation(1, STRP) + b"\0",
                     Section(".debug_str", texts))


def far_abbreviations(count):
    """Units whose abbreviation is the last one of as many."""
    before = b"".join(abbreviation(number, STRING) for number in range(1, count + 1))
    return with_info(count, count, STRING, lambda part: b"/build\0", before + b"\0")


def empty_attributes(count):
    """Units whose abbreviation has as many attributes without a value (DW_FORM_flag_present)."""
    many = uleb(1) + b"\x11\0" + b"\x34\x19" * count + b"\x10\x17\x1b" + bytes([STRING]) + b"\0\0\0"
    return with_info(count, 1, STRING, lambda part: b"/build\0", many)


def one_directory(count, texts=1):
    """Units whose directories are texts by turns, with as many bytes together as the units."""
    size = 20 * count // texts
    strings = b"".join(b"/%d" % text + b"d" * (size - 3) + b"\0" for text in range(texts))
    return with_info(count, 1, STRP, lambda part: struct.pack("<I", size * (part % texts)),
                     abbreviation(1, STRP) + b"\0",
                     Section(".debug_str", strings))


def wide_units(count):
    """Units of 1024 bytes with 16 rows each; most of a unit is an operation that is passed over."""
    names, operations = tables(b"/src", b"NUMBER##.c"), sequence(BASE)
    left = 1024 - len(unit_of(names, operations)) - 3
    first = unit_of(names, b"\0" + uleb(left) + b"\x70" + bytes(left - 1) + operations)

    def wide(number):
        named = first.replace(b"NUMBER##", b"%08d" % number)
        return named.replace(struct.pack("<Q", BASE), struct.pack("<Q", BASE + 64 * number))
    return b"".join(map(wide, range(count)))


def long_directory(length):
    """A unit of version 4 whose directory in .debug_info has a name of this length."""
    return with_info(1, 1, STRING, lambda part: b"/" + b"d" * length + b"\0", abbreviation(1, STRING) + b"\0")


def archive(member, count):
    """An archive, in GNU's form, with a member of these bytes for each number. The header of an entry: ar(5)."""
    entries = []
    for number in range(count):
        name = b"part_%d/" % number
        entries.append(b"%-16s%-12d%-6d%-6d%-8d%-10d`\n" % (name, 0, 0, 0, 644,
                                                            len(member)) + member + b"\n" * (len(member) % 2))
    return b"!<arch>\n" + b"".join(entries)
