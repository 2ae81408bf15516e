"""Cases of `addr` over an index, and of `lines` and `sources` over files that are made by hand: what they print, and
how many bytes of the input are left."""
from dataclasses import replace

from cases.elf_cases import Case
from cases.elf_contents import CODE, LINES, with_sequences
from cases.elf_jobs import ELF_STRINGS, LINE_STRINGS, NOT_UNDERSTOOD, THREE_ROWS
from lib.elf import ALLOC, EXECINSTR, LITTLE_32, LITTLE_64, NOTE, Section, image
from lib.worked import objects

# An index of the build whose ID has the bytes ab, cd and ef, with the base 0x401000, by Python's struct and zlib from
# the table of its bytes: version 1, columns of one byte each, of which each begins at a multiple of 8. The texts are
# `/src/`, `a.c` and `lib/`.
#
#     from      unit  path          line  column  is_stmt
#     0x401000  0x0   /src/a.c      2     0       yes
#     0x401004  0x0   /src/lib/a.c  3     7       no
#     0x401006  nothing
#     0x401010  0x40  none          9     0       yes
#     0x401012  nothing
INDEX = bytes.fromhex("""
    64 6c 69 6e 65 69 64 78 01 00 00 00 00 00 00 00 38 01 00 00 00 00 00 00 00 10 40 00 00 00 00 00
    05 00 00 00 00 00 00 00 03 00 00 00 00 00 00 00 03 00 00 00 00 00 00 00 0c 00 00 00 00 00 00 00
    01 01 01 01 01 00 00 00 ba 57 49 73 db 3c 4d c0 03 00 00 00 ab cd ef 00 00 00 00 00 00 00 00 00
    00 00 00 00 00 00 00 00 00 00 00 00 00 00 00 00 00 00 00 00 00 00 00 00 00 00 00 00 00 00 00 00
    00 04 06 10 12 00 00 00 01 02 00 03 00 00 00 00 02 03 00 09 00 00 00 00 00 07 00 00 00 00 00 00
    00 01 00 00 00 00 00 00 09 00 00 00 00 00 00 00 00 00 00 00 00 00 00 00 01 00 00 00 02 00 00 00
    00 00 00 00 00 00 00 00 00 00 00 00 00 00 00 00 01 00 00 00 03 00 00 00 02 00 00 00 00 00 00 00
    40 00 00 00 00 00 00 00 00 00 00 00 00 00 00 00 00 00 00 00 00 00 00 00 00 00 00 00 00 00 00 00
    05 00 00 00 00 00 00 00 05 00 00 00 00 00 00 00 03 00 00 00 00 00 00 00 08 00 00 00 00 00 00 00
    04 00 00 00 00 00 00 00 2f 73 72 63 2f 61 2e 63 6c 69 62 2f 00 00 00 00""")

# One without stretches, of the build whose ID has the bytes ab and cd.
EMPTY_INDEX = bytes.fromhex("""
    64 6c 69 6e 65 69 64 78 01 00 00 00 00 00 00 00 80 00 00 00 00 00 00 00 00 00 00 00 00 00 00 00
    00 00 00 00 00 00 00 00 00 00 00 00 00 00 00 00 00 00 00 00 00 00 00 00 00 00 00 00 00 00 00 00
    01 01 01 01 01 00 00 00 00 00 00 00 04 cd b9 79 02 00 00 00 ab cd 00 00 00 00 00 00 00 00 00 00
    00 00 00 00 00 00 00 00 00 00 00 00 00 00 00 00 00 00 00 00 00 00 00 00 00 00 00 00 00 00 00 00""")

# Rows of version 4 of lines 2 and 3 of `a.c` at 0x401000 and 0x401004, up to 0x401006, where `.text` is; and a sequence
# of line 3 at 0x10, where no code is.
UNIT_OF_A = bytes.fromhex("""
    3c 00 00 00 04 00 1b 00 00 00 01 01 01 fb 0e 0d 00 01 01 01 01 00 00 00 01 00 00 01
    00 61 2e 63 00 00 00 00 00
    00 05 02 00 10 40 00 13 4b 02 02 00 01 01 00 05 02 10 00 00 00 14 02 02 00 01 01""")

# The first of the two, whose last operation has the length 0.
DAMAGED_UNIT_OF_A = bytes.fromhex("""
    2f 00 00 00 04 00 1b 00 00 00 01 01 01 fb 0e 0d 00 01 01 01 01 00 00 00 01 00 00 01
    00 61 2e 63 00 00 00 00 00
    00 05 02 00 10 40 00 13 4b 02 02 00 00 01""")

# The build ID has the bytes ab, cd and ef.
NOTE_OF_BUILD = Section(".note.gnu.build-id", b"\4\0\0\0\3\0\0\0\3\0\0\0GNU\0\xab\xcd\xef\0", NOTE, ALLOC)
TEXT = Section(".text", bytes(6), flags=ALLOC | EXECINSTR, address=0x401000)


def built(lines):
    return image(LITTLE_32, [Section(".debug_line", lines), TEXT, NOTE_OF_BUILD])


INDEXED = built(UNIT_OF_A)
SECOND_DAMAGED = built(UNIT_OF_A + DAMAGED_UNIT_OF_A)
STRIPPED = image(LITTLE_32, [NOTE_OF_BUILD])
TWO_UNITS = image(LITTLE_32, [Section(".debug_line", THREE_ROWS * 2), Section(".debug_line_str", LINE_STRINGS)])
WITH_STRINGS = image(LITTLE_32, ELF_STRINGS)


class Beside(Case):
    """A case beside which there are files with the build ID of `INDEX`, one without any, and the index itself."""

    def files(self):
        others = [("program", INDEXED), ("stripped", STRIPPED), ("units", TWO_UNITS), ("index", INDEX)]
        return [*super().files(), *others]


def asked(name, file, words, status, output, errors="", input=b"1\n", left=2):
    return Beside(f"{name}: {words}", file, ["addr", *words.split()], status, output, errors, input, left)


OTHER = "dwline: elf: made of another file\n"


def answers():
    """Addresses among the words, beside which the input isn't read, or in its lines."""
    for words, status, output in [
        ("elf 0x401000 0x401003 0x401004 401005", 0, "/src/a.c:2\n/src/a.c:2\n/src/lib/a.c:3:7\n/src/lib/a.c:3:7\n"),
        ("elf 0x400fff 0x401006 0x401010 0x401011 0x401012 0xffffffffffffffff", 1,
         "??:0\n??:0\n??:9\n??:9\n??:0\n??:0\n"),
        ("--for program elf 0x401000", 0, "/src/a.c:2\n"),
    ]:
        yield asked("words", INDEX, words, status, output)
    for lines, status, output, errors in [
        (b"0x401000\n\n 0x401005\r\n0x401010", 0, "/src/a.c:2\n/src/lib/a.c:3:7\n??:9\n", ""),
        (b"0x401006\n0x401000\n", 1, "??:0\n/src/a.c:2\n", ""),
        (b"0x401000\nmain\n0x401004\n", 1, "/src/a.c:2\n??:0\n/src/lib/a.c:3:7\n",
         "dwline: line 2: main is no address\n"),
        (b"", 0, "", ""),
    ]:
        yield asked(f"{lines}", INDEX, "elf", status, output, errors, lines, 0)
    yield asked("a line", INDEX, "--for stripped elf", 0, "/src/a.c:2\n", "", b"0x401000", 0)
    yield asked("nothing", EMPTY_INDEX, "elf 0x401000", 1, "??:0\n")
    yield asked("nothing", EMPTY_INDEX, "elf", 1, "??:0\n??:0\n", "", b"0\n1\n", 0)


def refused_indices():
    """An index of another file, words that don't suit one, and one whose header is damaged: nothing of the input is
    read, and nothing answered."""
    for words, status, errors in [
        ("--for units elf 0x401000", 1, OTHER),
        ("--for units elf", 1, OTHER),
        ("--for index elf 0x401000", 1, "dwline: index: not an ELF file\n"),
        ("--for units elf 0x401000 main", 2, "dwline: main is no address\n"),
        *((f"--for units {words} elf", 2, NOT_UNDERSTOOD)
          for words in ("--all", "--comp-dir /src", "--address-size 8", "--version-5")),
    ]:
        yield asked("words", INDEX, words, status, "", errors)
    yield asked("nothing", EMPTY_INDEX, "--for program elf 0x401000", 1, "", OTHER)
    # The version, the length, the base, how many stretches there are, the sum of the header, and the build ID.
    for place, byte, fault in [
        (8, 2, "an index of version 2"), (16, 0x37, "damaged index: length"), (24, 1, "damaged index: sum"),
        (32, 20, "damaged index: place of a part"), (76, 0, "damaged index: sum"), (84, 0, "damaged index: sum"),
    ]:
        damaged = INDEX[:place] + bytes([byte]) + INDEX[place + 1:]
        for words in ("--for units elf 0x401000", "elf", "elf 0x401000"):
            yield asked(f"byte {place}", damaged, words, 1, "", f"dwline: elf: {fault}\n")


def stopped_indices():
    """Files of which no index is made: nothing is written."""
    for name, file, errors in [
        ("a damaged unit", SECOND_DAMAGED, "dwline: damage at 0x70: empty extended opcode\n"),
        ("no line table", STRIPPED, NO_LINES),
    ]:
        yield Case(name, file, ["index", "-o", "-", "elf"], 1, "", errors)


NO_LINES = ("dwline: elf: no section .debug_line (its debug information may be in .build-id/ab/cdef.debug; tried"
            " /usr/lib/debug/.build-id/ab/cdef.debug)\n")

# The row of `WITH_STRINGS`, whose file `yz` stands in the directory `cd`.
PLACE = "0x0000000000401000 cd/yz:1\n"


def source_lines():
    for file, words, status, output, errors in [
        (WITH_STRINGS, "elf yz:1", 0, PLACE, ""),
        (WITH_STRINGS, "elf cd/yz:0", 0, PLACE, ""),
        (WITH_STRINGS, "--exact elf yz:0", 1, "??\n", ""),
        (WITH_STRINGS, "elf z:1", 1, "??\n", ""),
        (WITH_STRINGS, "elf yz:2", 1, "??\n", ""),
        (WITH_STRINGS, "elf yz:1 a:18446744073709551616", 2, "", "dwline: a:18446744073709551616 is no PATH:LINE\n"),
        (TWO_UNITS, "elf yz:1", 1, "??\n", ""),
        (STRIPPED, "elf yz:1", 1, "", NO_LINES),
    ]:
        yield Case(words, file, ["lines", *words.split()], status, output, errors)


def source_files():
    for file, words, status, output, errors in [
        (WITH_STRINGS, "elf", 0, "cd/yz\n", ""),
        (WITH_STRINGS, "--rows --md5 elf", 0, "1 4 - cd/yz\n", ""),
        (WITH_STRINGS, "--json elf", 0, '{"path":"cd/yz"}\n', ""),
        (WITH_STRINGS, "--rows --unit 0x0 elf", 0, "1 4 cd/yz\n", ""),
        (WITH_STRINGS, "--unit 1 elf", 1, "", "dwline: no unit at this offset\n"),
        (WITH_STRINGS, "--unit 0x elf", 2, "", NOT_UNDERSTOOD),
        (TWO_UNITS, "elf", 0, "", ""),
        (TWO_UNITS, "--address-size 3 elf", 2, "", NOT_UNDERSTOOD),
        (STRIPPED, "elf", 1, "", NO_LINES),
    ]:
        yield Case(words, file, ["sources", *words.split()], status, output, errors)
    yield Case("the input", b"", ["sources"], 1, "", "dwline: damage at 0x5: input ends inside a unit\n", b"input", 0)


def named_sections():
    """An object names the section that is looked into, after the address. A line that is no address has none."""
    name = '.text."\\\n\u00e9'
    file = with_sequences(LITTLE_64, [LINES, replace(CODE, name=name)], [2])
    output = objects(dict(address="0x0000000000000013", section=name, path=None, line=1, column=0, discriminator=0,
                          is_stmt=True, unit="0x0"),
                     dict(address=None), dict(address="0x0000000000000018", section=name))
    yield Case("a name", file, ["addr", "--json", "-j", name, "elf"], 1, output,
               "dwline: line 2: main is no address\n", b"0x13\nmain\n0x18", 0)


GROUPS = [answers, refused_indices, stopped_indices, source_lines, source_files, named_sections]
