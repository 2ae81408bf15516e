"""Sections of which units are damaged: what commands print of the units around them, and what they tell.

The sections are worked by hand from DWARF 5, section 6.2."""
from cases.units import DWARF64_WITH_MD5, THREE_ROWS
from lib.worked import Case, damage

EMPTY_OPCODE, RANGE, RESERVED = "empty extended opcode", "line range is 0", "reserved initial length"

# A unit of a directory and a file, of 78 bytes, and two units of three rows, of 52 bytes each.
UNITS = DWARF64_WITH_MD5 + THREE_ROWS + THREE_ROWS

# The dump of the first, which no case damages.
FIRST = """\
unit 0x0 dwarf64 version 5 address_size 8
dir 0 path="/s"
file 0 path="a.c" dir=0 md5=000102030405060708090a0b0c0d0e0f
"""


def rows(offset, count=3):
    """The dump of so many of the three rows of a unit at this offset."""
    lines = [f"unit 0x{offset:x} dwarf32 version 5 address_size 8\n", "row 0x0000000000401000 0 1 2 0 stmt\n",
             "row 0x0000000000401004 0 1 3 0 stmt\n", "row 0x0000000000401006 0 1 3 0 stmt end\n"]
    return "".join(lines[:count + 1])


def changed(section, *changes):
    """The section with other bytes at some places."""
    section = bytearray(section)
    for place, byte in changes:
        section[place] = byte
    return bytes(section)


def around(name, section, counts, dump, *damages):
    """What `check` and `dump` write and tell of a section, each of whose damaged units is told."""
    error, status = "".join(damages), int(bool(damages))
    yield Case(f"{name}: check", "check --keep-going", section, f"{counts} damaged {len(damages)}\n", error, status)
    yield Case(f"{name}: dump", "dump --keep-going", section, dump, error, status)


NONE, ONE, TWO = (f"units {units} skipped 0 sequences {sequences} rows {3 * sequences}"
                  for units, sequences in ((1, 0), (2, 1), (3, 2)))

# line_range of the second unit stands at 94, and its first operation, an extended one, at 112.
OF_THREE = [
    *around("the first unit", UNITS[:78], NONE, FIRST),
    *around("no damage", UNITS, TWO, FIRST + rows(78) + rows(130)),
    *around("a header", changed(UNITS, (94, 0)), ONE, FIRST + rows(130), damage(94, RANGE)),
    *around("an operation", changed(UNITS, (113, 0)), ONE, FIRST + rows(78, 0) + rows(130), damage(112, EMPTY_OPCODE)),
    # A unit has one fault, the first.
    *around("two units", changed(UNITS, (94, 0), (113, 0), (146, 0)), NONE, FIRST, damage(94, RANGE),
            damage(146, RANGE)),
    # No unit is known to follow.
    *around("a length", changed(UNITS, (78, 0xf0), (79, 0xff), (80, 0xff), (81, 0xff)), NONE, FIRST,
            damage(78, RESERVED)),
    *around("the end of the third unit", changed(UNITS, (94, 0))[:164], NONE, FIRST + rows(130, 0), damage(94, RANGE),
            damage(164)),
    *around("the end of the damaged unit", changed(UNITS, (94, 0))[:129], NONE, FIRST, damage(94, RANGE)),
    *around("the end behind the damaged unit", changed(UNITS, (94, 0))[:130], NONE, FIRST, damage(94, RANGE)),
]

# The last opcode of the second of three units has the length 0.
LATER_DAMAGE = changed(THREE_ROWS * 3, (102, 0))
LATER_LINE = damage(101, EMPTY_OPCODE)

# The size of an address is 3 in the first unit, and the second one ends early.
ALL_DAMAGED = changed(THREE_ROWS * 2, (6, 3))[:92]
SIZE_LINE = damage(6, "bad address size")

OF_ROWS = [
    *around("the second unit", LATER_DAMAGE, "units 2 skipped 0 sequences 2 rows 6",
            rows(0) + rows(52, 2) + rows(104), LATER_LINE),
    *around("all units", ALL_DAMAGED, "units 0 skipped 0 sequences 0 rows 0", rows(52, 0), SIZE_LINE, damage(92)),
    *around("no unit", THREE_ROWS * 2, "units 2 skipped 0 sequences 2 rows 6", rows(0) + rows(52)),
]


def asked(name, words, section, output, error=""):
    """Two addresses, which are in each unit. The rows have no file: 1 isn't in their tables."""
    return Case(f"{name}: addr {words}", f"addr {words} - 0x401000 0x401004", section, output, error, int(bool(error)))


FOUND, NOT_FOUND = "??:2\n??:3\n", "??:0\n??:0\n"

ADDRESSES = [
    asked("the second unit", "", LATER_DAMAGE, FOUND, LATER_LINE),
    asked("the second unit", "--stop", LATER_DAMAGE, FOUND, LATER_LINE),
    asked("all units", "", ALL_DAMAGED, NOT_FOUND, SIZE_LINE.replace("\n", ", and 1 more damaged unit\n")),
    asked("all units", "--stop", ALL_DAMAGED, NOT_FOUND, SIZE_LINE),
    asked("no unit", "", THREE_ROWS * 2, FOUND),
    asked("no unit", "--stop", THREE_ROWS * 2, FOUND),
]

TABLE = [*OF_THREE, *OF_ROWS, *ADDRESSES]
