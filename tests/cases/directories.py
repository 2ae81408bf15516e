"""Directories of compilations, which .debug_info says of units before version 5: the bytes of its sections, and the
directory that `dump --paths` prints of the unit that DW_AT_stmt_list names.

DWARF 4 and 5, sections 3.1.1, 7.5 and 7.26."""

from typing import NamedTuple, Optional

from cases.elf_cases import Case
from lib.elf import BIG_32, BIG_64, LITTLE_32, LITTLE_64, Form, Section, image


class Row(NamedTuple):
    """Sections, and the directories of the line tables at these offsets."""
    name: str
    form: Form
    info: str
    abbreviations: str
    strings: dict
    directories: list


class Unit(NamedTuple):
    """A unit, as far as its first entry or beyond."""
    name: str
    form: Form
    # Where its first entry ends.
    end: int
    stmt_list: int
    directory: Optional[str]
    strings: dict
    info: str
    abbreviations: str


def text(name, offset):
    """A string section with the directory at this place."""
    return {f".{name}": bytes(offset) + b"/dir\0"}


def index(base, number, order="little"):
    """The same in .debug_str, at an offset that stands behind others."""
    offsets = bytes(base + 4 * number) + (3).to_bytes(4, order)
    return {".debug_str_offsets": offsets, **text("debug_str", 3)}


# ---- by compilers

# Sections of two units each. What they say is from GNU readelf.
SECTIONS = [
    # gcc 12.2, -gdwarf-4.
    Row("gcc_4", LITTLE_64,
        "4d0000000400000000000801000000000c612e63005a000000001000000000000006000000000000000000000002610001010549000000"
        "00100000000000000600000000000000019c030405696e7400004d00000004003b0000000801000000000c622e63006300000006100000"
        "0000000006000000000000003f0000000262000101054900000006100000000000000600000000000000019c030405696e740000",
        "011101250e130b03081b0e1101120710170000022e003f1903083a0b3b0b390b2719491311011207401897421900000324000b0b3e0b03"
        "08000000011101250e130b03081b0e1101120710170000022e003f1903083a0b3b0b390b2719491311011207401897421900000324000b"
        "0b3e0b0308000000",
        {".debug_str": b"GNU C17 12.2.0 -mtune=generic -march=x86-64 -g -gdwarf-4 -O1 -fasynchronous-unwind-tables\0"
                       b"/src/one\0/src/two\0"},
        [(0x0, "/src/one"), (0x3f, "/src/two")]),
    # gcc 12.2, -gdwarf-5.
    Row("gcc_5", LITTLE_64,
        "4e000000050001080000000001000000001d000000000400000000100000000000000600000000000000000000000261000101054a0000"
        "0000100000000000000600000000000000019c030405696e7400004e000000050001083a00000001000000001d160000000d0000000610"
        "0000000000000600000000000000500000000262000101054a00000006100000000000000600000000000000019c030405696e740000",
        "011101250e130b031f1b1f1101120710170000022e003f1903083a0b3b0b390b271949131101120740187a1900000324000b0b3e0b0308"
        "000000011101250e130b031f1b1f1101120710170000022e003f1903083a0b3b0b390b271949131101120740187a1900000324000b0b3e"
        "0b0308000000",
        {".debug_str": b"GNU C17 12.2.0 -mtune=generic -march=x86-64 -g -gdwarf-5 -O1 -fasynchronous-unwind-tables\0",
         ".debug_line_str": b"a.c\0/src/one\0/src/two\0b.c\0"},
        [(0x0, "/src/one"), (0x50, "/src/two")]),
    # clang 14, -gdwarf-5.
    Row("clang_5", LITTLE_64,
        "33000000050001080000000001000c00010800000000000000020006000000080000000200060000000157030001320000000304050400"
        "33000000050001083c00000001000c0001240000005a00000002000600000018000000020006000000015703000132000000"
        "0304050400",
        "011101252513050325721710171b25111b120673170000022e00111b120640187a1903253a0b3b0b271949133f19000003240003253e0b"
        "0b0b000000011101252513050325721710171b25111b120673170000022e00111b120640187a1903253a0b3b0b271949133f1900000324"
        "0003253e0b0b0b000000",
        {".debug_str_offsets": bytes.fromhex("1800000005000000000000001c00000020000000290000002b000000"
                                             "1800000005000000000000002f000000330000003c0000002b000000"),
         ".debug_str": b"Debian clang version 14.0.6\0a.c\0/src/one\0a\0int\0b.c\0/src/two\0b\0",
         ".debug_line_str": b"/src/one\0a.c\0/src/two\0b.c\0"},
        [(0x0, "/src/one"), (0x5a, "/src/two")]),
]

CLANG_ABBREVIATIONS = (
    "011101252513050325721710171b25111b120673170000022e00111b1206401803253a0b3b0b271949133f19000003240003253e0b0b0b0000"
    "00011101252513050325721710171b25111b120673170000022e01111b1206401803253a0b3b0b271949133f190000030500021803253a0b3b"
    "0b4913000004240003253e0b0b0b000000")
FORMS_ABBREVIATIONS = (
    "0924000321ffff7f100800000111018146018346038446048546058646068746078846088946098a460a8b460b8c460c8d460d8e460e8f460f"
    "9046109146119246129346139446149546159646169746179846189946199a461a9b461b9c461c9d461d9e461e9f461fa04620a1462180807f"
    "a24622a34623a44624a54625a64626a74627a84628a94629aa462aab462bac462c8146813e8246823ea046a03ea146a13e10061b1610070000"
    "00")

# The second units of .debug_info of shared objects of two units, as far as their first entries and some bytes more,
# with all of .debug_abbrev. The values are those that GNU readelf 2.40 prints with `--debug-dump=info`; the strings are
# made.
UNITS = [
    # gcc 12.2, -gdwarf-2.
    Unit("gcc_2", LITTLE_64, 45, 0x41, "/dir", text("debug_str", 0x72),
         "63000000020056000000080108000000017d0000007200000030100000000000003f100000000000004100000002016700",
         "011101250e130b030e1b0e1101120110060000022e013f0c03083a0b3b0b390b270c49133c0c01130000030500491300000424000b0b3"
         "e0b03080000052e003f0c030e3a0b3b0b390b270c4913110112014006000000011101250e130b030e1b0e1101120110060000022e013f"
         "0c03083a0b3b0b390b270c49131101120140060113000003050003083a0b3b0b390b4913020a00000424000b0b3e0b0308000000"),
    # gcc 12.2, -gdwarf-3, with a directory of two bytes.
    Unit("gcc_3", LITTLE_64, 44, 0x41, "/u", {},
         "600000000300560000000801080000000c720000002f750030100000000000003f100000000000004100000002016700",
         "011101250e130b030e1b081101120110060000022e013f0c03083a0b3b0b390b270c49133c0c01130000030500491300000424000b0b3"
         "e0b03080000052e003f0c030e3a0b3b0b390b270c491311011201400a000000011101250e130b030e1b081101120110060000022e013f"
         "0c03083a0b3b0b390b270c491311011201400a0113000003050003083a0b3b0b390b4913020a00000424000b0b3e0b0308000000"),
    # gcc 12.2, -gdwarf-4 -gdwarf64.
    Unit("gcc_4_64", LITTLE_64, 73, 0x42, "/dir", text("debug_str", 0),
         "ffffffff7f000000000000000400590000000000000008010b000000000000000c7372632f622e6300000000000000000030100000000"
         "000000f00000000000000420000000000000002670001",
         "011101250e130b03081b0e1101120710170000022e013f1903083a0b3b0b390b271949143c1901140000030500491400000424000b0b3"
         "e0b03080000052e003f1903083a0b3b0b390b27194914110112074018964219000000011101250e130b03081b0e110112071017000002"
         "2e013f1903083a0b3b0b390b271949141101120740189742190114000003050003083a0b3b0b390b4914021800000424000b0b3e0b030"
         "8000000"),
    # gcc 12.2, -gdwarf-5.
    Unit("gcc_5", LITTLE_64, 46, 0x53, "/dir", text("debug_line_str", 0x8),
         "60000000050001085800000001000000001d170000000800000030100000000000000f000000000000005300000002670001",
         "011101250e130b031f1b1f1101120710170000022e013f1903083a0b3b0b390b271949133c1901130000030500491300000424000b0b3"
         "e0b03080000052e003f19030e3a0b3b0b390b271949131101120740187c19000000011101250e130b031f1b1f1101120710170000022e"
         "013f1903083a0b3b0b390b271949131101120740187a190113000003050003083a0b3b0b390b4913021800000424000b0b3e0b0308000"
         "000"),
    # clang 14, -gdwarf-5.
    Unit("clang_5", LITTLE_64, 35, 0x5e, "/dir", index(0x24, 0x2),
         "3f000000050001083a00000001000c0001240000005e00000002000f0000001800000002000f00",
         CLANG_ABBREVIATIONS),
    # clang 14, -gdwarf-5 -gsplit-dwarf.
    Unit("skeleton_5", LITTLE_64, 40, 0x5e, "/dir", index(0x18, 0),
         "24000000050004081700000064dfad5922dfc376015e000000180000000001000f00000018000000",
         "014a00101772171b25b442197625111b12067317000000014a00101772171b25b442197625111b12067317000000"),
    # clang 14, -gdwarf-5 -fdebug-types-section.
    Unit("type_5", LITTLE_64, 35, 0x41, None, {},
         "3d000000050002084b0000007b9a1e11b803854123000000012100410000000800000002050908",
         "011101250e130b030e1b081101120110060000022e013f0c03083a0b3b0b390b270c491311011201400a0113000003050003083a0b3b0"
         "b390b4913020a00000424000b0b3e0b03080000000141011305101772170000021301360b03250b0b3a0b3b0b0000030d00032549133a"
         "0b3b0b380b000004240003253e0b0b0b0000051101252513050325721710171b25111b120673170000062e01111b120640186e2503253"
         "a0b3b0b49133f190000070500021803253a0b3b0b49130000080f00491300000913003c196920000000"),
    # clang 14 for powerpc64, -gdwarf-4.
    Unit("ppc_4", BIG_64, 42, 0x42, "/dir", text("debug_str", 0x37),
         "0000005600040000003608010000000c000c0000002d000000420000003700000000000103bc0000002002000000",
         "011101250e1305030e10171b0e110112060000022e00110112064018030e3a0b3b0b271949133f190000032400030e3e0b0b0b0000000"
         "11101250e1305030e10171b0e110112060000022e01110112064018030e3a0b3b0b271949133f1900000305000218030e3a0b3b0b4913"
         "0000042400030e3e0b0b0b000000"),
    # clang 14 for mips, -gdwarf-5.
    Unit("mips_5", BIG_32, 35, 0x5c, "/dir", index(0x24, 0x2, "big"),
         "0000003f000501040000003a0100000c01000000240000005c0200000000380000001402000000",
         CLANG_ABBREVIATIONS),
]

# Units with a value of each form, from 0x01 to 0x2c and GNU's, after another abbreviation. GNU readelf 2.40 prints
# these values of them, of DW_AT_stmt_list twice.
FORMS = [
    # Version 5 in the 32-bit format; addresses have eight bytes.
    Unit("forms_5", LITTLE_64, 234, 0x1234, "/d", {},
         "e600000005000108000000000183838383838383830300858585020000008585818181818181818181818181818161620084008585858"
         "50585858585858181ffffffffffffffffffff7f82828282ac82800084848484818181818181818181818181818181ac8280000a058585"
         "85858582828282840085858585ac828000ac8280008181818182828282818181818181818181818181818181818282828281818181818"
         "18181ac828000ac82800081818181818181818181818181818181818181818181818181818181ac828000ac8280008282828282828282"
         "34120000082f64009900000000000000",
         FORMS_ABBREVIATIONS),
    # Version 2 in the 64-bit format; addresses have four bytes, and so have values of DW_FORM_ref_addr.
    Unit("forms_2_64", BIG_64, 265, 0x1234, "/d", {},
         "ffffffff00000000000000fd0002000000000000000004018383838300038585850000000285858181818181818181818181818181616"
         "2008400858585850585858585858181ffffffffffffffffffff7f8282828282828282ac82800084848484818181818181818181818181"
         "818181ac8280000a0585858585858282828282828282840085858585ac828000ac8280008181818182828282828282828181818181818"
         "181818181818181818182828282828282828181818181818181ac828000ac828000818181818181818181818181818181818181818181"
         "81818181818181ac828000ac8280008282828282828282828282828282828200001234082f64000000000000000099",
         FORMS_ABBREVIATIONS),
    # Version 3 in the 64-bit format; addresses have four bytes, and values of DW_FORM_ref_addr eight.
    Unit("forms_3_64", LITTLE_64, 269, 0x1234, "/d", {},
         "ffffffff01010000000000000300000000000000000004018383838303008585850200000085858181818181818181818181818181616"
         "2008400858585850585858585858181ffffffffffffffffffff7f8282828282828282ac82800084848484848484848181818181818181"
         "81818181818181ac8280000a0585858585858282828282828282840085858585ac828000ac82800081818181828282828282828281818"
         "18181818181818181818181818182828282828282828181818181818181ac828000ac8280008181818181818181818181818181818181"
         "8181818181818181818181ac828000ac8280008282828282828282828282828282828234120000082f64009900000000000000",
         FORMS_ABBREVIATIONS),
]


# ---- by hand

# Abbreviations: 1 of DW_AT_stmt_list in four bytes and DW_AT_comp_dir as a string, 2 of the first alone, 3 of both with
# the directory in .debug_str, and 4 of both with an index of one byte.
FOUR = (b"\1\x11\0\x10\6\x1b\x08\0\0" b"\2\x11\0\x10\6\0\0"
        b"\3\x11\0\x10\6\x1b\x0e\0\0" b"\4\x11\0\x10\x17\x1b\x25\0\0\0")


def unit(code, stmt_list, directory):
    """A unit of version 4 with one of these."""
    body = b"\4\0\0\0\0\0\x08" + bytes([code]) + stmt_list.to_bytes(4, "little") + directory
    return len(body).to_bytes(4, "little") + body


def made(name, info, directories, **strings):
    strings = {f".debug_{section}": data for section, data in strings.items()}
    return Row(name, LITTLE_64, info.hex(), FOUR.hex(), strings, directories)


MADE = [
    made("the first unit of a line table that has a directory, and one whose entry can't be read",
         b"\x08\0\0\0\4\0\0\0\0\0\x08\x09" + unit(1, 0x10, b"/a\0") + unit(1, 0x10, b"/b\0")
         + unit(2, 0x20, b"") + unit(1, 0x20, b"/d\0"),
         [(0x10, "/a"), (0x20, "/d"), (0, None)]),
    made("a text that isn't there, though a later unit has one",
         unit(3, 0x30, b"\5\0\0\0") + unit(1, 0x30, b"/a\0") + unit(3, 0x40, b"\1\0\0\0"),
         [(0x30, None), (0x40, "/s")], str=b"x/s\0"),
    made("a unit that is cut short behind its entry",
         unit(1, 0x10, b"/a\0") + b"\x40" + unit(1, 0x20, b"/d\0")[1:],
         [(0x10, "/a"), (0x20, "/d")]),
    made("a reserved length, after which no unit stands",
         unit(1, 0x10, b"/a\0") + b"\xf0\xff\xff\xff" + unit(1, 0x20, b"/d\0"),
         [(0x10, "/a"), (0x20, None)]),
    made("version 5 without DW_AT_str_offsets_base, and the 64-bit format",
         b"\x0e\0\0\0\5\0\1\x08\0\0\0\0\4\x40\0\0\0\1"
         b"\xff\xff\xff\xff\x10\0\0\0\0\0\0\0\4\0\0\0\0\0\0\0\0\0\x08\2\x50\0\0\0",
         [(0x40, "/e"), (0x50, None)], str_offsets=b"\x0c\0\0\0\5\0\0\0\0\0\0\0\3\0\0\0", str=b"zz\0/e\0"),
]

# A unit of version 4 whose entry has the directory /d, before what else the entry has.
ENTRY = b"\0\0\0\0/d\0"
PLAIN = b"\1\x11\0\x10\6\x1b\x08\0\0\0"
BLOCK = b"\1\x11\0\x10\6\x1b\x08\3\4\0\0\0"
INDIRECT = b"\1\x11\0\x10\6\x1b\x08\3\x16\0\0\0"


# The same behind a length of the 64-bit format.
WIDE = b"\4\0" + bytes(8) + b"\x08\1" + bytes(8) + b"/d\0"


def front(length, version=4, head=b"\0\0\0\0\x08", code=b"\1"):
    return bytes([length, 0, 0, 0, version, 0]) + head + code + ENTRY


# Units, their abbreviations, and whether their entries are read.
FRONTS = [
    ("whole", front(15), PLAIN, True),
    ("before other bytes", front(15) + b"next", PLAIN, True),
    ("cut", front(15)[:-1], PLAIN, False),
    ("cut before its entry", front(15)[:11], PLAIN, False),
    ("cut in its length", front(15)[:3], PLAIN, False),
    ("no bytes", b"", PLAIN, False),
    # A unit that ends inside its entry.
    ("a byte too short", front(14), PLAIN, False),
    ("no entry", front(7), PLAIN, False),
    # Lengths.
    ("a reserved length", b"\xf0\xff\xff\xff" + front(15)[4:], PLAIN, False),
    ("the longest unit", b"\xff\xff\xff\xff\xf3" + b"\xff" * 7 + WIDE, PLAIN.replace(b"\x10\6", b"\x10\7"), True),
    ("a longer unit", b"\xff\xff\xff\xff\xf4" + b"\xff" * 7 + WIDE, PLAIN.replace(b"\x10\6", b"\x10\7"), False),
    # Versions, and types of units of version 5.
    ("version 1", front(15, 1), PLAIN, False),
    ("version 6", front(15, 6), PLAIN, False),
    ("a partial unit", front(16, 5, b"\3\x08\0\0\0\0"), PLAIN, True),
    ("type 0", front(16, 5, b"\0\x08\0\0\0\0"), PLAIN, False),
    ("type 7", front(16, 5, b"\7\x08\0\0\0\0"), PLAIN, False),
    # Codes: of no entry, that no abbreviation has, padded, and too large.
    ("code 0", front(15, code=b"\0"), PLAIN, False),
    ("code 2", front(15, code=b"\2"), PLAIN, False),
    ("a padded code", front(16, code=b"\x81\0"), PLAIN, True),
    ("a code of 64 bits and more", front(32, code=b"\x81" + b"\x80" * 8 + b"\2"), PLAIN, False),
    # Abbreviations: past the section's end, and cut.
    ("abbreviations at the end", front(15, head=b"\x0a\0\0\0\x08"), PLAIN, False),
    ("abbreviations past the end", front(15, head=b"\xff\xff\xff\xff\x08"), PLAIN, False),
    ("cut abbreviations", front(15), PLAIN[:-2], False),
    ("abbreviations after the table's end", front(15), b"\2\x11\0\0\0\0" + PLAIN, False),
    ("the second abbreviation", front(15), b"\2\x11\0\0\0" + PLAIN, True),
    # Forms that aren't known.
    ("form 2", front(15), PLAIN.replace(b"\x10\6", b"\x10\2"), False),
    ("form 0x2d", front(15), PLAIN.replace(b"\x10\6", b"\x10\x2d"), False),
    # Blocks that end with the unit, and behind it.
    ("a cut block", front(20) + b"\1\0\0\0", BLOCK, False),
    ("a block", front(20) + b"\1\0\0\0\0", BLOCK, True),
    ("a block past the unit", front(20) + b"\2\0\0\0\0\0", BLOCK, False),
    # Forms that stand before their values.
    ("an indirect form", front(32) + b"\x0b\0", INDIRECT, True),
    ("an indirect form twice", front(32) + b"\x16\x0b\0", INDIRECT, False),
    ("an indirect value that is in the abbreviation", front(32) + b"\x21\0", INDIRECT, False),
]

# Two tables of code 1 and of code 2, each with DW_AT_stmt_list in four bytes and DW_AT_comp_dir, and before these of
# code 2 a value that has no bytes; of code 1 in the second table DW_AT_stmt_list in one byte.
TABLES = (b"\1\x11\0\x10\6\x1b\x08\0\0" b"\2\x11\0\x3f\x19\x10\6\x1b\x08\0\0\0"
          b"\2\x11\0\3\x21\5\x10\6\x1b\x08\0\0" b"\1\x11\0\x10\x0b\x10\6\x1b\x08\0\0\0")
SECOND = 21

# Where tables begin, and the codes of units, one after the other; and whether they have an entry.
TURNS = [
    (0, 1, True), (0, 2, True), (0, 3, False), (0, 1, True), (SECOND, 1, True), (SECOND, 1, True), (0, 1, True),
    (SECOND, 1, True), (SECOND, 2, True), (9, 1, False), (9, 1, False), (9, 2, True),
]


def by_turns():
    """A unit for each turn, whose line table is at 0x40 times its number and whose directory is that number."""
    info, directories = b"", []
    for number, (table, code, is_read) in enumerate(TURNS):
        entry = b"\x99" * ((table, code) == (SECOND, 1)) + (0x40 * number).to_bytes(4, "little") + b"/%d\0" % number
        info += front(len(entry) + 8, head=bytes([table, 0, 0, 0, 8]), code=bytes([code]))[:-len(ENTRY)] + entry
        directories.append((0x40 * number, f"/{number}" if is_read else None))
    return Row("tables by turns", LITTLE_64, info.hex(), TABLES.hex(), {}, directories)


def indexed(name, form, value, at, size=4, wide=False, base=b"", offsets=0x50):
    """A big-endian unit of version 5 whose directory has an index in this form, which stands at a place of
    .debug_str_offsets."""
    length = b"\xff\xff\xff\xff" + bytes(7) + b"\x40" if wide else b"\0\0\0\x40"
    offset = bytes(8 if wide else 4)
    info = length + b"\0\5\1\x08" + offset + b"\1" + base + offset + value
    with_base = b"\x72\x17" if base else b""
    abbreviation = b"\1\x11\0" + with_base + b"\x10\x17\x1b" + bytes([form]) + b"\0\0\0"
    strings = {".debug_str_offsets": (bytes(at) + (2).to_bytes(size, "big")).ljust(offsets, b"\xff")[:offsets],
               ".debug_str": b"x\0/i\0"}
    return Row(f"an index, {name}", BIG_64, info.hex(), abbreviation.hex(), strings, [(0, "/i" if at else None)])


# Indices in each form: 2 behind the 8 bytes of a header, or behind a base; the end of the section, and numbers that
# are too large.
INDICES = [
    indexed("DW_FORM_strx", 0x1a, b"\x82\0", 16),
    indexed("DW_FORM_strx1", 0x25, b"\2", 16),
    indexed("DW_FORM_strx2", 0x26, b"\0\2", 16),
    indexed("DW_FORM_strx3", 0x27, b"\0\0\2", 16),
    indexed("DW_FORM_strx4", 0x28, b"\0\0\0\2", 16),
    indexed("the 64-bit format", 0x25, b"\2", 32, 8, True),
    indexed("a base", 0x25, b"\2", 0x20, base=b"\0\0\0\x18"),
    indexed("a base of the 64-bit format", 0x25, b"\3", 40, 8, True, base=bytes(7) + b"\x10"),
    indexed("the last one", 0x25, b"\2", 16, offsets=20),
    indexed("past the end", 0x25, b"\2", 0, offsets=19),
    indexed("past all numbers", 0x1a, b"\xff" * 8 + b"\x1f", 0, 8, True),
]


# ---- their files


def line_section(form, offset):
    """A unit of version 4 at this offset, with a file and one row. A unit of another version comes before it."""
    fields = b"\1\1\1\xfb\x0e\1\0f\0\0\0\0\0"
    body = form.pack("HI", 4, len(fields)) + fields + b"\0\1\1"
    before = form.pack("IH", offset - 4, 6).ljust(offset, b"\0") if offset else b""
    return before + form.pack("I", len(body)) + body


def case_of(name, form, info, abbreviations, strings, offset, directory):
    sections = {".debug_line": line_section(form, offset), ".debug_info": info, ".debug_abbrev": abbreviations}
    file = image(form, [Section(name, data) for name, data in {**sections, **strings}.items()])
    path = f"{directory}/f" if directory else "f"
    return Case(name, file, ["dump", "--paths", "--unit", str(offset), "elf"], 0,
                f"unit 0x{offset:x} dwarf32 version 4 address_size {8 if form.wide else 4}\n"
                'file 1 path="f" dir=0 time=0 size=0\n'
                f"row 0x{0:016x} 0 1 1 0 stmt end {path}\n")


def sections():
    for row in [*SECTIONS, *MADE, by_turns(), *INDICES]:
        for offset, directory in row.directories:
            yield case_of(f"{row.name}, 0x{offset:x}", row.form, bytes.fromhex(row.info),
                          bytes.fromhex(row.abbreviations), row.strings, offset, directory)


def units():
    """Each front of a unit: its directory is known once its entry is whole."""
    for row in UNITS + FORMS:
        info = bytes.fromhex(row.info)
        for end in range(len(info) + 1):
            yield case_of(f"{row.name}, {end} bytes", row.form, info[:end], bytes.fromhex(row.abbreviations),
                          row.strings, row.stmt_list, row.directory if end >= row.end else None)


def fronts():
    for name, info, abbreviations, is_read in FRONTS:
        yield case_of(name, LITTLE_64, info, abbreviations, {}, 0, "/d" if is_read else None)


GROUPS = [sections, units, fronts]
