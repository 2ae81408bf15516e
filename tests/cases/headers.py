"""Worked headers, and headers that are refused at a byte."""
from lib.dumps import UNIT, Refused, Whole, row
from cases.units import (
    BIG_DWARF64_WITH_MD5, BLOCK_PAST_THE_HEADER, DWARF64_WITH_MD5, EACH_FORM, EACH_FORM_COPIED, EMPTY_PROGRAM,
    HUGE_DIRECTORY_COUNT, LINE_STRP_DIRECTORY, MD5, OPCODE_BASE_10, OPCODE_BASE_10_COPIED, PADDING_OF_THREE_BYTES,
    TWO_THOUSAND_DIRECTORIES, table, uleb, unit, unit_of, unit_of_values)

# The codes of forms. DWARF 5, section 7.5.6.
STRING, BLOCK, STRP, UDATA, STRP_SUP, DATA16, LINE_STRP = 0x08, 0x09, 0x0e, 0x0f, 0x1d, 0x1e, 0x1f

DWARF64_DUMP = ("unit 0x0 dwarf64 version 5 address_size 8\n"
                'dir 0 path="/s"\n'
                'file 0 path="a.c" dir=0 md5=000102030405060708090a0b0c0d0e0f\n')

EACH_FORM_DUMP = (
    UNIT + "dir 0 path=block:6162 dir=block:636465 time=258 size=16909060 md5=72623859790382856"
    ' 0x6="fg" 0x7=block:68 0x8=block: 0x9=9 0xa=strp+0xa 0xb=18446744073709551615 0xc=strp_sup+0xb'
    " 0xd=000102030405060708090a0b0c0d0e0f 0xe=line_strp+0xc\n"
    "file 0 path=300000 dir=block:696a\n"
    "file 1 path=5 dir=block:6b6c6d\n")

# Two directories where opcode 10 is a special one, and where it is a standard one.
TWO_DIRECTORIES = table([(1, STRING)], b"/a\0", b"/b\0") + bytes(2)
BEFORE_LENGTHS = bytes.fromhex("01 01 01 fb 0e 0a 00 01 01 01 01 00 00 00 01")
TWO_DIRECTORIES_OF_BASE_10 = unit_of(TWO_DIRECTORIES, b"", BEFORE_LENGTHS)
TWO_DIRECTORIES_DUMP = UNIT + 'dir 0 path="/a"\ndir 1 path="/b"\n'


def in_directory(text):
    """What is printed of a unit of one directory with these values."""
    return UNIT + f"dir 0{text}\n"


def bytes_of_offset(offset):
    return offset.to_bytes(4, "little")


# A content code, a form, the bytes of a value, and what is printed of it with the section below.
VALUES = [
    (1, STRING, b"a.c\0", ' path="a.c"'),
    (2, UDATA, b"\0", " dir=0"),
    (5, DATA16, MD5, " md5=000102030405060708090a0b0c0d0e0f"),
    (1, LINE_STRP, bytes_of_offset(2), ' path="/s"'),
    (1, LINE_STRP, bytes_of_offset(0), ' path="a"'),
    (1, LINE_STRP, bytes_of_offset(5), " path=line_strp+0x5"),
    (1, STRP, bytes_of_offset(2), " path=strp+0x2"),
    (1, STRP_SUP, bytes_of_offset(16), " path=strp_sup+0x10"),
    (3, BLOCK, b"\2\0\xff", " time=block:00ff"),
    (4, UDATA, uleb(2 ** 64 - 1), " size=18446744073709551615"),
    (0x2001, BLOCK, b"\0", " 0x2001=block:"),
    (0, STRING, b"\0", ' 0x0=""'),
    (6, STRING, b'\x1f "\\\n\0', r' 0x6="\x1f \x22\x5c\x0a"'),
    (1, STRING, b"\x7e\x7f\x80\xff\0", ' path="~\\x7f\x80\xff"'),
]
LINE_STRINGS = ("--line-str", b"a\0/s\0")

# After the last zero byte of a section there is no text, nor in a section without one.
AFTER_ALL_TEXTS = [
    (1, LINE_STRP, bytes_of_offset(0), ' path="a"'),
    (1, LINE_STRP, bytes_of_offset(1), ' path=""'),
    (1, LINE_STRP, bytes_of_offset(2), ' path=""'),
    (1, LINE_STRP, bytes_of_offset(3), " path=line_strp+0x3"),
    (1, LINE_STRP, bytes_of_offset(5), " path=line_strp+0x5"),
    (1, LINE_STRP, bytes_of_offset(6), " path=line_strp+0x6"),
    (1, STRP, bytes_of_offset(0), " path=strp+0x0"),
    (1, STRP, bytes_of_offset(2), " path=strp+0x2"),
    (1, STRP, bytes_of_offset(3), " path=strp+0x3"),
]
NO_TEXT_AT_THE_END = ("--line-str", b"a\0\0bcd", "--str", b"abc")

# An offset and what is printed of it with a section of a text and the first byte of another.
TEXTS = [(0, '"a"'), (1, '""'), (2, "line_strp+0x2"), (3, "line_strp+0x3"), (2 ** 32 - 1, "line_strp+0xffffffff")]

# A unit of the 64-bit format and a directory at the last offset of 64 bits.
LAST_OFFSET = bytes.fromhex("""
    ff ff ff ff 2c 00 00 00 00 00 00 00 05 00 08 00 20 00 00 00 00 00 00 00
    01 01 01 fb 0e 0d 00 01 01 01 01 00 00 00 01 00 00 01
    01 01 1f 01 ff ff ff ff ff ff ff ff 00 00""")


def of_values(name, values, strings):
    section = unit_of_values(values)
    printed = "".join(value[3] for value in values)
    return Whole(name, section, in_directory(printed), section, strings=strings)


def texts():
    """Texts end at a zero byte."""
    strings = ("--line-str", b"a\0b")
    for offset, printed in TEXTS:
        section = unit_of_values([(1, LINE_STRP, bytes_of_offset(offset))])
        yield Whole(f"offset {offset}", section, in_directory(f" path={printed}"), section, strings=strings)
    dump = in_directory(" path=line_strp+0xffffffffffffffff").replace("dwarf32", "dwarf64")
    yield Whole("the last offset", LAST_OFFSET, dump, LAST_OFFSET, strings=strings)


def wholes():
    yield Whole("an empty program", EMPTY_PROGRAM, UNIT, EMPTY_PROGRAM)
    yield Whole("bytes after the last entry", PADDING_OF_THREE_BYTES, UNIT, EMPTY_PROGRAM)
    yield Whole("MD5", DWARF64_WITH_MD5, DWARF64_DUMP, DWARF64_WITH_MD5)
    yield Whole("MD5, big-endian", BIG_DWARF64_WITH_MD5, DWARF64_DUMP, BIG_DWARF64_WITH_MD5, ("--big",))
    of_four_bytes = DWARF64_WITH_MD5[:14] + b"\4" + DWARF64_WITH_MD5[15:]
    dump = DWARF64_DUMP.replace("address_size 8", "address_size 4")
    yield Whole("addresses of 4 bytes", of_four_bytes, dump, of_four_bytes)
    line_strp = LINE_STRP_DIRECTORY
    yield Whole("an offset", line_strp, in_directory(" path=line_strp+0x2"), line_strp)
    yield Whole("a text", line_strp, in_directory(' path="/s"'), line_strp, strings=LINE_STRINGS)
    yield Whole("each form", EACH_FORM, EACH_FORM_DUMP, EACH_FORM_COPIED)
    opcode_10 = UNIT + row(0, 0, 6) + "open\n"
    yield Whole("opcode_base 10", OPCODE_BASE_10, opcode_10, OPCODE_BASE_10_COPIED)
    yield Whole("two directories", TWO_DIRECTORIES_OF_BASE_10, TWO_DIRECTORIES_DUMP, unit_of(TWO_DIRECTORIES, b""))
    yield of_values("values", VALUES, LINE_STRINGS)
    yield of_values("after all texts", AFTER_ALL_TEXTS, NO_TEXT_AT_THE_END)
    yield from texts()


# A place in the header of an empty program, another byte there, and the fault: which byte shows it, and where it is.
FIELDS = [
    (6, 0x03, 6, 6, "bad address size"),
    (8, 0x17, 11, 8, "header goes past the unit"),
    (8, 0x15, 32, 33, "header ends too soon"),
    (13, 0x00, 13, 13, "maximum operations is 0"),
    (16, 0x00, 16, 16, "line range is 0"),
    (17, 0x00, 17, 17, "opcode base is 0"),
    (19, 0x00, 19, 19, "wrong length of standard opcode 2"),
    (31, 0x01, 31, 31, "entries without a format"),
    (33, 0x01, 33, 33, "entries without a format"),
]

# Codes that aren't those of forms in a table.
OTHER_CODES = [0, 1, 0x0d, 0x17, 0x1a, 0x20, 0x1f01, 0x2f01, 2 ** 64 - 1]

UNIT_LENGTHS = [
    ("f0 ff ff ff", 0, "reserved initial length"),
    ("fe ff ff ff", 0, "reserved initial length"),
    ("ff ff ff ff 01 00 00 00 00 01 00 00", 0, "unit too long"),
    ("00 00 00 00", 4, "unit ends in its header"),
    ("01 00 00 00 05", 4, "unit ends in its header"),
]


def refusals():
    """Headers whose fault is told with the byte that shows it."""
    for place, byte, last, offset, fault in FIELDS:
        section = unit(changes=[(place, byte)])[:last + 1]
        yield Refused(f"byte {place} is {byte:#04x}", section, offset, fault, at_last=True)
    for code in OTHER_CODES:
        section = HUGE_DIRECTORY_COUNT[:32] + uleb(code)
        yield Refused(f"form {code:#x}", section, 32, f"unknown form {code:#x}", at_last=True)
    for words, offset, fault in UNIT_LENGTHS:
        yield Refused(words, bytes.fromhex(words), offset, fault, at_last=True)
    too_soon = "header ends too soon"
    yield Refused("2^60 directories", HUGE_DIRECTORY_COUNT, 45, too_soon, at_last=True)
    yield Refused("2,000 directories", TWO_THOUSAND_DIRECTORIES, 38, too_soon, at_last=True)
    yield Refused("a long block", BLOCK_PAST_THE_HEADER, 34, too_soon, at_last=True)
