"""Worked sections of several units, and places that are looked up."""
from lib.dumps import UNIT, TRUNCATED, Run, counts_of, damage, error, row, text
from cases.headers import DWARF64_DUMP, EACH_FORM_DUMP
from cases.programs import THREE_DUMP
from cases.units import (
    BIG_DWARF64_WITH_MD5, BIG_OPERATIONS, DWARF64_WITH_MD5, EACH_FORM, EMPTY_PROGRAM, FIELDS, FOREIGN, NO_TABLES,
    OPCODE_BASE_10, PADDED, PADDED_COPIED, PADDING_OF_THREE_BYTES, SMALLEST, THREE_ROWS, THREE_ROWS_AND_A_BYTE,
    WITH_FILE, unit_of)

NOT_FOUND = error("no line for this address")


def at(offset, dump):
    """The dump of a unit, which begins at this byte."""
    return dump.replace("unit 0x0 ", f"unit 0x{offset:x} ")


def is_foreign(offset):
    return error(f"unit 0x{offset:x} is not version 5")


PASSED_OVER = "unit 0x0 version 4 skipped\n" + at(10, THREE_DUMP)

# A section, what `dump` prints of it, and what `check` and `copy` tell.
SECTIONS = [
    ("no unit", b"", "", b"", b"", b""),
    ("two units", THREE_ROWS * 2, THREE_DUMP + at(52, THREE_DUMP), b"", THREE_ROWS * 2, b""),
    ("a shorter copy", PADDED + THREE_ROWS, UNIT + row(0, 0, 1, column=3) + "open\n" + at(48, THREE_DUMP),
     b"", PADDED_COPIED + THREE_ROWS, b""),
    ("a unit of version 4", FOREIGN, "unit 0x0 version 4 skipped\n", b"", b"", is_foreign(0)),
    ("version 4 before 5", FOREIGN + THREE_ROWS, PASSED_OVER, b"", b"", is_foreign(0)),
    ("version 4 after 5", THREE_ROWS + FOREIGN, THREE_DUMP + "unit 0x34 version 4 skipped\n",
     b"", THREE_ROWS, is_foreign(52)),
    ("version 4 that is cut off", THREE_ROWS + FOREIGN[:6], THREE_DUMP + "unit 0x34 version 4 skipped\n",
     damage(58, TRUNCATED), THREE_ROWS, is_foreign(52)),
    ("a byte after a unit", THREE_ROWS + b"\5", THREE_DUMP, damage(53, TRUNCATED), THREE_ROWS, damage(53, TRUNCATED)),
    ("a short unit of version 4", bytes.fromhex("00 00 00 00 04 00"), "", damage(4, "unit ends in its header"),
     b"", damage(4, "unit ends in its header")),
    ("a third unit that is damaged", THREE_ROWS * 2 + bytes.fromhex("f0 ff ff ff"), THREE_DUMP + at(52, THREE_DUMP),
     damage(104, "reserved initial length"), THREE_ROWS * 2, damage(104, "reserved initial length")),
    ("an opcode that the unit cuts off", THREE_ROWS + THREE_ROWS_AND_A_BYTE, THREE_DUMP + at(52, THREE_DUMP),
     damage(104, "unit ends inside an opcode"), THREE_ROWS, damage(104, "unit ends inside an opcode")),
]


def with_length(length):
    """The unit of the 64-bit format with another initial length."""
    return b"\xff" * 4 + length.to_bytes(8, "little") + DWARF64_WITH_MD5[12:]


# Units of one order that are read in the other one, and lengths beyond the input.
OTHERS = [
    ("little-endian as big-endian", SMALLEST, ("--big",), "unit 0x0 version 1280 skipped\n", damage(37, TRUNCATED)),
    ("a whole unit of version 1280", bytes.fromhex("00 00 00 02 05 00"), ("--big",),
     "unit 0x0 version 1280 skipped\n", b""),
    ("2^40 bytes", with_length(2 ** 40), (), DWARF64_DUMP, damage(78, TRUNCATED)),
    ("2^32 + 1 bytes", with_length(2 ** 32 + 1), (), DWARF64_DUMP, damage(78, TRUNCATED)),
    ("1 byte, 64-bit", bytes.fromhex("ff ff ff ff 01 00 00 00 00 00 00 00"), (), "", damage(12, TRUNCATED)),
    ("the last length", bytes.fromhex("ef ff ff ff"), (), "", damage(4, TRUNCATED)),
]


TWELVE_LENGTHS = "0 1 1 1 1 0 0 0 1 0 0 1"


def fields(unit_length, header_length, directories="", files="", opcode_base=13, lengths=TWELVE_LENGTHS, padding=""):
    """The lines of the fields of a header."""
    return (f"unit_length {unit_length}\nheader_length {header_length}\nminimum_instruction_length 1\n"
            "maximum_operations_per_instruction 1\ndefault_is_stmt 1\nline_base -5\nline_range 14\n"
            f"opcode_base {opcode_base}\nlengths {lengths}\ndirectory_format{directories}\nfile_format{files}\n"
            f"{padding}")


def with_fields(dump, lines):
    """A dump with these lines behind that of its unit."""
    unit, end, rest = dump.partition("\n")
    return unit + end + lines + rest


OF_MD5 = fields(66, 54, " path=string", " path=string dir=udata md5=data16")
OF_EACH_FORM = fields(
    156, 148, " path=block2 dir=block4 time=data2 size=data4 md5=data8 0x6=string 0x7=block 0x8=block1 0x9=data1"
              " 0xa=strp"
    " 0xb=udata 0xc=strp_sup 0xd=data16 0xe=line_strp", " path=udata dir=block")

# A section, and what `dump --header` prints of it. Section 6.2.4.
HEADERS = [
    ("no program", EMPTY_PROGRAM, (), UNIT + fields(30, 22), b""),
    ("padding of three bytes", PADDING_OF_THREE_BYTES, (), UNIT + fields(33, 25, padding="padding 3\n"), b""),
    ("the 64-bit format", DWARF64_WITH_MD5, (), with_fields(DWARF64_DUMP, OF_MD5), b""),
    ("the 64-bit format, big-endian", BIG_DWARF64_WITH_MD5, ("--big",), with_fields(DWARF64_DUMP, OF_MD5), b""),
    ("each form", EACH_FORM, (), with_fields(EACH_FORM_DUMP, OF_EACH_FORM), b""),
    ("nine lengths", OPCODE_BASE_10[:-3], (), UNIT + fields(30, 19, opcode_base=10, lengths="0 1 1 1 1 0 0 0 1"),
     damage(31, TRUNCATED)),
    ("two units", EMPTY_PROGRAM * 2, (), UNIT + fields(30, 22) + at(34, UNIT) + fields(30, 22), b""),
    ("a unit of version 4", FOREIGN + EMPTY_PROGRAM, (),
     "unit 0x0 version 4 skipped\n" + at(10, UNIT) + fields(30, 22), b""),
    ("a header that is cut off", EMPTY_PROGRAM[:33], (), "", damage(33, TRUNCATED)),
]


def found(address, line, op_index=0):
    """What `find` prints of a row of a file that its unit doesn't have."""
    return "file 1 missing\n" + row(address, op_index, line)


FIRST = found(0x401000, 2)
SECOND = found(0x401004, 3)
OF_FILE = 'file 0 path="a.c" dir=0 md5=000102030405060708090a0b0c0d0e0f\n' + row(0, 0, 1, file=0)

# A section, a place, and what `find` prints; without anything it tells that there is no line.
PLACES = [
    ("no unit", b"", "0", ""),
    ("an end row", SMALLEST, "0", ""),
    ("before the rows", THREE_ROWS, "0x400fff", ""),
    ("the first row", THREE_ROWS, "0x401000", FIRST),
    ("before the second row", THREE_ROWS, "0x401003", FIRST),
    ("the second row", THREE_ROWS, "0x401004", SECOND),
    ("before the end row", THREE_ROWS, "0x401005", SECOND),
    ("at the end row", THREE_ROWS, "0x401006", ""),
    ("after version 4", FOREIGN + THREE_ROWS, "0x401005", SECOND),
    ("after version 4, at the end row", FOREIGN + THREE_ROWS, "0x401006", ""),
    ("in two units", THREE_ROWS * 2, "0x401000", FIRST),
    ("in the second unit", DWARF64_WITH_MD5 + THREE_ROWS, "0x401003", FIRST),
    ("before version 4", THREE_ROWS + FOREIGN, "0x401004", SECOND),
    ("in no unit", THREE_ROWS + FOREIGN, "0x400fff", ""),
    ("before damage", THREE_ROWS + b"\5", "0x401000", FIRST),
    ("a file of the unit", WITH_FILE, "2", OF_FILE),
    ("a file of the unit, at the end row", WITH_FILE, "4", ""),
    ("a file of the second unit", THREE_ROWS + WITH_FILE, "2", OF_FILE),
]

# An operation of an instruction, and what `find` prints of it.
OPERATIONS = [("0", ""), ("1", found(0x1000, 1, 1)), ("2", found(0x1000, 1, 2)), ("255", found(0x1000, 1, 2))]

# A fault before an answer is told.
DAMAGED = [
    ("damage after another line", THREE_ROWS + b"\5", "1", damage(53, TRUNCATED)),
    ("damage in the unit", THREE_ROWS_AND_A_BYTE, "0x401000", damage(52, "unit ends inside an opcode")),
]


NO_UNIT = error("no unit at this offset")
NOT_UNDERSTOOD = error("words not understood")
ENDS_INSIDE = "unit ends inside an opcode"

# Two operations in an instruction: DW_LNE_set_address sets op_index to 0 (section 6.2.5.3), where it was 1.
OP_INDEX_CLEARED = unit_of(NO_TABLES, bytes.fromhex("20 00 09 02 00 10 00 00 00 00 00 00 20 02 01 00 01 01"),
                           FIELDS[:1] + b"\2" + FIELDS[2:])
OP_INDEX_CLEARED_OPERATIONS = (
    "operation 0x22 20 special 0x20 address 0 op_index 1 line 0\n" + row(0, 1, 1)
    + "operation 0x23 0009020010000000000000 DW_LNE_set_address 0x0000000000001000\n"
    + "operation 0x2e 20 special 0x20 address 0 op_index 1 line 0\n" + row(0x1000, 1, 1)
    + "operation 0x2f 0201 DW_LNS_advance_pc 1\noperation 0x31 000101 DW_LNE_end_sequence\n"
    + row(0x1001, 0, 1, "stmt end"))

# A section, words of `dump` by which a part of it is printed, the part, and what is told: units before the one at an
# offset may be damaged, and nothing after it is read; the sequence of three rows covers the addresses from 0x401000 on
# and below 0x401006.
PARTS = [
    (THREE_ROWS * 2, ("--unit", "52"), at(52, THREE_DUMP), b""),
    (THREE_ROWS * 2, ("--unit", "0x34"), at(52, THREE_DUMP), b""),
    (THREE_ROWS * 2, ("--unit", "0"), THREE_DUMP, b""),
    (THREE_ROWS * 2, ("--unit", "1"), "", NO_UNIT),
    (THREE_ROWS * 2, ("--unit", "104"), "", NO_UNIT),
    (b"", ("--unit", "0"), "", NO_UNIT),
    (FOREIGN, ("--unit", "0"), "unit 0x0 version 4 skipped\n", b""),
    (THREE_ROWS_AND_A_BYTE + THREE_ROWS, ("--unit", "53"), at(53, THREE_DUMP), b""),
    (THREE_ROWS_AND_A_BYTE + THREE_ROWS, ("--unit", "0"), THREE_DUMP, damage(52, ENDS_INSIDE)),
    (THREE_ROWS + b"\5", ("--unit", "0"), THREE_DUMP, b""),
    (EMPTY_PROGRAM * 2, ("--unit", "34", "--header"), at(34, UNIT) + fields(30, 22), b""),
    (THREE_ROWS, ("--range", "0x401005-0x401006"), THREE_DUMP, b""),
    (THREE_ROWS, ("--range", "0-0x401001"), THREE_DUMP, b""),
    (THREE_ROWS, ("--range", "0-0x401000"), "", b""),
    (THREE_ROWS, ("--range", "0x401006-0x402000"), "", b""),
    (THREE_ROWS, ("--range", "0x401001-0x401000"), "", b""),
    (THREE_ROWS, ("--range", "401000-401001"), THREE_DUMP, b""),
    (WITH_FILE + THREE_ROWS, ("--range", "0x401000-0x401001"), at(len(WITH_FILE), THREE_DUMP), b""),
    (THREE_ROWS_AND_A_BYTE + THREE_ROWS, ("--keep-going", "--range", "0x401000-0x401001"),
     THREE_DUMP + at(53, THREE_DUMP),
     damage(52, ENDS_INSIDE)),
    (OP_INDEX_CLEARED, ("--operations",), UNIT + OP_INDEX_CLEARED_OPERATIONS, b""),
]

# A section, words of `sources`, the paths of the unit at an offset, with the rows and bytes of code that they have, or
# their sums, and what is told: none of a unit that is damaged. Where no unit is, the first one that is damaged is told,
# if there is one.
OF_UNIT = "/s/a.c\n"
SUM = "000102030405060708090a0b0c0d0e0f"
UNIT_SOURCES = [
    (WITH_FILE, ("--unit", "0"), OF_UNIT, b""),
    (WITH_FILE, ("--unit", "0", "--rows"), "1 4 " + OF_UNIT, b""),
    (WITH_FILE, ("--unit", "0", "--md5"), f"{SUM} {OF_UNIT}", b""),
    (WITH_FILE, ("--unit", "0", "--json"), '{"path":"/s/a.c"}\n', b""),
    (THREE_ROWS + WITH_FILE, ("--unit", "52"), OF_UNIT, b""),
    (THREE_ROWS + WITH_FILE, ("--unit", "0x34", "--rows"), "1 4 " + OF_UNIT, b""),
    (WITH_FILE + WITH_FILE, ("--unit", str(len(WITH_FILE)), "--rows"), "1 4 " + OF_UNIT, b""),
    (WITH_FILE + THREE_ROWS, ("--unit", str(len(WITH_FILE))), "", b""),
    (DWARF64_WITH_MD5, ("--unit", "0", "--rows"), "0 0 " + OF_UNIT, b""),
    (BIG_DWARF64_WITH_MD5, ("--big", "--unit", "0", "--md5"), f"{SUM} {OF_UNIT}", b""),
    (FOREIGN + WITH_FILE, ("--unit", "0"), "", b""),
    (FOREIGN + WITH_FILE, ("--unit", str(len(FOREIGN))), OF_UNIT, b""),
    (WITH_FILE, ("--unit", "1"), "", NO_UNIT),
    (WITH_FILE, ("--unit", str(len(WITH_FILE))), "", NO_UNIT),
    (WITH_FILE, ("--unit", "18446744073709551615"), "", NO_UNIT),
    (b"", ("--unit", "0"), "", NO_UNIT),
    (WITH_FILE + b"\5", ("--unit", "0"), OF_UNIT, b""),
    (WITH_FILE[:-1], ("--unit", "0"), "", damage(len(WITH_FILE) - 1, TRUNCATED)),
    (THREE_ROWS_AND_A_BYTE + WITH_FILE, ("--unit", "53"), OF_UNIT, b""),
    (THREE_ROWS_AND_A_BYTE + WITH_FILE, ("--unit", "0"), "", damage(52, ENDS_INSIDE)),
    (THREE_ROWS_AND_A_BYTE + WITH_FILE, ("--unit", "52"), "", damage(52, ENDS_INSIDE)),
    (WITH_FILE + THREE_ROWS_AND_A_BYTE, ("--unit", "0"), OF_UNIT, b""),
    (WITH_FILE + bytes.fromhex("f0 ff ff ff"), ("--unit", "200"), "",
     damage(len(WITH_FILE), "reserved initial length")),
]

NO_FILE = "file-index: row {} at 0x{:016x} names file 1 of 0, numbered from 0\n"
TWO_NAMES = "0x2d " + NO_FILE.format(1, 0x401000) + "0x2e " + NO_FILE.format(2, 0x401004)
THREE_BYTES = "0x0 padding: 3 bytes stand between the tables and the program\n"

TWO_NAMES_AGAIN = "0x61 " + NO_FILE.format(1, 0x401000) + "0x62 " + NO_FILE.format(2, 0x401004)
COVERED = "{} overlap: row {} at 0x{:016x} ends a sequence that covers 0x{:016x}, as one of the unit at {} does\n"
TWICE = COVERED.format("0x65", 3, 0x401006, 0x401000, "0x0")
TWICE_OBJECT = ('{"offset":101,"rule":"overlap","row":3,"address":"0x0000000000401006","op_index":0,'
                '"covered":"0x0000000000401000","covered_op_index":0,"unit":0}\n')


def spans(*both, falls=False):
    """A unit of 34 bytes and a sequence of 17 for each pair of addresses, where it begins and where it ends. One that
    falls has a row more, above the address where it ends."""
    program = b""
    for first, end in both:
        program += b"\0\x09\x02" + first.to_bytes(8, "little") + b"\x01"
        if falls:
            program += b"\0\x09\x02" + (end + 1).to_bytes(8, "little") + b"\x01\0\x09\x02" + end.to_bytes(8, "little")
        else:
            program += b"\x02" + bytes([end - first])
        program += b"\0\x01\x01"
    return unit_of(NO_TABLES, program)


# Sections, and of each sequence that covers a place of one before it the offset, number and address of its end row,
# that place, and the unit of the first one that covers it.
OVERLAPS = [
    # One ends where the other one begins.
    (spans((0x1000, 0x1010), (0x1010, 0x1020)), []),
    (spans((0x1000, 0x1010)) + spans((0x1008, 0x1018)), [("0x63", 2, 0x1018, 0x1008, "0x0")]),
    # The later one begins first, lies around the other one, and within it.
    (spans((0x1008, 0x1018)) + spans((0x1000, 0x1010)), [("0x63", 2, 0x1010, 0x1008, "0x0")]),
    (spans((0x1008, 0x1010)) + spans((0x1000, 0x1018)), [("0x63", 2, 0x1018, 0x1008, "0x0")]),
    (spans((0x1000, 0x1018)) + spans((0x1008, 0x1010)), [("0x63", 2, 0x1010, 0x1008, "0x0")]),
    # The first place that is covered is one of the second unit, and then one that the first two cover.
    (spans((0x1010, 0x1020)) + spans((0x1000, 0x1008)) + spans((0x1000, 0x1018)),
     [("0x96", 2, 0x1018, 0x1000, "0x33")]),
    (spans((0x1000, 0x1010), (0x1004, 0x1014), (0x1006, 0x1008)),
     [("0x41", 4, 0x1014, 0x1004, "0x0"), ("0x52", 6, 0x1008, 0x1006, "0x0")]),
    # One that covers nothing, and those whose rows fall.
    (spans((0x1000, 0x1010), (0x1008, 0x1008)), []),
    (spans((0x1000, 0x1010)) + spans((0x1008, 0x1018), falls=True), []),
    (spans((0x1000, 0x1010), falls=True) + spans((0x1008, 0x1018)), []),
]

# A section, words of `lint`, the findings, and what is told of them. The rows of three name a file of no table.
FINDINGS = [
    (b"", (), "", b""),
    (THREE_ROWS, (), TWO_NAMES, b"findings: file-index=2\n"),
    (THREE_ROWS, ("--rule", "file-index"), TWO_NAMES, b"findings: file-index=2\n"),
    (THREE_ROWS, ("--no-rule", "file-index"), "", b""),
    (THREE_ROWS, ("--rule", "padding"), "", b""),
    (THREE_ROWS, ("--rule", "padding", "--rule", "file-index"), TWO_NAMES, b"findings: file-index=2\n"),
    (THREE_ROWS, ("--rule", "file-index", "--no-rule", "file-index"), "", b""),
    (PADDING_OF_THREE_BYTES, (), THREE_BYTES, b"findings: padding=1\n"),
    (PADDING_OF_THREE_BYTES, ("--json",), '{"offset":0,"rule":"padding","bytes":3}\n', b"findings: padding=1\n"),
    (PADDING_OF_THREE_BYTES + THREE_ROWS_AND_A_BYTE, ("--rule=padding", "--keep-going"), THREE_BYTES,
     damage(len(PADDING_OF_THREE_BYTES) + 52, ENDS_INSIDE) + b"findings: padding=1\n"),
    (THREE_ROWS_AND_A_BYTE + PADDING_OF_THREE_BYTES, ("--rule=padding",), "", damage(52, ENDS_INSIDE)),
    (THREE_ROWS * 2, ("--rule=overlap",), TWICE, b"findings: overlap=1\n"),
    (THREE_ROWS * 2, ("--rule=overlap", "--json"), TWICE_OBJECT, b"findings: overlap=1\n"),
    (THREE_ROWS * 2, (), TWO_NAMES + TWO_NAMES_AGAIN + TWICE, b"findings: file-index=4 overlap=1\n"),
    (THREE_ROWS * 2, ("--no-rule=file-index", "--no-rule=overlap"), "", b""),
    (THREE_ROWS + THREE_ROWS_AND_A_BYTE, ("--rule=overlap",), "", damage(104, ENDS_INSIDE)),
    (THREE_ROWS + THREE_ROWS_AND_A_BYTE, ("--rule=overlap", "--keep-going"), TWICE,
     damage(104, ENDS_INSIDE) + b"findings: overlap=1\n"),
]

# Words that say no offset, no range and no rule.
REFUSED_WORDS = [
    (("dump", "--unit", "1x"), NOT_UNDERSTOOD),
    (("sources", "--unit", "1x"), NOT_UNDERSTOOD),
    (("sources", "--unit", "18446744073709551616"), NOT_UNDERSTOOD),
    (("dump", "--range", "5"), NOT_UNDERSTOOD),
    (("dump", "--range", "5-"), NOT_UNDERSTOOD),
    (("lint", "--rule", "no-such"), error("no-such is no rule")),
    (("lint", "--rule", "padding", "--no-rule", "x", "--no-rule", "y"), error("x is no rule")),
]


def runs_of_sections():
    for name, section, dump, fault, copied, not_copied in SECTIONS:
        status = 1 if fault else 0
        yield Run(f"{name}: dump", ("dump",), section, status, text(dump), (fault,))
        counts = b"" if fault else counts_of(dump)
        yield Run(f"{name}: check", ("check",), section, status, counts, (fault,))
        yield Run(f"{name}: copy", ("copy",), section, 1 if not_copied else 0, copied, (not_copied,))
    for name, section, order, dump, fault in OTHERS:
        yield Run(name, ("dump", *order), section, 1 if fault else 0, text(dump), (fault,))


def runs_of_headers():
    """The fields are printed where they are asked for alone, also around damaged units."""
    for name, section, order, dump, fault in HEADERS:
        for going_on in ((), ("--keep-going",)):
            words = ("dump", "--header", *going_on, *order)
            yield Run(f"{name}: {' '.join(words)}", words, section, 1 if fault else 0, text(dump), (fault,))


def runs_of_parts():
    for section, words, dump, fault in PARTS:
        yield Run(f"dump {' '.join(words)}", ("dump", *words), section, 1 if fault else 0, text(dump), (fault,))
    for section, words, paths, fault in UNIT_SOURCES:
        yield Run(f"sources {' '.join(words)}", ("sources", *words), section, 1 if fault else 0, text(paths), (fault,))
    for section, words, lines, told in FINDINGS:
        yield Run(f"lint {' '.join(words)}", ("lint", *words), section, 1 if told else 0, text(lines), (told,))
    for number, (section, overlaps) in enumerate(OVERLAPS):
        words = ("lint", "--rule=overlap", "--rule=dead-sequence", "--rule=no-code")
        told = f"findings: overlap={len(overlaps)}\n".encode() if overlaps else b""
        lines = "".join(COVERED.format(*overlap) for overlap in overlaps)
        yield Run(f"{' '.join(words)}, section {number}", words, section, 1 if told else 0, text(lines), (told,))
    for words, fault in REFUSED_WORDS:
        yield Run(" ".join(words), words, THREE_ROWS, 2, b"", (fault,))


def runs_of_places():
    for name, section, address, lines in PLACES:
        yield run_of_place(name, section, ("find", address), lines)
    for operation, lines in OPERATIONS:
        words = ("find", "0x1000", "--op", operation, "--big")
        yield run_of_place(f"operation {operation}", BIG_OPERATIONS, words, lines)
    for name, section, address, fault in DAMAGED:
        yield Run(name, ("find", address), section, 1, b"", (fault,))


def run_of_place(name, section, words, lines):
    if lines:
        return Run(name, words, section, 0, text(lines), (b"",))
    return Run(name, words, section, 1, b"", (NOT_FOUND,))


def runs_of_fronts():
    """A unit of version 4 that ends early is told to end there."""
    for length in range(1, len(FOREIGN)):
        fault = damage(length, TRUNCATED)
        yield Run(f"version 4, {length} bytes", ("check",), FOREIGN[:length], 1, b"", (fault,))


def runs():
    yield from runs_of_sections()
    yield from runs_of_headers()
    yield from runs_of_fronts()
    yield from runs_of_places()
    yield from runs_of_parts()
