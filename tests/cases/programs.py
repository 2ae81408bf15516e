"""Worked programs, and programs that are refused at a byte."""
from lib.dumps import UNIT, Refused, Whole, row
from cases.units import (
    BIG_FIXED_ADVANCE, BIG_SMALLEST, BIG_THREE_ROWS, OPCODE_BASE_14, PADDED, PADDED_COPIED, SKIPPED_OPERANDS,
    SMALLEST, THREE_ROWS, THREE_ROWS_AND_A_BYTE, WITH_FILE, unit)

SMALLEST_DUMP = UNIT + row(0, 0, 1, "stmt end")

THREE_DUMP = UNIT + row(0x401000, 0, 2) + row(0x401004, 0, 3) + row(0x401006, 0, 3, "stmt end")

FILE_DUMP = ("unit 0x0 dwarf64 version 5 address_size 8\n"
             'dir 0 path="/s"\n'
             'file 0 path="a.c" dir=0 md5=000102030405060708090a0b0c0d0e0f\n'
             + row(0, 0, 1, file=0) + row(4, 0, 1, "stmt end", file=0))

# A program, the bytes that differ from the header of an empty program, and the rows.
PROGRAMS = [
    ("special opcodes", "00 09 02 00 10 40 00 00 00 00 00 13 4b 00 01 01", [],
     [row(0x401000, 0, 2), row(0x401004, 0, 3), row(0x401004, 0, 3, "stmt end")]),
    ("flags of one row", "00 02 04 07 0a 01 01", [],
     [row(0, 0, 1, "stmt prologue disc 7"), row(0, 0, 1), "open\n"]),
    # Several operations in an instruction: minimum_instruction_length is byte 12, maximum_operations_per_instruction
    # 13.
    ("operations", "00 09 02 00 10 00 00 00 00 00 00 20 20 20", [(12, 0x10), (13, 3)],
     [row(0x1000, 1, 1), row(0x1000, 2, 1), row(0x1010, 0, 1), "open\n"]),
    ("a huge advance", "20 02 ff ff ff ff ff ff ff ff ff 01 01", [(13, 3)],
     [row(0, 1, 1), row(6148914691236517205, 1, 1), "open\n"]),
    ("a fixed advance", "20 09 34 12 01", [(12, 0x10), (13, 3)],
     [row(0, 1, 1), row(0x1234, 0, 1), "open\n"]),
    ("DW_LNS_const_add_pc", "08 01", [], [row(0x11, 0, 1), "open\n"]),
    ("the least number", "03 80 80 80 80 80 80 80 80 80 7f 01", [],
     [row(0, 0, 9223372036854775809), "open\n"]),
    ("a number of 1,000 bytes", "05 83" + " 80" * 998 + " 00 01", [],
     [row(0, 0, 1, column=3), "open\n"]),
]

# The same of programs that `copy` writes as they are.
COPIED_AS_THEY_ARE = [
    ("operations, copied", "00 09 02 00 10 00 00 00 00 00 00 20 20 20", [(12, 0x10), (13, 3)],
     [row(0x1000, 1, 1), row(0x1000, 2, 1), row(0x1010, 0, 1), "open\n"]),
    ("steps", """
        00 09 02 08 00 00 00 00 00 00 00 12 00 09 02 04 00 00 00 00 00 00 00 03 09 01 1a ff 02 11 01""", [],
     [row(8, 0, 1), row(4, 0, 10), row(4, 0, 18), row(0x15, 0, 17), row(0x26, 0, 17), "open\n"]),
    # What holds for one row alone, and what holds to the end of a sequence.
    ("settings and marks", """
        04 02 05 c8 01 06 0c 03 00 03 04 ac 02 07 0a 0b 00 09 02 00 00 00 00 00 00 00 00 12
        20 00 01 01 00 09 02 00 00 00 00 00 00 00 00 12""", [],
     [row(0, 0, 1, "block prologue epilogue isa 3 disc 300", file=2, column=200),
      row(1, 0, 1, "isa 3", file=2, column=200), row(1, 0, 1, "end isa 3", file=2, column=200),
      row(0, 0, 1), "open\n"]),
]

# Every register at values of every length. maximum_operations_per_instruction is 255.
REGISTERS = """
    00 01 01
    00 09 02 04 10 40 00 00 00 00 00 03 02 01 03 7b 06 01 00 01 01
    00 02 04 07 0a 01
    00 09 02 ff ff ff ff ff ff ff ff 02 fe 01 04 0a 03 8e ce 00 05 90 4e
    0c 80 c2 d7 2f 00 0b 04 d2 95 fc d8 ce b1 aa aa ab 01 07 0a 0b 00 01 01"""
LAST_ROW = "stmt block prologue epilogue end isa 100000000 disc 12345678901234567890"
ROWS_OF_REGISTERS = [
    row(0, 0, 1, "stmt end"),
    row(0x401004, 0, 3),
    row(0x401004, 0, 18446744073709551614, ""),
    row(0x401004, 0, 18446744073709551614, "end"),
    row(0, 0, 1, "stmt prologue disc 7"),
    row(0xffffffffffffffff, 254, 9999, LAST_ROW, file=10, column=10000),
]

# The second address is the greatest of 4 bytes and 1 more, and its line is 1 and -2 more.
FOUR_BYTES_DUMP = ("unit 0x0 dwarf32 version 5 address_size 4\n"
                   + row(0, 0, 1) + row(0, 0, 2 ** 64 - 1) + "open\n")


def of_four_bytes():
    section = unit("00 05 02 ff ff ff ff 02 01 01 03 7e 01", [(6, 4)])
    copied = unit("00 05 02 00 00 00 00 12 10", [(6, 4)])
    yield Whole("addresses of 4 bytes", section, FOUR_BYTES_DUMP, copied)
    yield Whole("addresses of 4 bytes, copied", copied, FOUR_BYTES_DUMP, copied)


def many_rows():
    """A row for each byte, and as they are copied, after an address."""
    rows = "12" * 10_000
    copied = unit("00 09 02 00 00 00 00 00 00 00 00" + rows)
    return Whole("10,000 rows", unit(rows), UNIT + row(0, 0, 1) * 10_000 + "open\n", copied)


def wholes():
    yield Whole("an end row", SMALLEST, SMALLEST_DUMP)
    yield Whole("three rows", THREE_ROWS, THREE_DUMP, THREE_ROWS)
    for name, program, changes, rows in PROGRAMS:
        yield Whole(name, unit(program, changes), UNIT + "".join(rows))
    for name, program, changes, rows in COPIED_AS_THEY_ARE:
        section = unit(program, changes)
        yield Whole(name, section, UNIT + "".join(rows), section)
    yield from of_four_bytes()
    yield many_rows()
    registers = unit(REGISTERS, [(13, 255)])
    yield Whole("registers", registers, UNIT + "".join(ROWS_OF_REGISTERS))
    yield Whole("a padded column", PADDED, UNIT + row(0, 0, 1, column=3) + "open\n", PADDED_COPIED)
    yield Whole("an opcode that is passed over", OPCODE_BASE_14, SMALLEST_DUMP)
    yield Whole("operands without a range", SKIPPED_OPERANDS, UNIT + row(0, 0, 1) + "open\n")
    yield Whole("rows of file 0", WITH_FILE, FILE_DUMP)
    big = ("--big",)
    yield Whole("an end row, big-endian", BIG_SMALLEST, SMALLEST_DUMP, order=big)
    yield Whole("three rows, big-endian", BIG_THREE_ROWS, THREE_DUMP, BIG_THREE_ROWS, big)
    fixed = UNIT + row(0, 1, 1) + row(0x1234, 0, 1) + "open\n"
    yield Whole("a fixed advance, big-endian", BIG_FIXED_ADVANCE, fixed, order=big)


# A program and the fault of its first opcode, which is byte 34 of its unit.
FIRST_OPCODES = [
    ("05 83 80 80 80 80 80 80 80 80 80 80 01 01", "number out of range"),
    ("03 80 80 80 80 80 80 80 80 80 01 01", "number out of range"),
    ("00 80 80 80 80 80 80 80 80 80 02", "number out of range"),
    ("00 00", "empty extended opcode"),
    ("00 02 01 00", "wrong length of extended opcode"),
    ("00 05 02 ff ff ff ff", "wrong length of extended opcode"),
    ("00 03 04 05 00", "wrong length of extended opcode"),
    ("00 ff ff ff ff ff ff ff ff ff 01 80 00", "unit ends inside an opcode"),
]

CUT_OFF = unit("00 09 02 00 10 40 00 00 00 00 00 13 4b 02 02 00 01")


def refusals():
    for program, fault in FIRST_OPCODES:
        yield Refused(program, unit(program), 34, fault, UNIT)
    inside = "unit ends inside an opcode"
    two_rows = UNIT + row(0x401000, 0, 2) + row(0x401004, 0, 3)
    yield Refused("three rows without the last byte", CUT_OFF, 49, inside, two_rows)
    yield Refused("three rows and a byte", THREE_ROWS_AND_A_BYTE, 52, inside, THREE_DUMP)
