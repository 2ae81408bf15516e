"""What `lint` finds in sections.

The sections are worked by hand from DWARF 5, section 6.2, and DWARF 4, section 6.2.4, but for one of GNU as."""
import re

from cases.section_addr import DEAD
from cases.units import unit
from lib.worked import Case, damage, objects, told

# Version 5, from byte 48 on a row of file 1 at 0x1000, where the table has file 0 alone, and an end row at 0x1008.
NEWER_FILES = bytes.fromhex("""
    3f 00 00 00 05 00 08 00 24 00 00 00 01 01 01 fb 0e 0d 00 01 01 01 01 00 00 00 01 00 00 01 01 01 08 01 2f 73 00 02
    01 08 02 0f 01 61 2e 63 00 00 00 09 02 00 10 00 00 00 00 00 00 04 01 01 02 08 00 01 01""")

# Version 4, from byte 39 on a row of file 1 at 0x3000, which is the only one, a row of file 0 at 0x3004, and an end
# row of file 0 at 0x300c.
OLDER_FILES = bytes.fromhex("""
    39 00 00 00 04 00 1d 00 00 00 01 01 01 fb 0e 0d 00 01 01 01 01 00 00 00 01 00 00 01 64 00 00 78 2e 63 00 01 00 00
    00 00 09 02 00 30 00 00 00 00 00 00 01 02 04 04 00 01 02 08 00 01 01""")

# Version 5, one directory, file 0 in directory 0 and file 1 in directory 3.
NEWER_DIRECTORIES = bytes.fromhex("""
    34 00 00 00 05 00 08 00 29 00 00 00 01 01 01 fb 0e 0d 00 01 01 01 01 00 00 00 01 00 00 01 01 01 08 01 2f 73 00 02
    01 08 02 0f 02 61 2e 63 00 00 62 2e 63 00 03 00 01 01""")

# Version 4, one directory, file 1 in that of the compilation and file 2 in directory 2.
OLDER_DIRECTORIES = bytes.fromhex("""
    2d 00 00 00 04 00 24 00 00 00 01 01 01 fb 0e 0d 00 01 01 01 01 00 00 00 01 00 00 01 64 00 00 78 2e 63 00 00 00 00
    79 2e 63 00 02 00 00 00 00 01 01""")

# Version 5, two bytes after the empty tables of the header, and from byte 36 on an end row.
PADDED = bytes.fromhex("""
    23 00 00 00 05 00 08 00 18 00 00 00 01 01 01 fb 0e 0d 00 01 01 01 01 00 00 00 01 00 00 01 00 00 00 00 aa bb 00 01
    01""")

# Version 5, where opcode 13 has two operands and 14 none. From byte 36 on 13, 14, 13 again, a row at 0 and an end row
# at 4.
NEWER_OPCODES = bytes.fromhex("""
    2e 00 00 00 05 00 08 00 18 00 00 00 01 01 01 fb 0e 0f 00 01 01 01 01 00 00 00 01 00 00 01 02 00 00 00 00 00 0d 81
    01 05 0e 0d 00 00 01 02 04 00 01 01""")

# Version 4, without files. From byte 30 on DW_LNE_define_file, a row at 0 and an end row at 4.
DEFINED_FILE = bytes.fromhex("""
    28 00 00 00 04 00 14 00 00 00 01 01 01 fb 0e 0d 00 01 01 01 01 00 00 00 01 00 00 01 00 00 00 06 03 61 00 00 00 00
    01 02 04 00 01 01""")

# Version 5, content code 0x2001 in both formats and 6 in that of files. From byte 56 on an end row.
NEWER_CONTENTS = bytes.fromhex("""
    37 00 00 00 05 00 08 00 2c 00 00 00 01 01 01 fb 0e 0d 00 01 01 01 01 00 00 00 01 00 00 01 02 01 08 81 40 08 01 2f
    73 00 00 03 01 08 81 40 08 06 0b 01 61 2e 63 00 00 07 00 01 01""")

# Version 5, addresses of 4 bytes. From byte 34 on the address 0xfffffffc, a special opcode that advances it by 4 and
# appends a row, and an end row at 4.
SHORT_ADDRESSES = bytes.fromhex("""
    2b 00 00 00 05 00 04 00 16 00 00 00 01 01 01 fb 0e 0d 00 01 01 01 01 00 00 00 01 00 00 01 00 00 00 00 00 05 02 fc
    ff ff ff 4a 02 04 00 01 01""")

# Version 5, directories 0 and 1, and the files a.c, a.c, b.c in directory 0, a.c in directory 1, b.c and a.c in
# directory 0. From byte 76 on an end row.
DUPLICATES = bytes.fromhex("""
    4b 00 00 00 05 00 08 00 40 00 00 00 01 01 01 fb 0e 0d 00 01 01 01 01 00 00 00 01 00 00 01 01 01 08 02 2f 73 00 2f
    74 00 02 01 08 02 0b 06 61 2e 63 00 00 61 2e 63 00 00 62 2e 63 00 00 61 2e 63 00 01 62 2e 63 00 00 61 2e 63 00 00
    00 01 01""")

# Version 4, one directory, and four files x.c: in directory 1, there with the time 5, there again, and in directory
# 0. From byte 60 on an end row.
OLDER_DUPLICATES = bytes.fromhex("""
    3b 00 00 00 04 00 32 00 00 00 01 01 01 fb 0e 0d 00 01 01 01 01 00 00 00 01 00 00 01 64 00 00 78 2e 63 00 01 00 00
    78 2e 63 00 01 05 00 78 2e 63 00 01 00 00 78 2e 63 00 00 00 00 00 00 01 01""")

# Version 5, files 0 to 4. From byte 71 on a row of file 1 at 0x1000, one of file 3 at 0x1004, another one of it, and
# an end row of file 4 at 0x1008.
UNUSED = bytes.fromhex("""
    60 00 00 00 05 00 08 00 3b 00 00 00 01 01 01 fb 0e 0d 00 01 01 01 01 00 00 00 01 00 00 01 01 01 08 02 2f 73 00 2f
    74 00 02 01 08 02 0b 05 61 2e 63 00 00 61 2e 63 00 00 62 2e 63 00 00 63 2e 63 00 00 64 2e 63 00 00 00 09 02 00 10
    00 00 00 00 00 00 01 04 03 02 04 01 04 03 03 01 01 04 04 02 04 00 01 01""")

# Version 4, files 1 to 3. From byte 53 on a row of file 3 at 0x1000, one of file 9 at 0x1004, and an end row of file
# 2 at 0x1008.
OLDER_UNUSED = bytes.fromhex("""
    4b 00 00 00 04 00 2b 00 00 00 01 01 01 fb 0e 0d 00 01 01 01 01 00 00 00 01 00 00 01 64 00 00 78 2e 63 00 01 00 00
    79 2e 63 00 01 00 00 7a 2e 63 00 01 00 00 00 00 09 02 00 10 00 00 00 00 00 00 04 03 01 04 09 02 04 01 04 02 02 04
    00 01 01""")

# Version 5, a directory and files 0 to 2 by DW_FORM_line_strp, each with a directory and an MD5 sum in
# DW_FORM_data16, which of file 2 is sixteen zeros. GNU as 2.40 wrote it of `.file` directives, of which the third has
# no `md5`.
SUMS = bytes.fromhex("""
    7d 00 00 00 05 00 08 00 61 00 00 00 01 01 01 fb 0e 0d 00 01 01 01 01 00 00 00 01 00 00 01 01 01 1f 01 00 00 00 00
    03 01 1f 02 0f 05 1e 03 00 00 00 00 00 ff ee dd cc bb aa 99 88 77 66 55 44 33 22 11 00 00 00 00 00 00 ff ee dd cc
    bb aa 99 88 77 66 55 44 33 22 11 00 00 00 00 00 00 00 00 00 00 00 00 00 00 00 00 00 00 00 00 00 00 00 09 02 00 00
    00 00 00 00 00 00 01 04 02 21 02 01 00 01 01""")

# Version 5, a directory by DW_FORM_line_strp at 0, and four files with a path by DW_FORM_line_strp and a text of
# content code 0x2001 by DW_FORM_strp: 3 and 0, 7 and 2, 8 and 9, 3 and 3. From byte 77 on an end row.
TEXTS = bytes.fromhex("""
    4c 00 00 00 05 00 08 00 41 00 00 00 01 01 01 fb 0e 0d 00 01 01 01 01 00 00 00 01 00 00 01 01 01 1f 01 00 00 00 00
    02 01 1f 81 40 0e 04 03 00 00 00 00 00 00 00 07 00 00 00 02 00 00 00 08 00 00 00 09 00 00 00 03 00 00 00 03 00 00
    00 00 01 01""")


# In the order in which they are counted.
RULES = [
    "file-index", "directory-index", "falling-place", "no-end", "empty-sequence", "overlap", "dead-sequence",
    "missing-text", "duplicate-file", "unused-file", "md5-missing", "long-number", "padding", "wrapped-address",
    "line-wrapped", "no-statement", "split-instruction", "unknown-opcode", "no-code"]


def counted(output):
    """The line that counts the findings of an output."""
    found = re.findall(r'^0x\w+ ([a-z0-9-]+): |^{"offset":\d+,"rule":"([a-z0-9-]+)"', output, re.MULTILINE)
    names = ["".join(pair) for pair in found]
    counts = [f" {rule}={names.count(rule)}" for rule in RULES if rule in names]
    return f"findings:{''.join(counts)}\n" if counts else ""


def lint(name, words, section, output, error="", **others):
    error += counted(output)
    return Case(f"{name}: {words}", f"lint {words} --older 8", section, output, error, int(bool(error)), **others)


# A header's minimum_instruction_length and maximum_operations_per_instruction, before a program that begins at byte 34.
USUAL, FOURS, WIDE = (1, 1), (4, 1), (1, 4)


def machine_unit(machine, program):
    return unit(program, [(12, machine[0]), (13, machine[1])])


# The units here have no files.
ROWS = "--no-rule file-index"

# A program, and what is found in it.
PROGRAMS = [
    # 0x1010, then 0x1000, and the end at 0x1020
    (USUAL, "00 09 02 10 10 00 00 00 00 00 00 01 00 09 02 00 10 00 00 00 00 00 00 01 02 20 00 01 01",
     "0x39 falling-place: row 2 at 0x0000000000001000 is below the row before it at 0x0000000000001010\n"),
    # the same address twice doesn't fall, nor does a sequence after another one
    (USUAL, "00 09 02 10 10 00 00 00 00 00 00 01 01 02 20 00 01 01 00 09 02 00 10 00 00 00 00 00 00 01 02 04 00 01 01",
     ""),
    # operation 2 of the instruction at 0, then operation 0
    (WIDE, "02 02 01 09 00 00 01 02 04 00 01 01",
     "0x28 falling-place: row 2 at 0x0000000000000000 is below the row before it at 0x0000000000000000 op_index 2\n"),
    # the end row alone
    (USUAL, "00 01 01",
     "0x22 empty-sequence: row 1 at 0x0000000000000000 ends a sequence that covers no address\n"
      "0x22 no-statement: row 1 at 0x0000000000000000 ends a sequence in which no row is a statement\n"),
    # two sequences whose rows are at the address of their end rows
    (USUAL, "01 00 01 01 01 01 00 01 01",
     "0x23 empty-sequence: row 2 at 0x0000000000000000 ends a sequence that covers no address\n"
      "0x28 empty-sequence: row 5 at 0x0000000000000000 ends a sequence that covers no address\n"),
    # a row at 0x1000, without an end row; the unit ends at 0x2e
    (USUAL, "00 09 02 00 10 00 00 00 00 00 00 01",
     "0x2e no-end: row 1 at 0x0000000000001000 is the last of its unit and no end row\n"),
    # line 1 - 2
    (USUAL, "03 7e 01 03 02 02 01 00 01 01",
     "0x24 line-wrapped: row 1 at 0x0000000000000000 has line 18446744073709551615\n"),
    # line 2^32 - 1, then line 2^32, then line 1
    (USUAL, "03 fe ff ff ff 0f 01 03 01 01 03 81 80 80 80 70 02 01 00 01 01",
     "0x2b line-wrapped: row 2 at 0x0000000000000000 has line 4294967296\n"),
    # a row that is no statement, and an end row that is one
    (USUAL, "06 01 06 02 04 00 01 01",
     "0x27 no-statement: row 2 at 0x0000000000000004 ends a sequence in which no row is a statement\n"),
    # 0x1000, 0x1002, and the end at 0x1004
    (FOURS, "00 09 02 00 10 00 00 00 00 00 00 01 09 02 00 01 09 02 00 00 01 01",
     "0x31 split-instruction: row 2 at 0x0000000000001002 lies no multiple of 4 bytes from 0x0000000000001000,"
     " where its sequence begins\n"),
    # extended opcode 0x80 twice, and 0x81 with an operand
    (USUAL, "00 01 80 00 01 80 00 02 81 ff 01 02 04 00 01 01",
     "0x22 unknown-opcode: extended opcode 0x80 is passed over\n"
      "0x28 unknown-opcode: extended opcode 0x81 is passed over\n"),
    # extended opcode 3 is none of version 5; its length is spelled in two bytes
    (USUAL, "00 81 00 03 01 02 04 00 01 01",
     "0x22 unknown-opcode: extended opcode 0x3 is passed over\n"),
    # 0xfffffffffffffff0 and 0x20 more
    (USUAL, "00 09 02 f0 ff ff ff ff ff ff ff 01 02 20 00 01 01",
     "0x2e wrapped-address: an advance from 0xfffffffffffffff0 goes past an address of 8 bytes\n"
      "0x30 falling-place: row 2 at 0x0000000000000010 is below the row before it at 0xfffffffffffffff0\n"),
    # 15 more, which is the last address, and 1 more, by DW_LNS_fixed_advance_pc
    (USUAL, "00 09 02 f0 ff ff ff ff ff ff ff 02 0f 01 09 01 00 00 01 01",
     "0x30 wrapped-address: an advance from 0xffffffffffffffff goes past an address of 8 bytes\n"
      "0x33 falling-place: row 2 at 0x0000000000000000 is below the row before it at 0xffffffffffffffff\n"),
    # operation 3 of the last instruction, and one operation more
    (WIDE, "00 09 02 ff ff ff ff ff ff ff ff 02 03 01 02 01 00 01 01",
     "0x30 wrapped-address: an advance from 0xffffffffffffffff goes past an address of 8 bytes\n"
      "0x32 falling-place: row 2 at 0x0000000000000000 is below the row before it at 0xffffffffffffffff op_index 3\n"),
    # a column in ten bytes, and then in eleven
    (USUAL, "05 81 80 80 80 80 80 80 80 80 00 05 81 80 80 80 80 80 80 80 80 80 00 01 02 04 00 01 01",
     "0x2d long-number: a number in LEB128 has 11 bytes\n"),
    # the length of DW_LNE_set_discriminator in twelve bytes, and then its operand
    (USUAL, "00 82 80 80 80 80 80 80 80 80 80 80 00 04 01"
     " 00 0d 04 81 80 80 80 80 80 80 80 80 80 80 00 01 02 04 00 01 01",
     "0x22 long-number: a number in LEB128 has 12 bytes\n"
      "0x31 long-number: a number in LEB128 has 12 bytes\n"),
    # the operand of another extended opcode is no number
    (USUAL, "00 0d 80 81 80 80 80 80 80 80 80 80 80 80 00 01 02 04 00 01 01",
     "0x22 unknown-opcode: extended opcode 0x80 is passed over\n"),
]

SMALLEST = unit("00 01 01")
EMPTY_SEQUENCE = "0x{:x} empty-sequence: row {} at 0x0000000000000000 ends a sequence that covers no address\n"

# Each program by itself: in each unit rows are counted anew, and offsets count from the section's first byte. What
# stands in a header is told at the unit's offset.
SECTIONS = [
    # Files have numbers from 0 on in version 5, and from 1 on before; the file of an end row doesn't count.
    ("", NEWER_FILES, "0x3d file-index: row 1 at 0x0000000000001000 names file 1 of 1, numbered from 0\n"),
    ("", OLDER_FILES, "0x37 file-index: row 2 at 0x0000000000003004 names file 0 of 1, numbered from 1\n"),
    ("--rule empty-sequence", SMALLEST + unit("01 00 01 01"),
     EMPTY_SEQUENCE.format(0x22, 1) + EMPTY_SEQUENCE.format(0x48, 2)),
    ("--rule no-end", SMALLEST + unit("01 00 01 01"), ""),
    ("--rule padding", SMALLEST + PADDED, "0x25 padding: 2 bytes stand between the tables and the program\n"),
    # Directories have numbers from 0 on in version 5, and from 1 on before, where 0 is that of the compilation.
    ("--rule directory-index", NEWER_DIRECTORIES,
     "0x0 directory-index: file 1 names directory 3 of 1, numbered from 0\n"),
    ("--rule directory-index", OLDER_DIRECTORIES,
     "0x0 directory-index: file 2 names directory 2 of 1, numbered from 1\n"),
    # Standard opcodes from 13 on are passed over by the number of their operands; DW_LNE_define_file is one of version
    # 4.
    (ROWS, NEWER_OPCODES, "0x24 unknown-opcode: standard opcode 0xd is passed over\n"
     "0x28 unknown-opcode: standard opcode 0xe is passed over\n"),
    (ROWS, DEFINED_FILE, ""),
    # A content code is told once.
    ("--rule unknown-opcode", SMALLEST + NEWER_CONTENTS, "0x25 unknown-opcode: content code 0x2001 is passed over\n"
     "0x25 unknown-opcode: content code 0x6 is passed over\n"),
    # Addresses of 4 bytes end at 2^32.
    (ROWS, SHORT_ADDRESSES,
     "0x29 wrapped-address: an advance from 0x00000000fffffffc goes past an address of 4 bytes\n"),
    # Entries are the same where all their values are: paths and directories, and before version 5 times and lengths.
    ("--rule duplicate-file", DUPLICATES, "0x0 duplicate-file: file 1 has all values of file 0\n"
     "0x0 duplicate-file: file 4 has all values of file 2\n0x0 duplicate-file: file 5 has all values of file 0\n"),
    ("--rule duplicate-file", SMALLEST + OLDER_DUPLICATES, "0x25 duplicate-file: file 3 has all values of file 1\n"),
    # Files that no row names but an end row, beside 0 and 1, of each unit alone.
    ("--rule unused-file", UNUSED + OLDER_UNUSED, "0x0 unused-file: no row names 2 of the files, the first is file 2\n"
     "0x64 unused-file: no row names 1 of the files, the first is file 2\n"),
    # A file without an MD5 sum among others that have one; of a unit without sums nothing is found.
    ("--rule md5-missing", UNUSED + SUMS,
     "0x64 md5-missing: no MD5 sum is given for 1 of the files, the first is file 2\n"),
]


def found(offset, rule, row, address, op_index=0, **others):
    """An object of a row."""
    return dict(offset=offset, rule=rule, row=row, address=f"0x{address:016x}", op_index=op_index, **others)


# The objects of what is found in programs.
PROGRAM_OBJECTS = [
    (WIDE, "02 02 01 09 00 00 01 02 04 00 01 01",
     [found(40, "falling-place", 2, 0, before="0x0000000000000000", before_op_index=2)]),
    (USUAL, "00 01 01", [found(34, "empty-sequence", 1, 0), found(34, "no-statement", 1, 0)]),
    (USUAL, "00 09 02 00 10 00 00 00 00 00 00 01", [found(46, "no-end", 1, 0x1000)]),
    (USUAL, "03 7e 01 03 02 02 01 00 01 01", [found(36, "line-wrapped", 1, 0, line=(1 << 64) - 1)]),
    (FOURS, "00 09 02 00 10 00 00 00 00 00 00 01 09 02 00 01 09 02 00 00 01 01",
     [found(49, "split-instruction", 2, 0x1002, first="0x0000000000001000", least=4)]),
    # 0xfffffffffffffffc and 4 more, by the special opcode 0x4a
    (USUAL, "00 09 02 fc ff ff ff ff ff ff ff 4a 02 04 00 01 01",
     [{"offset": 45, "rule": "wrapped-address", "from": "0xfffffffffffffffc", "size": 8}]),
    # extended opcode 0x80, and a column in eleven bytes
    (USUAL, "00 01 80 05 81 80 80 80 80 80 80 80 80 80 00 01 02 04 00 01 01",
     [dict(offset=34, rule="unknown-opcode", extended_opcode=128), dict(offset=37, rule="long-number", bytes=11)]),
]

# Those of what is found in sections by a rule.
SECTION_OBJECTS = [
    (NEWER_FILES, [found(61, "file-index", 1, 0x1000, file=1, files=1, first=0)]),
    (NEWER_DIRECTORIES, [dict(offset=0, rule="directory-index", file=1, directory=3, directories=1, first=0)]),
    (PADDED, [dict(offset=0, rule="padding", bytes=2)]),
    (NEWER_OPCODES, [dict(offset=36, rule="unknown-opcode", standard_opcode=13),
                     dict(offset=40, rule="unknown-opcode", standard_opcode=14)]),
    (NEWER_CONTENTS, [dict(offset=0, rule="unknown-opcode", content_code=8193),
                      dict(offset=0, rule="unknown-opcode", content_code=6)]),
    (SMALLEST + OLDER_DUPLICATES, [dict(offset=37, rule="duplicate-file", file=3, same_as=1)]),
    (UNUSED + OLDER_UNUSED, [dict(offset=0, rule="unused-file", unused=2, first=2),
                             dict(offset=100, rule="unused-file", unused=1, first=2)]),
    (UNUSED + SUMS, [{"offset": 100, "rule": "md5-missing", "without": 1, "first": 2}]),
]


def missing(number, at, section, what="file"):
    return f"0x0 missing-text: {what} {number} has a text at 0x{at:x} of {section}, which has none there\n"


# Texts past the end of a section, or without a zero byte; of a section that isn't there nothing is found.
OF_TEXTS = [
    lint("texts", "--rule missing-text", TEXTS,
         missing(1, 7, ".debug_line_str") + missing(1, 2, ".debug_str") + missing(2, 8, ".debug_line_str")
         + missing(2, 9, ".debug_str") + missing(3, 3, ".debug_str"), line_str=b"/s\0a.c\0b", strings=b"x\0y"),
    lint("objects of texts", "--rule missing-text --json", TEXTS, objects(*(
        {"offset": 0, "rule": "missing-text", what: number, "section": ".debug_line_str", "at": at}
        for what, number, at in [("directory", 0, 0), ("file", 0, 3), ("file", 1, 7), ("file", 2, 8), ("file", 3, 3)])),
         line_str=b""),
    lint("no texts", "--rule missing-text", TEXTS, ""),
]

# Rows at 0x1000 and at 0x1010, which ends the sequence; and the same from 0x1008 to 0x1018, and from 0 to 0x10, as of a
# function that was dropped.
FIRST = unit("00 09 02 00 10 00 00 00 00 00 00 01 02 10 00 01 01")
SECOND = unit("00 09 02 08 10 00 00 00 00 00 00 01 02 10 00 01 01")
DROPPED = unit("00 09 02 00 00 00 00 00 00 00 00 01 02 10 00 01 01")
SEQUENCES = "--rule overlap --rule dead-sequence --rule no-code"

OVERLAP = ("0x{:x} overlap: row 2 at 0x0000000000001018 ends a sequence that covers 0x0000000000001008, as one of the"
           " unit at 0x0 does\n")
DEAD_SEQUENCE = "0x{:x} dead-sequence: 1 sequences begin outside the code, the first at 0x0000000000000000\n"

# An empty sequence, and then an extended operation of length 0, which has no opcode: it stands at byte 37 of 39.
BAD = unit("00 01 01 00 00")
EMPTY_OPCODE = "empty extended opcode"
BEFORE = EMPTY_SEQUENCE.format(0x22, 1) + (
    "0x22 no-statement: row 1 at 0x0000000000000000 ends a sequence in which no row is a statement\n")

# What is told of the section as a whole, of a file with code, and around damaged units.
AS_A_WHOLE = [
    lint("two units", SEQUENCES, FIRST + SECOND, OVERLAP.format(0x63), in_file=False),
    # The code, and what lies behind it, of which no sequence covers an address.
    lint("code", SEQUENCES, FIRST + DROPPED + DROPPED, DEAD_SEQUENCE.format(0x33) + DEAD_SEQUENCE.format(0x66)
         + "0x0 no-code: no sequence covers an address of the 16 bytes of code from 0x0000000000002000 on\n",
         code=((0x1000, 0x20), (0x2000, 0x10))),
    # Where the reading stops, the findings aren't counted.
    Case("before damage", f"lint {ROWS}", BAD + unit("01 00 01 01"), BEFORE, damage(37, EMPTY_OPCODE), 1),
    lint("around damage", f"{ROWS} --keep-going", BAD + unit("01 00 01 01"), BEFORE + EMPTY_SEQUENCE.format(0x4a, 2),
         damage(37, EMPTY_OPCODE)),
    lint("two units around damage", f"{SEQUENCES} --keep-going", FIRST + BAD + SECOND, OVERLAP.format(0x8a),
         damage(88, EMPTY_OPCODE), in_file=False),
]

# Each rule has its name, and no other name is a rule's.
NAMES = [
    *(Case(f"the rule {rule}", f"lint --rule {rule}", b"", "") for rule in RULES),
    *(Case(f"no rule {word!r}", ("lint", "--rule", word), DEAD, "", told(f"{word} is no rule"), 2)
      for word in ("falling", "", "falling-place ", "falling-places")),
]

TABLE = [
    *(lint(program, ROWS, machine_unit(machine, program), output) for machine, program, output in PROGRAMS),
    *(lint(f"section {number}", words, section, output) for number, (words, section, output) in enumerate(SECTIONS)),
    *(lint(program, f"{ROWS} --json", machine_unit(machine, program), objects(*items))
      for machine, program, items in PROGRAM_OBJECTS),
    *(lint(f"section {number}", f"--rule {items[0]['rule']} --json", section, objects(*items))
      for number, (section, items) in enumerate(SECTION_OBJECTS)),
    *OF_TEXTS, *AS_A_WHOLE, *NAMES,
]
