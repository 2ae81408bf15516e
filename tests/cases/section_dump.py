"""What `dump` prints of sections: operations, paths, units and sequences by themselves, and JSON objects.

The sections are worked by hand from DWARF 5, section 6.2, and DWARF 4, section 6.2.4."""
from cases.section_addr import PATHS, RELATIVE
from cases.units import unit
from lib.worked import Case, damage, objects, told

# Each operation but those below, with four bytes an instruction and two operations in each, in files `a.c` and `b.c`
# of the directory `/s`.
ALL = bytes.fromhex("""
    5f 00 00 00 05 00 08 00 29 00 00 00 04 02 01 fb 0e 0d 00 01 01 01 01 00 00 00 01 00 00 01 01 01 08 01 2f 73 00 02
    01 08 02 0b 02 61 2e 63 00 00 62 2e 63 00 00 00 09 02 00 10 40 00 00 00 00 00 13 05 03 4b 21 1e 03 7f 02 81 01 01
    06 07 08 09 34 12 0a 0b 0c 05 04 01 00 02 04 07 00 02 80 aa 00 01 01""")

# Its text, with operations.
ALL_TEXT = """\
unit 0x0 dwarf32 version 5 address_size 8
dir 0 path="/s"
file 0 path="a.c" dir=0
file 1 path="b.c" dir=0
operation 0x35 0009020010400000000000 DW_LNE_set_address 0x0000000000401000
operation 0x40 13 special 0x13 address 0 op_index 0 line 1
row 0x0000000000401000 0 1 2 0 stmt
operation 0x41 0503 DW_LNS_set_column 3
operation 0x43 4b special 0x4b address 8 op_index 0 line 1
row 0x0000000000401008 0 1 3 3 stmt
operation 0x44 21 special 0x21 address 0 op_index 1 line 1
row 0x0000000000401008 1 1 4 3 stmt
operation 0x45 1e special 0x1e address 4 op_index -1 line -2
row 0x000000000040100c 0 1 2 3 stmt
operation 0x46 037f DW_LNS_advance_line -1
operation 0x48 028101 DW_LNS_advance_pc 129
operation 0x4b 01 DW_LNS_copy
row 0x000000000040110c 1 1 1 3 stmt
operation 0x4c 06 DW_LNS_negate_stmt
operation 0x4d 07 DW_LNS_set_basic_block
operation 0x4e 08 DW_LNS_const_add_pc
operation 0x4f 093412 DW_LNS_fixed_advance_pc 4660
operation 0x52 0a DW_LNS_set_prologue_end
operation 0x53 0b DW_LNS_set_epilogue_begin
operation 0x54 0c05 DW_LNS_set_isa 5
operation 0x56 0401 DW_LNS_set_file 1
operation 0x58 00020407 DW_LNE_set_discriminator 7
operation 0x5c 000280aa DW_LNE_unknown 0x80
operation 0x60 000101 DW_LNE_end_sequence
row 0x0000000000402364 0 1 1 3 block prologue epilogue end isa 5 disc 7
"""

# An opcode 13 that the standard doesn't have, with one operand, in DWARF64.
OTHERS = bytes.fromhex("""
    ff ff ff ff 3b 00 00 00 00 00 00 00 05 00 08 00 2a 00 00 00 00 00 00 00 04 02 01 fb 0e 0e 00 01 01 01 01 00 00 00
    01 00 00 01 01 01 01 08 01 2f 73 00 02 01 08 02 0b 02 61 2e 63 00 00 62 2e 63 00 00 0d 05 00 01 01""")

# Its text after `ALL`, with operations.
OTHERS_TEXT = """\
unit 0x63 dwarf64 version 5 address_size 8
dir 0 path="/s"
file 0 path="a.c" dir=0
file 1 path="b.c" dir=0
operation 0xa5 0d05 DW_LNS_unknown 0xd
operation 0xa7 000101 DW_LNE_end_sequence
row 0x0000000000000000 0 1 1 0 stmt end
"""

# `inc/x.c`, `y.c` and a file that an operation defines, in version 4.
OLDER = bytes.fromhex("""
    4d 00 00 00 04 00 26 00 00 00 01 01 01 fb 0e 0d 00 01 01 01 01 00 00 00 01 00 00 01 69 6e 63 00 00 78 2e 63 00 01
    00 00 79 2e 63 00 00 00 00 00 00 09 02 00 20 00 00 00 00 00 00 13 00 08 03 7a 2e 63 00 00 00 00 04 02 14 04 03 14
    02 01 00 01 01""")

# Its text after both, with operations.
OLDER_TEXT = """\
unit 0xaa dwarf32 version 4 address_size 8
dir 1 path="inc"
file 1 path="x.c" dir=1 time=0 size=0
file 2 path="y.c" dir=0 time=0 size=0
operation 0xda 0009020020000000000000 DW_LNE_set_address 0x0000000000002000
operation 0xe5 13 special 0x13 address 0 op_index 0 line 1
row 0x0000000000002000 0 1 2 0 stmt
operation 0xe6 0008037a2e6300000000 DW_LNE_define_file
operation 0xf0 0402 DW_LNS_set_file 2
operation 0xf2 14 special 0x14 address 0 op_index 0 line 2
row 0x0000000000002000 0 2 4 0 stmt
operation 0xf3 0403 DW_LNS_set_file 3
operation 0xf5 14 special 0x14 address 0 op_index 0 line 2
row 0x0000000000002000 0 3 6 0 stmt
operation 0xf6 0201 DW_LNS_advance_pc 1
operation 0xf8 000101 DW_LNE_end_sequence
row 0x0000000000002001 0 3 6 0 stmt end
"""


# A unit of version 6, which is passed over.
NEWER = bytes.fromhex("""
    02 00 00 00 06 00""")

# A value of each form, three bytes between the tables and the program, and no end row.
VALUES = bytes.fromhex("""
    72 00 00 00 05 00 08 00 5e 00 00 00 01 01 00 01 01 0a 00 01 01 01 01 00 00 00 01 01 01 1f 02 00 00 00 00 63 00 00
    00 08 01 08 02 0b 03 0f 04 06 05 1e 81 40 0a 82 40 0e 83 40 1d 01 71 22 5c 09 01 c3 a9 ff 00 01 ac 02 ff ff ff ff
    00 01 02 03 04 05 06 07 08 09 0a 0b 0c 0d 0e 0f 02 be ef 04 00 00 00 10 00 00 00 00 00 00 00 09 02 00 10 40 00 00
    00 00 00 01""")


# Two sequences of four bytes, and a row without an end row.
TWO = unit("00 09 02 00 10 00 00 00 00 00 00 01 02 04 00 01 01 00 09 02 00 20 00 00 00 00 00 00 01 02 04 00 01 01 01")

TWO_UNIT = "unit 0x0 dwarf32 version 5 address_size 8\n"

TWO_FIRST = """\
operation 0x22 0009020010000000000000 DW_LNE_set_address 0x0000000000001000
operation 0x2d 01 DW_LNS_copy
row 0x0000000000001000 0 1 1 0 stmt
operation 0x2e 0204 DW_LNS_advance_pc 4
operation 0x30 000101 DW_LNE_end_sequence
row 0x0000000000001004 0 1 1 0 stmt end
"""

TWO_SECOND = """\
operation 0x33 0009020020000000000000 DW_LNE_set_address 0x0000000000002000
operation 0x3e 01 DW_LNS_copy
row 0x0000000000002000 0 1 1 0 stmt
operation 0x3f 0204 DW_LNS_advance_pc 4
operation 0x41 000101 DW_LNE_end_sequence
row 0x0000000000002004 0 1 1 0 stmt end
"""

THREE = ALL + OTHERS + OLDER
THREE_TEXT = ALL_TEXT + OTHERS_TEXT + OLDER_TEXT

# The extended operation at 0x60, which is the last one of `ALL`, has no bytes.
DAMAGED = ALL[:97] + b"\0" + ALL[98:]
DAMAGE = damage(0x60, "empty extended opcode")
BEFORE_DAMAGE = ALL_TEXT[:ALL_TEXT.index("operation 0x60")]

NO_UNIT = told("no unit at this offset")


def without_operations(text):
    return "".join(line for line in text.splitlines(True) if not line.startswith("operation "))


def with_paths(text, paths):
    """A text without operations, with a path at the end of each row."""
    lines, paths = [], iter(paths)
    for line in without_operations(text).splitlines():
        lines.append(f"{line} {next(paths)}\n" if line.startswith("row ") else line + "\n")
    return "".join(lines)


# The unit at its beginning.
OLDER_ALONE = OLDER_TEXT.replace("unit 0xaa", "unit 0x0")

OPERATIONS = [
    Case("each operation", "dump --operations --older 8", THREE, THREE_TEXT),
    Case("no operations", "dump --older 8", THREE, without_operations(THREE_TEXT)),
    # Of an operation that is cut off, the bytes are shown that were read.
    Case("operation that is cut off", "dump --operations --older 8", ALL[:59],
         ALL_TEXT[:ALL_TEXT.index("operation 0x35")] + "operation 0x35 000902001040", damage(59), 1),
    Case("operations around damage", "dump --operations --older 8 --keep-going", DAMAGED + OTHERS,
         BEFORE_DAMAGE + "operation 0x60 0000\n" + OTHERS_TEXT, DAMAGE, 1),
]

# The file that an operation defines has no path. Directory 0 of version 5 is that of the compilation, whatever is said.
# By section 6.2.4 a path of `PATHS` that isn't whole stands under its directory, and that under directory 0; file 8 is
# in a directory that isn't there, and there is no file 20.
PATHS_OF_ROWS = [
    Case("paths under tables", "dump --paths --older 8", OLDER,
         with_paths(OLDER_ALONE, ["inc/x.c", "y.c", "??", "??"])),
    Case("paths under a directory", "dump --paths --comp-dir /w --older 8", OLDER,
         with_paths(OLDER_ALONE, ["/w/inc/x.c", "/w/y.c", "??", "??"])),
    Case("paths of version 5", "dump --paths --older 8", ALL, with_paths(ALL_TEXT, ["/s/b.c"] * 6)),
    Case("paths of version 5 under a directory", "dump --paths --comp-dir /w --older 8", ALL,
         with_paths(ALL_TEXT, ["/s/b.c"] * 6)),
]


def rows_with_paths(address, rows):
    """The lines of rows of 16 bytes each, which have a file, a line, a column and a path, and of an end row."""
    lines = []
    for file, line, column, path in rows:
        lines.append(f"row 0x{address:016x} 0 {file} {line} {column} stmt {path}\n")
        address += 16
    return "".join(lines) + f"row 0x{address:016x} 0 {file} {line} {column} stmt end {path}\n"


OF_PATHS = rows_with_paths(0x1000, [
    (0, 10, 0, "/src/main.c"), (1, 11, 1, "/src/main.c"), (2, 12, 2, "/src/lib/a.c"), (3, 13, 3, "/abs/b.c"),
    (4, 14, 4, "/whole.c"), (5, 15, 5, r"C:\\win/c.c"), (6, 16, 6, r"E:\\e.c"), (7, 17, 7, r"/src/x\x01y\x7f.c"),
    (8, 18, 8, "g.c"), (9, 19, 9, "D:/w/h.c"), (20, 30, 2, "??")])

OF_RELATIVE = rows_with_paths(0x2000, [(0, 1, 1, "work/m.c"), (1, 2, 2, "work/lib/m.c")])


def tables_of(offset, directories, files):
    lines = [f"unit 0x{offset:x} dwarf32 version 5 address_size 8"]
    lines += [f'dir {number} path="{path}"' for number, path in enumerate(directories)]
    lines += [f'file {number} path="{path}" dir={directory}' for number, (path, directory) in enumerate(files)]
    return "".join(line + "\n" for line in lines)


PARTS_OF_PATHS = [
    Case("parts of paths", "dump --paths", PATHS + RELATIVE,
         tables_of(0, ["/src", "lib", "/abs", r"C:\x5cwin", "D:/w"], [
             ("main.c", 0), ("main.c", 0), ("a.c", 1), ("b.c", 2), ("/whole.c", 1), ("c.c", 3), (r"E:\x5ce.c", 1),
             (r"x\x01y\x7f.c", 0), ("g.c", 9), ("h.c", 4)]) + OF_PATHS
         + tables_of(len(PATHS), ["work", "lib"], [("m.c", 0), ("m.c", 1)]) + OF_RELATIVE),
]


def one_unit(name, offset, section, output, error="", status=0):
    return Case(f"{name} at {offset}", f"dump --operations --unit {offset} --older 8", section, output, error, status)


# After the unit nothing is read, and a damaged one before it is passed over.
UNITS = [
    one_unit("a unit", "0", ALL + OTHERS, ALL_TEXT),
    one_unit("a unit", "0x63", ALL + OTHERS, OTHERS_TEXT),
    *(one_unit("no unit", offset, ALL + OTHERS, "", NO_UNIT, 1)
      for offset in ("1", "0x62", "0x64", "0xaa", "0xffffffffffffffff")),
    one_unit("a unit after damage", "0x63", DAMAGED + OTHERS, OTHERS_TEXT),
    one_unit("a damaged unit", "0", DAMAGED + OTHERS, BEFORE_DAMAGE + "operation 0x60 0000", DAMAGE, 1),
    one_unit("a unit before the end", "0", (ALL + OTHERS)[:0x70], ALL_TEXT),
    one_unit("a unit that is cut off", "0x63", (ALL + OTHERS)[:0x70], "", damage(0x70), 1),
]


def of_range(low, high, section, *texts):
    return Case(f"{len(section)} bytes, 0x{low:x} to 0x{high:x}",
                f"dump --operations --range 0x{low:x}-{high:x} --older 8", section, "".join(texts))


MOST = (1 << 64) - 1

# A sequence covers the addresses from that of its first row up to that of its end row, which it doesn't. The lines of a
# unit stand once, before the first of its sequences that is shown.
RANGES = [
    of_range(0x2000, 0x2001, THREE, OLDER_TEXT),
    of_range(0x1fff, 0x2001, THREE, OLDER_TEXT),
    of_range(0, 0x401000, THREE, OLDER_TEXT),
    of_range(0x401000, 0x401001, THREE, ALL_TEXT),
    of_range(0x402363, 0x402364, THREE, ALL_TEXT),
    of_range(0x2001, MOST, THREE, ALL_TEXT),
    of_range(0, 0x2000, THREE),
    of_range(0x2001, 0x401000, THREE),
    of_range(0x402364, MOST, THREE),
    of_range(0, MOST, THREE, ALL_TEXT, OLDER_TEXT),
    of_range(0x1003, 0x1004, TWO, TWO_UNIT, TWO_FIRST),
    of_range(0x2003, 0x2004, TWO, TWO_UNIT, TWO_SECOND),
    of_range(0x1003, 0x2001, TWO, TWO_UNIT, TWO_FIRST, TWO_SECOND),
    of_range(0x1004, 0x2000, TWO),
    of_range(0, 0x1000, TWO),
    Case("a range around damage", f"dump --operations --keep-going --range 0-{MOST:x} --older 8",
         DAMAGED + OTHERS + OLDER, OLDER_TEXT, DAMAGE, 1),
]


def row_object(address, op_index, file, line, column=0, is_stmt=True, end=False):
    return dict(kind="row", address=f"0x{address:016x}", op_index=op_index, file=file, line=line, column=column,
                is_stmt=is_stmt, basic_block=False, end_sequence=end, prologue_end=False, epilogue_begin=False, isa=0,
                discriminator=0)


PATH_OF_STRING = {"content": "path", "form": "string"}
LENGTHS = [0, 1, 1, 1, 1, 0, 0, 0, 1, 0, 0, 1]

# The objects of `ALL` but that of its last row.
ALL_OBJECTS = [
    dict(kind="unit", offset=0, format="dwarf32", unit_length=95, version=5, address_size=8, segment_selector_size=0,
         header_length=41, minimum_instruction_length=4, maximum_operations_per_instruction=2, default_is_stmt=1,
         line_base=-5, line_range=14, opcode_base=13, lengths=LENGTHS, directory_format=[PATH_OF_STRING],
         file_format=[PATH_OF_STRING, {"content": "dir", "form": "data1"}], padding=0,
         directories=[dict(number=0, path="/s")],
         files=[dict(number=0, path="a.c", dir=0), dict(number=1, path="b.c", dir=0)]),
    row_object(0x401000, 0, 1, 2),
    row_object(0x401008, 0, 1, 3, 3),
    row_object(0x401008, 1, 1, 4, 3),
    row_object(0x40100c, 0, 1, 2, 3),
    row_object(0x40110c, 1, 1, 1, 3),
]

# Its header says neither formats nor the size of a segment selector.
OLDER_OBJECTS = [
    dict(kind="unit", offset=0, format="dwarf32", unit_length=77, version=4, address_size=8, header_length=38,
         minimum_instruction_length=1, maximum_operations_per_instruction=1, default_is_stmt=1, line_base=-5,
         line_range=14, opcode_base=13, lengths=LENGTHS, padding=0, directories=[dict(number=1, path="inc")],
         files=[dict(number=1, path="x.c", dir=1, time=0, size=0), dict(number=2, path="y.c", dir=0, time=0, size=0)]),
    row_object(0x2000, 0, 1, 2),
    row_object(0x2000, 0, 2, 4),
    row_object(0x2000, 0, 3, 6),
    row_object(0x2001, 0, 3, 6, end=True),
]


def objects_of_values(directory, text):
    """Those of `VALUES`, where directory 0 and the text of content code 0x2002 are these."""
    return objects(
        dict(kind="unit", offset=0, format="dwarf32", unit_length=114, version=5, address_size=8,
             segment_selector_size=0, header_length=94, minimum_instruction_length=1,
             maximum_operations_per_instruction=1, default_is_stmt=0, line_base=1, line_range=1, opcode_base=10,
             lengths=LENGTHS[:9],
             directory_format=[{"content": "path", "form": "line_strp"}],
             file_format=[{"content": content, "form": form} for content, form in [
                 ("path", "string"), ("dir", "data1"), ("time", "udata"), ("size", "data4"), ("md5", "data16"),
                 ("0x2001", "block1"), ("0x2002", "strp"), ("0x2003", "strp_sup")]],
             padding=3, directories=[dict(number=0, path=directory), dict(number=1, path=dict(line_strp=99))],
             files=[{"number": 0, "path": 'q"\\\t\u0001\u00e9\ufffd', "dir": 1, "time": 300, "size": 4294967295,
                     "md5": "000102030405060708090a0b0c0d0e0f", "0x2001": {"block": "beef"}, "0x2002": text,
                     "0x2003": {"strp_sup": 16}}]),
        row_object(0x401000, 0, 1, 1, is_stmt=False),
        dict(kind="open"))


# The name in `VALUES` is what Python's bytes.decode("utf-8", "replace") makes of its bytes.
OBJECTS = [
    Case("objects of an older unit", "dump --json --older 8", OLDER, objects(*OLDER_OBJECTS)),
    Case("values", "dump --json --older 8", VALUES, objects_of_values("/src", "main"), line_str=b"/src\0",
         strings=b"abc\0main\0"),
    Case("values without strings", "dump --json --older 8", VALUES, objects_of_values(dict(line_strp=0), dict(strp=4))),
    Case("objects around damage", "dump --json --keep-going --older 8", DAMAGED + NEWER,
         objects(*ALL_OBJECTS, dict(kind="skipped", offset=99, version=6)), DAMAGE, 1),
]

TABLE = [*OPERATIONS, *PATHS_OF_ROWS, *PARTS_OF_PATHS, *UNITS, *RANGES, *OBJECTS]
