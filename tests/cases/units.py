"""The bytes of worked units, and units that are made of a program or of tables. Little-endian unless said otherwise."""
import struct

# The fields of a header after header_length, up to the tables: minimum_instruction_length 1,
# maximum_operations_per_instruction 1, default_is_stmt 1, line_base -5, line_range 14, opcode_base 13 and
# the lengths of the standard opcodes.
FIELDS = bytes.fromhex("01 01 01 fb 0e 0d 00 01 01 01 01 00 00 00 01 00 00 01")

# Two tables without formats and entries.
NO_TABLES = bytes(4)

MD5 = bytes(range(16))


def uleb(number):
    """The shortest spelling of a number in LEB128."""
    spelling = bytearray()
    while number >= 0x80:
        spelling.append(0x80 | number & 0x7f)
        number >>= 7
    return bytes(spelling) + bytes([number])


def unit_of(header, program, fields=FIELDS):
    """The unit of version 5 in the 32-bit format, with addresses of 8 bytes, whose header has these tables."""
    header = fields + header
    after_length = struct.pack("<HBBI", 5, 8, 0, len(header)) + header + program
    return struct.pack("<I", len(after_length)) + after_length


def unit(program="", changes=()):
    """The unit of empty tables and a program in hexadecimal words, with other bytes at some places."""
    section = bytearray(unit_of(NO_TABLES, bytes.fromhex(program)))
    for place, byte in changes:
        section[place] = byte
    return bytes(section)


def table(pairs, *entries):
    """A table of pairs of a content code and a form, and of entries, which are bytes."""
    format = b"".join(uleb(content) + uleb(form) for content, form in pairs)
    return bytes([len(pairs)]) + format + uleb(len(entries)) + b"".join(entries)


def unit_of_values(values):
    """The unit of one directory, whose values are a content code, a form and bytes each."""
    pairs = [(content, form) for content, form, *_ in values]
    directory = b"".join(value[2] for value in values)
    return unit_of(table(pairs, directory) + bytes(2), b"")


EMPTY_PROGRAM = bytes.fromhex("""
    1e 00 00 00 05 00 08 00 16 00 00 00 01 01 01 fb 0e 0d 00 01 01 01 01 00 00 00 01 00 00 01 00 00 00 00""")

# The same with three bytes after the last entry.
PADDING_OF_THREE_BYTES = bytes.fromhex("""
    21 00 00 00 05 00 08 00 19 00 00 00 01 01 01 fb 0e 0d 00 01 01 01 01 00 00 00 01 00 00 01 00 00 00 00
    ff 00 80""")

# The directory `/s`, and the file `a.c` in it with its MD5. The 64-bit format.
DWARF64_WITH_MD5 = bytes.fromhex("""
    ff ff ff ff 42 00 00 00 00 00 00 00 05 00 08 00 36 00 00 00 00 00 00 00
    01 01 01 fb 0e 0d 00 01 01 01 01 00 00 00 01 00 00 01
    01 01 08 01 2f 73 00 03 01 08 02 0f 05 1e 01 61 2e 63 00 00 00 01 02 03 04 05 06 07 08 09 0a 0b 0c 0d 0e 0f""")

# The same, big-endian.
BIG_DWARF64_WITH_MD5 = bytes.fromhex("""
    ff ff ff ff 00 00 00 00 00 00 00 42 00 05 08 00 00 00 00 00 00 00 00 36
    01 01 01 fb 0e 0d 00 01 01 01 01 00 00 00 01 00 00 01
    01 01 08 01 2f 73 00 03 01 08 02 0f 05 1e 01 61 2e 63 00 00 00 01 02 03 04 05 06 07 08 09 0a 0b 0c 0d 0e 0f""")

# The same in Little with a program of two rows for file 0.
WITH_FILE = bytes.fromhex("""
    ff ff ff ff 4a 00 00 00 00 00 00 00 05 00 08 00 36 00 00 00 00 00 00 00
    01 01 01 fb 0e 0d 00 01 01 01 01 00 00 00 01 00 00 01
    01 01 08 01 2f 73 00 03 01 08 02 0f 05 1e 01 61 2e 63 00 00 00 01 02 03 04 05 06 07 08 09 0a 0b 0c 0d 0e 0f
    04 00 01 02 04 00 01 01""")

# Up to a claim of 2^60 directories, and the first of them.
HUGE_DIRECTORY_COUNT = bytes.fromhex("""
    29 00 00 00 05 00 08 00 21 00 00 00 01 01 01 fb 0e 0d 00 01 01 01 01 00 00 00 01 00 00 01
    01 01 08 80 80 80 80 80 80 80 80 10 2f 73 00""")

# Up to a claim of 2,000 directories, and the first of them.
TWO_THOUSAND_DIRECTORIES = bytes.fromhex("""
    22 00 00 00 05 00 08 00 1a 00 00 00 01 01 01 fb 0e 0d 00 01 01 01 01 00 00 00 01 00 00 01
    01 01 08 d0 0f 2f 73 00""")

# Up to the length of a block, 2^64 - 1.
BLOCK_PAST_THE_HEADER = bytes.fromhex("""
    28 00 00 00 05 00 08 00 20 00 00 00 01 01 01 fb 0e 0d 00 01 01 01 01 00 00 00 01 00 00 01
    01 01 09 01 ff ff ff ff ff ff ff ff ff 01""")

# A directory whose values have each form, one of them a block with a long length, and two files of a number and a
# block, of which one number is spelled in twelve bytes.
EACH_FORM = bytes.fromhex("""
    9c 00 00 00 05 00 08 00 94 00 00 00 01 01 01 fb 0e 0d 00 01 01 01 01 00 00 00 01 00 00 01
    0e 01 03 02 04 03 05 04 06 05 07 06 08 07 09 08 0a 09 0b 0a 0e 0b 0f 0c 1d 0d 1e 0e 1f
    01 02 00 61 62 03 00 00 00 63 64 65 02 01 04 03 02 01 08 07 06 05 04 03 02 01 66 67 00
    81 80 00 68 00 09 0a 00 00 00 ff ff ff ff ff ff ff ff ff 01 0b 00 00 00
    00 01 02 03 04 05 06 07 08 09 0a 0b 0c 0d 0e 0f 0c 00 00 00
    02 01 0f 02 09 02 e0 a7 12 02 69 6a 85 80 80 80 80 80 80 80 80 80 80 00 03 6b 6c 6d""")

# The same with the shortest numbers.
EACH_FORM_COPIED = bytes.fromhex("""
    8f 00 00 00 05 00 08 00 87 00 00 00 01 01 01 fb 0e 0d 00 01 01 01 01 00 00 00 01 00 00 01
    0e 01 03 02 04 03 05 04 06 05 07 06 08 07 09 08 0a 09 0b 0a 0e 0b 0f 0c 1d 0d 1e 0e 1f
    01 02 00 61 62 03 00 00 00 63 64 65 02 01 04 03 02 01 08 07 06 05 04 03 02 01 66 67 00
    01 68 00 09 0a 00 00 00 ff ff ff ff ff ff ff ff ff 01 0b 00 00 00
    00 01 02 03 04 05 06 07 08 09 0a 0b 0c 0d 0e 0f 0c 00 00 00
    02 01 0f 02 09 02 e0 a7 12 02 69 6a 05 03 6b 6c 6d""")

# A directory at the offset 2 of `.debug_line_str`.
LINE_STRP_DIRECTORY = bytes.fromhex("""
    24 00 00 00 05 00 08 00 1c 00 00 00 01 01 01 fb 0e 0d 00 01 01 01 01 00 00 00 01 00 00 01
    01 01 1f 01 02 00 00 00 00 00""")

# Opcode 10 is a special one, and its row.
OPCODE_BASE_10 = bytes.fromhex("""
    1e 00 00 00 05 00 08 00 13 00 00 00 01 01 01 fb 0e 0a 00 01 01 01 01 00 00 00 01 00 00 00 00 03 0a 0a""")

# The same row where opcode 10 is a standard one.
OPCODE_BASE_10_COPIED = bytes.fromhex("""
    2a 00 00 00 05 00 08 00 16 00 00 00 01 01 01 fb 0e 0d 00 01 01 01 01 00 00 00 01 00 00 01 00 00 00 00
    00 09 02 00 00 00 00 00 00 00 00 17""")

# Opcode 13 is one that is passed over, with two operands.
OPCODE_BASE_14 = bytes.fromhex("""
    2c 00 00 00 05 00 08 00 17 00 00 00 01 01 01 fb 0e 0e 00 01 01 01 01 00 00 00 01 00 00 01 02 00 00 00 00
    0d 80 01 05 00 04 80 aa bb cc 00 01 01""")

# The same with an operand that is no number of 64 bits.
SKIPPED_OPERANDS = bytes.fromhex("""
    2e 00 00 00 05 00 08 00 17 00 00 00 01 01 01 fb 0e 0e 00 01 01 01 01 00 00 00 01 00 00 01 02 00 00 00 00
    0d ff ff ff ff ff ff ff ff ff ff ff 01 05 01""")

SMALLEST = unit("00 01 01")

THREE_ROWS = unit("00 09 02 00 10 40 00 00 00 00 00 13 4b 02 02 00 01 01")

# The same with the first byte of another opcode.
THREE_ROWS_AND_A_BYTE = unit("00 09 02 00 10 40 00 00 00 00 00 13 4b 02 02 00 01 01 00")

# A column with padding, and as it is copied.
PADDED = unit("05 83 80 80 80 80 80 80 80 80 80 80 00 01")

PADDED_COPIED = unit("05 03 00 09 02 00 00 00 00 00 00 00 00 12")

BIG_SMALLEST = bytes.fromhex("""
    00 00 00 21 00 05 08 00 00 00 00 16 01 01 01 fb 0e 0d 00 01 01 01 01 00 00 00 01 00 00 01 00 00 00 00
    00 01 01""")

BIG_THREE_ROWS = bytes.fromhex("""
    00 00 00 30 00 05 08 00 00 00 00 16 01 01 01 fb 0e 0d 00 01 01 01 01 00 00 00 01 00 00 01 00 00 00 00
    00 09 02 00 00 00 00 00 40 10 00 13 4b 02 02 00 01 01""")

# Three operations fill an instruction of 16 bytes.
BIG_FIXED_ADVANCE = bytes.fromhex("""
    00 00 00 23 00 05 08 00 00 00 00 16 10 03 01 fb 0e 0d 00 01 01 01 01 00 00 00 01 00 00 01 00 00 00 00
    20 09 12 34 01""")

# Rows at operations 1 and 2 of an instruction, big-endian.
BIG_OPERATIONS = bytes.fromhex("""
    00 00 00 30 00 05 08 00 00 00 00 16 0a 03 01 fb 0e 0d 00 01 01 01 01 00 00 00 01 00 00 01 00 00 00 00
    00 09 02 00 00 00 00 00 00 10 00 20 20 02 01 00 01 01""")

# A unit of version 4.
FOREIGN = bytes.fromhex("06 00 00 00 04 00 aa bb cc dd")
