#!/usr/bin/env python3
"""Counts dwline's instructions for each byte of a header, and measures what it holds for one.

    bench/headers.py [PATH OF dwline]

Four sections are made, whose headers are nearly all of their bytes: file tables as clang writes them
(offset, number, MD5 sum), as gcc does (offset, number), and with texts in place of offsets; and tables of version 4, in
an ELF file.
Peak memory is that of `dwline addr` over a unit whose file table has 10 and 20 million entries of one byte:
numbers (data1), and empty texts.
Debian 12: apt-get install valgrind time."""
import hashlib
import os
import re
import struct
import subprocess
import sys
import tempfile

UNITS = 20
DIRECTORIES = 16
FILES = 2000
HERE = os.path.dirname(os.path.abspath(__file__))
PATH, DIRECTORY_INDEX, MD5, FIRST_OF_USERS = 1, 2, 5, 0x2000
STRING, DATA1, UDATA, DATA16, LINE_STRP = 0x08, 0x0b, 0x0f, 0x1e, 0x1f
# From minimum_instruction_length to standard_opcode_lengths.
PARAMS = bytes([1, 1, 1, 0xfb, 14, 13, 0, 1, 1, 1, 1, 0, 0, 0, 1, 0, 0, 1])
PROGRAM = bytes([0, 9, 2]) + struct.pack("<Q", 0x401000) + bytes([1, 2, 4, 0, 1, 1])


def uleb(number):
    """The shortest spelling in LEB128."""
    spelled = bytearray()
    while number >= 128:
        spelled.append(number % 128 + 128)
        number //= 128
    return bytes(spelled) + bytes([number])


def path(form, number):
    if form == STRING:
        return b"/usr/include/c++/12/part_%d.h\0" % number
    return struct.pack("<I", 37 * number)


def table(pairs, entries):
    spelled = bytes([len(pairs)]) + b"".join(map(bytes, pairs))
    return spelled + uleb(len(entries)) + b"".join(entries)


def with_tables(tables):
    """A unit of DWARF 5 with these tables and one short sequence, and the size of its header."""
    after_length = PARAMS + tables
    header = struct.pack("<HBBI", 5, 8, 0, len(after_length)) + after_length
    return struct.pack("<I", len(header + PROGRAM)) + header + PROGRAM, 4 + len(header)


def unit(form, with_sums):
    """A unit whose files have these forms, and the size of its header."""
    pairs = [(PATH, form), (DIRECTORY_INDEX, UDATA)] + [(MD5, DATA16)] * with_sums
    files = [path(form, number) + uleb(number % DIRECTORIES)
             + hashlib.md5(b"%d" % number).digest() * with_sums for number in range(FILES)]
    directories = [path(form, number) for number in range(DIRECTORIES)]
    return with_tables(table([(PATH, form)], directories) + table(pairs, files))


def older_unit():
    """A unit of version 4 with the same directories and files, and the size of its header."""
    directories = [path(STRING, number) for number in range(DIRECTORIES)]
    files = [path(STRING, number) + uleb(1 + number % DIRECTORIES) + b"\0\0" for number in range(FILES)]
    after_length = PARAMS + b"".join(directories) + b"\0" + b"".join(files) + b"\0"
    header = struct.pack("<HI", 4, len(after_length)) + after_length
    return struct.pack("<I", len(header + PROGRAM)) + header + PROGRAM, 4 + len(header)


def elf_of(section):
    """A linked file of 64 bits with this line section."""
    names = b"\0.debug_line\0.shstrtab\0"
    headers = bytes(64)
    for name, kind, offset, size in [(1, 1, 64, len(section)), (13, 3, 64 + len(section), len(names))]:
        headers += struct.pack("<IIQQQQIIQQ", name, kind, 0, 0, offset, size, 0, 0, 1, 0)
    identity = b"\x7fELF\x02\x01\x01" + bytes(9)
    place = 64 + len(section) + len(names)
    return struct.pack("<16sHHIQQQIHHHHHH", identity, 2, 62, 1, 0, 0, place, 0, 64, 0, 0, 64, 3, 2) + section + names + headers


def one_byte_entries(content, form, count):
    """A unit whose file table has this many entries of one zero byte, and the size of its header."""
    files = bytes([1]) + uleb(content) + bytes([form]) + uleb(count) + bytes(count)
    return with_tables(table([(PATH, STRING)], [b"/\0"]) + files)


def peak(dwline, section):
    """The bytes that `dwline addr` takes at most."""
    with tempfile.NamedTemporaryFile() as given, tempfile.NamedTemporaryFile("r") as told:
        given.write(section)
        given.flush()
        with open(given.name, "rb") as file:
            subprocess.run(["/usr/bin/time", "-f", "%M", "-o", told.name, dwline, "addr", "-", "0x401000"], stdin=file,
                           stdout=subprocess.DEVNULL, check=True)
        return int(told.read()) * 1024


def instructions(dwline, section, *words):
    words = ["valgrind", "--tool=callgrind", "--callgrind-out-file=/dev/null", dwline, "check", *words]
    with tempfile.TemporaryFile() as file:
        file.write(section)
        file.seek(0)
        run = subprocess.run(words, stdin=file, stdout=subprocess.DEVNULL, stderr=subprocess.PIPE,
                             text=True, check=True)
    return int(re.search(r"Collected : (\d+)", run.stderr).group(1))


def main():
    default = os.path.join(HERE, "../crates/dwline/out/dwline")
    dwline = os.path.abspath(sys.argv[1] if len(sys.argv) > 1 else default)
    start = instructions(dwline, b"")
    for name, form, with_sums in [("clang", LINE_STRP, True), ("gcc", LINE_STRP, False),
                                  ("texts", STRING, False)]:
        bytes_of_unit, size = unit(form, with_sums)
        taken = instructions(dwline, bytes_of_unit * UNITS) - start
        print(f"{name}: {taken / (size * UNITS):.1f} instructions a header byte")
    with tempfile.NamedTemporaryFile() as file:
        counted = []
        bytes_of_unit, size = older_unit()
        for units in (0, UNITS):
            file.seek(0)
            file.truncate()
            file.write(elf_of(bytes_of_unit * units))
            file.flush()
            counted.append(instructions(dwline, b"", file.name))
        taken = counted[1] - counted[0]
        print(f"version 4: {taken / (size * UNITS):.1f} instructions a header byte")
    for name, content, form in [("numbers", FIRST_OF_USERS, DATA1), ("empty texts", PATH, STRING)]:
        for count in (10_000_000, 20_000_000):
            section, size = one_byte_entries(content, form, count)
            print(f"{count:,} {name}: {peak(dwline, section) / size:.1f} bytes of memory a header byte")


main()
