"""rows.py SECTION: address, file and line of each row of a little-endian section."""

import sys

import boxantrel

with open(sys.argv[1], "rb") as file:
    section = boxantrel.Section(file.read())
for unit in section.units():
    for row in section.rows_at(unit.offset):
        print(f"{row.address:#x} {row.file} {row.line}")
