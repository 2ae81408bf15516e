"""What a command makes of what another one wrote: indices that are looked into, and copies that are dumped."""
from functools import partial
from typing import NamedTuple

from cases.elf_lookups import INDEXED, SECOND_DAMAGED, TWO_UNITS
from lib.elf import LITTLE_64, Section, image
from lib.program import data, expect, folder, run


class Case(NamedTuple):
    name: str
    file: bytes
    # What is done with the file `elf`, what that tells, and its status.
    first: str
    error: str
    first_status: int
    # What is done with what it wrote, on standard input or in the file `index`, what that prints, and its status.
    second: str
    output: str
    status: int


def told(*answers):
    """The lines of addresses with these locations."""
    return "".join(f"0x{address:016x} {location}\n" for address, location in answers)


MOST = (1 << 64) - 1
NOTHING = "??:0"

# Of a file with code the sequences count that begin there, unless all are asked for. The index is that of the file with
# this build ID, and of a file without one it is of any.
INDICES = [
    Case("the index of a file", INDEXED, "index -o index elf", "", 0,
         "addr -a --for elf index 0x10 0x400fff 0x401000 0x401005 0x401006",
         told((0x10, NOTHING), (0x400fff, NOTHING), (0x401000, "a.c:2"), (0x401005, "a.c:3"), (0x401006, NOTHING)), 1),
    Case("the index of all sequences", INDEXED, "index --all --comp-dir /d -o index elf", "", 0,
         f"addr -a --for elf index 0xf 0x11 0x12 0x401003 {MOST:x}",
         told((0xf, NOTHING), (0x11, "/d/a.c:3"), (0x12, NOTHING), (0x401003, "/d/a.c:2"), (MOST, NOTHING)), 1),
    Case("the index around a damaged unit", SECOND_DAMAGED, "index --keep-going -o index elf",
         "dwline: damage at 0x70: empty extended opcode\n", 1,
         "addr -a --for elf index 0x401000 0x401006", told((0x401000, "a.c:2"), (0x401006, NOTHING)), 1),
    Case("the index of units without paths", TWO_UNITS, "index -o index elf", "", 0, "addr -a index 0x401000 0x401004",
         told((0x401000, "??:2"), (0x401004, "??:3")), 0),
]

# A unit of version 2 with one file, as Free Pascal wrote it, and what is wanted of its dump, which isn't of this
# program.
FREE_PASCAL = data("fpc-dwarf2", "debug_line")
DUMP = data("fpc-dwarf2", "expected.dump").decode()
ROWS = "".join(line for line in DUMP.splitlines(True) if line.startswith("row "))


def copies():
    """A unit of version 2, copied as one of version 5: its directory is the one that is said, or `.`."""
    for name, words, directory in [("no directory", "", "."), ("a directory", "--comp-dir /src", "/src")]:
        tables = f'dir 0 path="{directory}"\nfile 0 path="series.pas" dir=0\nfile 1 path="series.pas" dir=0\n'
        file = image(LITTLE_64, [Section(".debug_line", FREE_PASCAL)])
        yield Case(f"the copy with {name}", file, f"copy --to-5 {words} elf", "", 0, "dump",
                   f"unit 0x0 dwarf32 version 5 address_size 8\n{tables}{ROWS}", 0)


def cases():
    for case in [*INDICES, *copies()]:
        yield case.name, partial(tried, case)


def tried(case):
    where = folder({"elf": case.file})
    wrong = expect(case.first.split(), None, case.error, case.first_status, cwd=where)
    written = run(*case.first.split(), cwd=where).out
    return wrong or expect(case.second.split(), case.output, "", case.status, written, where)
