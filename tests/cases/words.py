"""Words of each command: options, what they may not say together, and what stops the program, each with the status and
the texts that are wanted.

Rows and files are those of the expected dumps; locations are as in locations.py. A word or text may have MADE/NAME for
the path of a file that the case makes. Files are named from tests/data on."""

import json
from dataclasses import dataclass, field
from typing import Union

from cases.locations import MAIN, RANGE, SERIES
from lib.dumps import counts_of, version_5
from lib.elf import changed, place_of, replaced, section_of
from lib.folders import dump
from lib.program import data, pattern


@dataclass(frozen=True)
class Case:
    """Words, in a text or a list, and what is wanted. By default standard input is a folder, of which nothing can be
    read. `made` has the bytes of files by their names."""
    words: Union[str, list]
    out: object = ""
    err: object = ""
    status: int = 0
    stdin: Union[str, bytes] = "/"
    made: dict = field(default_factory=dict)


NOT_FOUND = "dwline: no line for this address\n"
NOT_UNDERSTOOD = "dwline: words not understood\n"
NOT_TEXT = "dwline: a word isn't UTF-8\n"
NO_INPUT = "dwline: cannot read the input\n"
NO_UNIT = "dwline: no unit at this offset\n"
NO_FILE = "dwline: no/such/file: cannot open: No such file or directory (os error 2)\n"
NO_ELF = "dwline: make.sh: not an ELF file\n"
COMMANDS = ["addr", "dump", "check", "find 1", "copy"]

GCC, POWERPC, OPERATIONS, FUNCTIONS = (f"{name}/program" for name in
                                       ("gcc-O2", "gcc-powerpc", "operations", "object-gcc"))
PACKED_LINES, PACKED_NAMES = "--line-str operations/debug_line_str", "--str operations/debug_str"
GCC_LINES, POWERPC_LINES = (f"--line-str {name}/debug_line_str" for name in ("gcc-O2", "gcc-powerpc"))


def line(name):
    return data(name, "debug_line")


def told(*lines):
    return "".join(f"{it}\n" for it in lines)


def no_answer(command):
    """What a command writes that has no answer, where it is asked for one address."""
    return "??:0\n" if command == "addr" else ""


def asks(command, file):
    """The words of a command for a file; of `addr` an address comes behind it."""
    return [*command.split(), file, *(["1"] if command == "addr" else [])]


# ---- sections on standard input


PACKED = 'file 1 path="packed.c" dir=0\n'
PACKED_ROWS = ["row 0x0000000000020000 0 1 10 0 stmt\n", "row 0x0000000000020000 1 1 11 0 stmt\n",
               "row 0x0000000000020004 1 1 11 0 stmt\n"]
SERIES_ROW = 'file 1 path="series.c" dir=0\nrow 0x0000000010000084 0 1 5 1\n'
POWERPC_COUNTS = "units 2 skipped 0 sequences 3 rows 110\n"
POWERPC_END = "dwline: damage at 0x23f: input ends inside a unit\n"


def operations():
    """The operation that is asked for, and the files' section."""
    first, second, third = (PACKED + row for row in PACKED_ROWS)
    section = line("operations")
    yield Case(f"find 0x20000 {PACKED_LINES} {PACKED_NAMES}", first, stdin=section)
    yield Case(f"find 131072 --op 1 {PACKED_NAMES}", second, stdin=section)
    yield Case(f"find 0x20004 --op 0 {PACKED_NAMES}", second, stdin=section)
    yield Case(f"find 0x20004 --op=1 {PACKED_NAMES}", third, stdin=section)
    yield Case(f"find 0x20000 {PACKED_LINES}", "file 1 path=strp+0x7 dir=0\n" + PACKED_ROWS[0], stdin=section)
    yield Case(f"find 0x2000c {PACKED_NAMES}", "", NOT_FOUND, 1, section)


def string_sections():
    """The directories' section, and the files' section, where one or both are left out."""
    section, text = line("operations"), dump("operations").decode()
    unit, rows = "unit 0x0 dwarf32 version 5 address_size 8\n", text[text.index("row "):]
    plain = "file 0 path=strp+0x7 dir=0\nfile 1 path=strp+0x7 dir=0\n"
    named = 'file 0 path="packed.c" dir=0\nfile 1 path="packed.c" dir=0\n'
    for words, tables in [
        ("dump", "dir 0 path=line_strp+0x6\n" + plain),
        (f"dump {PACKED_LINES}", 'dir 0 path="/boxantrel"\n' + plain),
        (f"dump {PACKED_NAMES}", "dir 0 path=line_strp+0x6\n" + named),
    ]:
        yield Case(words, unit + tables + rows, stdin=section)


def order():
    """The order of the section's numbers."""
    section = line("gcc-powerpc")
    yield Case(f"find 0x10000087 --big {POWERPC_LINES}", SERIES_ROW, stdin=section)
    yield Case("check --big", POWERPC_COUNTS, stdin=section)
    yield Case("dump", "unit 0x0 version 1280 skipped\n", POWERPC_END, 1, section)
    yield Case("check", "", POWERPC_END, 1, section)
    yield Case("find 0x10000087", "", POWERPC_END, 1, section)
    yield Case("copy", "", "dwline: unit 0x0 is not version 5\n", 1, section)


def stops():
    yield Case("find 0x", "", NOT_UNDERSTOOD, 2)
    yield Case("find 12g --str no/such/file", "", NOT_UNDERSTOOD, 2)
    yield Case(["check", b"\xff"], "", NOT_TEXT, 2)
    yield Case([b"\xff"], "", NOT_TEXT, 2)
    for command in ("dump", "find 1", "addr - 1"):
        for name in ("--line-str", "--str"):
            yield Case(f"{command} {name} no/such/file", "", NO_INPUT, 3, b"")
    yield Case("check", "", NO_INPUT, 3)


def files():
    """An ELF file says its order and has its strings. Nothing is read of the input."""
    yield Case(f"check {POWERPC}", POWERPC_COUNTS)
    yield Case(f"check -- {POWERPC}", POWERPC_COUNTS)
    yield Case(f"find 0x10000087 {POWERPC}", SERIES_ROW)
    yield Case(f"find --op 0 268435591 {POWERPC}", SERIES_ROW)
    yield Case(f"find 131072 {OPERATIONS} --op 1", PACKED + PACKED_ROWS[1])
    yield Case(f"find 0 {POWERPC}", "", NOT_FOUND, 1)
    yield Case("find 0x no/such/file", "", NOT_UNDERSTOOD, 2)


# ---- lines, sources, ranges and units


def lines_of_files():
    """Source lines: the first statement of each run of rows, by its address; the least line above one that has none,
    unless that is to answer alone; and what doesn't match."""
    first, second = f"0x0000000000401000 {SERIES}:8:5", f"0x000000000040102e {SERIES}:8:33"
    yield Case(f"lines {GCC} series.c:8", told(first, second))
    yield Case(f"lines {GCC} boxantrel/series.c:7 include/range.h:11 grammar.y:1", told(
        first, second, f"0x0000000000401072 {RANGE}:12:5", "0x00000000004010e6 /boxantrel/grammar.y:70000:12"))
    yield Case(f"lines {GCC} --exact series.c:7 other/main.c:29 main.c:29 ange.h:12 main.c:30",
               told("??", "??", f"0x0000000000401104 {MAIN}:29:5", "??", "??"), status=1)
    yield Case(f"lines {GCC} range.h:19", "??\n", status=1)
    yield Case("lines clang-O2/program --exact series.c:8", told(
        f"0x0000000000401000 {SERIES}:8:23 prologue", f"0x0000000000401020 {SERIES}:8:5",
        f"0x000000000040115c {SERIES}:8:33", f"0x00000000004011e0 {SERIES}:8:5", f"0x0000000000401214 {SERIES}:8:33",
        f"0x0000000000401228 {SERIES}:8:33"))
    yield Case(f"lines {GCC} series.c:8 series.c", "", "dwline: series.c is no PATH:LINE\n", 2)
    yield Case(f"lines {GCC} :8", "", "dwline: :8 is no PATH:LINE\n", 2)
    yield Case(f"lines --big {GCC} series.c:8", "", NOT_UNDERSTOOD, 2)
    yield Case("lines - --section .text series.c:8", "", NOT_UNDERSTOOD, 2, b"")
    yield Case("lines - series.c:8", "??\n", "", 1, b"")
    yield Case("lines no/such/file series.c:8", "", NO_FILE, 3)


def source_files():
    """Each once, in the order of bytes: with the rows and bytes of code that they have, with their MD5 sums, as
    objects."""
    paths = ["/boxantrel/grammar.y", RANGE, MAIN, SERIES, "/boxantrel/series.h"]
    yield Case(f"sources {GCC}", told(*paths))
    rows = ["10 26", "9 23", "21 67", "48 150", "0 0"]
    yield Case(f"sources --rows {GCC}", told(*(" ".join(pair) for pair in zip(rows, paths))))
    yield Case("sources --md5 clang-O2/program", told(
        "- /boxantrel/./series.h", "- /boxantrel/grammar.y", f"05046ab336138e772fb4bdefce3473d3 {RANGE}", f"- {MAIN}",
        f"2cf6691fde2e33903a2721dc62d26428 {SERIES}"))
    yield Case("sources", stdin=b"")
    section = line("operations")
    yield Case(f"sources {PACKED_LINES} {PACKED_NAMES}", "/boxantrel/packed.c\n", stdin=section)
    yield Case(f"sources --json {PACKED_LINES} {PACKED_NAMES}", '{"path":"/boxantrel/packed.c"}\n', stdin=section)
    yield Case(f"sources --json --unit 0x0 {OPERATIONS}", '{"path":"/boxantrel/packed.c"}\n')
    yield Case(f"sources --unit 1 {OPERATIONS}", "", NO_UNIT, 1)
    yield Case("sources --unit 0xffffffffffffffff", "", NO_UNIT, 1, section)
    yield Case(f"sources --unit 0xg {OPERATIONS}", "", NOT_UNDERSTOOD, 2)


def parts():
    """The unit at an offset, the sequences of a range, and findings, of files."""
    whole = dump("operations")
    yield Case(f"dump --unit 0 {OPERATIONS}", whole)
    yield Case(f"dump --unit 7 {OPERATIONS}", "", NO_UNIT, 1)
    yield Case(f"dump --range 0x2000b-0x2000c {OPERATIONS}", whole)
    yield Case(f"dump --range 0x2000c-0x30000 {OPERATIONS}")
    yield Case(f"lint --rule falling-place --rule no-end {OPERATIONS}")
    yield Case(f"lint --rule overlap --rule dead-sequence --rule no-code {GCC}")
    yield Case(f"lint --rule fallen {OPERATIONS}", "", "dwline: fallen is no rule\n", 2)
    yield Case("lint make.sh", "", NO_ELF, 1)


# ---- units of versions 2 to 4


SAID = "--comp-dir /boxantrel"


def directories():
    """The directory that is said counts before that of .debug_info, and in a file without this section, as one that has
    no other debug information. A path that is whole stays."""
    elf = data("gcc-dwarf4", "program")
    number, _, _ = section_of(elf, ".debug_info")
    bare = {"bare": replaced(elf, place_of(elf, number, "name"), bytes(4))}
    both = told(f"{SERIES}:9:18", f"{SERIES}:8:23")
    yield Case("addr MADE/bare 0x401018 0x401028", told("series.c:9:18", "series.c:8:23"), made=bare)
    yield Case(f"addr {SAID} MADE/bare 0x401018 0x401028", both, made=bare)
    yield Case("addr --comp-dir /else gcc-dwarf4/program 0x401018", "/else/series.c:9:18\n")
    yield Case("addr --comp-dir /boxantrel/ gcc-dwarf4-64/program 0x401016", f"{RANGE}:12:48\n")
    yield Case("addr --comp-dir . fpc-dwarf2/program 0x4010ca", "./series.pas:13:27\n")
    yield Case("addr -s gcc-dwarf4/program 0x401018", "series.c:9:18\n")
    yield Case(f"addr -s {SAID} gcc-dwarf4/program 0x401018", "series.c:9:18\n")
    yield Case("addr --json gcc-dwarf4/program 0x401018", answer(0x401018, SERIES, 9, 18, is_stmt=False))
    yield Case(f"addr --comp-dir /elsewhere {GCC} 0x401008", f"{SERIES}:8:23\n")


def answer(address, path, row, column, discriminator=0, is_stmt=True, unit="0x0", section=None):
    """The line of an answer as an object."""
    place = {"address": f"0x{address:016x}", **({"section": section} if section else {})}
    found = {"path": path, "line": row, "column": column, "discriminator": discriminator, "is_stmt": is_stmt}
    return json.dumps({**place, **found, "unit": unit}, separators=(",", ":"), ensure_ascii=False) + "\n"


def older_units():
    """Of a section on the input they are read where the size of their addresses is said, and of a file unless version 5
    alone is asked for. data.py reads each section."""
    section = line("gcc-dwarf4")
    skipped = "units 0 skipped 2 sequences 0 rows 0\n"
    not_5 = "dwline: unit 0x0 is not version 5\n"
    yield Case("dump --address-size 4 clang-powerpc-dwarf4/program", dump("clang-powerpc-dwarf4"))
    yield Case("check", skipped, stdin=section)
    yield Case("check --version-5 gcc-dwarf4/program", skipped)
    yield Case(f"addr --older 8 {SAID} - 0x401018", f"{SERIES}:9:18\n", stdin=section)
    yield Case("addr --version-5 gcc-dwarf4/program 0x401018", "??:0\n",
               "dwline: gcc-dwarf4/program: 2 units of version 4 are not read\n", 1)
    yield Case("copy gcc-dwarf4/program", "", not_5, 1)
    # An operand of DW_LNE_set_address has the size that is said.
    yield Case("check --address-size 4 gcc-dwarf4/program", "", pattern("^dwline: .*(extended|length)"), 1)
    for word in ("0", "3", "16", "08", "0x8", "-8", "", "x"):
        yield Case(["check", f"--older={word}"], "", NOT_UNDERSTOOD, 2, section)
        yield Case(["check", f"--address-size={word}", "gcc-dwarf4/program"], "", NOT_UNDERSTOOD, 2)
        yield Case(["addr", f"--older={word}", "-", "0x401018"], "", NOT_UNDERSTOOD, 2, section)
    yield Case("addr --older 8 gcc-dwarf4/program 0x401018", "", NOT_UNDERSTOOD, 2)
    yield Case("addr --address-size 8 - 0x401018", "", NOT_UNDERSTOOD, 2)
    yield Case("addr --version-5 - 0x401018", "", NOT_UNDERSTOOD, 2)


def with_version(elf, offset, version):
    """The file with this version in the unit at an offset of its line section."""
    _, start, _ = section_of(elf, ".debug_line")
    return changed(elf, start + offset + 4, version)


def units_not_read():
    """Where an address has no answer, standard error tells of the units that are passed over for their version: of a
    file that has one beside others, and of files that have such units alone. Nothing is told of a section on the
    input. A line that is no address is told after them, and is no address without an answer."""
    mixed = {"mixed": with_version(data("gcc-mixed", "program"), 0x129, 6)}
    one = "dwline: MADE/mixed: 1 unit of version 6 is not read\n"
    other = "dwline: line 2: main is no address\n"
    spare = "/boxantrel/spare.c:4:31\n"
    yield Case("addr MADE/mixed 0x4010b0 0x401110", "??:0\n" + spare, one, 1, made=mixed)
    yield Case("addr -e MADE/mixed", spare + "??:0\n", one, 1, b"0x401110\n0x4010b0\n", mixed)
    yield Case("addr MADE/mixed", "??:0\n??:0\n", one + other, 1, b"0x4010b0\nmain\n", mixed)
    yield Case("addr MADE/mixed", spare + "??:0\n", other, 1, b"0x401110\nmain\n", mixed)
    yield Case("find 0x4010b0 MADE/mixed", "", one + NOT_FOUND, 1, made=mixed)
    yield Case("find 0x4010b0", "", NOT_FOUND, 1, line("gcc-mixed"))
    yield Case("addr - 0x4010b0", "??:0\n", "", 1, line("gcc-mixed"))
    six = with_version(with_version(data("gcc-O2", "program"), 0, 6), 0x129, 6)
    one_and_six = {"old": with_version(six, 0x129, 1)}
    both = "dwline: MADE/old: 2 units of versions 1 to 6 are not read\n"
    yield Case("addr MADE/old 0x401000", "??:0\n", "dwline: MADE/old: 2 units of version 6 are not read\n", 1,
               made={"old": six})
    yield Case("addr MADE/old 0x401000", "??:0\n", both, 1, made=one_and_six)
    yield Case("find 0x401000 MADE/old", "", both + NOT_FOUND, 1, made=one_and_six)


# ---- addresses and answers


def addresses():
    """How addresses are given, and what is printed of them and of paths."""
    located = f"0x0000000000401000 {SERIES}:8:23\n"
    yield Case(f"addr -a {GCC} 401000", located)
    yield Case(f"addr -a --decimal {GCC} 4198400", located)
    yield Case(f"addr {GCC} 0x401000 --addresses", located)
    yield Case(f"addr -s {GCC} 0x401000 0x40101a", told("series.c:8:23", "range.h:19:44"))
    yield Case(f"addr --basenames -a {GCC} 0x401000 1",
               told("0x0000000000401000 series.c:8:23", "0x0000000000000001 ??:0"), status=1)
    yield Case(f"addr {GCC} 401000 0x401000 40101A",
               told(f"{SERIES}:8:23", f"{SERIES}:8:23", f"{RANGE}:19:44"))
    yield Case(f"addr --base 0x100000000 {GCC} 0x100401000 0x401000 0xffffffff",
               told(f"{SERIES}:8:23", "??:0", "??:0"), status=1)
    yield Case(f"addr -a --base=fff {GCC} 0x401fff", f"0x0000000000401fff {SERIES}:8:23\n")
    yield Case(f"addr --hex --base 1000 {GCC} 402000", f"{SERIES}:8:23\n")
    # The file behind -e; all other words are addresses then.
    yield Case(f"addr 0x401000 -e {GCC} 0x401017", told(f"{SERIES}:8:23", f"{SERIES}:6:9"), stdin=b"")
    yield Case(f"addr --exe={GCC}", f"{SERIES}:8:23\n", stdin=b"0x401000\n")
    yield Case(f"addr -e - {GCC_LINES} 0x401000", f"{SERIES}:8:23\n", stdin=line("gcc-O2"))
    for option in ("-j", "--section"):
        yield Case(f"addr {option} .text.sum {FUNCTIONS} 0 0x20", told(f"{SERIES}:8:23", f"{RANGE}:19:44"))
    yield Case(f"addr --section=.text._start -e {FUNCTIONS} 0 1", told(f"{MAIN}:22:1", f"{MAIN}:24:17"))


def objects():
    """JSON: rows of both units, a place without an answer, the address as it was given, which -a doesn't print twice,
    and the last component of a path."""
    first = answer(0x401008, SERIES, 8, 23, is_stmt=False)
    yield Case(f"addr --json {GCC} 0x401008 0x4010a1 0x4010ad 0x401105 0x401008", "".join([
        first, answer(0x4010a1, SERIES, 33, 13, 1, False), '{"address":"0x00000000004010ad"}\n',
        answer(0x401105, MAIN, 29, 5, 1, unit="0x129"), first]), status=1)
    yield Case(f"addr --json -e {GCC} 401008", first)
    yield Case(f"addr --json -s --base 0x1000 {GCC} 0x402008", answer(0x402008, "series.c", 8, 23, is_stmt=False))
    # Lines that are no addresses.
    yield Case(f"addr --json {GCC}", first + '{"address":null}\n{"address":"0x0000000000000000"}\n',
               "dwline: line 2: main is no address\n", 1, b"0x401008\nmain\n0\n")
    # A path with a quote, a backslash, control bytes, the two bytes of an e with an accent, and a byte that is no
    # UTF-8. words.py has Python read this line.
    yield Case(f"addr --json {PACKED_LINES} --str MADE/name - 0x20000", ODD_ANSWER, stdin=line("operations"),
               made={"name": ODD_NAMES})
    # A directory whose name isn't there puts nothing before a path; an object has null where the path isn't known.
    yield Case("addr --json - 0x20000", answer(0x20000, None, 10, 0), stdin=line("operations"))
    yield Case(f"addr --json -j .text.sum {FUNCTIONS} 0x20 0x45", answer(
        0x20, RANGE, 19, 44, is_stmt=False, section=".text.sum")
        + '{"address":"0x0000000000000045","section":".text.sum"}\n', status=1)


ODD_NAMES = b"1234567" + b'q"b\\\1\n\x7f\xc3\xa9\xff' + b"\0"
ODD_ANSWER = (b'{"address":"0x0000000000020000","path":"/boxantrel/q\\"b\\\\\\u0001\\n\x7f\xc3\xa9\xef\xbf\xbd",'
              b'"line":10,"column":0,"discriminator":0,"is_stmt":true,"unit":"0x0"}\n')


def code():
    """Sequences that begin outside the executable section, which ends inside the first sequence here. They answer where
    all are asked for, where no section is executable, and in a file that isn't linked."""
    elf = data("gcc-O2", "program")
    shorter = changed(elf, place_of(elf, 1, "size") + 1, 0)
    no_code = changed(shorter, place_of(elf, 1, "flags"), 2)
    asked = "0x40109c 0x40109d 0x4010b0"
    each = told(f"{SERIES}:24:1", f"{SERIES}:30:18", f"{MAIN}:22:1")
    yield Case(f"addr MADE/shorter {asked}", told(f"{SERIES}:24:1", "??:0", "??:0"), status=1,
               made={"shorter": shorter})
    yield Case(f"addr --all MADE/shorter {asked}", each, made={"shorter": shorter})
    yield Case(f"addr MADE/no_code {asked}", each, made={"no_code": no_code})
    yield Case(f"addr MADE/object {asked}", each, made={"object": changed(shorter, 16, 1)})


def object_files():
    """In an object file an address is relative to a section. Without relocations each sequence answers, and no section
    may be named; nor of a linked file, nor one that isn't there. locations.py has what is found."""
    yield Case(f"find -j .text.longest_run 0x20 {FUNCTIONS}",
               'file 1 path="series.c" dir=0\nrow 0x0000000000000020 0 1 19 15\n')
    # The section .text is empty, so the first with code is meant where none is named.
    for words in ("--section .text.sum", ""):
        yield Case(f"find 0x20 {FUNCTIONS} {words}", 'file 2 path="range.h" dir=1\nrow 0x000000000000001a 0 2 19 44\n')
    yield Case(f"find 0x20 -j .text {FUNCTIONS}", "", NOT_FOUND, 1)
    for absolute in (OPERATIONS, GCC):
        relative = f"dwline: {absolute}: its addresses are not relative to a section\n"
        yield Case(f"addr -j .text {absolute} 0x20000", "??:0\n", relative, 1)
        yield Case(f"find -j .text 0x20000 {absolute}", "", relative, 1)
    yield Case(f"addr -j .text.su {FUNCTIONS} 0 1", "??:0\n??:0\n", f"dwline: {FUNCTIONS}: no section .text.su\n", 1)
    yield Case(["find", "-j", ".text\n", "0", FUNCTIONS], "", f"dwline: {FUNCTIONS}: no section .text\\x0a\n", 1)
    yield Case("addr -j .text - 0x401000", "", NOT_UNDERSTOOD, 2, line("gcc-O2"))


def lines_of_input():
    """Addresses on standard input, with blanks, empty lines and 0x0d before 0x0a; the last line lacks its 0x0a."""
    asked = b" 0x401000\t\r\n\n \t\r\n0x401017\r\n\t40109d "
    yield Case(f"addr {GCC}", told(f"{SERIES}:8:23", f"{SERIES}:6:9", f"{SERIES}:30:18"), stdin=asked)
    yield Case(f"addr -a -s {GCC}", told(
        "0x0000000000401000 series.c:8:23", "0x0000000000401017 series.c:6:9", "0x000000000040109d series.c:30:18"),
        stdin=asked)
    yield Case(f"addr {GCC}", stdin=b"")
    yield Case(f"addr {GCC}", "", NO_INPUT, 3)
    yield Case("addr make.sh", "", NO_ELF, 1)
    # A file that can't be read for its line table has no answer to any of them, and lines and answers stay in step.
    asked = b"0x401000\n\nmain\n1\n"
    yield Case("addr make.sh", "??:0\n" * 3, NO_ELF, 1, asked)
    yield Case("addr no/such/file", "??:0\n" * 3, NO_FILE, 3, asked)
    yield Case("addr --json make.sh", '{"address":"0x0000000000401000"}\n{"address":null}\n'
               '{"address":"0x0000000000000001"}\n', NO_ELF, 1, asked)


def other_lines():
    """Lines that are no addresses: the first one is told, by its number among all lines. What it says stands in the
    fault, without the blanks around it, in one line whatever it is, and no more than 64 bytes."""
    asked, fault = b"0x401000\n\nmain\n401017\n0x\n", "dwline: line 3: main is no address\n"
    located = f"0x0000000000401000 {SERIES}:8:23"
    yield Case(f"addr -a --decimal {GCC}", told(located, "??:0", "0x0000000000061e79 ??:0", "??:0"), fault, 1, asked)
    yield Case(f"addr -a {GCC}", told(located, "??:0", f"0x0000000000401017 {SERIES}:6:9", "??:0"), fault, 1, asked)
    for given, shown in [
        (b"0x4010 00", b"0x4010 00"), (b"0x401000\r", rb"0x401000\x0d"), (b" \t0x1060,0x2 \t\r\n", b"0x1060,0x2"),
        (b"0x10000000000000000", b"0x10000000000000000"), (b"-1", b"-1"), (b"\\\7\xc3\xa9", b"\\\\\\x07\xc3\xa9"),
        (b"a\xc3\xff\\", rb"a\xc3\xff\\"), (b"z" * 70, b"z" * 64),
    ]:
        yield Case(f"addr {GCC}", "??:0\n", b"dwline: line 1: %s is no address\n" % shown, 1, given)
    yield Case(f"addr {GCC}", "??:0\n", "", 1, b"0x4010ad\n")


def sections_of_names():
    """A section on standard input, whose names are looked up in the files of its string sections."""
    section = line("operations")
    yield Case(f"addr {PACKED_LINES} - 0x20000 0x20004 {PACKED_NAMES}",
               told("/boxantrel/packed.c:10", "/boxantrel/packed.c:11"), stdin=section)
    yield Case(f"addr -s {PACKED_LINES} {PACKED_NAMES} - 0x20000", "packed.c:10\n", stdin=section)
    yield Case("addr - 0x20000", "??:10\n", stdin=section)
    yield Case(f"addr {PACKED_LINES} - 0x20000", "??:10\n", stdin=section)
    yield Case(f"addr {PACKED_NAMES} - 0x20000", "packed.c:10\n", stdin=section)
    section = line("gcc-powerpc")
    yield Case(f"addr --big {POWERPC_LINES} - 0x10000087", f"{SERIES}:5:1\n", stdin=section)
    yield Case(f"addr {POWERPC_LINES} - 0x10000087", "??:0\n", POWERPC_END, 1, section)


# ---- damage


def in_program(place, byte):
    """The file gcc-O2 with a byte at a place of its line section."""
    elf = data("gcc-O2", "program")
    return changed(elf, section_of(elf, ".debug_line")[1] + place, byte)


# The last opcode of the first unit has the length 0: its rows up to there are printed.
FIRST_DAMAGED = changed(line("gcc-O2"), 295, 0)
OPCODE = "dwline: damage at 0x126: empty extended opcode\n"
OPCODE_AND = OPCODE[:-1] + ", and {} more damaged unit{}\n"
ENDS_AT = "dwline: damage at 0x1f4: input ends inside a unit\n"
GCC_LINES_OF_DUMP = dump("gcc-O2").splitlines(True)
BEFORE, AFTER = b"".join(GCC_LINES_OF_DUMP[:64]), b"".join(GCC_LINES_OF_DUMP[65:])
SECOND = f"{MAIN}:22:1\n"


def faults():
    """The units before a fault of the section answer, and of two faults the section's is told."""
    both = f"{SERIES}:8:23\n??:0\n"
    yield Case(f"addr {GCC_LINES} - 0x401000 0x4010b0", both, ENDS_AT, 1, line("gcc-O2")[:500])
    elf = data("gcc-O2", "program")
    number, _, _ = section_of(elf, ".debug_line")
    shorter = {"shorter": changed(elf, place_of(elf, number, "size"), 0xf4)}
    yield Case("addr MADE/shorter", both + "??:0\n", ENDS_AT, 1, b"0x401000\n0x4010b0\nmain\n", shorter)


def keep_going():
    """With --keep-going the units after a damaged one are read too, and of each damaged unit a line is told."""
    counts = "units 1 skipped 0 sequences 1 rows 32 damaged 1\n"
    yield Case(f"dump {GCC_LINES}", BEFORE, OPCODE, 1, FIRST_DAMAGED)
    yield Case(f"dump --keep-going {GCC_LINES}", BEFORE + AFTER, OPCODE, 1, FIRST_DAMAGED)
    yield Case("check", "", OPCODE, 1, FIRST_DAMAGED)
    yield Case("check --keep-going", counts, OPCODE, 1, FIRST_DAMAGED)
    damaged = {"damaged": in_program(295, 0)}
    yield Case("dump --keep-going MADE/damaged", BEFORE + AFTER, OPCODE, 1, made=damaged)
    yield Case("check --keep-going MADE/damaged", counts, OPCODE, 1, made=damaged)
    # The section's end cuts the second unit off, alone and after the first one is damaged.
    whole_first = "units 1 skipped 0 sequences 2 rows 59 damaged 1\n"
    yield Case("check --keep-going", whole_first, ENDS_AT, 1, line("gcc-O2")[:500])
    yield Case("check --keep-going", "units 0 skipped 0 sequences 0 rows 0 damaged 2\n", OPCODE + ENDS_AT, 1,
               FIRST_DAMAGED[:500])
    # After an initial length that isn't good no unit is known to follow.
    section = line("gcc-O2")
    yield Case("check --keep-going", whole_first, "dwline: damage at 0x129: reserved initial length\n", 1,
               replaced(section, 297, b"\xf0\xff\xff\xff") + section)
    # A unit of a version that isn't read is passed over as before.
    yield Case("check --keep-going --version-5 gcc-mixed/program", 
               counts_of(version_5(dump("gcc-mixed")).decode())[:-1] + b" damaged 0\n")
    # Memory, input and output end the command as before.
    yield Case("check --keep-going", "", NO_INPUT, 3)
    yield Case("dump --keep-going --str no/such/file", "", NO_INPUT, 3, b"")


def addr_goes_on():
    """`addr` goes on without being asked: the whole units answer, with the offsets that they have. With --stop those
    before the first damaged one do."""
    object_of_second = answer(0x4010b0, MAIN, 22, 1, is_stmt=False, unit="0x129")
    asked = "0x401000 0x4010b0"
    yield Case(f"addr {GCC_LINES} - {asked}", "??:0\n" + SECOND, OPCODE, 1, FIRST_DAMAGED)
    yield Case(f"addr --json {GCC_LINES} - 0x4010b0", object_of_second, OPCODE, 1, FIRST_DAMAGED)
    yield Case(f"addr --stop {GCC_LINES} - {asked}", "??:0\n??:0\n", OPCODE, 1, FIRST_DAMAGED)
    damaged = {"damaged": in_program(295, 0)}
    yield Case(f"addr MADE/damaged {asked}", "??:0\n" + SECOND, OPCODE, 1, made=damaged)
    yield Case(f"addr --stop MADE/damaged {asked}", "??:0\n??:0\n", OPCODE, 1, made=damaged)
    yield Case(f"addr --stop {GCC} 0x4010b0", SECOND)
    # Of a damaged unit and a line that is no address the damage is told.
    yield Case("addr MADE/damaged", SECOND + "??:0\n", OPCODE, 1, b"0x4010b0\nmain\n", damaged)
    # The line is of the first damaged unit, and says how many more there are.
    two, three = FIRST_DAMAGED[:500], FIRST_DAMAGED + FIRST_DAMAGED[:500]
    yield Case(f"addr {GCC_LINES} - 0x4010b0", "??:0\n", OPCODE_AND.format(1, ""), 1, two)
    yield Case(f"addr {GCC_LINES} - 0x4010b0", SECOND, OPCODE_AND.format(2, "s"), 1, three)
    yield Case(f"addr --stop {GCC_LINES} - 0x4010b0", "??:0\n", OPCODE, 1, three)


# ---- words that are refused


def addr_words():
    yield Case("addr -", "", NOT_UNDERSTOOD, 2)
    for words in ("--big", PACKED_LINES, PACKED_NAMES):
        yield Case(f"addr {words} {GCC} 1", "", NOT_UNDERSTOOD, 2)
    for word in ("0x", "12g", "10000000000000000", "", "0x1060,0x2"):
        yield Case(["addr", GCC, "1", word, "0y"], "", f"dwline: {word} is no address\n", 2)
        yield Case(["addr", "-e", GCC, word], "", f"dwline: {word} is no address\n", 2)
    for word in ("40101a", "18446744073709551616"):
        yield Case(f"addr --decimal {GCC} {word}", "", f"dwline: {word} is no address\n", 2)
    for words in (f"--base 0x {GCC} 0y", "no/such/file 0x", "- 0x"):
        yield Case(f"addr {words}", "", "dwline: 0x is no address\n", 2)
    yield Case(["addr", GCC, "0x\n1"], "", "dwline: 0x\\x0a1 is no address\n", 2)


# ---- files that stop a command


def damaged_files():
    """A file isn't there, is a folder, is no ELF file, has no line table, or ends early."""
    powerpc = data("gcc-powerpc", "program")
    # The same without section headers: e_shoff is 0.
    made = {"cut": powerpc[:5000], "headless": powerpc[:51], "no_sections": replaced(powerpc, 32, bytes(4))}
    stripped = "c0/ffee0123456789.debug"
    for command in COMMANDS:
        tried = "" if command == "copy" else f"; tried /usr/lib/debug/.build-id/{stripped}"
        for file, fault, status in [
            ("no/such/file", "cannot open: No such file or directory (os error 2)", 3),
            ("sources", "cannot read: Is a directory (os error 21)", 3),
            ("make.sh", "not an ELF file", 1),
            ("/dev/null", "cannot read: seek on unseekable file", 3),
            ("MADE/headless", "not an ELF file", 1),
            ("MADE/cut", "damaged ELF file: section headers", 1),
            ("MADE/no_sections", "no section .debug_line", 1),
            ("stripped/program",
             f"no section .debug_line (its debug information may be in .build-id/{stripped}{tried})", 1),
        ]:
            yield Case(asks(command, file), no_answer(command), f"dwline: {file}: {fault}\n", status, made=made)
    # A name with a newline, a backslash and a character of two bytes: its line stays one.
    name = "a\nb\\x7f\x7f\u00e9"
    yield Case(["check", f"MADE/{name}"], "", "dwline: MADE/a\\x0ab\\\\x7f\\x7f\u00e9: not an ELF file\n", 1,
               made={name: b"no ELF file"})


def far_places():
    """Offsets and sizes that no file of the system reaches, 2^63 - 1 and 2^63 among them: they lie outside the file. A
    note that lies there is no fault, and none is looked for."""
    elf, stripped = data("gcc-O2", "program"), data("stripped", "program")
    number, _, _ = section_of(elf, ".debug_line")
    for far in ((1 << 63) - 1, (1 << 63) - 2, 1 << 63, (1 << 64) - 1):
        those = far.to_bytes(8, "little")
        for file, content, fault in [
            ("far_headers", replaced(elf, 40, those), "damaged ELF file: section headers"),
            ("far_offset", replaced(elf, place_of(elf, number, "offset"), those),
             "damaged ELF file: section .debug_line"),
            ("far_size", replaced(elf, place_of(elf, number, "size"), those), "damaged ELF file: section .debug_line"),
            ("far_note", replaced(stripped, place_of(stripped, 1, "offset"), those), "no section .debug_line"),
        ]:
            for command in COMMANDS:
                yield Case(asks(command, f"MADE/{file}"), no_answer(command), f"dwline: MADE/{file}: {fault}\n", 1,
                           made={file: content})


ZSTD = "section {} is compressed with zstd; run objcopy --decompress-debug-sections"


def compressed_files():
    """A section that is compressed by another method, and a stream whose check value is wrong."""
    elf = data("compressed", "program")
    _, start, end = section_of(elf, ".debug_line")
    for command in COMMANDS:
        yield Case(asks(command, "MADE/zstd"), no_answer(command), f"dwline: MADE/zstd: {ZSTD.format('.debug_line')}\n",
                   1,
                   made={"zstd": changed(elf, start, 2)})
    damaged = {"damaged": replaced(elf, end - 4, bytes(4))}
    fault = f"dwline: MADE/damaged: section .debug_line: damaged zlib stream at 0x{end - start - 1:x}\n"
    yield Case("check MADE/damaged", "", fault, 1, made=damaged)
    yield Case("dump MADE/damaged", dump("gcc-O2"), fault, 1, made=damaged)


FAR = ((1 << 63) - 1).to_bytes(8, "little")


def outside(elf, name):
    """The file with a section outside of it."""
    return replaced(elf, place_of(elf, section_of(elf, name)[0], "offset"), FAR)


def unnamed_strings():
    """.debug_str, compressed by another method or outside the file. Where no header of the line section names it, all
    is answered as of the file without that."""
    compressed = data("compressed", "program")
    row = 'file 1 path="series.c" dir=0\nrow 0x0000000000401000 0 1 8 23 stmt\n'
    for name, elf in [
        ("zstd", changed(compressed, section_of(compressed, ".debug_str")[1], 2)),
        ("outside", outside(data("gcc-O2", "program"), ".debug_str")),
    ]:
        yield Case(f"dump MADE/{name}", dump("gcc-O2"), made={name: elf})
        yield Case(f"find 0x401000 MADE/{name}", row, made={name: elf})
        yield Case(f"addr MADE/{name} 0x401000", f"{SERIES}:8:23\n", made={name: elf})
    yield Case("dump MADE/object", dump("object-gcc"),
               made={"object": outside(data("object-gcc", "program"), ".debug_str")})


def named_strings():
    """Where a header names it, as that of operations does, it is refused."""
    elf = data("operations", "program")
    number, _, _ = section_of(elf, ".debug_str")
    # The section is flagged as compressed, and is 32 bytes at the end: a compression header of zstd and 8 bytes more.
    flagged = replaced(elf, place_of(elf, number, "flags"), (0x800).to_bytes(8, "little"))
    placed = replaced(flagged, place_of(elf, number, "offset"),
                      len(elf).to_bytes(8, "little") + (32).to_bytes(8, "little"))
    zstd = placed + b"".join(value.to_bytes(8, "little") for value in (2, 16, 1)) + b"packed.c"
    for name, file, fault in [
        ("outside", outside(elf, ".debug_str"), "damaged ELF file: section .debug_str"),
        ("zstd", zstd, ZSTD.format(".debug_str")),
    ]:
        for command in ("addr", "dump", "find 1"):
            yield Case(asks(command, f"MADE/{name}"), no_answer(command), f"dwline: MADE/{name}: {fault}\n", 1,
                       made={name: file})
        yield Case(f"check MADE/{name}", "units 1 skipped 0 sequences 1 rows 4\n", made={name: file})


def directories_that_are_not_known():
    """Where .debug_abbrev lies outside the file no directory is known; nor is one whose text stands in a .debug_str
    that does. words.py has .debug_info that is compressed."""
    elf = data("gcc-dwarf4", "program")
    for section in (".debug_abbrev", ".debug_str"):
        made = {"outside": outside(elf, section)}
        yield Case("addr MADE/outside 0x401018", "series.c:9:18\n", made=made)
        yield Case(f"addr {SAID} MADE/outside 0x401018", f"{SERIES}:9:18\n", made=made)


# The relocations of object-aarch64's line section, 16 entries, as those of SHT_CREL: differences.
COMPACT = bytes.fromhex(
    "84 01 97 02 11 82 02 14 24 0b 54 08 2c 09 2c 09 57 71 7f 47 f1 06 01 d1 05 01 df 05 0d 01 d3 00"
    "24 0b 54 08 2c 07 2c 07 2c 0a 2c 09 57 74 7f f9 7e")


def relocations():
    """An object file of a machine whose relocations aren't known; one whose relocations are compact, at its end; and
    one whose section lacks the last byte of them."""
    elf = data("object-aarch64", "program")
    number, _, _ = section_of(elf, ".rela.debug_line")
    placed = replaced(elf + COMPACT, place_of(elf, number, "offset"), len(elf).to_bytes(8, "little"))
    compact = replaced(placed, place_of(elf, number, "type"), (0x40000014).to_bytes(4, "little"))
    compact = replaced(compact, place_of(elf, number, "size"), len(COMPACT).to_bytes(2, "little"))
    yield Case("dump MADE/compact", dump("object-aarch64"), made={"compact": compact})
    cut = changed(compact, place_of(elf, number, "size"), len(COMPACT) - 1)
    for name, file, fault in [
        ("unknown", changed(elf, 18, 0xf5), "section .debug_line: unknown relocation 258 of machine 245"),
        ("cut", cut, "damaged ELF file: relocations of section .debug_line"),
    ]:
        for command in ("addr", "dump", "check", "find 1"):
            yield Case(asks(command, f"MADE/{name}"), no_answer(command), f"dwline: MADE/{name}: {fault}\n", 1,
                       made={name: file})


def help_and_version():
    """They go to standard output."""
    yield Case("--version", "dwline 0.1.0\n")
    yield Case("-V", "dwline 0.1.0\n")
    # Where FILE may be left out, the head of the page says what is read then.
    for command in ("dump", "check", "find", "copy"):
        yield Case(f"{command} --help", pattern(
            r"\AWithout FILE (and --files-from )?the bytes of a section .debug_line are read"))


GROUPS = [operations, string_sections, order, stops, files, lines_of_files, source_files, parts, directories,
          older_units,
          units_not_read, addresses, objects, code, object_files, lines_of_input, other_lines, sections_of_names,
          faults,
          keep_going, addr_goes_on, addr_words, damaged_files, far_places, compressed_files, unnamed_strings,
          named_strings, directories_that_are_not_known, relocations, help_and_version]
