"""Addresses of source lines in sections.

The sections are worked by hand from DWARF 5, section 6.2."""
from cases.section_addr import DEAD
from cases.units import table, uleb, unit_of
from lib.worked import Case, damage, told

# Files `a.c`, `b.h` and `ba.c` of the directory `/s`. From 0x1000 on, 16 bytes each: two rows for line 10 of `a.c`,
# of which the columns are 3 and 5, one for line 10 of `b.h`, two for line 10 of `a.c`, of which the second alone is a
# statement, and ends a prologue, one for line 12 of `a.c` without a column, and one for its line 14 that is no
# statement, as the end row after it is. From 0x800 on line 10 of `a.c` and of `ba.c`, column 3; and in another
# sequence the first of these again.
RUNS = bytes.fromhex("""
    a4 00 00 00 05 00 08 00 2f 00 00 00 01 01 01 fb 0e 0d 00 01 01 01 01 00 00 00 01 00 00 01 01 01 08 01 2f 73 00 02
    01 08 02 0f 03 61 2e 63 00 00 62 2e 68 00 00 62 61 2e 63 00 00 00 09 02 00 10 00 00 00 00 00 00 04 00 03 09 05 03
    01 02 10 05 05 01 02 10 04 01 01 02 10 04 00 06 01 02 10 06 0a 01 02 10 03 02 05 00 01 02 10 03 02 06 01 06 02 10
    00 01 01 00 09 02 00 08 00 00 00 00 00 00 04 00 03 09 05 03 01 02 08 04 02 01 02 08 00 01 01 00 09 02 00 08 00 00
    00 00 00 00 04 00 03 09 05 03 01 02 08 00 01 01""")

# Line 11 of `/s/a.c` at 0x2000, column 1.
CLOSER = bytes.fromhex("""
    43 00 00 00 05 00 08 00 24 00 00 00 01 01 01 fb 0e 0d 00 01 01 01 01 00 00 00 01 00 00 01 01 01 08 01 2f 73 00 02
    01 08 02 0f 01 61 2e 63 00 00 00 09 02 00 20 00 00 00 00 00 00 04 00 03 0a 05 01 01 02 08 00 01 01""")


# Of `RUNS` the places of line 10 of `a.c`, by address, one of them once: of each run the first statement alone, and no
# end row.
TEN = """\
0x0000000000000800 /s/a.c:10:3
0x0000000000001000 /s/a.c:10:3
0x0000000000001040 /s/a.c:10:5 prologue
"""

TWELVE = "0x0000000000001050 /s/a.c:12\n"

ELEVEN = "0x0000000000002000 /s/a.c:11:1\n"

NONE = "??\n"

# The extended operation that ends its sequence, which begins at byte 68, has no bytes.
DAMAGED = CLOSER[:-2] + b"\0" + CLOSER[-1:]
DAMAGE = damage(len(RUNS) + 68, "empty extended opcode")


def lines(words, units, output, error="", status=None, name="", **others):
    """Lines of a section of these units. Where one has no place the status is 1."""
    status = int(NONE in output or bool(error)) if status is None else status
    section = b"".join(units)
    return Case(name or f"{words} in {len(section)} bytes", ("lines", "-", *words.split()), section, output, error,
                status, **others)


# The least line from the wanted one on that has a place answers. Line 14 has none.
LEAST = [lines(words, [RUNS], output) for words, output in [
    ("a.c:1", TEN), ("/s/a.c:10", TEN), ("a.c:11", TWELVE), ("s/a.c:12", TWELVE), ("a.c:13", NONE),
    ("b.h:0", "0x0000000000001020 /s/b.h:10:5\n"), ("ba.c:10", "0x0000000000000808 /s/ba.c:10:3\n")]]

# A path matches in whole components alone.
COMPONENTS = [lines(f"{path}:10", [RUNS], NONE) for path in (".c", "c", "/a.c", "x/s/a.c", "a.c/", "b.", "s")]

SEVERAL = [
    # Where lines are exact, none above the wanted one answers.
    lines("--exact a.c:9 a.c:12 a.c:11", [RUNS], NONE + TWELVE + NONE),
    # A lesser line of a later unit answers in place of those before it, and a greater one doesn't.
    lines("a.c:11 a.c:10", [RUNS, CLOSER], ELEVEN + TEN),
    lines("a.c:11 a.c:10", [CLOSER, RUNS], ELEVEN + TEN, name="the closer unit first"),
    # The whole units before a fault answer, and then the fault is told.
    lines("--stop a.c:11", [RUNS, CLOSER[:-1]], TWELVE, damage(238)),
    # A damaged unit has no places, and the whole units on both of its sides answer.
    lines("a.c:11", [RUNS, DAMAGED, RUNS], TWELVE, DAMAGE),
    lines("a.c:11 b.h:11", [RUNS, CLOSER], ELEVEN + NONE),
    lines("a.c:1", [], NONE),
    # Paths that aren't whole stand under the compilation directory.
    lines("--comp-dir /w /s/a.c:11 w/s/a.c:11", [CLOSER], ELEVEN + NONE),
]

DEAD_LINE, LIVE_LINE = "0x0000000000000000 /d/dead.c:1:1\n", "0x0000000000000040 /d/live.c:7:3\n"

# The rows of a sequence answer where its first address lies in the code, whatever its others do. Without code none do.
LIVE = [
    lines("dead.c:1 live.c:1", [DEAD], output, code=((start, size),), name=f"code of {size} bytes from {start} on")
    for start, size, output in [
        (0, 1, DEAD_LINE + NONE), (0x40, 1, NONE + LIVE_LINE), (0x41, 0x100, NONE + NONE), (0, 0, NONE + NONE)]
]

STRING, UDATA = 8, 0x0f


def of_lines(*files):
    """A unit with a row of each file, which has a path and a line: from address 0 on, 16 bytes each."""
    entries = [path.encode() + b"\0" + uleb(0) for path, _ in files]
    tables = table([(1, STRING)], b"/s\0") + table([(1, STRING), (2, UDATA)], *entries)
    program, before = bytes.fromhex("00 09 02 00 00 00 00 00 00 00 00"), 1
    for number, (_, line) in enumerate(files):
        program += b"\4" + uleb(number) + b"\3" + bytes([line - before & 0x7f]) + b"\1\2\x10"
        before = line
    return unit_of(tables, program + b"\0\1\1")


# What a word says: the path in front of its last colon, and a number in decimal digits.
OF_WORDS = of_lines(("a.c", 10), ("C:\\x.c", 7), ("a:1", 2), ("b.c", 1))

WORDS = [
    *(lines(f"--exact {word}", [OF_WORDS], f"0x{address:016x} {path}\n") for word, address, path in [
        ("a.c:10", 0, "/s/a.c:10"), ("/s/a.c:0010", 0, "/s/a.c:10"), (r"C:\x.c:7", 16, r"C:\\x.c:7"),
        ("a:1:2", 32, "/s/a:1:2")]),
    lines("b.c:0", [OF_WORDS], "0x0000000000000030 /s/b.c:1\n"),
    lines("a.c:18446744073709551615", [OF_WORDS], NONE),
    *(Case(f"the word {word!r}", ("lines", "-", "a.c:10", word), OF_WORDS, "", told(f"{word} is no PATH:LINE"), 2)
      for word in ["a.c:18446744073709551616", "a.c:99999999999999999999", ":10", "a.c:", "a.c", "", ":", "a.c:1x",
                   "a.c: 1", "a.c:-1", "a.c:0x10"]),
]

TABLE = [*LEAST, *COMPONENTS, *SEVERAL, *LIVE, *WORDS]
