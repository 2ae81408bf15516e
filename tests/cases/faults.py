"""Command lines of which each call of the system fails once, over each kind of file. tests/faults.py says what is
wanted then, and makes the files."""

from typing import NamedTuple

from cases.indices import BASE

# How what is out may differ from the whole output. It is a front of it. Or of addresses each line is the same one, or
# tells that nothing is known. Or of files and members, of which the next one follows, lines are left out.
FRONT, ANSWERS, PARTS = "front", "answers", "parts"

# What isn't as it is to be:
AGAIN = "again"  # memory is asked for after it was refused; nothing is told if it is found then
SPARED = "spared"  # a growth that is refused isn't needed, and nothing is told
UNTOLD = "untold"  # reads that look for what a file is, or for another file in its place, may fail, and nothing is told
MISTOLD = "mistold"  # where such a read fails, it is told that the file has no line table, or is no ELF file
ENDS = "ends"  # an archive that ends early while it is read is taken for a shorter one, an index for no index
GOES_ON = "goes on"  # after a write that failed the output of the next file or member is written
MASKED = "masked"  # where a line is written for an address of a file with a fault, a write that fails isn't told
ENDLESS = "endless"  # a call that is interrupted more than 1,000 times is made again


class Line(NamedTuple):
    words: str
    # So many growths, calls of read, of pread and of write there are at least.
    least: tuple
    out: str = FRONT
    open: tuple = (AGAIN, UNTOLD)
    # A text, or in bytes the name of a file.
    stdin: str = ""
    # The line of an address, or of a line of source, of which nothing is known.
    unknown: str = "??:0\n"


ASKED = "0x4010b0\n4010b0\nmain\n0x401099\n"
STRINGS = "--line-str debug_line_str --str debug_str"
NO_LINE = "??\n"

OF_AN_ARCHIVE = (AGAIN, UNTOLD, MISTOLD, ENDS, GOES_ON)
OF_FILES = (AGAIN, UNTOLD, GOES_ON, ENDLESS)

OF_A_PROGRAM = [
    Line("dump program", (150, 0, 15, 1)),
    Line("dump --json program", (150, 0, 15, 1)),
    Line("dump --header --operations --paths program", (150, 0, 15, 1)),
    Line("dump --unit 0 program", (150, 0, 15, 1)),
    Line("dump --range 0x401080-0x4010c0 program", (150, 0, 15, 1)),
    Line("check program", (150, 0, 15, 1)),
    Line("check --keep-going program", (150, 0, 15, 1)),
    Line("find 0x4010b0 program", (150, 0, 15, 1)),
    # Once no row has answered, the units that aren't read are looked for.
    Line("find 1 program", (150, 0, 15, 0), open=(AGAIN, SPARED, UNTOLD)),
    Line("copy program", (130, 0, 15, 1), open=(AGAIN, SPARED, UNTOLD)),
    Line("addr program 0x4010b0 0x401099", (150, 0, 30, 1), ANSWERS),
    Line("addr -a -s --stop program 0x4010b0", (150, 0, 30, 1), ANSWERS, unknown="0x00000000004010b0 ??:0\n"),
    Line("addr --json program 0x4010b0", (150, 0, 30, 1), ANSWERS, unknown='{"address":"0x00000000004010b0"}\n'),
    Line("addr program", (180, 2, 40, 1), ANSWERS, stdin=ASKED),
    Line("index -o - program", (180, 0, 40, 1)),
    Line("index -o out program", (180, 0, 40, 1)),
    Line("sources --rows --md5 program", (150, 0, 30, 1)),
    Line("lines program series.c:5 series.c:7", (150, 0, 30, 1), ANSWERS, unknown=NO_LINE),
    Line("lint program", (150, 0, 20, 1)),
    Line("lint --json --keep-going program", (150, 0, 20, 1)),
]

OF_OTHER_FILES = [
    Line("dump --paths older", (150, 0, 15, 1)),
    Line("addr older 0x401099", (150, 0, 30, 1), ANSWERS),
    Line("index -o - older", (180, 0, 40, 1)),
    Line("sources older", (150, 0, 30, 1)),
    Line("copy --to-5 --comp-dir /c older", (130, 0, 15, 1)),
    Line("dump object.o", (150, 0, 15, 1)),
    Line("addr -j .text._start object.o 0", (150, 0, 30, 1), ANSWERS),
    Line("find -j .text._start 0 object.o", (150, 0, 15, 1)),
    Line("index -o out object.o", (180, 0, 40, 1)),
    Line("addr -j .text.none object.o 0", (150, 0, 30, 1), ANSWERS, (AGAIN, UNTOLD, MASKED)),
    Line("lines -j .text._start object.o main.c:22", (150, 0, 30, 1), ANSWERS, unknown=NO_LINE),
    Line("lint object.o", (150, 0, 20, 1)),
    Line("dump compressed", (150, 0, 15, 1)),
    Line("addr compressed", (180, 2, 40, 1), ANSWERS, stdin=ASKED),
    Line("dump compressed.o", (150, 0, 15, 1)),
    Line("dump damaged", (150, 0, 15, 1)),
    Line("dump long", (150, 0, 15, 2)),
    # What is sorted takes memory where there is much of it.
    Line("lines many a:7", (150, 0, 30, 1), ANSWERS, unknown=NO_LINE),
    Line("lines --stop many a:7", (150, 0, 30, 1), ANSWERS, unknown=NO_LINE),
    Line("addr --stop many 0x8010 0x8630", (150, 0, 30, 1), ANSWERS),
    Line("dump --keep-going many", (150, 0, 15, 1)),
    Line("sources --keep-going many", (150, 0, 30, 1)),
    Line("index --keep-going -o - many", (180, 0, 40, 1)),
    Line("lint many", (150, 0, 20, 1)),
    Line("sources --rows many", (150, 0, 30, 1)),
    Line("index -o - many", (180, 0, 40, 1)),
    Line("addr many", (180, 2, 40, 1), ANSWERS,
         stdin="".join(f"0x{0x8000 + 32 * (17 * n % 50):x}\n" for n in range(50))),
    # Files whose line table stands in another one.
    Line("dump --debug-dir debug by-id", (150, 0, 20, 1), open=(AGAIN, UNTOLD, MISTOLD)),
    Line("addr --debug-dir debug by-id 0x1000", (150, 0, 30, 1), ANSWERS, (AGAIN, UNTOLD, MISTOLD)),
    Line("dump --debug-dir none by-link", (150, 0, 20, 1), open=(AGAIN, UNTOLD, MISTOLD)),
]

OF_SEVERAL = [
    Line("dump lib.a", (150, 0, 30, 2), PARTS, OF_AN_ARCHIVE),
    Line("check lib.a", (150, 0, 30, 2), PARTS, OF_AN_ARCHIVE),
    Line("sources lib.a", (150, 0, 30, 2), PARTS, OF_AN_ARCHIVE),
    Line("lint lib.a", (150, 0, 30, 2), PARTS, OF_AN_ARCHIVE),
    Line("dump lib.a(object.o)", (150, 0, 20, 1), open=(AGAIN,)),
    Line("addr lib.a(program) 0x4010b0", (150, 0, 30, 1), ANSWERS, (AGAIN,)),
    Line("index -o - lib.a(program)", (180, 0, 40, 1), open=(AGAIN,)),
    Line("check program older", (150, 0, 30, 2), PARTS, OF_FILES),
    Line("check --files-from names", (150, 1, 30, 2), PARTS, OF_FILES),
    Line("check --files-from - -0", (150, 1, 30, 2), PARTS, OF_FILES, stdin="program\0older\0"),
]

OF_INDICES = [
    Line("addr index 0x4010b0 0x401099", (140, 0, 3, 1), ANSWERS),
    Line("addr index", (140, 2, 3, 1), ANSWERS, stdin=ASKED),
    Line("addr --for apart.debug apart.index 0x1000", (140, 0, 3, 1), ANSWERS, (AGAIN, UNTOLD, ENDS)),
    Line("index --list index", (130, 2, 0, 1), open=(AGAIN,)),
]

OF_SECTIONS = [
    Line(f"dump {STRINGS}", (150, 4, 0, 1), stdin=b"debug_line"),
    Line(f"dump --json {STRINGS}", (150, 4, 0, 1), stdin=b"debug_line"),
    Line("check", (130, 2, 0, 1), stdin=b"debug_line"),
    Line(f"find 0x4010b0 {STRINGS}", (150, 4, 0, 1), stdin=b"debug_line"),
    Line("copy", (130, 2, 0, 1), open=(AGAIN, SPARED), stdin=b"debug_line"),
    Line(f"addr {STRINGS} - 0x4010b0 1", (150, 4, 0, 1), ANSWERS, stdin=b"debug_line"),
    Line(f"sources --rows {STRINGS}", (150, 4, 0, 1), stdin=b"debug_line"),
    Line(f"sources --rows --unit 0 {STRINGS}", (150, 4, 0, 1), stdin=b"debug_line"),
    Line(f"lines {STRINGS} - series.c:5", (150, 4, 0, 1), ANSWERS, stdin=b"debug_line", unknown=NO_LINE),
    Line(f"lint {STRINGS}", (150, 4, 0, 1), stdin=b"debug_line"),
    Line("dump", (130, 4, 0, 3), stdin=b"long_line"),
    Line("copy", (130, 4, 0, 1), open=(AGAIN, SPARED), stdin=b"long_line"),
    Line("copy --older 8 --to-5 --comp-dir /c", (130, 2, 0, 1), stdin=b"older_line"),
]

LINES = (OF_A_PROGRAM + OF_OTHER_FILES + OF_SEVERAL + OF_INDICES
         + [line._replace(open=line.open[:-1] if UNTOLD in line.open else line.open) for line in OF_SECTIONS])


# An address of an index of 20,000 stretches takes so many reads: six to open it; five halvings of its starts leave one
# piece, and then come that piece and nine numbers and rows; and three of its texts.
READS = 24
# Two addresses, and how many reads the second one takes. Stretches begin every 5 addresses, and a piece of starts is
# some 3,000 addresses long.
NEAR = [
    # Of the same stretch: its texts alone.
    (BASE + 53, BASE + 54, 3),
    # Of another one in the piece: the numbers and rows of that.
    (BASE + 53, BASE + 61, 12),
    (BASE + 61, BASE + 53, 12),
    # Of another piece.
    (BASE + 53, BASE + 90_000, 18),
    (BASE + 90_000, BASE + 53, 18),
]

# Command lines over a file, and the sections whose bytes are read: the status is 3 where one can't be, and no other
# section makes a difference.
LINE_TABLE = (".shstrtab", ".debug_line")
NAMED = LINE_TABLE + (".debug_line_str",)
DIRECTORIES = (".debug_info", ".debug_abbrev", ".debug_str")
OBJECT = NAMED + (".rela.debug_line", ".symtab")

NEEDED = [
    ("dump program", "program", NAMED),
    ("check program", "program", LINE_TABLE),
    ("addr program 0x4010b0", "program", NAMED + DIRECTORIES),
    ("copy program", "program", LINE_TABLE),
    ("index -o - program", "program", NAMED + DIRECTORIES),
    ("sources program", "program", NAMED + DIRECTORIES),
    ("lint program", "program", NAMED),
    ("dump older", "older", LINE_TABLE),
    ("dump --paths older", "older", LINE_TABLE + DIRECTORIES),
    ("addr older 0x401099", "older", LINE_TABLE + DIRECTORIES),
    ("addr --comp-dir /c older 0x401099", "older", LINE_TABLE),
    ("dump object.o", "object.o", OBJECT),
    ("addr -j .text._start object.o 0", "object.o", OBJECT + DIRECTORIES + (".rela.debug_info",)),
    ("dump compressed", "compressed", NAMED),
]
