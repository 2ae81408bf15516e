"""Locations of addresses in sections.

The sections are worked by hand from DWARF 5, section 6.2."""
from lib.worked import Case, damage, objects, told

# Directories `/src`, `lib`, `/abs`, `C:\\win` and `D:/w`; a row for each of ten files and for one that the table
# lacks, from 0x1000 on, 16 bytes each; the columns are those of the files.
PATHS = bytes.fromhex("""
    f0 00 00 00 05 00 08 00 79 00 00 00 01 01 01 fb 0e 0d 00 01 01 01 01 00 00 00 01 00 00 01 01 01 08 05 2f 73 72 63
    00 6c 69 62 00 2f 61 62 73 00 43 3a 5c 77 69 6e 00 44 3a 2f 77 00 02 01 08 02 0f 0a 6d 61 69 6e 2e 63 00 00 6d 61
    69 6e 2e 63 00 00 61 2e 63 00 01 62 2e 63 00 02 2f 77 68 6f 6c 65 2e 63 00 01 63 2e 63 00 03 45 3a 5c 65 2e 63 00
    01 78 01 79 7f 2e 63 00 00 67 2e 63 00 09 68 2e 63 00 04 00 09 02 00 10 00 00 00 00 00 00 04 00 03 09 01 02 10 04
    01 03 01 05 01 01 02 10 04 02 03 01 05 02 01 02 10 04 03 03 01 05 03 01 02 10 04 04 03 01 05 04 01 02 10 04 05 03
    01 05 05 01 02 10 04 06 03 01 05 06 01 02 10 04 07 03 01 05 07 01 02 10 04 08 03 01 05 08 01 02 10 04 09 03 01 05
    09 01 02 10 04 14 03 0b 05 02 01 02 10 00 01 01""")

# Directories `work` and `lib`, and a row for each of two files `m.c`, from 0x2000 on.
RELATIVE = bytes.fromhex("""
    55 00 00 00 05 00 08 00 2f 00 00 00 01 01 01 fb 0e 0d 00 01 01 01 01 00 00 00 01 00 00 01 01 01 08 02 77 6f 72 6b
    00 6c 69 62 00 02 01 08 02 0f 02 6d 2e 63 00 00 6d 2e 63 00 01 00 09 02 00 20 00 00 00 00 00 00 04 00 05 01 01 02
    10 04 01 03 01 05 02 01 02 10 00 01 01""")

# No directory; one row at 0x3000 of four bytes, for `n.c` of directory 0.
NODIR = bytes.fromhex("""
    3e 00 00 00 05 00 08 00 21 00 00 00 01 01 01 fb 0e 0d 00 01 01 01 01 00 00 00 01 00 00 01 01 01 08 00 02 01 08 02
    0f 01 6e 2e 63 00 00 00 09 02 00 30 00 00 00 00 00 00 04 00 05 01 01 02 04 00 01 01""")

# `/d/dead.c` from 0 to 0x80, as a linker leaves the sequence of a function that it drops, and after it `/d/live.c`
# from 0x40 to 0x50.
DEAD = bytes.fromhex("""
    68 00 00 00 05 00 08 00 2f 00 00 00 01 01 01 fb 0e 0d 00 01 01 01 01 00 00 00 01 00 00 01 01 01 08 01 2f 64 00 02
    01 08 02 0f 02 64 65 61 64 2e 63 00 00 6c 69 76 65 2e 63 00 00 00 09 02 00 00 00 00 00 00 00 00 04 00 05 01 01 02
    40 03 01 05 02 01 02 40 00 01 01 00 09 02 40 00 00 00 00 00 00 00 03 06 05 03 01 02 10 00 01 01""")

# `/o/one.c` from 0x100 to 0x180, and `/o/two.c` from 0x140 to 0x1c0.
OVER = bytes.fromhex("""
    61 00 00 00 05 00 08 00 2d 00 00 00 01 01 01 fb 0e 0d 00 01 01 01 01 00 00 00 01 00 00 01 01 01 08 01 2f 6f 00 02
    01 08 02 0f 02 6f 6e 65 2e 63 00 00 74 77 6f 2e 63 00 00 00 09 02 00 01 00 00 00 00 00 00 04 00 05 01 01 02 80 01
    00 01 01 00 09 02 40 01 00 00 00 00 00 00 03 01 05 02 01 02 80 01 00 01 01""")

# `/t/top.c` from 2^64 - 16 up to the end row at 2^64 - 1.
TOP = bytes.fromhex("""
    43 00 00 00 05 00 08 00 26 00 00 00 01 01 01 fb 0e 0d 00 01 01 01 01 00 00 00 01 00 00 01 01 01 08 01 2f 74 00 02
    01 08 02 0f 01 74 6f 70 2e 63 00 00 00 09 02 f0 ff ff ff ff ff ff ff 04 00 05 01 01 02 0f 00 01 01""")


# A unit of version 4.
FOREIGN = bytes.fromhex("""
    06 00 00 00 04 00 aa bb cc dd""")


# Directories `/d` and `e`, which end with bytes that begin a character, an empty one and `f\`. Files by a name that
# begins with a byte that ends a character in each of the first two, a file without a name, `n.c` in two directories,
# and one by a quote and a newline.
BORDERS = bytes.fromhex("""
    8b 00 00 00 05 00 08 00 41 00 00 00 01 01 01 fb 0e 0d 00 01 01 01 01 00 00 00 01 00 00 01 01 01 08 04 2f 64 c3 00
    65 e2 82 00 00 66 5c 00 02 01 08 02 0f 06 a9 2e 63 00 01 80 71 00 00 00 01 6e 2e 63 00 02 22 0a 00 03 6e 2e 63 00
    01 00 09 02 00 a0 00 00 00 00 00 00 04 00 05 01 01 02 10 04 01 03 01 05 02 01 02 10 04 02 03 01 05 03 01 02 10 04
    03 03 01 05 04 01 02 10 04 04 03 01 05 05 01 02 10 04 05 03 01 05 06 01 02 10 00 01 01""")

# Directories `/x` and `y`, with `z.c` in the latter and `w.c` in the former.
OTHER = bytes.fromhex("""
    51 00 00 00 05 00 08 00 2b 00 00 00 01 01 01 fb 0e 0d 00 01 01 01 01 00 00 00 01 00 00 01 01 01 08 02 2f 78 00 79
    00 02 01 08 02 0f 02 7a 2e 63 00 01 77 2e 63 00 00 00 09 02 00 b0 00 00 00 00 00 00 04 00 05 01 01 02 10 04 01 03
    01 05 02 01 02 10 00 01 01""")

# Directories `C:`, `s\t` and `D:`, with `a\b.c` in the first two and `u\v.c` in the third.
DRIVES = bytes.fromhex("""
    6a 00 00 00 05 00 08 00 3b 00 00 00 01 01 01 fb 0e 0d 00 01 01 01 01 00 00 00 01 00 00 01 01 01 08 03 43 3a 00 73
    5c 74 00 44 3a 00 02 01 08 02 0f 03 61 5c 62 2e 63 00 00 61 5c 62 2e 63 00 01 75 5c 76 2e 63 00 02 00 09 02 00 c0
    00 00 00 00 00 00 04 00 05 01 01 02 10 04 01 03 01 05 02 01 02 10 04 02 03 01 05 03 01 02 10 00 01 01""")


# An empty directory 0, as `-ffile-prefix-map` leaves it, and `lib`; files `a.c` in directory 0, `b.c` in 1, `??` in
# 0, and `c.c` in one that isn't there.
NOWHERE = bytes.fromhex("""
    6c 00 00 00 05 00 08 00 34 00 00 00 01 01 01 fb 0e 0d 00 01 01 01 01 00 00 00 01 00 00 01 01 01 08 02 00 6c 69 62
    00 02 01 08 02 0f 04 61 2e 63 00 00 62 2e 63 00 01 3f 3f 00 00 63 2e 63 00 03 00 09 02 00 50 00 00 00 00 00 00 04
    00 05 01 01 02 10 04 01 03 01 05 02 01 02 10 04 02 03 01 05 03 01 02 10 04 03 03 01 05 04 01 02 10 00 01 01""")

# Directories `/`, an empty one, and `d/`; a file in each, and `h.c` in one that isn't there.
SLASHES = bytes.fromhex("""
    6e 00 00 00 05 00 08 00 36 00 00 00 01 01 01 fb 0e 0d 00 01 01 01 01 00 00 00 01 00 00 01 01 01 08 03 2f 00 00 64
    2f 00 02 01 08 02 0f 04 61 2e 63 00 00 62 2e 63 00 01 63 2e 63 00 02 68 2e 63 00 09 00 09 02 00 60 00 00 00 00 00
    00 04 00 05 01 01 02 10 04 01 03 01 05 02 01 02 10 04 02 03 01 05 03 01 02 10 04 03 03 01 05 04 01 02 10 00
    01 01""")

# Directories `/pwd` and an empty one, `a.c` in the latter, and a file without a name in the former.
EMPTY = bytes.fromhex("""
    4f 00 00 00 05 00 08 00 29 00 00 00 01 01 01 fb 0e 0d 00 01 01 01 01 00 00 00 01 00 00 01 01 01 08 02 2f 70 77 64
    00 00 02 01 08 02 0f 02 61 2e 63 00 01 00 00 00 09 02 00 70 00 00 00 00 00 00 04 00 05 01 01 02 10 04 01 03 01 05
    02 01 02 10 00 01 01""")


# Files in the directory `/d`, by names with a backslash, with bytes below 0x20 and 0x7f, and with bytes that are no
# UTF-8: 0xff, a byte that continues nothing, a character in too many bytes, a surrogate, characters that break off,
# one above U+10FFFF; and with characters of two and four bytes, one of which is the control character U+0085.
NAMES = bytes.fromhex("""
    c1 00 00 00 05 00 08 00 5c 00 00 00 01 01 01 fb 0e 0d 00 01 01 01 01 00 00 00 01 00 00 01 01 01 08 01 2f 64 00 02
    01 08 02 0f 09 71 5c 78 30 61 2e 63 00 00 71 0a 2e 63 00 00 c3 a9 2e 63 00 00 ff 80 2e 63 00 00 c0 80 ed a0 80 00
    00 e2 82 2e 63 e2 82 00 00 f0 9f 98 80 f4 90 80 80 00 00 c2 85 00 00 09 7f 5c 00 00 00 09 02 00 80 00 00 00 00 00
    00 04 00 05 01 01 02 10 04 01 03 01 05 02 01 02 10 04 02 03 01 05 03 01 02 10 04 03 03 01 05 04 01 02 10 04 04 03
    01 05 05 01 02 10 04 05 03 01 05 06 01 02 10 04 06 03 01 05 07 01 02 10 04 07 03 01 05 08 01 02 10 04 08 03 01 05
    09 01 02 10 00 01 01""")


# A unit of two files, in a directory `/q"` and by the names `a\b` and, in bytes that are no UTF-8, `\xff` after an e
# with an accent. Rows at 0x10, of discriminator 3 and no statement, and at 0x14.
QUOTES = bytes.fromhex("""
    52 00 00 00 05 00 08 00 2c 00 00 00 01 01 01 fb 0e 0d 00 01 01 01 01 00 00 00 01 00 00 01 01 01 08 01 2f 71 22 00
    02 01 08 02 0f 02 61 5c 62 00 00 c3 a9 ff 2e 63 00 00 00 09 02 10 00 00 00 00 00 00 00 04 00 06 00 02 04 03 01 02
    04 04 01 06 01 02 04 00 01 01""")


# An empty directory, with `src\x.c` and `y.c` in it.
BACKSLASHES = bytes.fromhex("""
    51 00 00 00 05 00 08 00 2b 00 00 00 01 01 01 fb 0e 0d 00 01 01 01 01 00 00 00 01 00 00 01 01 01 08 01 00 02 01 08
    02 0f 02 73 72 63 5c 78 2e 63 00 00 79 2e 63 00 00 00 09 02 00 d0 00 00 00 00 00 00 04 00 05 01 01 02 10 04 01 03
    01 05 02 01 02 10 00 01 01""")

# A directory and a file whose texts stand in the two string sections, at offsets 1 and 2.
STRINGS = bytes.fromhex("""
    3f 00 00 00 05 00 08 00 22 00 00 00 01 01 01 fb 0e 0d 00 01 01 01 01 00 00 00 01 00 00 01 01 01 1f 01 01 00 00 00
    01 01 0e 01 02 00 00 00 00 09 02 00 40 00 00 00 00 00 00 04 00 05 01 01 02 04 00 01 01""")



def addr(name, words, units, output, status=0, error="", **others):
    """Addresses of a section of these units. Where one has no answer the status is 1."""
    return Case(name, f"addr - {words}", b"".join(units), output, error, status, **others)


def asked(name, words, lines, units, output, status=0, error="", **others):
    """The same of addresses in lines on standard input, beside a file."""
    return addr(name, words, units, output, status, error, asked=lines, **others)


def not_address(number, word):
    return told(f"line {number}: {word} is no address")


def located(address, path, line, column, unit, discriminator=0, is_stmt=True):
    """The object of an address."""
    return objects(dict(address=f"0x{address:016x}", path=path, line=line, column=column, discriminator=discriminator,
                        is_stmt=is_stmt, unit=f"0x{unit:x}"))


# Addresses in the order in which they are given, one of them twice; in gaps, at the end of a sequence, and above all
# rows.
EACH = "0x1040 0x1c0 {}0x100f 1040 0x10b0 0x10af 0xffffffffffffffff 0xfffffffffffffffe 0"
EACH_TEXT = "/whole.c:14:4\n??:0\n{}/src/main.c:10\n/whole.c:14:4\n??:0\n??:30:2\n??:0\n/t/top.c:1:1\n??:0\n"
EACH_LINES = EACH.format("main ").replace(" ", "\n").encode()

CUT = b"".join([PATHS, TOP])[:-1]

ANSWERS = [
    addr("each address has its line", EACH.format(""), [OVER, FOREIGN, PATHS, TOP], EACH_TEXT.format(""), 1,
         in_file=False),
    asked("each line has its line", "", EACH_LINES, [OVER, PATHS, TOP], EACH_TEXT.format("??:0\n"), 1,
          not_address(3, "main")),
    # The first of two sequences that cover an address answers, also of two units.
    addr("the first sequence answers", "0x140 0x17f 0x180 0x45", [OVER, DEAD, PATHS],
         "/o/one.c:1:1\n/o/one.c:1:1\n/o/two.c:2:2\n/d/dead.c:2:2\n"),
    # The base is subtracted first, and the address stands before its location as it was given.
    asked("bases and addresses", "-a --base 0x555500000000", b"0x555500001010\n1010\nmain\n0xffffffffffffffff", [PATHS],
          "0x0000555500001010 /src/main.c:11:1\n0x0000000000001010 ??:0\n??:0\n0xffffffffffffffff ??:0\n", 1,
          not_address(3, "main")),
    # The whole units before a fault answer, and then the fault is told.
    addr("damaged units", "--stop 0xfffffffffffffffe 0x1010", [CUT], "??:0\n/src/main.c:11:1\n", 1, damage(314)),
    # Where nothing is asked for nothing is printed. The fault stands all the same.
    asked("no address", "", b"", [PATHS, TOP], ""),
    asked("no address in a damaged section", "", b"", [PATHS, b"\5"], "", 1, damage(245)),
    addr("no address in no section", "0x1000", [], "??:0\n", 1),
]

# A character doesn't go across the slash between two parts of a path, and the texts of one unit aren't those of
# another: an address of each file of `BORDERS` and of `OTHER`, the units in turns.
OF_EACH = "0xb000 0xa000 0xa010 0xb010 0xa020 0xa030 0xa040 0xa050"

ACROSS = [
    addr("borders", OF_EACH, [BORDERS, OTHER],
         r"""/x/y/z.c:1:1
/d\xc3/e\xe2\x82/\xa9.c:1:1
/d\xc3/\x80q:2:2
/x/w.c:2:2
/d\xc3/e\xe2\x82/:3:3
/d\xc3/n.c:4:4
/d\xc3/f\\/"\x0a:5:5
/d\xc3/e\xe2\x82/n.c:6:6
"""),
    addr("borders of basenames", f"-s {OF_EACH}", [BORDERS, OTHER],
         r"""z.c:1:1
\xa9.c:1:1
\x80q:2:2
w.c:2:2
:3:3
n.c:4:4
"\x0a:5:5
n.c:6:6
"""),
    # The characters are those of Python's bytes.decode("utf-8", "replace").
    addr("borders of objects", "--json 0xa000 0xb000 0xa040", [BORDERS, OTHER],
         located(0xa000, "/d\ufffd/e\ufffd/\ufffd.c", 1, 1, 0) + located(0xb000, "/x/y/z.c", 1, 1, 0x8f)
         + located(0xa040, '/d\ufffd/f\\/"\n', 5, 5, 0)),
    # A directory that is a drive alone makes a path in it one of Windows.
    addr("bare drives", "0xc000 0xc010 0xc020", [DRIVES], r"""C:/a\\b.c:1:1
C:/s\\t/a\\b.c:2:2
C:/D:/u\\v.c:3:3
"""),
    addr("basenames of bare drives", "-s 0xc000 0xc010 0xc020", [DRIVES], "b.c:1:1\nb.c:2:2\nv.c:3:3\n"),
]

DIRECTORIES = [
    # An empty directory puts nothing before a path.
    addr("empty directories", "0x5000 0x5010 0x7000 0x7010", [NOWHERE, EMPTY],
         "a.c:1:1\nlib/b.c:2:2\n/pwd/a.c:1:1\n/pwd/:2:2\n"),
    # Where a directory ends with a slash no second one follows.
    addr("directories with a slash", "0x6000 0x6010 0x6020", [SLASHES], "/a.c:1:1\n/b.c:2:2\n/d/c.c:3:3\n"),
    # A directory that isn't there puts nothing before a path, be it 0 or another.
    addr("directories that are missing", "0x3000 0x6030 0x5030", [NODIR, SLASHES, NOWHERE],
         "n.c:1:1\nh.c:4:4\nc.c:4:4\n"),
    # In an object a path that isn't known is null, and that of a file named `??` a string.
    addr("unknown paths", "--json 0x5020 0x10a0", [NOWHERE, PATHS],
         located(0x5020, "??", 3, 3, 0) + located(0x10a0, None, 30, 2, 0x70)),
]

# A backslash prints as two, so that a name with `\x0a` and one with a newline differ. Control bytes, and bytes that
# aren't part of UTF-8, print by their numbers.
ESCAPES = [
    addr("escapes", "0x8000 0x8010 0x8020 0x8030 0x8040 0x8050 0x8060 0x8070 0x8080", [NAMES],
         "/d/q\\\\x0a.c:1:1\n/d/q\\x0a.c:2:2\n/d/\u00e9.c:3:3\n/d/\\xff\\x80.c:4:4\n/d/\\xc0\\x80\\xed\\xa0\\x80:5:5\n"
         "/d/\\xe2\\x82.c\\xe2\\x82:6:6\n/d/\U0001f600\\xf4\\x90\\x80\\x80:7:7\n/d/\u0085:8:8\n"
         "/d/\\x09\\x7f\\\\:9:9\n"),
    addr("escapes of basenames", "-s 0x8000 0x8050 0x8080", [NAMES],
         "q\\\\x0a.c:1:1\n\\xe2\\x82.c\\xe2\\x82:6:6\n\\x09\\x7f\\\\:9:9\n"),
]

QUOTED = [
    asked("objects", "--json", b"0x13\nmain\n0x14\n0x1071\n0x18", [OVER, QUOTES, PATHS],
          located(0x13, '/q"/a\\b', 1, 0, 0x65, 3, False) + '{"address":null}\n'
          + located(0x14, '/q"/\u00e9\ufffd.c', 1, 0, 0x65) + located(0x1071, "/src/x\u0001y\u007f.c", 17, 7, 0xbb)
          + '{"address":"0x0000000000000018"}\n', 1, not_address(2, "main")),
    addr("quotes", "0x13 0x18", [OVER, QUOTES, PATHS], '/q"/a\\\\b:1\n??:0\n', 1),
]

# An address of each file of `PATHS`. A path that begins with a slash or a drive stands for itself, others stand under
# their directory, and a directory other than 0 under directory 0. One that isn't there puts nothing before them.
FILES = "0x1000 0x1010 0x1020 0x1030 0x1040 0x1050 0x1060 0x1070 0x1080 0x1090 0x10a0"

# The path under the compilation directory is one of Windows or not, and so is its last component.
UNDER = [
    (r"--comp-dir C:\w", r"C:\\w/src\\x.c:1:1" + "\n" + r"C:\\w/y.c:2:2" + "\n"),
    (r"-s --comp-dir C:\w", "x.c:1:1\ny.c:2:2\n"),
    ("--comp-dir /w", r"/w/src\\x.c:1:1" + "\n/w/y.c:2:2\n"),
    ("-s --comp-dir /w", r"src\\x.c:1:1" + "\ny.c:2:2\n"),
    ("-s", r"src\\x.c:1:1" + "\ny.c:2:2\n"),
]

DIRECTORY, FILE = b"./d\0", b"\0\0f.c\0"

# Where a string section isn't there, or an offset is outside it, the directory puts nothing before the path, and
# without its own text the path is `??`. Two backslashes before the name of a machine begin a whole path, of a file and
# of a directory; one doesn't.
TEXTS = [
    (DIRECTORY, FILE, "/d/f.c:1:1\n"),
    (None, FILE, "f.c:1:1\n"),
    (DIRECTORY, None, "??:1:1\n"),
    (DIRECTORY, b"\0\0f.c", "??:1:1\n"),
    (None, None, "??:1:1\n"),
    (b"?\\\\pc\\d\0", b"??\\\\pc\\f.c\0", "\\\\\\\\pc\\\\f.c:1:1\n"),
    (b"?\\\\pc\\d\0", b"??f.c\0", "\\\\\\\\pc\\\\d/f.c:1:1\n"),
    (b"?/d\0", b"??\\f.c\0", "/d/\\\\f.c:1:1\n"),
]

WHOLE = [
    addr("paths", FILES, [PATHS],
         "/src/main.c:10\n/src/main.c:11:1\n/src/lib/a.c:12:2\n/abs/b.c:13:3\n/whole.c:14:4\n" + r"C:\\win/c.c:15:5"
         + "\n" + r"E:\\e.c:16:6" + "\n" + r"/src/x\x01y\x7f.c:17:7" + "\ng.c:18:8\nD:/w/h.c:19:9\n??:30:2\n"),
    addr("basenames", f"-s {FILES}", [PATHS],
         "main.c:10\nmain.c:11:1\na.c:12:2\nb.c:13:3\nwhole.c:14:4\nc.c:15:5\ne.c:16:6\n" + r"x\x01y\x7f.c:17:7"
         + "\ng.c:18:8\nh.c:19:9\n??:30:2\n"),
    *(addr(f"paths, {words}", f"{words} 0xd000 0xd010", [BACKSLASHES], output) for words, output in UNDER),
    # Directory 0 may be relative too, and then nothing stands before it. Without it paths stand alone.
    addr("directory 0", "0x2000 0x2010 0x3000", [RELATIVE, NODIR], "work/m.c:1:1\nwork/lib/m.c:2:2\nn.c:1:1\n"),
    *(addr(f"texts {line_str} and {strings}", "0x4001", [STRINGS], output, line_str=line_str, strings=strings)
      for line_str, strings, output in TEXTS),
]

LIVE, DEAD_TOO, MAIN = "/d/live.c:7:3\n", "/d/dead.c:2:2\n", "/src/main.c:11:1\n"
NONE = "??:0\n"

# A sequence answers where its first address lies in the code, whatever its others do. The end of a range of code, which
# may pass 2^64, isn't in it. Without any code nothing answers.
OF_CODE = [
    addr(f"code of 0x{size:x} bytes from 0x{start:x} on", "0x45 0x50 0x1010", [PATHS, DEAD], "".join(lines),
         int(NONE in lines), code=((start, size),))
    for start, size, lines in [
        (0x40, 1, [LIVE, NONE, NONE]),
        (0, 1, [DEAD_TOO, DEAD_TOO, NONE]),
        (0x1000, (1 << 64) - 1, [NONE, NONE, MAIN]),
        (0, 0x1000, [DEAD_TOO, DEAD_TOO, NONE]),
        (0, 0x1001, [DEAD_TOO, DEAD_TOO, MAIN]),
        (0x1000, 0, [NONE, NONE, NONE]),
    ]
]

# An address, one with a 0x0d after it, blanks alone, one between blanks, what is none, a 0x0d that ends no line, an
# empty line, and a last line without its 0x0a.
LINES = b"0x10\n17\r\n \t \r\n\t 18 \nmain\n1\r2\n\n1f"


def answered(*addresses):
    return "".join("??:0\n" if address is None else f"0x{address:016x} ??:0\n" for address in addresses)


OF_LINES = [
    *(asked(f"lines, {words}", words, LINES, [TOP], answered(0x10, 0x17, 0x18, None, None, 0x1f), 1,
            not_address(5, "main")) for words in ("-a", "-a --hex")),
    asked("lines of decimal digits", "-a --decimal", LINES, [TOP], answered(0x10, 17, 18, None, None, None), 1,
          not_address(5, "main")),
]

TABLE = [*ANSWERS, *ACROSS, *DIRECTORIES, *ESCAPES, *QUOTED, *WHOLE, *OF_CODE, *OF_LINES]
