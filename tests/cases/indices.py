"""Indices: rows and the stretches that they become, what an index tells of its addresses, and damaged ones."""

from typing import NamedTuple

from lib.indices import END, File, Stretch

LAST = END - 1


class Rows(NamedTuple):
    """Rows of units, each with an address, an op_index, a line and maybe a file, and without a line at the end of a
    sequence; and the stretches that they become, each with a start and a line, maybe with a file, or with None for a
    gap. A sequence that begins below 0x100 is outside the code."""
    name: str
    units: list
    stretches: list


def one_unit(name, rows, stretches):
    return Rows(name, [rows], stretches)


ROWS = [
    one_unit("no rows", [], []),
    one_unit("rows with the same line, and of several in one place the last one",
             [(0x1000, 0, 1), (0x1004, 0, 1), (0x1008, 0, 2), (0x1008, 0, 3), (0x100c, 0, 1), (0x1010, 0, None)],
             [(0x1000, 1), (0x1008, 3), (0x100c, 1), (0x1010, None)]),
    one_unit("the last row in a place says what the one before that place says",
             [(0x1000, 0, 1), (0x1004, 0, 2), (0x1004, 0, 1), (0x1008, 0, None)],
             [(0x1000, 1), (0x1008, None)]),
    one_unit("a row with an op_index above 0 answers from the next address on",
             [(0x1000, 1, 1), (0x1004, 0, 2), (0x1004, 1, 3), (0x1005, 0, 4), (0x1008, 2, None)],
             [(0x1001, 1), (0x1004, 2), (0x1005, 4), (0x1009, None)]),
    one_unit("the first of two sequences that cover an address answers, gaps stand between",
             [(0x1008, 0, 1), (0x1010, 0, None), (0x1000, 0, 2), (0x100c, 0, 3), (0x1014, 0, None), (0x1020, 0, 3),
              (0x1024, 0, None), (0x1014, 0, 4), (0x1018, 0, None)],
             [(0x1000, 2), (0x1008, 1), (0x1010, 3), (0x1014, 4), (0x1018, None), (0x1020, 3), (0x1024, None)]),
    one_unit("neighbours that say the same are one",
             [(0x1010, 0, 1), (0x1020, 0, None), (0x1000, 0, 1), (0x1010, 0, None)],
             [(0x1000, 1), (0x1020, None)]),
    one_unit("falling and dead sequences, and such without addresses",
             [(0x1000, 0, 1), (0xffc, 0, 2), (0x1010, 0, None), (0x80, 0, 3), (0x1010, 0, None), (0x1000, 0, 4),
              (0x1010, 0, 4), (0x1008, 0, None), (0x1000, 0, 5), (0x1000, 0, None), (0x1000, 0, None),
              (0x1000, 0, 6), (0x1004, 0, None)],
             [(0x1000, 6), (0x1004, None)]),
    one_unit("up to below the last address",
             [(LAST - 1, 0, 1), (LAST, 1, 2), (LAST, 1, None)],
             [(LAST - 1, 1)]),
    one_unit("the last address is covered by an end row with an op_index alone",
             [(LAST - 1, 0, 1), (LAST, 0, None), (LAST - 1, 0, 2), (LAST, 1, None)],
             [(LAST - 1, 1), (LAST, 2)]),
    # A file of one path in two units is two files, since an answer tells its unit too.
    Rows("files of two units",
         [[(0x1000, 0, 1, 0), (0x1010, 0, 1, 1), (0x1020, 0, None)],
          [(0x1018, 0, 1, 0), (0x1028, 0, 1, 1), (0x1030, 0, 1, 1), (0x1040, 0, None)]],
         [(0x1000, 1, 0, 0), (0x1010, 1, 0, 1), (0x1020, 1, 1, 0), (0x1028, 1, 1, 1), (0x1040, None)]),
    # Numbers that the table of files doesn't have are one file without a path.
    Rows("numbers past the table",
         [[(0x1000, 0, 1, 1), (0x1004, 0, 1, 0x7FFF_FFFF_FFFF_FFFE), (0x1008, 0, 1, LAST), (0x100c, 0, None)]],
         [(0x1000, 1, 0, 1), (0x1004, 1, 0, None), (0x100c, None)]),
    # Numbers of each width.
    Rows("the greatest lines", [[(0x1000, 0, LAST), (0x1001, 0, 255), (0x1002, 0, None)]],
         [(0x1000, LAST), (0x1001, 255), (0x1002, None)]),
    *[one_unit(f"{span} addresses", [(0x1000, 0, 1), (0x1000 + span, 0, None)], [(0x1000, 1), (0x1000 + span, None)])
      for span in (0xFF, 0x100, 0xFFFF, 0x1_0000, 0xFFFF_FFFF, 0x1_0000_0000)],
]

# ---- a sample

MAIN = File(0, ("/home/user/", "src/", "main.c"))
STDIO = File(0x50, ("/usr/include/", "stdio.h"))
SAMPLE = [
    Stretch(0x401000, MAIN, 10, 3), Stretch(0x401004, MAIN, 11, 0, 2, False), Stretch(0x401009),
    Stretch(0x401100, STDIO, 70000, 300), Stretch(0x401108, STDIO, 70001, 7, 0, False),
    Stretch(0x401110, MAIN, 12, 1), Stretch(0x401118, MAIN, 13, 1, 0, False), Stretch(0x40111c, File(0x1234), 5),
    Stretch(0x401120, MAIN, 14, 65535, 255, False), Stretch(0x401124, STDIO, 1, 1, 1), Stretch(0x401200),
]
# Places of texts, of all lengths; and at the last address of all the greatest numbers.
OTHER = [
    Stretch(0, File(0x40, ("/src/", "lib/", "b.h")), LAST, 0x1_0000_0000, 0xFFFF_FFFF, False),
    Stretch(1, File(0x40, ("/src/", "a.c")), 0, 0x1_0000, 0x100), Stretch(2),
    Stretch(LAST, File(0x140), 1),
]
# A character of two bytes that two texts share, a backslash, and the end of a line.
ODD = [Stretch(16, File(0, ("/home/user\udcc3", "\udca9\\c/", "\nain.c")), 10), Stretch(20)]
ODD_LISTING = ("0x0000000000000010 0x0000000000000014 /home/user\\xc3\\xa9\\\\c/\\x0aain.c:10\n"
               "0x0000000000000014 0x10000000000000000 ??:0\n")

# How many stretches an index has, and how far the addresses stand apart that are asked of it.
SIZES = [(1, 1), (2, 1), (500, 7), (2047, 19), (2048, 19), (2049, 19), (20_000, 167)]
BASE = 0x401000
TOLD = [File(0x40, ("/src/", "a.c")), File(0x40, ("/src/", "lib/", "b.h")), File(0x140)]


def many(count):
    """So many stretches, of seven of which one is a gap."""
    return [Stretch(BASE + 5 * k + k % 4) if k % 7 == 6 else
            Stretch(BASE + 5 * k + k % 4, TOLD[k % 3], 31 * k % 100_000, k % 200, k % 5, k % 2 == 0)
            for k in range(count)]


# ---- damage

NO_INDEX = "not an index"
LENGTH, PLACE, SUM, ORDER, OF_FILE, TEXT = ("damaged index: " + part for part in (
    "length", "place of a part", "sum", "order of starts", "number of a file", "place in the texts"))

# A byte of the sample that is changed, and the fault. The sums are right but for those of the last three.
CHANGES = [
    ("a letter of the magic", 0, 68, NO_INDEX),
    ("version 2", 8, 2, "an index of version 2"),
    ("version 257", 9, 1, "an index of version 257"),
    ("eight bytes more", 16, 216, LENGTH),
    ("a width of 3", 64, 3, PLACE),
    ("a width of 0", 68, 0, PLACE),
    ("starts of 4 bytes", 64, 4, PLACE),
    ("200 stretches", 32, 200, PLACE),
    ("2^63 stretches and more", 39, 128, PLACE),
    ("2^60 files and more", 47, 16, PLACE),
    ("a build ID of 33 bytes", 80, 33, PLACE),
    ("the first start is 1", 128, 1, ORDER),
    ("two equal starts", 132, 4, ORDER),
    ("a start below the one before it", 149, 0, ORDER),
    ("file 4 of three", 152, 4, OF_FILE),
    ("text 6 of five", 272, 6, TEXT),
    ("the third text of a file is text 2^24", 283, 1, TEXT),
    ("a text that ends one byte later", 408, 8, TEXT),
    ("a text at 2^56 and more", 343, 1, TEXT),
    ("another base", 25, 17, SUM),
    ("another line", 168, 11, SUM),
    ("a byte between parts", 163, 1, SUM),
]
# How many of its bytes there are, and the fault.
CUT = [(0, NO_INDEX), (7, NO_INDEX), (8, LENGTH), (127, LENGTH), (456, LENGTH)]
