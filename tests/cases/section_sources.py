"""Source files of sections.

The sections are worked by hand from DWARF 5, section 6.2, and DWARF 4, section 6.2.4."""
from cases.section_addr import DEAD, RELATIVE
from lib.worked import Case, damage, objects, told

# Version 5, directory `/s` and `a.c` in it, up to its MD5 sum.
SUMMED = bytes.fromhex("""
    51 00 00 00 05 00 08 00 36 00 00 00 01 01 01 fb 0e 0d 00 01 01 01 01 00 00 00 01 00 00 01 01 01 08 01 2f 73 00 03
    01 08 02 0f 05 1e 01 61 2e 63 00 00""")

# A sum, of the bytes 0 to 15.
RISING = bytes.fromhex("""
    00 01 02 03 04 05 06 07 08 09 0a 0b 0c 0d 0e 0f""")

# A sum that is above it.
HIGH = bytes.fromhex("""
    ff 00 00 00 00 00 00 00 00 00 00 00 00 00 00 00""")

# Version 5, directory `/s` and `a.c` in it, without a sum.
UNSUMMED = bytes.fromhex("""
    3f 00 00 00 05 00 08 00 24 00 00 00 01 01 01 fb 0e 0d 00 01 01 01 01 00 00 00 01 00 00 01 01 01 08 01 2f 73 00 02
    01 08 02 0f 01 61 2e 63 00 00""")

# A row of file 0 at 0x1000, and an end row 8 bytes after it.
ONE_ROW = bytes.fromhex("""
    00 09 02 00 10 00 00 00 00 00 00 04 00 01 02 08 00 01 01""")

# Version 4, directory `d`, file 1 `x.c` in it; a row of file 1 at 0x3000 and one of file 0, which is none, at 0x3004,
# and an end row at 0x300c.
OLDER = bytes.fromhex("""
    39 00 00 00 04 00 1d 00 00 00 01 01 01 fb 0e 0d 00 01 01 01 01 00 00 00 01 00 00 01 64 00 00 78 2e 63 00 01 00 00
    00 00 09 02 00 30 00 00 00 00 00 00 01 02 04 04 00 01 02 08 00 01 01""")



def sources(name, words, units, output, error="", status=0, **others):
    words = f"sources {words} --older 8"
    return Case(f"{name}: {words}", words, b"".join(units), output, error, status, **others)


OF_DEAD = "/d/dead.c\n/d/live.c\n"
BOTH = OF_DEAD + "work/lib/m.c\nwork/m.c\n"

# Each path once, in the order of their bytes, whatever the order of the units. Entry 0 counts in version 5, and is none
# before; paths that aren't whole stand under the compilation directory.
PATHS = [
    sources("one order", "", [RELATIVE, DEAD, RELATIVE], BOTH),
    sources("another order", "", [DEAD, RELATIVE, DEAD], BOTH),
    sources("no unit", "", [], ""),
    sources("a whole directory", "--comp-dir /b", [RELATIVE, OLDER], "/b/d/x.c\n/b/work/lib/m.c\n/b/work/m.c\n"),
    sources("a directory", "--comp-dir b", [RELATIVE, OLDER], "b/d/x.c\nwork/lib/m.c\nwork/m.c\n"),
    sources("objects", "--json", [RELATIVE], objects(dict(path="work/lib/m.c"), dict(path="work/m.c"))),
]

# The rows of all units that name a path are added up, but for end rows, and the distances to the next rows of their
# sequences. A row that names no entry counts for none.
ROWS = [
    sources("rows", "--rows", [RELATIVE, DEAD, RELATIVE],
            "2 128 /d/dead.c\n1 16 /d/live.c\n2 32 work/lib/m.c\n2 32 work/m.c\n"),
    sources("rows of two units", "--rows", [DEAD, DEAD], "4 256 /d/dead.c\n2 32 /d/live.c\n"),
    sources("rows of an older unit", "--rows", [OLDER], "1 4 d/x.c\n"),
    # Sequences that begin where no code is count for nothing.
    sources("live rows", "--rows --json", [DEAD],
            objects(dict(path="/d/dead.c", rows=0, bytes=0), dict(path="/d/live.c", rows=1, bytes=16)),
            code=((0x40, 1),)),
]

RISING_SUM, HIGH_SUM = RISING.hex(), HIGH.hex()
DIFFER = told("two MD5 sums of one path")

SAME = [SUMMED, HIGH, ONE_ROW, UNSUMMED, ONE_ROW, SUMMED, HIGH, ONE_ROW]
OTHER = [SUMMED, HIGH, ONE_ROW, SUMMED, RISING, ONE_ROW]

# A path with two sums has a line for each, in their order, with the counts of the path. One that has a sum in one unit
# and none in another has that sum. Sixteen zeros are none: GNU as writes them for a source without a sum.
SUMS = [
    sources("a sum", "--md5", [SUMMED, RISING, ONE_ROW], f"{RISING_SUM} /s/a.c\n"),
    sources("a sum and none", "--rows --md5", SAME, f"3 24 {HIGH_SUM} /s/a.c\n"),
    sources("two sums", "--rows --md5", OTHER, f"2 16 {RISING_SUM} /s/a.c\n2 16 {HIGH_SUM} /s/a.c\n", DIFFER, 1),
    sources("objects of two sums", "--rows --md5 --json", OTHER,
            objects(dict(path="/s/a.c", rows=2, bytes=16, md5=RISING_SUM),
                    dict(path="/s/a.c", rows=2, bytes=16, md5=HIGH_SUM)), DIFFER, 1),
    sources("two sums that aren't asked for", "", OTHER, "/s/a.c\n"),
    sources("zeros", "--md5", [SUMMED, bytes(16), ONE_ROW], "- /s/a.c\n"),
    sources("a sum and zeros", "--md5", [SUMMED, RISING, ONE_ROW, SUMMED, bytes(16), ONE_ROW],
            f"{RISING_SUM} /s/a.c\n"),
    sources("no sums", "--md5", [RELATIVE], "- work/lib/m.c\n- work/m.c\n"),
    sources("an object without a sum", "--rows --md5 --json", [UNSUMMED, ONE_ROW],
            objects(dict(path="/s/a.c", rows=1, bytes=8, md5=None))),
]

# line_range of the first unit is 0.
BAD = DEAD[:16] + b"\0" + DEAD[17:]
DAMAGE = damage(16, "line range is 0")

OF_RELATIVE = "1 16 work/lib/m.c\n1 16 work/m.c\n"
ROWS_OF_DEAD = "2 128 /d/dead.c\n1 16 /d/live.c\n"
NO_UNIT = told("no unit at this offset")
FOUR = [DEAD, RELATIVE, DEAD, OLDER]


def of_unit(name, offset, units, output, error="", status=0):
    return sources(name, f"--rows --unit {offset}", units, output, error, status)


DAMAGED = [
    # The paths of the whole units before a fault are told.
    *(sources(f"{length} bytes", "", [(DEAD + RELATIVE)[:length]], OF_DEAD, damage(length), 1)
      for length in (109, 138, 178, 196)),
    sources("no damage", "--keep-going", [DEAD, RELATIVE], BOTH),
    sources("a damaged unit", "--keep-going", [BAD, RELATIVE], "work/lib/m.c\nwork/m.c\n", DAMAGE, 1),
]

# Each unit tells its own paths with its own rows, also where another one names the same paths. A damaged unit before it
# is passed over, and of itself nothing is told; where no unit is there, the damaged one is the fault.
UNITS = [
    of_unit("the first unit", 0, FOUR, ROWS_OF_DEAD),
    of_unit("the second unit", 108, FOUR, OF_RELATIVE),
    of_unit("the third unit", 197, FOUR, ROWS_OF_DEAD),
    of_unit("the fourth unit", 305, FOUR, "1 4 d/x.c\n"),
    *(of_unit("no unit", offset, [DEAD, RELATIVE], "", NO_UNIT, 1) for offset in (1, 107, 197, (1 << 64) - 1)),
    of_unit("a damaged unit", 0, [BAD, RELATIVE], "", DAMAGE, 1),
    of_unit("a unit after damage", 108, [BAD, RELATIVE], OF_RELATIVE),
    of_unit("no unit before damage", 7, [BAD, RELATIVE], "", DAMAGE, 1),
    of_unit("a unit before the end", 0, [DEAD, RELATIVE[:5]], ROWS_OF_DEAD),
]

TABLE = [*PATHS, *ROWS, *SUMS, *DAMAGED, *UNITS]
