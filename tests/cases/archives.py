"""Archives of the files `one.txt`, `three.txt` and `a_name_of_more_than_16.txt`, whose bytes are `one` and a newline,
`three` and `22`: how many members there are is told, since none has a line table, and whether an archive is damaged."""

from cases.elf_cases import Case

NAMES = ("one.txt", "three.txt", "a_name_of_more_than_16.txt")


def member(name, size, content=b""):
    """The header of a member, and its bytes."""
    return b"%-16s%-12d%-6d%-6d%-8d%-10s`\n" % (name, 0, 0, 0, 644, size) + content


# The header of the table of names has blanks in place of most fields.
LONG_NAMES = b"//%46s%-10d`\n" % (b"", 28) + b"a_name_of_more_than_16.txt/\n"

# By `ar rcD`, and where its entries end.
GNU = (b"!<arch>\n" + LONG_NAMES + member(b"one.txt/", b"4", b"one\n") + member(b"three.txt/", b"5", b"three\n")
       + member(b"/0", b"2", b"22"))
GNU_ENDS = (96, 160, 225, 288)
# By `llvm-ar --format=bsd rcD`.
BSD = (b"!<arch>\n" + member(b"#1/12", b"16", b"one.txt\0\0\0\0\0one\n")
       + member(b"#1/16", b"21", b"three.txt\0\0\0\0\0\0\0three\n")
       + member(b"#1/30", b"32", b"a_name_of_more_than_16.txt\0\0\0\0" + b"22"))
BSD_ENDS = (84, 165, 258)
# By `ar rcTD`.
THIN = (b"!<thin>\n" + b"//%46s%-10d`\n" % (b"", 48) + b"one.txt/\nthree.txt/\na_name_of_more_than_16.txt/\n"
        + member(b"/0", b"4") + member(b"/9", b"5") + member(b"/20", b"2"))

# Names and sizes: a name past the table, a size that is no number, and one that is more than there is; and how many
# members come before.
DAMAGED = [
    ("no name", b"!<arch>\n" + LONG_NAMES + member(b"/28", b"2", b"22"), 0),
    ("no size", b"!<arch>\n" + member(b"one.txt/", b"4", b"one\n") + member(b"two.txt/", b"0x4", b"two\n"), 1),
    ("too long", b"!<arch>\n" + member(b"one.txt/", b"5", b"one\n"), 0),
]


def counts(name, archive, count, is_whole):
    fault = "" if is_whole else "dwline: elf: damaged archive\n"
    return Case(name, archive, ["check", "--verbose", "elf"], int(not is_whole), "",
                f"elf: {count} members without a line table\n{fault}")


def fronts():
    """A front ends where an entry ends, or may end there but for a newline, or is cut in an entry."""
    for name, archive, ends, tables in [("GNU", GNU, GNU_ENDS, 1), ("BSD", BSD, BSD_ENDS, 0)]:
        for length in range(8, len(archive) + 1):
            whole = [end for end in ends if end <= length]
            start = max([8] + [end + end % 2 for end in whole])
            yield counts(f"{name}, {length} bytes", archive[:length], max(0, len(whole) - tables), length <= start)
    yield counts("empty", b"!<arch>\n", 0, True)
    for archive in (b"!<arch>", b"\x7fELF\2\1\1\0"):
        yield Case(f"{archive}", archive, ["check", "elf"], 1, "", "dwline: elf: not an ELF file\n")


def damaged():
    for name, archive, count in DAMAGED:
        yield counts(name, archive, count, False)


def names():
    """Each member by its name; those of a thin archive are files."""
    missing = "cannot open: No such file or directory (os error 2)"
    for archive, status, fault in [(GNU, 1, "not an ELF file"), (BSD, 1, "not an ELF file"), (THIN, 3, missing)]:
        for name in NAMES:
            yield Case(name, archive, ["check", f"elf({name})"], status, "", f"dwline: elf({name}): {fault}\n")
        yield Case("another", archive, ["check", "elf(one)"], 1, "", "dwline: elf(one): no such member\n")
    yield Case("thin", THIN, ["check", "elf"], 3, "",
               "".join(f"dwline: elf({name}): {missing}\n" for name in NAMES))


GROUPS = [fronts, damaged, names]
