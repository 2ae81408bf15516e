"""Cases of archives and of their members by name. Their members are `one.o`, an ELF file with a unit of three rows,
`notes.txt` and `bare.o`, an ELF file without sections."""
from cases.elf_cases import Case
from cases.elf_jobs import THREE_ROWS
from lib.elf import LITTLE_32, Section, file_header, image

ONE = image(LITTLE_32, [Section(".debug_line", THREE_ROWS)])
BARE = file_header(LITTLE_32, 0, 1)[:48] + bytes(4)


def member(name, content, size=None):
    """The header of a member, whose name has a slash or none, and its bytes."""
    size = len(content) if size is None else size
    return f"{name:16}{0:<12}{0:<6}{0:<6}{644:<8}{size:<10}`\n".encode("latin-1") + content


LONG = "a_name_of_more_than_16.o"
MAGIC, THIN_MAGIC = b"!<arch>\n", b"!<thin>\n"


def special(name, content):
    """A table of symbols or of names, as GNU ar writes it."""
    return f"{name:48}{len(content):<10}`\n".encode() + content


def even(content):
    return content + b"\n" * (len(content) % 2)


# As `ar rcD` makes it: a table of symbols, and a table of long names.
GNU = MAGIC + b"".join(map(even, [
    f"{'/':16}{0:<12}{0:<6}{0:<6}{0:<8}{4:<10}`\n".encode() + bytes(4), special("//", f"{LONG}/\n".encode()),
    member("one.o/", ONE), member("notes.txt/", b"text\n"), member("bare.o/", BARE), member("/0", ONE)]))

# As `llvm-ar --format=bsd rcD` makes it: the names stand before the bytes.
BSD = MAGIC + b"".join(map(even, [
    member("#1/12", b"one.o".ljust(12, b"\0") + ONE), member("#1/14", b"notes.txt".ljust(14, b"\0") + b"text\n"),
    member("#1/30", LONG.encode().ljust(30, b"\0") + ONE)]))

# As `ar rcTD` makes it: the members are other files.
THIN = THIN_MAGIC + special("//", f"one.o/\nnotes.txt/\n{LONG}/\n".encode()) + b"".join([
    member("/0", b"", len(ONE)), member("/7", b"", 5), member("/18", b"", len(ONE))])

# As `ar qD` makes it, twice.
TWICE = MAGIC + even(member("one.o/", b"first")) + member("one.o/", ONE)

# The header of the second member is cut.
CUT = MAGIC + even(member("one.o/", ONE)) + member("notes.txt/", b"")[:44]

# A name with parentheses, and one that isn't UTF-8.
ODD = MAGIC + even(member("one(1).o/", ONE)) + member("one\xff.o/", ONE)

# An ELF file whose header is cut.
SHORT = MAGIC + member("cut.o/", file_header(LITTLE_32, 255, 3) + b"." * 8)

COUNTS = "units 1 skipped 0 sequences 1 rows 3\n"
ROWS = ("unit 0x0 dwarf32 version 5 address_size 8\nrow 0x0000000000401000 0 1 2 0 stmt\n"
        "row 0x0000000000401004 0 1 3 0 stmt\nrow 0x0000000000401006 0 1 3 0 stmt end\n")


class InFolder(Case):
    """A case of the archive `out/lib.a`, beside which there is the file of a member of thin archives."""

    def files(self):
        return [("out/lib.a", self.file), ("out/one.o", ONE), ("input", self.input)]


def of_each(output, *names):
    return "".join(f"out/lib.a({name}):\n{output}" for name in names)


def not_opened(*names):
    reason = "cannot open: No such file or directory (os error 2)"
    return "".join(f"dwline: out/lib.a({name}): {reason}\n" for name in names)


def walks():
    """Each member that is an ELF file with sections has its lines, in the order of the archive."""
    for name, archive, words, status, output, errors in [
        ("GNU ar", GNU, "check", 0, of_each(COUNTS, "one.o", LONG), ""),
        ("GNU ar", GNU, "check --verbose", 0, of_each(COUNTS, "one.o", LONG),
         "out/lib.a: 2 members without a line table\n"),
        ("llvm-ar", BSD, "check", 0, of_each(COUNTS, "one.o", LONG), ""),
        ("llvm-ar", BSD, "check --verbose", 0, of_each(COUNTS, "one.o", LONG),
         "out/lib.a: 1 members without a line table\n"),
        ("a thin archive", THIN, "check", 3, of_each(COUNTS, "one.o"), not_opened("notes.txt", LONG)),
        ("one name twice", TWICE, "dump --keep-going", 0, of_each(ROWS, "one.o"), ""),
        ("odd names", ODD, "check", 0, of_each(COUNTS, "one(1).o", "one?.o"), ""),
        ("a cut header", CUT, "check", 1, of_each(COUNTS, "one.o"), "dwline: out/lib.a: damaged archive\n"),
        ("no member", MAGIC, "check", 0, "", ""),
        ("a cut member", SHORT, "check", 1, of_each("", "cut.o"),
         "dwline: out/lib.a(cut.o): damaged ELF file: section headers\n"),
    ]:
        yield InFolder(name, archive, [*words.split(), "out/lib.a"], status, output, errors)


class Named(Case):
    """A case of archives by several names."""

    def files(self):
        return [(name, self.file) for name in ("lib.a", "out (2)/lib.a", "a(b)", "a(b")] + [("input", self.input)]


def names():
    """A path that ends in `(MEMBER)` names a member of an archive, where neither is empty. Here it has none of that
    name, and other paths are no file's."""
    for path in ("lib.a(one.c)", "out (2)/lib.a(one.c)", "a(b)(c)", "a(b(c))"):
        yield Named(path, BSD, ["check", path], 1, "", f"dwline: {path}: no such member\n")
    for path in ("lib.a(one.o", "lib.a(one.o) ", "lib.a()", "(one.o)", ")", ""):
        yield Named(path, BSD, ["check", path], 3, "",
                    f"dwline: {path}: cannot open: No such file or directory (os error 2)\n")
    for path in ("lib.a(one.o)", "out (2)/lib.a(one.o)", "a(b)(one.o)"):
        yield Named(path, BSD, ["check", path], 0, COUNTS)
    yield Named("a(b(c))", MAGIC + member("c)/", ONE), ["check", "a(b(c))"], 0, COUNTS)


GROUPS = [walks, names]
