"""Archives and members of archives as FILE, and several files of check. What is printed of a member is compared with
what is printed of the same file by itself. Archives are made by GNU ar, and one with BSD names by hand."""

import functools
import os
import re
import shutil
import subprocess

from lib.elf import replaced, section_of
from lib.program import DWLINE, data, expect, folder, numbered, run, write

# A name that a field of an archive doesn't hold.
LONG = "a_name_that_is_longer_than_a_field.o"
MEMBERS = ["gcc.o", LONG]
ARCHIVES = ["lib.a", "thin.a", "bsd.a"]
DAMAGED = "damaged archive"
HALF = "dwline: stops.a(half.o): damaged ELF file: section headers\n"
UNOPENED = "cannot open: No such file or directory (os error 2)"


def skipped():
    return None if shutil.which("ar") else "ar isn't installed"


def cases():
    where = build()
    groups = [whole_archives(where), other_words(where), findings(where), refused_words(where), members(where),
              several_files(where)]
    yield from numbered(case for group in groups for case in group)
    for command in ("dump", "check", "sources", "lint"):
        yield f"{command} lib.a onto a full device", functools.partial(try_full, where, command)
    yield "check --progress", functools.partial(try_progress, where)


def build():
    """The folder with the members and the archives. It is made once, for all cases."""
    gcc = data("object-gcc", "program")
    damaged = replaced(gcc, section_of(gcc, ".debug_line")[1] + 8, b"\xff\xff")
    clang = data("object-clang", "program")
    where = folder({
        "gcc.o": gcc, LONG: clang, "linked": data("gcc-O2", "program"), "stripped": data("stripped", "program"),
        "text": b"no ELF file\n", "half.o": gcc[:len(gcc) // 2], "gone.o": gcc, "damaged.o": damaged,
        "bsd.a": b"!<arch>\n" + bsd_member("gcc.o", gcc) + bsd_member(LONG, clang), "one/same.o": gcc,
        "two/same.o": clang, "same.o": gcc, "linked(1)": data("gcc-O2", "program"),
        "cut": data("gcc-O2", "program")[:len(data("gcc-O2", "program")) // 2]})
    for line in ["rc lib.a gcc.o text stripped " + LONG, "rcT thin.a gcc.o text stripped " + LONG, "rc empty.a",
                 "rcS stops.a half.o gcc.o", "rcT unopened.a gone.o gcc.o", "rc damaged.a damaged.o gcc.o",
                 f"rcT whole-path.a {where}/gcc.o", "qc twice.a one/same.o two/same.o", "rc whole.a gcc.o gcc.o"]:
        subprocess.run(["ar", *line.split()], cwd=where, check=True, stderr=subprocess.DEVNULL)
    os.remove(os.path.join(where, "gone.o"))
    for name, archive in cut_archives(where, len(gcc)):
        write(os.path.join(where, name), archive)
    return where


def bsd_member(name, content):
    """A member whose name stands before its bytes, filled up with zero bytes."""
    size = len(content) + 44
    fields = ("#1/44", 0, 0, 0, 100644, size)
    header = "".join(f"{field:<{width}}" for field, width in zip(map(str, fields), (16, 12, 6, 6, 8, 10))) + "`\n"
    return header.encode() + name.encode().ljust(44, b"\0") + content + b"\n" * (size % 2)


def cut_archives(where, size):
    """Archives that end in a member, in the second header, behind the magic, and without their last byte. In whole.a a
    table of symbols stands first."""
    with open(os.path.join(where, "whole.a"), "rb") as file:
        whole = file.read()
    with open(os.path.join(where, "lib.a"), "rb") as file:
        lib = file.read()
    table = 60 + int(whole[56:66])
    second = table + 68 + size + size % 2
    return [("in-member.a", whole[:second + 62]), ("in-header.a", whole[:second + 40]), ("in-magic.a", lib[:40]),
            ("in-last.a", lib[:-1])]


@functools.lru_cache(None)
def alone(where, words):
    return run(*words, cwd=where)


def of_members(where, words, archive, names):
    """What the words print of the members, which are files by their names too. The status is 1 where something is
    found."""
    text = b""
    for name in names:
        ran = alone(where, (*words, name))
        assert ran.status in (0, 1), ran
        text += f"{archive}({name}):\n".encode() + ran.out
    return text


def case(where, words, out=None, err="", status=0, stdin=b""):
    words = words.split() if isinstance(words, str) else words
    return " ".join(words), functools.partial(try_case, where, words, out, err, status, stdin)


def try_case(where, words, out, err, status, stdin):
    """`out` is a text, or a call that gives it."""
    return expect(words, out() if callable(out) else out, err, status, stdin, where)


def archive_case(where, words, archive, names, err="", status=0):
    """Words, and the archive behind them: what they print of these members."""
    words = words.split()
    wanted = functools.partial(of_members, where, [word for word in words if word != "--verbose"], archive, names)
    return case(where, [*words, archive], wanted, err, status)


def whole_archives(where):
    """Members that are no ELF files and those without a line table are passed over. Where a member is no whole file, or
    isn't there, or has a damaged unit, the others are gone through."""
    for command in ("dump", "check", "sources", "lint --rule overlap"):
        for archive in ARCHIVES:
            yield archive_case(where, command, archive, MEMBERS)
        yield archive_case(where, f"{command} --verbose", "lib.a", MEMBERS,
                           "lib.a: 2 members without a line table\n")
        yield case(where, f"{command} empty.a", "")
        for archive, names in (("in-member.a", MEMBERS[:1]), ("in-header.a", MEMBERS[:1]), ("in-magic.a", [])):
            yield archive_case(where, command, archive, names, f"dwline: {archive}: {DAMAGED}\n", 1)
        yield archive_case(where, command, "stops.a", ["half.o", "gcc.o"], HALF, 1)
        yield archive_case(where, command, "unopened.a", ["gcc.o"], f"dwline: unopened.a(gone.o): {UNOPENED}\n", 3)
        for words in (command, f"{command} --keep-going"):
            yield archive_case(where, words, "damaged.a", ["damaged.o", "gcc.o"],
                               "dwline: damage at 0x8: header goes past the unit\n", 1)


def other_words(where):
    for words in ("dump --header", "dump --json", "sources --rows", "sources --md5", "sources --json",
                  "sources --unit 0", "sources --keep-going"):
        yield archive_case(where, words, "lib.a", MEMBERS)
    yield archive_case(where, "sources --unit 5", "lib.a", MEMBERS, "dwline: no unit at this offset\n" * 2, 1)


def findings(where):
    """The findings of all members are counted in one line."""
    counted, one = "findings: duplicate-file=1 unused-file=2\n", "findings: unused-file=1\n"
    for archive in ARCHIVES:
        for words in ("lint", "lint --json", "lint --keep-going"):
            yield archive_case(where, words, archive, MEMBERS, counted, 1)
    yield archive_case(where, "lint --verbose", "lib.a", MEMBERS, counted + "lib.a: 2 members without a line table\n",
                       1)
    # One of two members has a finding.
    for words in ("lint --rule duplicate-file", "lint --no-rule unused-file"):
        yield archive_case(where, words, "lib.a", MEMBERS, "findings: duplicate-file=1\n", 1)
    yield archive_case(where, "lint", "in-last.a", MEMBERS[:1], one + f"dwline: in-last.a: {DAMAGED}\n", 1)
    yield archive_case(where, "lint", "stops.a", ["half.o", "gcc.o"], HALF + one, 1)


def refused_words(where):
    """Words that are wrong are told once, and before any member."""
    for archive in ("lib.a", "thin.a", "empty.a"):
        for words in ("lint --rule none", "lint --rule overlap --no-rule none", "lint --json --rule none"):
            yield case(where, f"{words} {archive}", "", "dwline: none is no rule\n", 2)
        for words in ("lint --address-size 3", "sources --address-size 3", "sources --unit none",
                      "check --address-size 3", "dump --address-size 3", "dump --unit none", "dump --range 5",
                      "dump --keep-going --range 5-none"):
            yield case(where, f"{words} {archive}", "", "dwline: words not understood\n", 2)


def alike(where, words, member, archive, stdin=b""):
    """Of a member, `@` among the words being its path, the words answer what they do of the file by itself."""
    name = words.replace("@", f"{archive}({member})")
    return name, functools.partial(try_alike, where, words.replace("@", member).split(), name.split(), stdin)


def try_alike(where, plain, words, stdin):
    status, out, err = run(*plain, stdin=stdin, cwd=where)
    return expect(words, out, err, status, stdin, where)


def members(where):
    """A member by its name; one that a thin archive names by its whole path, and two of one name, of which the first is
    read."""
    for archive in ARCHIVES:
        for member in MEMBERS:
            for words in ("dump @", "check @", "sources @", "lint @", "lint --rule overlap @", "index -o - @",
                          "addr @ 0 1 1000000", "find 0 @"):
                yield alike(where, words, member, archive)
            yield alike(where, "addr @", member, archive, b"0\n0x1\n")
    yield alike(where, "dump @", f"{where}/gcc.o", "whole-path.a")
    yield alike(where, "dump @", "same.o", "twice.a")
    yield case(where, "copy lib.a(gcc.o)", "",
               "dwline: lib.a(gcc.o): an object file; its copy would lose its relocations\n", 1)
    for file in ("lib.a(none)", "lib.a(gcc)", "lib.a(gcc.o/)", "empty.a(gcc.o)"):
        yield case(where, f"check {file}", "", f"dwline: {file}: no such member\n", 1)
    for file, fault, status in [("unopened.a(gone.o)", UNOPENED, 3), ("linked(none)", "not an archive", 1),
                                ("none.a(gcc.o)", UNOPENED, 3), ("lib.a(text)", "not an ELF file", 1)]:
        yield case(where, f"check {file}", "", f"dwline: {file}: {fault}\n", status)
    fault = "dwline: lib.a: an archive; its members are named lib.a(MEMBER)\n"
    yield case(where, "find 1 lib.a", "", fault, 1)
    yield case(where, "addr lib.a 1", "??:0\n", fault, 1)
    # A file whose own name ends so.
    yield case(where, "check linked(1)", lambda: alone(where, ("check", "linked")).out)


def counts(where, *names):
    return b"".join(f"{name}: ".encode() + alone(where, ("check", name)).out for name in names)


def several_files(where):
    """It goes on after a fault, and the status is the worst."""
    both = functools.partial(counts, where, "linked", "gcc.o")
    yield case(where, "check linked gcc.o", both)
    lists = folder({"lines": b"linked\ngcc.o\n", "zeros": b"gcc.o\0", "linked": b"linked\0gcc.o", "none": b""})
    yield case(where, f"check --files-from {lists}/lines", both)
    yield case(where, "check --files-from -", both, stdin=b"linked\ngcc.o\n")
    yield case(where, "check linked --files-from - -0", both, stdin=b"gcc.o\0")
    yield case(where, f"check -0 --files-from {lists}/zeros linked", both)
    yield case(where, f"check --null --files-from {lists}/linked", both)
    yield case(where, f"check --files-from {lists}/none", "")
    yield case(where, "check --files-from none", "",
               "dwline: none: cannot read: No such file or directory (os error 2)\n", 3)
    text = "dwline: text: not an ELF file\n"
    faults = text + f"dwline: cut: damaged ELF file: section headers\ndwline: none: {UNOPENED}\n"
    yield case(where, "check text linked cut none gcc.o", both, faults, 3)
    yield case(where, "check text linked gcc.o", both, text, 1)
    yield case(where, "check linked lib.a thin.a(gcc.o)", lambda: counts(where, "linked") + of_members(
        where, ["check"], "lib.a", MEMBERS) + counts(where, "thin.a(gcc.o)"))


def try_full(where, command):
    """The line before the first member can't be written."""
    with open("/dev/full", "wb") as full:
        done = subprocess.run([DWLINE, command, "lib.a"], cwd=where, stdout=full, stderr=subprocess.PIPE)
    wanted = (3, b"dwline: cannot write the output\n")
    return None if (done.returncode, done.stderr) == wanted else f"wanted {wanted}, got {done}"


def try_progress(where):
    """Progress is told on standard error, and the counts on standard output as without it."""
    ran = run("check", "--progress", "linked", "linked", cwd=where)
    assert re.fullmatch(rb"(linked: units [^\n]*\n){2}", ran.out), ran
