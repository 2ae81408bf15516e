"""Cases of the headers and sections of an ELF file: which sections are found, which debug links, and what is told of
damaged files."""
import zlib
from dataclasses import dataclass
from typing import Union

from lib.elf import (
    BIG_32, BIG_64, DIRECTORY_AND_FILE, LITTLE_32, LITTLE_64, NOBITS, NOTE, Form, Section, changed, image, line_unit,
    place_of, unit_text)

DUMP = ["dump", "elf"]
CHECK = ["check", "elf"]
COMMANDS = [DUMP, CHECK, ["find", "0x1000", "elf"], ["copy", "elf"], ["addr", "elf", "0x1000"]]


@dataclass(frozen=True)
class Case:
    """The file `elf`, the words, and what is wanted. Nothing of the input is to be read where a file is named."""
    name: str
    file: bytes
    words: list
    status: int
    output: Union[str, bytes]
    errors: str = ""
    input: bytes = b"unread"
    left: int = 6

    def files(self):
        return [("elf", self.file), ("input", self.input)]

    def wanted(self):
        output = self.output if isinstance(self.output, bytes) else self.output.encode()
        return self.status, output, self.errors.encode(), self.left


def dumps(name, file, text):
    return Case(name, file, DUMP, 0, text)


def stops(name, file, fault, words=None, output=""):
    """A case in which a command stops at a fault of the file. `addr` says that its address has no answer."""
    words = words or DUMP
    output = "??:0\n" if words[0] == "addr" else output
    return Case(name, file, words, 1, output, f"dwline: elf: {fault}\n")


def all_stop(name, file, fault, commands=COMMANDS):
    """The same of each command."""
    return [stops(name, file, fault, words) for words in commands]


def line_section(line, name=".debug_line", form=LITTLE_64, **fields):
    """A line section whose rows are at this line, by which it is told from others, with a directory and a file."""
    return Section(name, line_unit(form, [(0x1000, line)], DIRECTORY_AND_FILE)[0], **fields)


def text_of(line, directory="line_strp+0x0", file="strp+0x0", form=LITTLE_64):
    """The dump of such a section."""
    return unit_text(form, [(0x1000, line)], [f"dir 0 path={directory}", f"file 0 path={file}"])


COUNTS = "units 1 skipped 0 sequences 1 rows 2\n"
NO_LINE = "no section .debug_line"
TEXT = Section(".text", b"code")
LINE = line_section(2)
OTHER = line_section(3)
DWO = line_section(4, ".debug_line.dwo")
LINE_STR = Section(".debug_line_str", b"directory\0")
STR = Section(".debug_str", b"file\0")


def classes_and_orders():
    """A file in either class and order, with other sections between those that are wanted."""
    for form in (LITTLE_64, BIG_64, LITTLE_32, BIG_32):
        line = line_section(2, form=form)
        file = image(form, [TEXT, STR, line, LINE_STR])
        yield dumps(f"{form}", file, text_of(2, '"directory"', '"file"', form))
        yield Case(f"{form}", file, CHECK, 0, COUNTS)


def names():
    """Which section is the line section, and which are its strings."""
    longer, shorter = line_section(3, ".debug_lines"), line_section(3, ".debug_lin")
    nobits = line_section(3, section_type=NOBITS)
    dwo_str, dwo_line_str = Section(".debug_str.dwo", b"split\0"), Section(".debug_line_str.dwo", b"part\0")
    for name, sections, text in [
        ("the first of a name", [LINE, OTHER, DWO], text_of(2)),
        ("one without bytes doesn't count", [nobits, LINE, DWO], text_of(2)),
        ("a longer name, a shorter one", [longer, shorter, LINE], text_of(2)),
        ("the section of a split file comes last", [DWO, STR, LINE], text_of(2, file='"file"')),
        ("strings of a split file", [STR, DWO, dwo_str], text_of(4, file='"split"')),
        ("line strings of a split file", [dwo_line_str, DWO, LINE_STR], text_of(4, '"part"')),
        ("strings of no split file", [DWO, STR, LINE_STR], text_of(4)),
    ]:
        yield dumps(name, image(LITTLE_64, sections), text)
    file = image(LITTLE_64, [TEXT, LINE, STR])
    nobits = changed(file, place_of(file, 3, "type"), NOBITS)
    yield dumps("strings without bytes", nobits, text_of(2))
    first = changed(file, place_of(file, 0, "size") + 2, 1)
    yield dumps("the size of section 0", first, text_of(2, file='"file"'))


def escapes():
    """The number of sections and that of the name table stand in section 0, as where there are 65,280 sections or
    more."""
    for form in (Form(escapes=True), Form(wide=False, escapes=True), Form(empty=65_300, escapes=True)):
        line = line_section(2, form=form)
        yield dumps(f"{form}", image(form, [line, STR]), text_of(2, file='"file"', form=form))


def file_headers():
    """One byte of a file header changed."""
    file = image(LITTLE_64, [LINE, STR])
    headers, not_elf = "damaged ELF file: section headers", "not an ELF file"
    for name, at, byte, fault in [
        ("magic", 3, ord("f"), not_elf),
        ("class", 4, 3, not_elf),
        ("order", 5, 0, not_elf),
        ("version", 6, 2, not_elf),
        ("e_shentsize", 58, 63, "damaged ELF file: section header size"),
        ("e_shoff", 41, 16, headers),
        ("e_shoff, far off", 47, 128, headers),
        ("e_shnum", 60, 5, headers),
        ("e_shnum, large", 61, 255, headers),
        ("e_shstrndx", 62, 4, "damaged ELF file: section name table"),
        ("no names", 62, 0, NO_LINE),
    ]:
        yield from all_stop(name, changed(file, at, byte), fault)
    yield from all_stop("no header", b"unread", not_elf)


def section_headers():
    """One byte of a section header changed."""
    file = image(LITTLE_64, [LINE, STR])
    name_table, line = "damaged ELF file: section name table", "damaged ELF file: section .debug_line"
    for name, number, field, byte, value, fault in [
        ("name table", 3, "size", 2, 1, name_table),
        ("name table, far off", 3, "offset", 7, 255, name_table),
        ("name past the table", 1, "name", 1, 1, NO_LINE),
        ("size of the line section", 1, "size", 2, 1, line),
        ("place of the line section, far off", 1, "offset", 7, 128, line),
        ("size of the line section, far too large", 1, "size", 7, 127, line),
        ("place of the strings", 2, "offset", 7, 255, "damaged ELF file: section .debug_str"),
    ]:
        yield stops(name, changed(file, place_of(file, number, field) + byte, value), fault)


def cut_files():
    """A file cut off at each of its bytes: it is a fault, since the section headers come last."""
    for form, header in ((LITTLE_64, 64), (BIG_32, 52)):
        file = image(form, [line_section(2, form=form)])
        for size in range(len(file)):
            fault = "not an ELF file" if size < header else "damaged ELF file: section headers"
            words = COMMANDS[size % len(COMMANDS)]
            yield stops(f"the first {size} bytes", file[:size], fault, words)


def without_headers():
    """Without section headers there are no sections, whatever else the header says of them."""
    for form, start, end in ((LITTLE_64, 40, 48), (BIG_32, 32, 36)):
        file = image(form, [line_section(2, form=form)])
        yield from all_stop(f"{form}", file[:start] + bytes(end - start) + file[end:], NO_LINE)


def build_id(*parts):
    return Section(".note.gnu.build-id", b"".join(parts), NOTE)


def notes():
    """A file without a line section, with a note of its build ID: the sizes of its name and of its description, its
    type, and both."""
    note = build_id(b"\4\0\0\0\5\0\0\0\3\0\0\0GNU\0", b"\xab\x01\x2c\xff\x00\0\0\0")
    other_first = build_id(b"\3\0\0\0\1\0\0\0\3\0\0\0go\0\0\7\0\0\0", b"\4\0\0\0\2\0\0\0\3\0\0\0GNU\0", b"\xab\x10")
    where = "no section .debug_line (its debug information may be in .build-id/%s.debug"
    for name, section, fault in [
        ("a note", note, "ab/012cff00"),
        ("another note first", other_first, "ab/10"),
        ("a note past its section", build_id(b"\4\0\0\0\5\0\0\0\3\0\0\0GNU\0\xab\x01\x2c"), NO_LINE),
        ("another type", build_id(b"\4\0\0\0\4\0\0\0\1\0\0\0GNU\0\xab\x01\x2c\x00"), NO_LINE),
        ("no note", build_id(b""), NO_LINE),
    ]:
        file = image(LITTLE_64, [TEXT, section])
        if fault is NO_LINE:
            yield from all_stop(name, file, fault)
            continue
        # The others look for it below a folder, where it isn't.
        tried = f"; tried /usr/lib/debug/.build-id/{fault}.debug"
        for words in COMMANDS:
            yield stops(name, file, where % fault + ("" if words[0] == "copy" else tried) + ")", words)
    file = image(LITTLE_64, [TEXT, note])
    for field in ("offset", "size"):
        far = changed(file, place_of(file, 2, field) + 7, 128)
        yield stops(f"{field} of a note, far off", far, NO_LINE)


@dataclass(frozen=True)
class Linked(Case):
    """A case with another file beside the one that is read, to which a debug link may lead."""
    beside: bytes = b""

    def files(self):
        return [*super().files(), ("beside.debug", self.beside)]


NO_LINKED = f"dwline: elf: {NO_LINE}\n"


def debug_links():
    """A file without a line section whose debug link names the file beside it, with the check value that Python's zlib
    computes; a link whose check value lacks its last byte, and one in a section of another name, are none."""
    for form in (LITTLE_64, BIG_64, LITTLE_32, BIG_32):
        beside = image(form, [line_section(2, form=form)])
        name = b"beside.debug\0\0\0\0"
        link = name + form.pack("I", zlib.crc32(beside))
        for what, section, answer in [
            ("a link", Section(".gnu_debuglink", link), (0, COUNTS)),
            ("a check value that lacks a byte", Section(".gnu_debuglink", link[:-1]), (1, "", NO_LINKED)),
            ("another section", Section(".gnu_debugaltlink", link), (1, "", NO_LINKED)),
        ]:
            yield Linked(f"{form}, {what}", image(form, [TEXT, section]), CHECK, *answer, beside=beside)


GROUPS = [classes_and_orders, names, escapes, file_headers, section_headers, cut_files, without_headers, notes,
          debug_links]
