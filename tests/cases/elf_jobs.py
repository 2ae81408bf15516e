"""Cases of the commands: over the section of an ELF file, and over a section on the input, of which it is told how many
bytes are left. The sections are worked by hand from DWARF 5, section 6.2."""
from dataclasses import replace

from cases.elf_cases import CHECK, COMMANDS, Case, all_stop, dumps, stops
from cases.elf_contents import deflated
from lib.elf import BIG_32, BIG_64, ET_DYN, ET_REL, LITTLE_32, LITTLE_64, Section, image

# One row, at address 0.
SMALLEST = (b"\x21\0\0\0\x05\0\x08\0\x16\0\0\0\x01\x01\x01\xfb\x0e\x0d"
            b"\0\x01\x01\x01\x01\0\0\0\x01\0\0\x01\0\0\0\0\0\x01\x01")
# Three rows, as `copy` writes them too.
THREE_ROWS = (b"\x30\0\0\0\x05\0\x08\0\x16\0\0\0\x01\x01\x01\xfb\x0e\x0d"
              b"\0\x01\x01\x01\x01\0\0\0\x01\0\0\x01\0\0\0\0"
              b"\0\x09\x02\0\x10\x40\0\0\0\0\0\x13\x4b\x02\x02\0\x01\x01")
# A directory in `.debug_line_str`, a file in `.debug_str`, and two rows for that file.
BOTH_STRINGS = (b"\x3d\0\0\0\x05\0\x08\0\x22\0\0\0\x01\x01\x01\xfb\x0e\x0d"
                b"\0\x01\x01\x01\x01\0\0\0\x01\0\0\x01"
                b"\x01\x01\x1f\x01\x03\0\0\0\x01\x01\x0e\x01\x01\0\0\0"
                b"\x04\0\0\x09\x02\0\x10\x40\0\0\0\0\0\x01\x02\x04\0\x01\x01")
# Two rows at one address, of two operations, in big-endian.
TWO_OPERATIONS = (b"\0\0\0\x30\0\x05\x08\0\0\0\0\x16\x0a\x03\x01\xfb\x0e\x0d"
                  b"\0\x01\x01\x01\x01\0\0\0\x01\0\0\x01\0\0\0\0"
                  b"\0\x09\x02\0\0\0\0\0\0\x10\0\x20\x20\x02\x01\0\x01\x01")
LINE_STRINGS, STRINGS = b"ab\0cd\0", b"xyz\0"

COUNTS = "units 1 skipped 0 sequences 1 rows 3\n"
DAMAGE = "dwline: damage at 0x34: input ends inside a unit\n"
SECOND_OPERATION = "file 1 missing\nrow 0x0000000000001000 1 1 1 0 stmt\n"
NO_INPUT = "dwline: cannot read the input\n"
NOT_UNDERSTOOD = "dwline: words not understood\n"
FORMS = [LITTLE_64, LITTLE_32]
ELF_STRINGS = [Section(".debug_line", BOTH_STRINGS), Section(".debug_line_str", LINE_STRINGS),
               Section(".debug_str", STRINGS)]


def both_text(directory, file):
    """The dump of BOTH_STRINGS."""
    return (f"unit 0x0 dwarf32 version 5 address_size 8\ndir 0 path={directory}\nfile 0 path={file}\n"
            "row 0x0000000000401000 0 0 1 0 stmt\nrow 0x0000000000401004 0 0 1 0 stmt end\n")


class OnInput(Case):
    """A case of a section on the input, beside which there are two files of string sections and no ELF file."""

    def files(self):
        return [("input", self.input), ("line", LINE_STRINGS), ("other", STRINGS)]


def on_input(name, section, words, status, output, errors="", left=0):
    return OnInput(name, b"", words.split(), status, output, errors, section, left)


def over_files():
    """What commands come to over a file."""
    for form in FORMS:
        for file_type in (form.file_type, ET_REL):
            file = image(replace(form, file_type=file_type), ELF_STRINGS)
            yield dumps(f"strings, type {file_type}", file, both_text('"cd"', '"yz"'))
        three = Section(".debug_line", THREE_ROWS)
        shared = replace(form, file_type=ET_DYN)
        for name, file in [
            ("rows", image(form, [three])),
            ("rows of a shared object", image(shared, [three])),
            ("compressed rows", image(form, [deflated(".debug_line", THREE_ROWS, form)])),
            ("rows with another header", image(form, [deflated(".zdebug_line", THREE_ROWS)])),
        ]:
            yield Case(name, file, CHECK, 0, COUNTS)
            yield Case(name, file, ["copy", "elf"], 0, THREE_ROWS)
        object_file = image(replace(form, file_type=ET_REL), [three])
        yield Case("rows of an object file", object_file, CHECK, 0, COUNTS)
        yield stops("rows of an object file", object_file, "an object file; its copy would lose its relocations",
                    ["copy", "elf"])
        cut = image(form, [Section(".debug_line", b"\x21\0\0\0\x05\0\x08\0")])
        for words in COMMANDS:
            output = "??:0\n" if words[0] == "addr" else ""
            yield Case("a cut unit", cut, words, 1, output, "dwline: damage at 0x8: input ends inside a unit\n")
    yield from all_stop("no sections", image(LITTLE_32, []), "no section .debug_line")
    operations = Section(".debug_line", TWO_OPERATIONS)
    words = ["find", "4096", "--op", "1", "elf"]
    for form in (BIG_64, BIG_32):
        yield Case("an operation", image(form, [operations]), words, 0, SECOND_OPERATION)
    yield Case("the other order", image(LITTLE_32, [operations]), words, 1, "", DAMAGE)


def over_the_input():
    """The options of the commands over a section on the input."""
    for name, words, text in [
        ("both", "dump --line-str line --str other", both_text('"cd"', '"yz"')),
        ("line strings", "dump --line-str line", both_text('"cd"', "strp+0x1")),
        ("strings", "dump --str other", both_text("line_strp+0x3", '"yz"')),
        ("none", "dump", both_text("line_strp+0x3", "strp+0x1")),
        ("strings of a row", "find 0x401003 --line-str line --str other",
         'file 0 path="yz"\nrow 0x0000000000401000 0 0 1 0 stmt\n'),
        ("no strings of a row", "find 0x401003 --line-str line",
         "file 0 path=strp+0x1\nrow 0x0000000000401000 0 0 1 0 stmt\n"),
    ]:
        yield on_input(name, BOTH_STRINGS, words, 0, text)
    for name, words, status, output, errors in [
        ("the second", "find --big 4096 --op 1", 0, SECOND_OPERATION, ""),
        ("the third", "find --big 4096 --op 2", 0, SECOND_OPERATION.replace("1000 1", "1000 2"), ""),
        ("the first", "find --big 4096", 1, "", "dwline: no line for this address\n"),
        ("the other order", "find 4096 --op 1", 1, "", DAMAGE),
    ]:
        yield on_input(name, TWO_OPERATIONS, words, status, output, errors)
    yield on_input("check", THREE_ROWS, "check", 0, COUNTS)
    yield on_input("copy", THREE_ROWS, "copy", 0, THREE_ROWS)
    yield on_input("the other order", THREE_ROWS, "check --big", 1, "", DAMAGE)
    yield on_input("the other order", THREE_ROWS, "copy --big", 1, "", "dwline: unit 0x0 is not version 5\n")


def before_the_section():
    """Nothing is read of the input, and nothing written, where the words or other files stop a command."""
    for words, status, errors in [
        ("find 0x --line-str none", 2, NOT_UNDERSTOOD),
        ("find 1 --line-str none", 3, NO_INPUT),
        ("dump --line-str none", 3, NO_INPUT),
        ("dump --line-str line --str none", 3, NO_INPUT),
    ]:
        yield on_input(words, SMALLEST, words, status, "", errors, len(SMALLEST))
    yield Case("an address is read before a file is opened", b"", ["find", "0x", "none"], 2, "", NOT_UNDERSTOOD)


def addresses():
    """Addresses among the words and on the input, of the file that has both string sections."""
    file = image(LITTLE_32, ELF_STRINGS)
    for words, status, output in [
        ("0x401000 401003", 0, "cd/yz:1\ncd/yz:1\n"),
        ("0x401004 0x401000", 1, "??:0\ncd/yz:1\n"),
        ("--hex --base 1000 -a -s --all 402000 401000 fff", 1,
         "0x0000000000402000 yz:1\n0x0000000000401000 ??:0\n0x0000000000000fff ??:0\n"),
        ("--json 0x401000", 0,
         '{"address":"0x0000000000401000","path":"cd/yz","line":1,"column":0,"discriminator":0,"is_stmt":true,'
         '"unit":"0x0"}\n'),
    ]:
        yield Case(words, file, ["addr", "elf", *words.split()], status, output)
    for asked, status, output, errors in [
        (b"0x401000\n", 0, "cd/yz:1\n", ""),
        (b"\n\n", 0, "", ""),
        (b"\nmain\n 401000\r\n", 1, "??:0\ncd/yz:1\n", "dwline: line 2: main is no address\n"),
    ]:
        yield Case(f"{asked}", file, ["addr", "elf"], status, output, errors, asked, 0)
    yield on_input("both", BOTH_STRINGS, "addr - 0x401000 --line-str line --str other", 0, "cd/yz:1\n")
    yield on_input("line strings", BOTH_STRINGS, "addr - 0x401000 --line-str line", 0, "??:1\n")
    yield on_input("the other order", BOTH_STRINGS, "addr --big - 0x401000 --line-str line", 1, "??:0\n",
                   DAMAGE.replace("0x34", "0x41"))


def refused_words():
    """Nothing is read or written where the words of `addr` aren't understood."""
    file = image(LITTLE_32, ELF_STRINGS)
    for words, errors in [
        ("elf 0x401000 main 0y", "dwline: main is no address\n"),
        ("elf 401000h", "dwline: 401000h is no address\n"),
        ("-", NOT_UNDERSTOOD),
        ("--base=-1 elf main", "dwline: -1 is no address\n"),
        ("--big elf 0x401000", NOT_UNDERSTOOD),
        ("--line-str line elf 0x401000", NOT_UNDERSTOOD),
        ("--str other elf 0x401000", NOT_UNDERSTOOD),
    ]:
        yield Case(words, file, ["addr", *words.split()], 2, "", errors)


def missing_files():
    """A file that isn't there: no address has an answer, whether it is among the words or on the input."""
    fault = "dwline: none: cannot open: No such file or directory (os error 2)\n"
    for words in ("dump none", "check none", "find 0x1000 none", "copy none"):
        yield Case(words, b"", words.split(), 3, "", fault)
    yield Case("addr", b"", ["addr", "none", "0x401000", "1"], 3, "??:0\n??:0\n", fault)
    yield Case("addr", b"", ["addr", "none"], 3, "??:0\n??:0\n", fault, b"0x401000\n\nmain\n", 0)


GROUPS = [over_files, over_the_input, before_the_section, addresses, refused_words, missing_files]
