"""Runs of dwline over an input and over one with twice as many parts: of each command, and over inputs that are made to
take long."""
from dataclasses import dataclass
from typing import Callable

import cases.growth_inputs as inputs
from lib.elf import CREL
from cases.growth_inputs import (
    BASE, LINE_STRP, STRP, Input, asked, compressed_elf, directories, elf, lines, long_name, older_directories,
    older_units,
    units)


@dataclass(frozen=True)
class Case:
    """A run, by the number of parts of its input; and the figures between which the work of twice as many lies."""
    name: str
    count: int
    run: Callable[[int], Input]
    least: float = 1.5
    most: float = 2.3


# An address that a sequence covers, and one that none does.
FIRST, NONE = f"0x{BASE:x}", "0x1"
# Look-ups in units, by an index that is made in memory, and in one that was made before; and the making of it.
ADDR, LINES, MADE = ["addr", "elf", FIRST], ["addr", "elf"], ["addr", "made"]
MAKE = ["index", "--keep-going", "-o", "made", "elf"]


def over_input(name, count, words, section, status=0):
    return Case(f"{name}: {' '.join(words)}", count, lambda n: Input(words, section(n), status=status))


def over_file(name, count, words, files, status=0, **bounds):
    """The words are of the file `elf`, or of its index `made`. Of the input one address is asked."""
    before = MAKE if "made" in words and words != MAKE else ()
    return Case(f"{name}: {' '.join(words)}", count,
                lambda n: Input(words, lines([FIRST]), files(n), before, status), **bounds)


def sections():
    """Each command over a section on the input."""
    for words, status in [
        (["dump"], 0), (["dump", "--header"], 0), (["dump", "--json"], 0), (["dump", "--range", "0-0xffffffffffff"], 0),
        (["lint"], 1),
        (["check"], 0), (["find", NONE], 1), (["copy"], 0), (["addr", "-", FIRST, NONE], 1),
    ]:
        yield over_input("a section", 1500, words, units, status)
    yield over_input("a section of version 4", 1500, ["copy", "--to-5", "--older", "8"], older_units)


def many_files():
    """Members of an archive, and files of a list, which are the same one."""
    small = elf(units(8))
    for command, status in (("dump", 0), ("check", 0), ("sources", 0), ("lint", 1)):
        yield over_file("members", 200, [command, "elf"], lambda n: {"elf": inputs.archive(small["elf"], n)}, status)
    yield over_file("a list", 200, ["check", "--files-from", "list"], lambda n: {**small, "list": b"elf\n" * n})


def files():
    """Each command over an ELF file, and some over one whose line section is compressed."""
    for words, status in [
        (["dump", "elf"], 0), (["check", "elf"], 0), (["find", NONE, "elf"], 1), (["copy", "elf"], 0), (ADDR, 0),
        (LINES, 0),
        (MAKE, 0), (["lint", "elf"], 1), (["dump", "--json", "elf"], 0),
    ]:
        yield over_file("a file", 1500, words, lambda n: elf(units(n)), status)
    for words in (["dump", "elf"], ADDR, LINES):
        yield over_file("a compressed file", 1500, words, lambda n: compressed_elf(units(n)))


def indices():
    """An index of as many units: the look-up of an address takes hardly more. Where lines are asked of it, it may be
    read whole."""
    yield over_file("an index", 1500, ["index", "--list", "made"], lambda n: elf(units(n)))
    yield over_file("an index", 1500, ["addr", "made", FIRST], lambda n: elf(units(n)), least=0.9, most=1.1)
    yield over_file("an index", 1500, MADE, lambda n: elf(units(n)), least=0.9)


def addresses():
    """As many addresses, in words and on lines of the input."""
    for words in (LINES, MADE):
        yield Case(f"addresses: {' '.join(words)} ADDRESS..", 2000,
                   lambda n, words=words: Input([*words, *asked(n, 4, 64 * 250)], files=elf(units(250)), before=MAKE))
        yield Case(f"addresses: {' '.join(words)} < ADDRESSES", 5000,
                   lambda n, words=words: Input(words, lines(asked(n, 1, 64 * 200)), elf(units(200)), MAKE))


def lines_of_the_input():
    """Lines that are long, and many lines."""
    for text, count, status in [(b"x", 400_000, 1), (b" ", 400_000, 0), (b"x\n", 20_000, 1)]:
        yield Case(f"lines of {text}: addr made", count,
                   lambda n, text=text, status=status: Input(MADE, text * n, elf(units(1)), MAKE, status))


def sequences():
    """Sequences that lie over one another or fall, and rows at one address, in one unit; sequences and as many
    addresses, in one unit and in as many; and sections of code."""
    for name, made, count in [
        ("sequences alike", inputs.alike, 3000), ("nested sequences", inputs.nested, 3000),
        ("stairs", inputs.stairs, 3000),
        ("falling sequences", inputs.falling, 3000), ("rows at an address", inputs.one_address, 80_000),
    ]:
        yield over_file(name, count, MAKE, lambda n, made=made: elf(made(n)))
    for name, made in (("nested sequences", inputs.nested), ("stairs", inputs.stairs)):
        yield Case(f"{name}: addr - ADDRESS..", 3000, lambda n, made=made: Input(["addr", "-", *asked(n)], made(n)))
    yield Case("units: addr - ADDRESS..", 1500, lambda n: Input(["addr", "-", *asked(n, 64)], units(n)))
    yield over_file("sections of code", 1500, MAKE, inputs.code)
    for name, made in [("sequences alike", inputs.alike), ("nested sequences", inputs.nested),
                       ("stairs", inputs.stairs)]:
        yield over_input(name, 3000, ["lint", "--rule", "overlap"], made, 1)
    yield over_file("sections of code without sequences", 1500, ["lint", "--rule", "no-code", "elf"],
                    lambda n: inputs.code(n, n), 1)


def headers():
    """Headers of many parts, long texts, and operations with long operands."""
    for words in (["dump", "elf"], ["copy", "elf"], MAKE):
        yield over_file("directories", 3000, words, lambda n: elf(directories(n)))
    yield over_file("directories of version 4", 3000, ["copy", "--to-5", "elf"], lambda n: elf(older_directories(n)))
    yield over_file("files of one name", 3000, MAKE, lambda n: elf(inputs.same_file(n)))
    for words in (["dump", "elf"], ["addr", "--json", "elf", FIRST], MAKE):
        yield over_file("a long name", 100_000, words, lambda n: elf(long_name(n)))
    for words in (["addr", "made", FIRST], ["index", "--list", "made"]):
        yield over_file("a long name", 800_000, words, lambda n: elf(long_name(n)))
    for words, form in ((["dump", "elf"], LINE_STRP), (MAKE, STRP)):
        yield over_file(f"a long name of form {form}", 800_000, words, lambda n, form=form: inputs.lent_name(form, n))
    yield over_input("long operands", 800_000, ["check"], inputs.padded)


def damage():
    """Damaged units, and units of another version."""
    for words in (["check", "--keep-going", "elf"], MAKE):
        yield over_file("damaged units", 8000, words, lambda n: elf(inputs.damaged(n)), 1)
    yield Case("damaged units: addr - ADDRESS..", 1500,
               lambda n: Input(["addr", "-", *asked(n, 64)], inputs.cut_short(n), status=1))
    yield over_file("units of version 6", 8000, ["addr", "elf", NONE], lambda n: elf(inputs.foreign(n)), 1)


def parts_of_files():
    """Object files of many relocations; many section headers, units of .debug_info, and blocks of a stream."""
    for name, made in [
        ("relocations", inputs.object_file), ("falling relocations", lambda n: inputs.object_file(n, falls=True)),
        ("compact relocations", lambda n: inputs.object_file(n, CREL)),
    ]:
        yield over_file(name, 1500, ["addr", "elf", "0x100"], made)
    yield over_file("sections", 10_000, ["check", "elf"], inputs.sections)
    yield over_file("blocks", 40_000, ["check", "elf"], inputs.blocks)
    yield over_file("directories in .debug_info", 1500, ADDR, inputs.own_directories)
    yield over_file("directories in .debug_str", 1500, MAKE, inputs.lent_directories)
    for words in (ADDR, MAKE):
        yield over_file("far abbreviations", 1500, words, inputs.far_abbreviations)
        yield over_file("attributes without values", 1500, words, inputs.empty_attributes)
    yield over_file("one long directory", 1500, ADDR, inputs.one_directory)
    yield over_file("two long directories", 1500, ADDR, lambda n: inputs.one_directory(n, 2))


CASES = [case for group in (
    sections, files, many_files, indices, addresses, lines_of_the_input, sequences, headers, damage,
    parts_of_files) for case in group()]
