"""Runs of dwline over texts and operands that are long."""
from dataclasses import dataclass
from typing import Callable

import cases.growth_inputs as inputs
from cases.growth_cases import ADDR, FIRST, LINES, MADE, MAKE
from cases.growth_inputs import LINE_STRP, STRP, compressed_elf, elf, lines, long_name, older_units, padded, units

LENGTH = 10_000_000


@dataclass(frozen=True)
class Depth:
    """Files, and runs: their words and their status. An index is made of the files before it is asked."""
    name: str
    files: Callable[[], dict]
    runs: list


COMMANDS = [
    (["dump", "elf"], 0), (["dump", "--json", "elf"], 0), (["dump", "--range", "0-0xffffffffffff", "elf"], 0),
    (["lint", "--rule", "padding", "elf"], 0),
    (["check", "elf"], 0), (["find", FIRST, "elf"], 0), (["copy", "elf"], 0), (ADDR, 0),
    (["addr", "-s", "elf"], 0), (["addr", "--json", "elf"], 0), (MAKE, 0), (["addr", "made", FIRST], 0),
    (["addr", "-s", "made"], 0), (["addr", "--json", "made"], 0), (["index", "--list", "made"], 0),
]
ON_INPUT = [(["dump"], 0), (["lint", "--rule", "padding"], 0), (["check"], 0), (["find", FIRST], 0), (["copy"], 0),
            (["addr", "-", FIRST], 0)]


def asked(files):
    return lambda: {"input": lines([FIRST]), **files()}


def named():
    """A name in a table, and in a string section; the operand of an operation, and one that is passed over."""
    yield Depth("a name", asked(lambda: elf(long_name(LENGTH))), COMMANDS)
    yield Depth("a name in .debug_line_str", asked(lambda: inputs.lent_name(LINE_STRP, LENGTH)), COMMANDS)
    yield Depth("a name in .debug_str", asked(lambda: inputs.lent_name(STRP, LENGTH)), COMMANDS)
    yield Depth("operands", asked(lambda: elf(padded(LENGTH))), COMMANDS)
    yield Depth("compressed operands", asked(lambda: compressed_elf(padded(LENGTH))), COMMANDS)
    yield Depth("a section", lambda: {"input": padded(LENGTH)}, ON_INPUT)
    yield Depth("a directory of .debug_info", asked(lambda: inputs.long_directory(LENGTH)), [
        (ADDR, 0), (LINES, 0), (MAKE, 0), (MADE, 0)])


def lines_of_the_input():
    for text, status in ((b"0", 1), (b"1", 1), (b"x", 1), (b"\xff", 1), (b" ", 0), (b"\n", 0)):
        yield Depth(f"a line of {text}", lambda text=text: {"input": text * LENGTH, **elf(units(1))}, [
            (LINES, status), (["addr", "--json", "elf"], status), (MAKE, 0), (MADE, status)])


def kinds_of_files():
    """Files without long texts, for the stack that each kind takes."""
    for name, files in [
        ("a compressed file", lambda: compressed_elf(units(100))),
        ("units of version 4", lambda: elf(older_units(100))),
        ("directories", lambda: inputs.lent_directories(100)), ("code", lambda: inputs.code(100)),
    ]:
        yield Depth(name, asked(files), [(words, 0) for words, _ in COMMANDS if words[0] not in ("copy", "find")])
    for name, section_type in (("relocations", inputs.RELA), ("compact relocations", inputs.CREL)):
        yield Depth(name, asked(lambda section_type=section_type: inputs.object_file(100, section_type)), [
            (["dump", "elf"], 0), (["check", "elf"], 0), (["find", "0x100", "elf"], 0), (["copy", "elf"], 1),
            (["addr", "elf", "0x100"], 0), (LINES, 1), (MAKE, 0)])


DEPTHS = [depth for group in (named, lines_of_the_input, kinds_of_files) for depth in group()]
