"""Runs of dwline over files of some size and over files that are many times as large: how much more memory these may
take."""
from dataclasses import dataclass
from typing import Callable

import cases.growth_inputs as inputs
from lib.elf import Section
from cases.growth_cases import ADDR, FIRST, LINES, MADE, MAKE, NONE
from cases.growth_inputs import LINE_STRP, STRP, compressed_elf, elf, lines, long_name, units, wide_units

# What a run may take more where it holds nothing of its files.
SLACK = 2 << 20


@dataclass(frozen=True)
class Room:
    """Files, by the number of their parts, and how many times as many the larger ones have. A run is its words, how
    many bytes it holds of a number of parts, and its status."""
    name: str
    count: int
    times: int
    files: Callable[[int], dict]
    runs: list


def nothing(_):
    return 0


def names(length):
    return length


def streams():
    """What is read piece by piece. A part has 1024 bytes, 16 rows and a sequence, for which `lint` holds at most 400
    bytes for the rules that look at all sequences of a section."""
    linting = 400
    yield Room("a section", 1024, 64, lambda n: {"input": wide_units(n)}, [
        (["dump"], nothing, 0), (["dump", "--header"], nothing, 0), (["dump", "--json"], nothing, 0),
        (["dump", "--range", "0-0xffffffffffff"], nothing, 0), (["lint"], lambda n: n * linting, 1),
        (["lint", "--no-rule", "overlap", "--no-rule", "no-code"], nothing, 1), (["check"], nothing, 0),
        (["find", NONE], nothing, 1), (["copy"], nothing, 0), (["copy", "--to-5"], nothing, 0),
        (["addr", "-", FIRST], nothing, 0),
    ])
    # Of a part an index has 16 stretches, a file and a text, in at most 256 bytes. While it is made, at most 44 bytes
    # are held beside it for each of the 17 rows, and 200 for the sequence. Where lines are asked of it, it may be read
    # whole if it has at most 2^24 bytes.
    index = 256
    making = 17 * 44 + 200 + index
    yield Room("a file", 1024, 64, lambda n: {"input": lines([FIRST]), **elf(wide_units(n))}, [
        (["dump", "elf"], nothing, 0), (["check", "elf"], nothing, 0), (["find", NONE, "elf"], nothing, 1),
        (["copy", "elf"], nothing, 0), (ADDR, nothing, 0), (MAKE, lambda n: n * making, 0),
        (LINES, lambda n: n * making, 0),
        (MADE, lambda n: min(n * index, 1 << 24), 0), (["addr", "made", FIRST, NONE], nothing, 1),
        (["index", "--list", "made"], lambda n: n * index, 0),
    ])
    yield Room("a compressed file", 1024, 64, lambda n: compressed_elf(wide_units(n)), [
        (["dump", "elf"], nothing, 0), (["check", "elf"], nothing, 0), (["copy", "elf"], nothing, 0),
        (ADDR, nothing, 0),
    ])
    yield Room("damaged units", 20_000, 10, lambda n: elf(inputs.damaged(n)), [
        (["check", "--keep-going", "elf"], nothing, 1), (ADDR, nothing, 1),
    ])


def texts():
    """A string section is held where paths are printed, `.debug_str` only where a table names it; a header is held, and
    by `addr` the name of a directory that answers a second time."""
    for form in (LINE_STRP, STRP):
        yield Room(f"a text of form {form}", 1 << 20, 64, lambda n, form=form: inputs.lent_name(form, n), [
            (["dump", "elf"], names, 0), (["find", FIRST, "elf"], names, 0), (ADDR, names, 0),
            (["check", "elf"], nothing, 0), (["copy", "elf"], nothing, 0),
        ])
    yield Room("texts that aren't named", 1 << 20, 64, lambda n: elf(units(1), Section(".debug_str", b"n" * n + b"\0")),
               [
        (["dump", "elf"], nothing, 0), (ADDR, nothing, 0), (MAKE, nothing, 0),
    ])
    yield Room("a long name", 1 << 20, 16, lambda n: elf(long_name(n)), [
        (["dump", "elf"], names, 0), (["check", "elf"], names, 0), (["copy", "elf"], names, 0),
        (ADDR, lambda n: 2 * n, 0),
    ])
    # Of a header of many values at most 20 bytes are held for each of its own.
    yield Room("directories", 2000, 50, lambda n: {"input": inputs.directories(n)}, [
        (["check"], lambda n: 20 * 20 * n, 0), (["addr", "-", FIRST], lambda n: 20 * 20 * n, 0),
    ])


def compilations():
    """Units of `.debug_info` with two long directories by turns, which stand in `.debug_str` alone."""
    yield Room("two long directories", 2000, 50, lambda n: inputs.one_directory(n, 2), [(ADDR, lambda n: 200 * n, 0)])


def questions():
    """Lines of the input, of which none is held."""
    for text, status in ((b"1", 1), (b"x", 1), (b" ", 0), (b"\n", 0)):
        yield Room(f"lines of {text}", 1 << 20, 16, lambda n, text=text: {"input": text * n, **elf(units(1))}, [
            (MAKE, nothing, 0), (MADE, nothing, status),
        ])
    yield Room("lines", 1000, 50, lambda n: {"input": lines([FIRST] * n), **elf(units(1))}, [
        (LINES, nothing, 0), (MAKE, nothing, 0), (MADE, nothing, 0),
    ])


def objects():
    """Of an object file the line section is held, by look-ups a second time, and 8 bytes for each symbol. A part has 62
    bytes, a symbol, and a relocation, whose place look-ups hold in 16 bytes."""
    yield Room("an object file", 2000, 50, inputs.object_file, [
        (["check", "elf"], lambda n: n * (62 + 8), 0), (["addr", "elf", "0x100"], lambda n: n * (2 * 62 + 8 + 16), 0),
    ])


ROOMS = [room for group in (streams, texts, compilations, questions, objects) for room in group()]
