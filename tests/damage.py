"""Sections and files of which one byte is changed, each in turn, or that end early.

A section: the unit that the byte belongs to may be damaged, or say something else. What the bytes before it tell is
told first. The units before its own are told as before, and so are those after it, but where the byte is of its initial
length: from there on the section may be cut otherwise. Each damaged unit is told in a line, and counted by `check`.
Where it is damaged, addresses are answered as over the section without that unit. An object file: its addresses are
looked up in each section with code. The units that aren't damaged answer as before, and nobody for the one that is. A
file that ends early: it has the dump of the whole file, or one line with a fault, and nothing else."""

import functools
import json
import os
import re
import struct

from lib.dumps import counts_of
from lib.elf import changed, sections_of
from lib.folders import DUMPED, SECTIONS, dump, order, section, strings
from lib.program import ALL, data, folder, run, write

# Of these each byte is changed by default: all versions, orders and formats.
SOME = ["assembler", "clang-dwarf2", "clang-dwarf64", "clang-powerpc-dwarf4", "clang-split", "fpc-dwarf2", "gcc-O2",
        "gcc-s390x", "operations"]

# Object files of two units: addends in the section, and big-endian.
OBJECTS = ["object-i386", "object-powerpc"]
MORE_OBJECTS = ["object-clang", "object-gcc"]

# Files that are cut: of 64 bits and of 32, in either order, without a line section and with that of a split file.
CUT = ["clang-split", "gcc-O2", "gcc-powerpc", "stripped"]
MORE_CUT = ["clang-powerpc-dwarf4", "gcc-dwarf2", "gcc-dwarf3", "gcc-s390x"]

# How many bytes or files a case has.
MANY, CUTS = 50, 100

DAMAGE = re.compile(rb"dwline: damage at 0x([0-9a-f]+): [a-z0-9_ ]+\n")
# The line of `addr`: the first fault, and how many more units are damaged.
FIRST = re.compile(rb"dwline: (damage at 0x[0-9a-f]+: [a-z0-9_ ]+)(?:, and (\d+) more damaged units?)?\n")
FAULTS = re.compile(rb"not an ELF file|damaged ELF file: (section [a-z ]+|section \.[a-z_]+)|"
                    rb"no section \.debug_line( \(.*\))?")


def cases():
    for name in SECTIONS if ALL else SOME:
        for unit in units_of(section(name), order(name)):
            for start in range(unit[0], unit[1], MANY):
                places = range(start, min(start + MANY, unit[1]))
                yield f"{name}, {told(places)}", functools.partial(try_bytes, name, unit, places)
    for name in OBJECTS + MORE_OBJECTS if ALL else OBJECTS:
        for unit, places in places_of_object(name):
            yield f"{name}, {told(places)}", functools.partial(try_object, name, unit, places)
    for name in CUT + MORE_CUT if ALL else CUT:
        yield from cases_of_cuts(name, data(name, "program"))
    yield from cases_of_cuts("gcc-O2, section headers first", headers_first(data("gcc-O2", "program")), "gcc-O2")


def told(places):
    return f"bytes {places[0]} to {places[-1]}"


# ---- sections


def units_of(section, order):
    """Where each unit begins and ends, and how many bytes its initial length has."""
    order = "big" if order else "little"
    units, at = [], 0
    while at < len(section):
        length, first = int.from_bytes(section[at:at + 4], order), 4
        if length == 0xffffffff:
            length, first = int.from_bytes(section[at + 4:at + 12], order), 12
        units.append((at, at + first + length, first))
        at += first + length
    return units


def texts_of(dump):
    """The text of each unit, by its offset."""
    texts = {}
    for text in re.split(rb"(?m)^(?=unit 0x)", dump):
        if text:
            texts[int(re.match(rb"unit 0x([0-9a-f]+)", text)[1], 16)] = text
    return texts


def addresses_in(dump):
    """The addresses of the rows of a dump, and those before and after them."""
    rows = {int(address, 16) for address in re.findall(rb"(?m)^row (0x[0-9a-f]+) ", dump)}
    return [hex(address) for address in sorted({near for row in rows for near in (row - 1, row, row + 1) if near >= 0})]


def try_bytes(name, unit, places):
    """Each of these bytes of a unit in turn. Some are damage where the header is among them."""
    bytes_of, words, whole = section(name), SECTIONS[name], dump(name)
    addresses = addresses_in(whole)
    without = run("addr", *words, "-", *addresses, stdin=bytes_of[:unit[0]] + bytes_of[unit[1]:]).out
    damaged = 0
    for at in places:
        assert_front(name, words, bytes_of, at, unit, whole)
        damaged += assert_one(name, words, bytes_of, at, unit, whole, addresses, without)
    assert damaged or places[0] != unit[0], "no byte of the header is damage"


def assert_front(name, words, section, at, unit, whole):
    """The bytes before this one tell what they did, and where they end in a unit that is told."""
    front = run("dump", *words, *strings(name), stdin=section[:at])
    assert whole.startswith(front.out), (at, front.out)
    if at == unit[0]:
        assert (front.status, front.err) == (0, b""), (at, front)
    else:
        truncated = b"dwline: damage at 0x%x: input ends inside a unit\n" % at
        assert (front.status, front.err) == (1, truncated), (at, front.status, front.err)


def assert_one(name, words, section, at, unit, whole, addresses, without):
    """One byte changed: whether that is damage."""
    start, end, first = unit
    other = changed(section, at, section[at] ^ 0xff)
    dumped = run("dump", "--keep-going", *words, *strings(name), stdin=other)
    checked = run("check", "--keep-going", *words, stdin=other)
    faults = [int(place, 16) for place in DAMAGE.findall(dumped.err)]
    assert DAMAGE.sub(b"", dumped.err) == b"" and checked.err == dumped.err, (at, dumped.err, checked.err)
    assert dumped.status == checked.status == (1 if faults else 0), (at, dumped.status, checked.status)
    assert_units(at, unit, texts_of(whole), texts_of(dumped.out))
    counts = re.fullmatch(rb"units (\d+) skipped (\d+) sequences \d+ rows \d+ damaged (\d+)\n", checked.out)
    assert counts and int(counts[3]) == len(faults), (at, checked.out, faults)
    if not faults:
        counted = counts_of(dumped.out.decode("latin-1"))[:-1] + b" damaged 0\n"
        assert checked.out == counted, (at, checked.out, counted)
    if at >= start + first:
        assert len(faults) <= 1 and all(start <= place <= end for place in faults), (at, faults)
        assert int(counts[1]) + int(counts[2]) + len(faults) == len(texts_of(whole)), (at, checked.out)
    if faults and addresses:
        assert_answers(words, other, at, addresses, dumped.err, without if at >= start + first else None)
    return bool(faults)


def assert_units(at, unit, texts, found):
    """The units around the one of the byte are told as before."""
    start, end, first = unit
    as_before, others = ({place: text for place, text in those.items()
                          if place < start or at >= start + first and place >= end} for those in (texts, found))
    assert others == as_before, (at, others, as_before)


def assert_answers(words, section, at, addresses, told, without):
    """Addresses of a section with damaged units, which `dump` told: as over the section without the one that is."""
    found = run("addr", *words, "-", *addresses, stdin=section)
    line = FIRST.fullmatch(found.err)
    assert line and found.status == 1, (at, found.status, found.err)
    assert told.startswith(b"dwline: " + line[1] + b"\n"), (at, told, line[1])
    assert int(line[2] or 0) == told.count(b"\n") - 1, (at, told, found.err)
    if without is not None:
        assert found.out == without, (at, found.out, without)


# ---- object files


def line_section_of(elf):
    return next((start, end) for part, start, end, _ in sections_of(elf) if part == ".debug_line")


def places_of_object(name):
    """Of each unit of the object file its bounds, and places in the section behind its initial length."""
    elf = data(name, "program")
    start, end = line_section_of(elf)
    units = units_of(elf[start:end], elf[5] == 2)
    assert len(units) > 1, (name, units)
    for unit in units:
        for first in range(unit[0] + unit[2], unit[1], MANY):
            yield unit, range(first, min(first + MANY, unit[1]))


def located(path, part, addresses):
    """What `addr` answers in a section of an object file: the answers, and what it says of damage."""
    found = run("addr", "--json", "-j", part, path, *addresses)
    return [json.loads(line) for line in found.out.splitlines()], found.err


def try_object(name, unit, places):
    elf = data(name, "program")
    where = folder({"whole": elf})
    whole, changed_path = os.path.join(where, "whole"), os.path.join(where, "changed")
    addresses = addresses_in(dump(name))
    start, _ = line_section_of(elf)
    parts = [part for part, at, after, code in sections_of(elf) if code and at < after]
    before = {part: located(whole, part, addresses)[0] for part in parts}
    damaged = 0
    for at in places:
        write(changed_path, changed(elf, start + at, elf[start + at] ^ 0xff))
        for part in parts:
            answers, said = located(changed_path, part, addresses)
            if not said.startswith(b"dwline: damage"):
                break
            wanted = [{key: answer[key] for key in ("section", "address")} if answer.get("unit") == hex(unit[0])
                      else answer for answer in before[part]]
            assert answers == wanted, (part, at, answers, wanted)
            damaged += 1
    assert damaged or places[0] != unit[0] + unit[2], "no byte of the header is damage"


# ---- files that end early


def table(file):
    """Where the section headers begin, and where they end."""
    order = "<" if file[5] == 1 else ">"
    if file[4] == 1:
        start, size, count = struct.unpack_from(order + "32xI10xHH", file)
    else:
        start, size, count = struct.unpack_from(order + "40xQ10xHH", file)
    return start, start + size * count


def headers_first(file):
    """The same file, of 64 bits and little-endian, with its section headers and their names behind its header: the dump
    is whole as soon as the wanted sections are."""
    start, end = table(file)
    headers = bytearray(file[start:end])
    at = 64 * struct.unpack_from("<H", file, 62)[0]
    offset, size = struct.unpack_from("<24xQQ", headers, at)
    names = file[offset:offset + size]
    for header in range(0, len(headers), 64):
        offset, = struct.unpack_from("<24xQ", headers, header)
        moved = 64 if header == at else offset + len(names)
        struct.pack_into("<Q", headers, header + 24, moved + len(headers))
    return file[:40] + struct.pack("<Q", 64) + file[48:64] + headers + names + file[64:start]


def cases_of_cuts(name, file, of=None):
    """The file is cut at each byte of its headers, and at some others. `of` is the folder with its dump where a cut
    file has to have one."""
    start, end = table(file)
    cuts = [cut for cut in range(len(file)) if cut < 64 or start <= cut < end or cut % 37 == 0]
    for first in range(0, len(cuts), CUTS):
        some = cuts[first:first + CUTS]
        yield f"{name}, cut at {some[0]} to {some[-1]}", functools.partial(try_cuts, of or name, file, some, False)
    if of:
        yield f"{name}, without the last byte", functools.partial(try_cuts, of, file, [len(file) - 1], True)


def try_cuts(name, file, cuts, is_whole):
    wanted = dump(name) if name in DUMPED else None
    path = os.path.join(folder(), "cut")
    for cut in cuts:
        write(path, file[:cut])
        ran = run("dump", path)
        if ran.status == 0:
            assert ran.out == wanted and not ran.err, (cut, ran)
            continue
        start = b"dwline: %s: " % path.encode()
        assert ran.status == 1 and not ran.out and ran.err.startswith(start) and not is_whole, (cut, ran)
        assert FAULTS.fullmatch(ran.err[len(start):-1]), (cut, ran.err)
