"""Command lines: which of them do the same, which are refused, and what numbers their words say."""
import os
from functools import lru_cache, partial

from cases import section_dump, section_sources
from cases.command_lines import ADDRESSES, RANGES, REFUSED, SAME
from cases.elf_lookups import INDEX, NOTE_OF_BUILD
from cases.section_addr import PATHS, RELATIVE
from lib.elf import ALLOC, BIG_64, DIRECTORY, EXECINSTR, LITTLE_64, Section, image, line_unit, unit_text
from lib.program import Ran, data, expect, folder, pattern, run
from lib.worked import told

TEXT = Section(".text", bytes(16), flags=ALLOC | EXECINSTR, address=0x401000)
WHOLE = section_dump.ALL + section_sources.OLDER
OTHER = PATHS + RELATIVE

# Two files by the text at 0 of `.debug_str`, in the directory at 0 of `.debug_line_str`.
BIG, _ = line_unit(BIG_64, [(0x1000, 2)], DIRECTORY + b"\1\1\x0e\2" + bytes(8))


def file_of(section, *others):
    return image(LITTLE_64, [Section(".debug_line", section), *others])


@lru_cache(None)
def files():
    a, b = file_of(WHOLE, TEXT, NOTE_OF_BUILD), file_of(OTHER, NOTE_OF_BUILD)
    stripped = image(LITTLE_64, [NOTE_OF_BUILD])
    return {
        "a": a,
        "b": b,
        "-0": b,
        "damaged": file_of(section_dump.DAMAGED + section_sources.OLDER, TEXT),
        "object.o": data("object-gcc", "program"),
        "stripped": stripped,
        "--all": stripped,
        "one/.build-id/ab/cdef.debug": a,
        "two/.build-id/ab/cdef.debug": b,
        "index": INDEX,
        "section": WHOLE,
        "section-b": OTHER,
        "big": BIG,
        "list": b"a\nb\n",
        "list0": b"a\0b",
        "of-b": b"b",
        "asked": b"0x401008\n0x3000\n",
        "of-index": b"0x401000\n",
        "l": b"/l\0",
        "s": b"a.c\0",
    }


def cases():
    yield "rows of command lines differ", all_differ
    for group in SAME:
        yield group[0], partial(do_the_same, group)
    for text, lines in REFUSED:
        for line in lines:
            yield line or "no word", partial(expect, line.split(), "", pattern(text), 2)
    for word, hexadecimal, decimal in ADDRESSES:
        yield f"the address {word!r}", partial(says_address, word, hexadecimal)
        yield f"the decimal address {word!r}", partial(says_address, word, decimal, "--decimal")
    for word, limits in RANGES:
        yield f"the range {word!r}", partial(says_range, word, limits)


def outcome(line):
    """What a command line does: its status, what it writes, and the files that it makes."""
    words, stdin = line.split(), b""
    given = {name: content for name, content in files().items()
             if name.split("/")[0] in line or name in ("a", "b")}
    if "<" in words:
        at = words.index("<")
        stdin = given[words[at + 1]]
        del words[at:at + 2]
    where = folder(given)
    ran = run(*words, stdin=stdin, cwd=where)
    return Ran(*ran), {name: content_of(where, name) for name in os.listdir(where) if not is_given(name, given)}


def is_given(name, given):
    return any(path == name or path.startswith(f"{name}/") for path in given)


def content_of(where, name):
    with open(os.path.join(where, name), "rb") as file:
        return file.read()


def do_the_same(group):
    first = outcome(group[0])
    for line in group[1:]:
        other = outcome(line)
        if other != first:
            return f"dwline {group[0]}: {first}\ndwline {line}: {other}"
    return None


def all_differ():
    """No row does what another one does, so that none of its words is passed over."""
    seen, alike = {}, []
    for line, *_ in SAME:
        other = seen.setdefault((line.split()[0], repr(outcome(line))), line)
        if other is not line:
            alike.append(f"dwline {other} and dwline {line} do the same")
    return "\n".join(alike) or None


def says_address(word, address, *words):
    """An address that has no row is printed as it was read."""
    words = ["addr", "-a", *words, "-", "--", word]
    if address is None:
        return expect(words, "", told(f"{word} is no address"), 2)
    return expect(words, f"0x{address:016x} ??:0\n", "", 1)


# Sequences of 4 bytes around the ends of ranges, each with its line.
AROUND = [(8, 1), (12, 2), (16, 3), (28, 4), (32, 5), ((1 << 64) - 5, 6)]


def says_range(word, limits):
    """The sequences are shown that cover an address from the first number on and below the second one."""
    if limits is None:
        return expect(["dump", f"--range={word}"], "", told("words not understood"), 2)
    low, high = limits
    covering = [(address, line) for address, line in AROUND if address < high and low < address + 4 and low < high]
    section, _ = line_unit(LITTLE_64, AROUND)
    return expect(["dump", f"--range={word}"], unit_text(LITTLE_64, covering) if covering else "", "", 0, section)
