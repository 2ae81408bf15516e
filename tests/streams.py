"""Streams of zlib in a section of an ELF file, by the text that `dump` prints of it: whole, cut off at each byte, with
each bit turned over, and damaged."""

import functools
import os

from cases.elf_cases import line_section
from cases.elf_contents import compressed
from cases.streams import SHORT, WHOLE, damaged, furthest_copy, good, judged
from lib.elf import LITTLE_64, image, unit_text
from lib.program import ALL, by_hand, differences, folder, run

LINE = line_section(2)
NAMES = (".debug_line_str", ".zdebug_line_str")


def cases():
    for name, stream, data in good():
        yield f"{name}: whole", functools.partial(whole, stream, data)
        yield f"{name}: fronts", functools.partial(each, [stream[:end] for end in range(len(stream))], len(data))
        yield f"{name}: turned bits", functools.partial(each, turned(stream), len(data), data)
    yield "the furthest copy", functools.partial(whole, *furthest_copy())
    for name, stream in damaged():
        place = 1 if name == "dictionary" else judged(stream)  # zlib asks for the dictionary after four more bytes
        yield f"{name}, byte {place}", functools.partial(damaged_at, stream, place)


def turned(stream):
    """The stream with each bit turned over, or with one in three if it is long."""
    for bit in range(0, 8 * len(stream), 1 if ALL or len(stream) < 20 else 3):
        copy = bytearray(stream)
        copy[bit // 8] ^= 1 << bit % 8
        yield bytes(copy)


class Files:
    """A file of a stream after the other in one folder."""

    def __init__(self):
        self.where, self.wrong = folder(), []

    def look(self, name, size, stream, data=b"", place=None):
        """The dump of a file whose section has this stream, or the place in the section at which it is damaged."""
        with open(os.path.join(self.where, "elf"), "wb") as file:
            file.write(image(LITTLE_64, [LINE, compressed(name, size, stream)]))
        path = f'"{data[:-1].decode()}"' if data else "line_strp+0x0"
        out, err = dump_of(path), ""
        if place is not None:
            out, err = "", f"dwline: elf: section {name}: damaged zlib stream at 0x{place:x}\n"
        wrong = differences(run("dump", "elf", cwd=self.where), out, err, int(place is not None))
        if wrong:
            self.wrong += [f"stream {stream.hex()} of {size} bytes", *wrong, by_hand(["dump", "elf"], cwd=self.where)]


def dump_of(path):
    return unit_text(LITTLE_64, [(0x1000, 2)], [f"dir 0 path={path}", "file 0 path=strp+0x0"])


def begin(name):
    """Where a stream begins in its section."""
    return 12 if name.startswith(".z") else 24


def whole(stream, data):
    files = Files()
    for name in NAMES:
        for after in (b"", b"more"):
            files.look(name, len(data), stream + after, data)
    return "\n".join(files.wrong) or None


def each(streams, size, data=b""):
    """What zlib says of each of these: that it is damaged or ends at a byte, or else comes to the data."""
    files = Files()
    for stream in streams:
        verdict = judged(stream)
        place = {WHOLE: None, SHORT: len(stream)}.get(verdict, verdict)
        files.look(NAMES[0], size, stream, data, None if place is None else begin(NAMES[0]) + place)
        if len(files.wrong) > 20:
            break
    return "\n".join(files.wrong) or None


def damaged_at(stream, place):
    """At this byte, and cut short without it."""
    files = Files()
    for name in NAMES:
        files.look(name, 1000, stream, place=begin(name) + place)
        files.look(name, 1000, stream[:place], place=begin(name) + place)
    return "\n".join(files.wrong) or None
