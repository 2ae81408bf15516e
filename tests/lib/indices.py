"""Indices of version 1: the bytes of a list of stretches, as crates/dl_index/specs/Layout.antt says them."""

import os
import struct
import zlib
from typing import NamedTuple

END = 1 << 64
HEADER = 128
BODY_SUM, HEADER_SUM = 72, 76
ALL_SEQUENCES = 1


class File(NamedTuple):
    """The offset of a file's unit, and the texts that its path is made of, three at most. Bytes that aren't UTF-8 are
    those of os.fsdecode."""
    unit: int
    texts: tuple = ()

    def path(self):
        return "".join(self.texts)


class Stretch(NamedTuple):
    """Where it begins, and what it tells. A gap has no file."""
    start: int
    file: File = None
    line: int = 0
    column: int = 0
    discriminator: int = 0
    is_stmt: bool = True


def padded(part):
    return part + bytes(-len(part) % 8)


def column(numbers):
    """The width of the numbers, 1, 2, 4 or 8, and their bytes."""
    width = next(width for width in (1, 2, 4, 8) if max(numbers, default=0) < 256 ** width)
    return width, padded(b"".join(number.to_bytes(width, "little") for number in numbers))


def mentioned(items):
    """The items without None, each once, in the order of their first mention."""
    return list(dict.fromkeys(item for item in items if item))


def index(stretches, flags=0, build_id=b""):
    files = mentioned(stretch.file for stretch in stretches)
    texts = mentioned(text for file in files for text in file.texts)
    base = stretches[0].start if stretches else 0
    columns = [column(numbers) for numbers in (
        [stretch.start - base for stretch in stretches],
        [files.index(stretch.file) + 1 if stretch.file else 0 for stretch in stretches],
        [stretch.line for stretch in stretches],
        [stretch.column for stretch in stretches],
        [stretch.discriminator for stretch in stretches])]
    bits = sum(1 << k for k, stretch in enumerate(stretches) if stretch.file and stretch.is_stmt)
    body = b"".join(part for _, part in columns) + padded(bits.to_bytes((len(stretches) + 7) // 8, "little"))
    for file in files:
        numbers = [texts.index(text) + 1 for text in file.texts]
        body += struct.pack("<Q4I", file.unit, *numbers, *[0] * (4 - len(numbers)))
    pool = b""
    for text in map(os.fsencode, texts):
        body += struct.pack("<QQ", len(pool), len(text))
        pool += text
    body += padded(pool)
    header = struct.pack("<8sII6Q5B3xIII32s12x", b"dlineidx", 1, flags, HEADER + len(body), base, len(stretches),
                         len(files), len(texts), len(pool), *[width for width, _ in columns], 0, 0, len(build_id),
                         build_id)
    return with_sums(header + body)


def with_sums(made):
    """The same with right sums: CRC-32 of what is behind the header, and of the header, with a sum of 0 in it."""
    body_sum = zlib.crc32(made[HEADER:]).to_bytes(4, "little")
    header = made[:BODY_SUM] + body_sum + bytes(4) + made[HEADER_SUM + 4:HEADER]
    return made[:BODY_SUM] + body_sum + zlib.crc32(header).to_bytes(4, "little") + made[HEADER_SUM + 4:]


def location(stretch):
    if not stretch.file:
        return "??:0"
    column = f":{stretch.column}" if stretch.column else ""
    return f"{stretch.file.path() or '??'}:{stretch.line}{column}"


def listing(stretches):
    ends = [stretch.start for stretch in stretches[1:]] + [END]
    return "".join(f"0x{stretch.start:016x} 0x{end:016x} {location(stretch)}\n"
                   for stretch, end in zip(stretches, ends))
