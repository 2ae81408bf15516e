#!/usr/bin/env python3
"""Measures what `dwline addr` keeps of paths: time and peak memory for sections that it makes.

    bench/paths.py [PATH OF dwline]

- One unit of 20,000 files, all in one directory whose name has 100,000 bytes, which stands in the unit's own table, and
  the same with the name in .debug_line_str.
- One unit whose table has 1,000,000 files without a name, of which one answers.

Each is asked for an address of each file that has one, as a location, with -s and with --json. It wants /usr/bin/time.
"""
import os
import subprocess
import sys
import tempfile

FILES = 20_000
NAME = 100_000
HERE = os.path.dirname(os.path.abspath(__file__))
LENGTHS = bytes([0, 1, 1, 1, 1, 0, 0, 0, 1, 0, 0, 1])


def uleb(number):
    """A number in LEB128."""
    spelled = bytearray()
    while number >= 0x80:
        spelled.append(number & 0x7F | 0x80)
        number >>= 7
    spelled.append(number)
    return bytes(spelled)


def unit(directories, files, answering):
    """A unit with these tables, formats and all, whose rows name these files, 16 bytes each from 0x1000 on."""
    after = bytes([1, 1, 1, 0xFB, 14, 13]) + LENGTHS + directories + files
    program = bytes([0, 9, 2]) + (0x1000).to_bytes(8, "little")
    for file in answering:
        program += bytes([4]) + uleb(file) + bytes([1, 2, 0x10])
    program += bytes([0, 1, 1])
    body = (5).to_bytes(2, "little") + bytes([8, 0]) + len(after).to_bytes(4, "little") + after + program
    return len(body).to_bytes(4, "little") + body


def named(count):
    """A table of this many files in directory 0, by their numbers."""
    files = b"".join(f"{number}.c\0".encode() + b"\0" for number in range(count))
    return bytes([2, 1, 8, 2, 0x0B]) + uleb(count) + files


def measured(dwline, section, texts, asked, style):
    """Seconds and MiB that `dwline addr` takes for these addresses."""
    with tempfile.TemporaryDirectory() as folder:
        paths = [os.path.join(folder, name) for name in ("section", "texts", "peak")]
        for path, content in zip(paths, (section, texts)):
            with open(path, "wb") as file:
                file.write(content)
        words = [dwline, "addr", "-", *style, "--line-str", paths[1]]
        words += [f"0x{address:x}" for address in asked]
        with open(paths[0], "rb") as given:
            subprocess.run(["/usr/bin/time", "-f", "%U %S %M", "-o", paths[2], *words], stdin=given,
                           stdout=subprocess.DEVNULL, check=True)
        with open(paths[2]) as peak:
            user, system, kib = peak.read().split()
    return float(user) + float(system), int(kib) / 1024


def main():
    dwline = os.path.abspath(sys.argv[1] if len(sys.argv) > 1
                             else os.path.join(HERE, "../crates/dwline/out/dwline"))
    name = b"/" + b"d" * (NAME - 1)
    every = range(FILES)
    asked = [0x1000 + 16 * file for file in every]
    own = unit(bytes([1, 1, 8, 1]) + name + b"\0", named(FILES), every)
    lent = unit(bytes([1, 1, 0x1F, 1]) + bytes(4), named(FILES), every)
    empty = unit(bytes([1, 1, 8, 1]) + b"/\0", bytes([1, 1, 8]) + uleb(1_000_000) + bytes(1_000_000), [0])
    for title, section, texts, addresses in (
        ("a long name in the table", own, b"\0", asked),
        ("a long name in .debug_line_str", lent, name + b"\0", asked),
        ("a million files, one of which answers", empty, b"\0", asked[:1]),
    ):
        for style in ([], ["-s"], ["--json"]):
            seconds, mib = measured(dwline, section, texts, addresses, style)
            size = len(section) + len(texts)
            print(f"{title}, {size:,} bytes{''.join(f', {word}' for word in style)}: {seconds:.2f} s, {mib:.1f} MiB")


if __name__ == "__main__":
    main()
