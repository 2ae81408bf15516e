#!/usr/bin/env python3
"""Compares what `dwline lint` finds with what `llvm-dwarfdump --verify` tells of line tables: of each file of
tests/data, or of those that are named, and of programs with bytes of their line tables changed.

Each row with a file that isn't in the table, each file with a directory that isn't, each row below the one before it
and each file that is one of the files before it, as llvm-dwarfdump 19 tells them, has to be a finding. It takes two
files for the same by their whole paths alone, and `lint` by all of their values. So a duplicate isn't one of ours where
the tables say of both files different sums, lengths or times; those are counted. Debian 12: apt-get install llvm-19."""

import json
import os
import re
import sys
import tempfile

from readers import DWLINE, output, programs
from lib.elf import replaced, section_of
from lib.program import data

LLVM = "llvm-dwarfdump-19"
UNIT = r"\.debug_line\[0x(\w+)\]"
TOLD = [
    ("file-index", re.compile(UNIT + r"\[(\d+)\] has invalid file index (\d+)")),
    ("directory-index",
     re.compile(UNIT + r"\.prologue\.file_names\[(\d+)\]\.dir_idx contains an invalid index: (\d+)")),
    ("duplicate-file", re.compile(UNIT + r"\.prologue\.file_names\[(\d+)\] is a duplicate of file_names\[(\d+)\]")),
    ("falling-place", re.compile(UNIT + r" row\[(\d+)\] decreases in address")),
]
# Bytes of the line section of gcc-O2/program, by their offsets: the operand of DW_LNS_set_file and a directory index;
# an address below the rows before it in place of other operations.
CHANGES = [
    {0x64: b"\x09", 0x3e: b"\x09"},
    {0x57: b"\0\x09\x02\0\x0f\x40\0\0\0\0\0"},
]


def units(path):
    """The offsets of the units, from the last one to the first."""
    return sorted((int(line.split()[1], 16) for line in output(DWLINE, "dump",
                                                               path).splitlines() if line.startswith("unit ")),
                  reverse=True)


def theirs(path):
    """What llvm-dwarfdump tells of line tables: the rule, the unit and the numbers. Rows are counted from 0 on."""
    for line in output(LLVM, "--verify", path).splitlines():
        for rule, pattern in TOLD:
            if found := pattern.search(line):
                unit, *numbers = found.groups()
                yield rule, int(unit, 16), *map(int, numbers)


def ours(path):
    """The same of `lint`, which counts rows from 1 on."""
    begins = units(path)
    for line in output(DWLINE, "lint", "--keep-going", "--json", path).splitlines():
        finding = json.loads(line)
        rule = finding["rule"]
        unit = next(offset for offset in begins if offset <= finding["offset"])
        if rule == "file-index":
            yield rule, unit, finding["row"] - 1, finding["file"]
        elif rule == "directory-index":
            yield rule, unit, finding["file"], finding["directory"]
        elif rule == "duplicate-file":
            yield rule, unit, finding["file"], finding["same_as"]
        elif rule == "falling-place":
            yield rule, unit, finding["row"] - 1


def changed(folder):
    """Programs with other bytes in their line sections."""
    elf = data("gcc-O2", "program")
    _, at, _ = section_of(elf, ".debug_line")
    for number, change in enumerate(CHANGES):
        image = elf
        for offset, those in change.items():
            image = replaced(image, at + offset, those)
        path = os.path.join(folder, f"changed{number}")
        with open(path, "wb") as file:
            file.write(image)
        yield path


def main():
    told, count, alone = [], 0, 0
    with tempfile.TemporaryDirectory() as folder:
        for path in [*programs(), *changed(folder)]:
            mine = set(ours(path))
            for finding in theirs(path):
                count += 1
                if finding in mine:
                    continue
                if finding[0] == "duplicate-file":
                    alone += 1
                else:
                    told.append(f"{path}: {finding}")
    print("\n".join(told + [f"{count} findings compared, {len(told)} differ, "
                            f"{alone} files are the same by their paths alone"]))
    sys.exit(bool(told) or not count)


if __name__ == "__main__":
    main()
