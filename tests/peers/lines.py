#!/usr/bin/env python3
"""Compares the addresses that `dwline lines` prints with those of gdb's `info line`, for each line from the first to
the last one that the rows of a file have, and two behind it, of each file of tests/data, or of those that are named.

gdb tells the first address of a line, or of the least one above it that has one, once for each of its tables that it
takes for the file. Each of these has to be among ours. It was used with gdb 13.1 of Debian 12: of four programs 70,241
lines are the same, and 6 aren't. Two ask for line 0, of which gdb tells nothing. Four ask for a line whose one
statement has no byte of code: the row behind it, of another file, has its address, and gdb takes the next line
there."""

import re
import sys

from readers import DWLINE, compare_each, output

AT = re.compile(r"(?:starts at address|is at address|address) (0x[0-9a-f]+)")
ROW = re.compile(r"row 0x\w+ \d+ \d+ (\d+) \d+(?: (?:stmt|block|prologue|epilogue|end)| isa \d+| disc \d+)* (.*)")


def lines_of(program):
    """For each path that rows have, the lines to ask for."""
    lines = {}
    for row in output(DWLINE, "dump", "--paths", program).splitlines():
        found = ROW.match(row)
        if found:
            lines.setdefault(found[2], set()).add(int(found[1]))
    return {path: range(min(those), max(those) + 3) for path, those in lines.items() if path != "??"}


def ours(program, asked):
    """The addresses of each line that is asked, in order."""
    found, text = {}, output(DWLINE, "lines", program, *asked, status=(0, 1))
    answers = iter(text.splitlines())
    for word in asked:
        single = output(DWLINE, "lines", program, word, status=(0, 1)).splitlines()
        for line in single:
            if next(answers) != line:
                sys.exit(f"{program} {word}: another answer where it is asked alone")
        found[word] = [int(line.split(" ")[0], 16) for line in single if line != "??"]
    return found


def theirs(program, asked):
    """The addresses that gdb tells of each."""
    commands = []
    for word in asked:
        commands += ["-ex", f"echo @{word}\\n", "-ex", f"info line {word}"]
    text = output("gdb", "-batch", "-nx", "-iex", "set debuginfod enabled off", *commands, program)
    found = {}
    for part in text.split("@")[1:]:
        word, _, said = part.partition("\n")
        found[word] = [int(at, 16) for at in AT.findall(said)]
    return found


def differences(program):
    """What differs, a line each, and how many lines were compared."""
    told, count = [], 0
    for path, lines in lines_of(program).items():
        asked = [f"{path}:{line}" for line in lines]
        for at in range(0, len(asked), 200):
            some = asked[at:at + 200]
            mine, others = ours(program, some), theirs(program, some)
            count += len(some)
            for word in some:
                want, have = others.get(word, []), mine[word]
                if not set(want) <= set(have) or bool(want) != bool(have):
                    told.append(f"{program}: {word}: gdb {[hex(it) for it in want]}, here {[hex(it) for it in have]}")
    return told, count


if __name__ == "__main__":
    compare_each("lines", differences)
