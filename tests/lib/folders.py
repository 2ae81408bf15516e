"""The folders of tests/data: an ELF file `program` in each, and in some its sections and the dump that is expected."""

import os

from lib.program import DATA, data, path

# All that have an ELF file.
FOLDERS = sorted(name for name in os.listdir(DATA) if os.path.exists(path(name, "program")))

# Those with a dump.
DUMPED = [name for name in FOLDERS if os.path.exists(path(name, "expected.dump"))]


def _sections():
    with open(path("SECTIONS")) as file:
        lines = [line.split() for line in file if not line.startswith("#")]
    return {name: words for name, *words in lines}


# Of each folder with a line section, the words with which it is read from standard input.
SECTIONS = _sections()


def order(name):
    """The words that say the order of the section's numbers, without those that say how older units are read."""
    return [word for word in SECTIONS[name] if word == "--big"]


def program(name):
    """The path of the folder's ELF file."""
    return path(name, "program")


def section(name):
    return data(name, "debug_line")


def dump(name):
    return data(name, "expected.dump")


def strings(name):
    """The words that name the string sections."""
    found = []
    for option, file in (("--line-str", "debug_line_str"), ("--str", "debug_str")):
        if os.path.exists(path(name, file)):
            found += [option, path(name, file)]
    return found
