"""What a case of a section on standard input is, and the runs that it stands for."""
import re
from typing import NamedTuple, Optional

UNIT = "unit 0x0 dwarf32 version 5 address_size 8\n"

TRUNCATED = "input ends inside a unit"


class Run(NamedTuple):
    """What `dwline WORDS` is given on standard input, and what is wanted of it. A word of bytes stands for the path of
    a file of these bytes."""
    name: str
    words: tuple
    section: bytes
    status: int
    output: bytes
    # One of these lines, or nothing.
    errors: tuple


class Whole(NamedTuple):
    """A section of whole units of version 5, and what `dump` prints of it."""
    name: str
    section: bytes
    dump: str
    # What `copy` writes, where that is known from outside. What it writes has the same dump in any case.
    copied: Optional[bytes] = None
    order: tuple = ()
    strings: tuple = ()


class Refused(NamedTuple):
    """A section with a fault at a byte, and what `dump` prints before it. With `at_last` the last byte shows the fault,
    else any after the one at which the fault is."""
    name: str
    section: bytes
    offset: int
    fault: str
    dump: str = ""
    order: tuple = ()
    at_last: bool = False


def row(address, op_index, line, flags="stmt", file=1, column=0):
    """The line of a row."""
    return f"row 0x{address:016x} {op_index} {file} {line} {column}{' ' * bool(flags)}{flags}\n"


def text(dump):
    """The bytes of a dump, whose letters are bytes."""
    return dump.encode("latin-1")


def error(reason):
    """The line of standard error that tells this reason."""
    return f"dwline: {reason}\n".encode()


def damage(offset, fault):
    return error(f"damage at 0x{offset:x}: {fault}")


def counts_of(dump):
    """What `check` writes of a section with this dump."""
    lines = [line.split() for line in dump.splitlines()]
    skipped = sum(line[-1] == "skipped" for line in lines)
    units = sum(line[0] == "unit" for line in lines) - skipped
    rows = [line for line in lines if line[0] == "row"]
    sequences = sum("end" in line for line in rows)
    return f"units {units} skipped {skipped} sequences {sequences} rows {len(rows)}\n".encode()


def without_offsets(dump):
    """A dump without the places of its units."""
    return re.sub(rb"(?m)^unit 0x[0-9a-f]* ", b"unit ", dump)


def runs_of_whole(case):
    """`dump`, `check` and, where it is known what is written, `copy`."""
    dump = ("dump", *case.order, *case.strings)
    yield Run(f"{case.name}: dump", dump, case.section, 0, text(case.dump), (b"",))
    yield Run(f"{case.name}: check", ("check", *case.order), case.section, 0, counts_of(case.dump), (b"",))
    if case.copied is not None:
        yield Run(f"{case.name}: copy", ("copy", *case.order), case.section, 0, case.copied, (b"",))


def runs_of_refused(case):
    """Each command stops at the fault, whatever stands after it. Only `dump` has written anything then."""
    fault = (damage(case.offset, case.fault),)
    for after in [b"", b"\0", b"\xff" * 20]:
        section = case.section + after
        for command in [("check",), ("find", "0xfffffffffffffff0"), ("copy",)]:
            yield Run(f"{case.name}: {command[0]}", (*command, *case.order), section, 1, b"", fault)
        yield Run(f"{case.name}: dump", ("dump", *case.order), section, 1, text(case.dump), fault)


def fronts_of_unit(case):
    """A unit that ends early is told to end there."""
    for length in range(1, len(case.section)):
        section = case.section[:length]
        truncated = (damage(length, TRUNCATED),)
        yield Run(f"{case.name}, {length} bytes", ("check", *case.order), section, 1, b"", truncated)


def fronts_of_refused(case):
    """So is one that ends before the byte that shows its fault."""
    fault = damage(case.offset, case.fault)
    for length in range(1, len(case.section)):
        section = case.section[:length]
        errors = (damage(length, TRUNCATED),)
        if not case.at_last and length > case.offset:
            errors += (fault,)
        yield Run(f"{case.name}, {length} bytes", ("check", *case.order), section, 1, b"", errors)


def version_5(dump):
    """A dump of which only units of version 5 are read."""
    lines, is_older = [], False
    for line in dump.splitlines(True):
        fields = line.split()
        if fields[0] == b"unit":
            is_older = fields[2] != b"version" and int(fields[4]) < 5
            if is_older:
                lines.append(b" ".join([*fields[:2], *fields[3:5], b"skipped\n"]))
        if not is_older:
            lines.append(line)
    return b"".join(lines)


def addresses_of(dump):
    """The addresses of the rows of a dump, each once."""
    return sorted(set(re.findall(rb"(?m)^row (0x[0-9a-f]*) ", dump)))
