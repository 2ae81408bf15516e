#!/usr/bin/env python3
"""Compares each expected.dump with what llvm-dwarfdump and readelf make of its file: offsets, formats, directories,
files and every row, of each folder of tests/data, or of the files that are named.

    rows.py --dump FILE

prints what llvm-dwarfdump makes of an ELF file, in the form of `dwline dump`. LLVM keeps 16 bits of a column, and
doesn't know op_index: where an instruction holds several operations readelf's rows count alone."""

import os
import re
import sys

from readers import Unit, by_llvm, by_readelf, compare_each, unquote

FLAGS = ["stmt", "block", "prologue", "epilogue", "end"]


def units_of_dump(path):
    """The units that an expected.dump states, and of each whether its last sequence is open, or it is skipped."""
    with open(path, encoding="utf8", errors="surrogateescape") as file:
        lines = file.read().splitlines()
    units = []
    for line in lines:
        word, _, rest = line.partition(" ")
        if word == "unit":
            offset, *words = rest.split()
            units.append(Unit(int(offset, 16), {"version": int(words[words.index("version") + 1])}))
            units[-1].is_skipped, units[-1].is_open = words[-1] == "skipped", False
            if not units[-1].is_skipped:
                units[-1].format, units[-1].fields["address_size"] = words[0], int(words[-1])
        elif word == "open":
            units[-1].is_open = True
        elif word == "row":
            units[-1].rows.append(row_of_dump(rest))
        else:
            number, values = rest.split(" ", 1)
            table = getattr(units[-1], word)
            assert int(number) == len(table) + (units[-1].fields["version"] < 5)
            table.append({name: unquote(value) if value[0] == '"' else value
                          for name, value in re.findall(r'(\S+)=("(?:[^"\\]|\\.)*"|\S+)', values)})
    return units


def row_of_dump(text):
    address, *numbers = text.split()
    numbers, words = [int(it) for it in numbers[:4]], iter(numbers[4:])
    values, flags = {"isa": 0, "disc": 0}, set()
    for word in words:
        if word in values:
            values[word] = int(next(words))
        else:
            flags.add(word)
    return (int(address, 16), *numbers, flags, values["isa"], values["disc"])


def is_open(unit):
    """Whether the last sequence of a unit of llvm-dwarfdump has no end."""
    return bool(unit.rows) and "end" not in unit.rows[-1][4]


def pairs_of_unit(unit, llvm, readelf):
    """What of a unit has to be the same as that of both others: a name, and both values."""
    yield "version", unit.fields["version"], llvm.fields["version"]
    yield "version (readelf)", unit.fields["version"], readelf.fields["version"]
    yield "offset (readelf)", unit.offset, readelf.offset
    if unit.is_skipped:
        return
    yield "format", unit.format, llvm.format
    yield "address_size", unit.fields["address_size"], llvm.fields["address_size"]
    yield "directories", unit.dir, llvm.dir
    yield "files", unit.file, llvm.file
    yield "open", unit.is_open, is_open(llvm)
    yield "number of rows", len(unit.rows), len(llvm.rows)
    yield "number of rows (readelf)", len(unit.rows), len(readelf.rows)
    for number, (row, by_one, by_other) in enumerate(zip(unit.rows, llvm.rows, readelf.rows)):
        address, op_index, file, line, column, *others = row
        if llvm.fields["maximum_operations_per_instruction"] == 1:
            yield f"row {number}", (address, file, line, column % 2 ** 16, *others, op_index), (*by_one, 0)
        yield f"row {number} (readelf)", row, by_other


def differences(path):
    expected = os.path.join(os.path.dirname(path), "expected.dump")
    if not os.path.exists(expected):
        return [], 0
    mine, llvm, readelf = units_of_dump(expected), by_llvm(path), by_readelf(path)
    if not len(mine) == len(llvm) == len(readelf):
        return [f"{path}: {len(mine)} units, {len(llvm)} and {len(readelf)} by the others"], 1
    told, count = [], 0
    for units in zip(mine, llvm, readelf):
        for what, ours, theirs in pairs_of_unit(*units):
            count += 1
            if ours != theirs:
                told.append(f"{path}: unit {units[0].offset:#x}: {what}: {ours} in expected.dump, "
                            f"{theirs} by the other")
    return told, count


def quoted(text):
    """A text in double quotes, as dwline writes it."""
    return '"' + "".join(chr(b) if 32 <= b < 127 and b not in b'"\\' else f"\\x{b:02x}" for b in text) + '"'


def dump_of_llvm(units):
    """These units of llvm-dwarfdump in the form of `dwline dump`."""
    for unit in units:
        version = unit.fields["version"]
        yield f"unit {unit.offset:#x} {unit.format} version {version} address_size {unit.fields['address_size']}"
        for table in ("dir", "file"):
            for number, entry in enumerate(getattr(unit, table), start=int(version < 5)):
                values = [f"{name}=" + (quoted(value) if isinstance(value, bytes) else value)
                          for name, value in entry.items()]
                yield " ".join([table, str(number), *values])
        for address, file, line, column, flags, isa, disc in unit.rows:
            words = [flag for flag in FLAGS if flag in flags]
            words += [f"isa {isa}"] * (isa != 0) + [f"disc {disc}"] * (disc != 0)
            yield " ".join([f"row {address:#018x} 0 {file} {line} {column}", *words])
        if is_open(unit):
            yield "open"


if __name__ == "__main__":
    if sys.argv[1:2] == ["--dump"]:
        print(*dump_of_llvm(by_llvm(sys.argv[2])), sep="\n")
    else:
        compare_each("values", differences)
