#!/usr/bin/env python3
"""Compares the fields of headers that `dwline dump --header` prints with those of llvm-dwarfdump and readelf, field by
field: of each file of tests/data, or of those that are named. readelf alone tells the formats of entries: how many
columns a table has, and what they are."""

from readers import COLUMNS, DWLINE, by_llvm, by_readelf, compare_each, output


def ours(path):
    """The fields of each unit that is read, by offset."""
    units, fields = {}, None
    for line in output(DWLINE, "dump", "--header", path).splitlines():
        word, _, rest = line.partition(" ")
        if word == "unit":
            fields = None if line.endswith(" skipped") else {"version": int(rest.split()[3])}
            if fields:
                units[int(rest.split()[0], 16)] = fields
        elif word in ("dir", "file", "row", "open", "padding") or fields is None:
            continue
        elif word in ("directory_format", "file_format"):
            names = [pair.split("=")[0] for pair in rest.split()]
            fields[word] = len(names), sorted(name for name in names if name in COLUMNS.values())
        elif word == "lengths":
            fields[word] = [int(number) for number in rest.split()]
        else:
            fields[word] = int(rest)
    return units


def theirs(unit, version):
    """The fields of a unit of the others that can be compared: none that its version doesn't have."""
    fields = {**unit.fields, "lengths": unit.lengths, **(unit.formats if version == 5 else {})}
    if version < 4:
        fields.pop("maximum_operations_per_instruction", None)
    fields.pop("address_size", None)
    return fields


def differences(path):
    mine, count, told = ours(path), 0, []
    for peer, units in (("llvm-dwarfdump", by_llvm(path)), ("readelf", by_readelf(path))):
        for unit in units:
            fields = mine.get(unit.offset)
            for name, value in theirs(unit, fields["version"]).items() if fields else ():
                count += 1
                if fields.get(name) != value:
                    told.append(f"{path}: unit 0x{unit.offset:x}: {name} is {fields.get(name)}, {peer} has {value}")
    return told, count


if __name__ == "__main__":
    compare_each("fields", differences)
