#!/usr/bin/env python3
"""Compares the operations that `dwline dump --operations` prints with those of llvm-dwarfdump and readelf: where each
begins, its name and its operands, of each file of tests/data, or of those that are named.

Operands that one doesn't tell aren't compared. Of an advance both tell what it adds to the address. Where an
instruction holds several operations, readelf tells how many operations it adds, and llvm-dwarfdump 14 doesn't count
them, so that there only names are compared. LLVM keeps 16 bits of a column."""

import re

from readers import DWLINE, by_llvm, by_readelf, compare_each, output


def operands(fields, name, words):
    """The operands of an operation, advances of the address being what they add to it."""
    if name == "special":
        opcode, address, _, line = int(words[0], 16), *(int(it) for it in words[2::2])
        return opcode - fields["opcode_base"], address, line
    if name == "advance_pc":
        return (fields["minimum_instruction_length"] * int(words[0]),)
    if name == "const_add_pc":
        return (fields["minimum_instruction_length"] * ((255 - fields["opcode_base"]) // fields["line_range"]),)
    return tuple(int(it, 0) for it in words)


def ours(path):
    """The operations of all units by offset: the name, the operands, and how many operations an instruction holds."""
    found, fields = {}, {}
    for line in output(DWLINE, "dump", "--header", "--operations", path).splitlines():
        word, _, rest = line.partition(" ")
        if word == "unit":
            fields = {"maximum_operations_per_instruction": 1}
        elif word == "operation":
            offset, _, name, *words = rest.split()
            name = re.sub("^DW_LN[SE]_", "", name)
            found[int(offset, 16)] = (name, operands(fields, name, words), fields["maximum_operations_per_instruction"])
        elif re.fullmatch(r"-?\d+", rest):
            fields[word] = int(rest)
    return found


def is_same(peer, mine, theirs):
    """Whether an operation of ours is the same as another's, as far as that tells."""
    (name, operands, most), (other, others) = mine, theirs
    if name != other or most > 1:
        return name == other
    if name == "set_column" and peer == "llvm-dwarfdump":
        return operands[0] & 0xffff == others[0]
    if name == "special" and peer == "llvm-dwarfdump":
        return operands[1:] == others[1:]
    return operands == others or (not others and name in ("advance_line", "negate_stmt"))


def differences(path):
    mine, count, told = ours(path), 0, []
    for peer, units in (("llvm-dwarfdump", by_llvm(path)), ("readelf", by_readelf(path))):
        theirs = {offset: it for unit in units for offset, it in unit.operations.items()}
        for offset in sorted({*mine, *theirs} if theirs else ()):
            one, other = mine.get(offset), theirs.get(offset)
            count += 1
            if not one or not other or not is_same(peer, one, other):
                told.append(f"{path}: 0x{offset:x}: {one} here, {peer} has {other}")
    return told, count


if __name__ == "__main__":
    compare_each("operations", differences)
