"""What llvm-dwarfdump and readelf tell of the line tables of an ELF file, unit by unit. It was used with llvm-dwarfdump
14 and readelf 2.40 of Debian 12."""

import os
import re
import subprocess
import sys
from dataclasses import dataclass, field

TESTS = os.path.dirname(os.path.dirname(os.path.abspath(__file__)))
sys.dont_write_bytecode = True
sys.path.insert(0, TESTS)

from lib.folders import FOLDERS, program
from lib.program import DWLINE

# Our names of the fields of a header, by those of the others.
LLVM_FIELDS = {"total_length": "unit_length", "prologue_length": "header_length",
               "min_inst_length": "minimum_instruction_length",
               "max_ops_per_inst": "maximum_operations_per_instruction", "default_is_stmt": "default_is_stmt",
               "line_base": "line_base", "line_range": "line_range", "opcode_base": "opcode_base", "version": "version",
               "address_size": "address_size"}
READELF_FIELDS = {"Length": "unit_length", "Prologue Length": "header_length", "DWARF Version": "version",
                  "Minimum Instruction Length": "minimum_instruction_length",
                  "Maximum Ops per Instruction": "maximum_operations_per_instruction",
                  "Initial value of 'is_stmt'": "default_is_stmt", "Line Base": "line_base", "Line Range": "line_range",
                  "Opcode Base": "opcode_base"}
# Our names of flags and of values of entries, by those of llvm-dwarfdump.
FLAGS = {"is_stmt": "stmt", "basic_block": "block", "prologue_end": "prologue", "epilogue_begin": "epilogue",
         "end_sequence": "end"}
VALUES = {"name": "path", "dir_index": "dir", "md5_checksum": "md5", "mod_time": "time", "length": "size",
          "source": "0x2001"}
# The columns of readelf's tables.
COLUMNS = {"Name": "path", "Dir": "dir", "Time": "time", "Size": "size", "MD5": "md5"}


@dataclass
class Unit:
    """Of a unit: the fields of its header by our names, the lengths of its standard opcodes, its directories and files,
    its rows, its operations by their offsets, and of readelf the formats of its entries."""
    offset: int
    fields: dict = field(default_factory=dict)
    format: str = ""
    lengths: list = field(default_factory=list)
    formats: dict = field(default_factory=dict)
    dir: list = field(default_factory=list)
    file: list = field(default_factory=list)
    rows: list = field(default_factory=list)
    operations: dict = field(default_factory=dict)


def output(*words, status=None):
    """What a command prints. Where a status is named it has to be one of these."""
    done = subprocess.run(words, stdout=subprocess.PIPE, stderr=subprocess.PIPE, stdin=subprocess.DEVNULL)
    if status is not None and done.returncode not in status:
        sys.exit(f"{words}: {done.stderr.decode(errors='replace')}")
    return done.stdout.decode("utf-8", "surrogateescape")


def unquote(text):
    """The bytes of a quoted text, escaped as dwline or as LLVM does it."""
    known = {"n": b"\n", "t": b"\t", '"': b'"', "\\": b"\\"}
    out = b""
    for hexa, octal, letter, plain in re.findall(r'\\x([0-9a-f]{2})|\\([0-7]{3})|\\(.)|([^\\])', text[1:-1]):
        out += (bytes([int(hexa, 16)]) if hexa else bytes([int(octal, 8)]) if octal
                else known[letter] if letter else plain.encode("utf8", "surrogateescape"))
    return out


# ---- llvm-dwarfdump


def by_llvm(path):
    """Its rows have no op_index. It doesn't tell the size of an address before version 5, which is that of the file's
    class then, nor before version 4 how many operations an instruction has."""
    units, size = [], None
    for line in output("llvm-dwarfdump", "--debug-line", "-v", path).splitlines():
        found = re.match(r".*file format elf(32|64)-", line)
        if found:
            size = int(found[1]) // 8
        found = re.match(r"debug_line\[(0x[0-9a-f]+)\]", line)
        if found:
            units.append(Unit(int(found[1], 16), {"address_size": size, "maximum_operations_per_instruction": 1}))
        elif units:
            read_llvm(units[-1], line)
    return units


def read_llvm(unit, line):
    operation = re.match(r"(0x[0-9a-f]{8,}): ([0-9a-f]{2}) (.*)$", line)
    row = re.match(r" +(0x[0-9a-f]{16})((?: +\d+){5}) *(.*)$", line)
    length = re.match(r"standard_opcode_lengths\[.*\] = (\d+)", line)
    directory = re.match(r'include_directories\[ *\d+\] = .*?(".*")$', line)
    named = re.match(r" *(\w+): (.*)$", line)
    if operation:
        unit.operations[int(operation[1], 16)] = operation_by_llvm(int(operation[2], 16), operation[3])
    elif row:
        number, column, file, isa, disc = map(int, row[2].split())
        flags = {FLAGS[it] for it in row[3].split()}
        unit.rows.append((int(row[1], 16), file, number, column, flags, isa, disc))
    elif length:
        unit.lengths.append(int(length[1]))
    elif directory:
        unit.dir.append({"path": unquote(directory[1])})
    elif line.startswith("file_names["):
        unit.file.append({})
    elif named and unit.file and named[1] in VALUES:
        unit.file[-1][VALUES[named[1]]] = value_by_llvm(named[1], named[2])
    elif named and named[1] == "format":
        unit.format = named[2].lower()
    elif named and named[1] in LLVM_FIELDS:
        unit.fields[LLVM_FIELDS[named[1]]] = int(named[2], 0)


def value_by_llvm(name, text):
    quoted = re.search(r'".*"$', text)
    if quoted:
        return unquote(quoted[0])
    return str(int(text, 16)) if name in ("mod_time", "length") else text


def operation_by_llvm(opcode, text):
    """The name and the operands. Of DW_LNS_advance_line it tells where it leads to, not by how much."""
    special = re.match(r"address \+= (\d+),  line \+= (-?\d+)", text)
    if special:
        return "special", (opcode, int(special[1]), int(special[2]))
    named = re.match(r"DW_LN[SE]_(\w+)(?: \((\S+)\))?", text)
    if not named:
        return f"unknown to us: {text}", ()
    return named[1], () if named[2] is None or named[1] == "advance_line" else (int(named[2], 0),)


# ---- readelf


# Its words for an operation, with its operands, and the name. Of DW_LNS_negate_stmt it tells what the register becomes.
READELF = [
    (r"Special opcode (\d+): advance Address by (\d+) to \S+ and Line by (-?\d+) to", "special"),
    (r"Advance PC by constant (\d+) to", "const_add_pc"),
    (r"Advance PC by fixed size amount (\d+) to", "fixed_advance_pc"), (r"Advance PC by (\d+) to", "advance_pc"),
    (r"Advance Line by (-?\d+) to", "advance_line"), (r"Set column to (\d+)", "set_column"),
    (r"Set File Name to entry (\d+) in", "set_file"), (r"Set is_stmt to", "negate_stmt"), (r"Copy", "copy"),
    (r"Set prologue_end to true", "set_prologue_end"), (r"Set epilogue_begin to true", "set_epilogue_begin"),
    (r"Set basic block", "set_basic_block"), (r"Set ISA to (\d+)", "set_isa"),
    (r"Extended opcode 1: End of Sequence", "end_sequence"),
    (r"Extended opcode 2: set Address to (\S+)", "set_address"),
    (r"Extended opcode 4: set Discriminator to (\d+)", "set_discriminator"),
]
# What its words say of the registers.
REGISTERS = [(r"Address (?:by \d+ )?to (0x[0-9a-f]+)", "address"), (r"PC by .*to (0x[0-9a-f]+)", "address"),
             (r"0x[0-9a-f]+\[(\d+)\]", "op"), (r"Line by \S+ to (\d+)", "line"), (r"column to (\d+)", "column"),
             (r"File Name to entry (\d+)", "file"), (r"ISA to (\d+)", "isa"), (r"is_stmt to (\d)", "stmt"),
             (r"Discriminator to (\d+)", "disc")]
SETS = [("Set basic block", "block"), ("Set prologue_end", "prologue"), ("Set epilogue_begin", "epilogue"),
        ("End of Sequence", "end")]


def by_readelf(path):
    """It tells what each operation does to which register. A row stands at each special opcode, copy and end of
    sequence."""
    units, registers = [], {}
    lines = iter(output("readelf", "--debug-dump=rawline", path).splitlines())
    for line in lines:
        name, _, value = line.strip().partition(":")
        table = re.match(r" The (Directory|File Name) Table \(offset .*columns (\d+)\)", line)
        length = re.match(r"  Opcode \d+ has (\d+) arg", line)
        operation = re.match(r" +\[(0x[0-9a-f]+)\]  (.*)$", line)
        if name == "Offset":
            units.append(Unit(int(value, 0)))
        elif name in READELF_FIELDS and READELF_FIELDS[name] not in units[-1].fields:
            units[-1].fields[READELF_FIELDS[name]] = int(value, 0)
            registers = fresh(units[-1])
        elif length:
            units[-1].lengths.append(int(length[1]))
        elif table:
            known = sorted(COLUMNS[it] for it in next(lines).split()[1:] if it in COLUMNS)
            units[-1].formats["directory_format" if table[1] == "Directory" else "file_format"] = int(table[2]), known
        elif operation:
            units[-1].operations[int(operation[1], 16)] = operation_by_readelf(operation[2])
            registers = moved(units[-1], registers, operation[2])
    return units


def operation_by_readelf(said):
    for pattern, name in READELF:
        matched = re.match(pattern, said)
        if matched:
            return name, tuple(int(it, 0) for it in matched.groups())
    return f"unknown to us: {said}", ()


def fresh(unit):
    """The registers at the beginning of a sequence."""
    return {"address": 0, "op": 0, "file": 1, "line": 1, "column": 0, "isa": 0, "disc": 0, "flags": set(),
            "stmt": unit.fields.get("default_is_stmt", 1)}


def moved(unit, registers, said):
    """The registers after an operation, whose row is added to those of the unit."""
    for pattern, name in REGISTERS:
        found = re.search(pattern, said)
        if found:
            registers[name] = int(found[1], 0)
    registers["flags"] |= {flag for words, flag in SETS if words in said}
    if not re.match(r"Special opcode|Copy|Extended opcode 1:", said):
        return registers
    flags = registers["flags"] | ({"stmt"} if registers["stmt"] else set())
    unit.rows.append((registers["address"], registers["op"], registers["file"], registers["line"], registers["column"],
                      flags, registers["isa"], registers["disc"]))
    return fresh(unit) if "end" in flags else {**registers, "flags": set(), "disc": 0}


# ---- comparisons


def programs():
    """The files that are compared: those of the words, or all of tests/data."""
    return sys.argv[1:] or [program(name) for name in FOLDERS]


def compare_each(what, differences):
    """Ends with status 1 where a file differs, or nothing is compared. `differences` says of a file what differs, a
    line each, and how many were compared."""
    told, count = [], 0
    for path in programs():
        found, some = differences(path)
        told, count = told + found, count + some
    print("\n".join(told + [f"{count} {what} compared, {len(told)} differ"]))
    sys.exit(bool(told) or not count)
