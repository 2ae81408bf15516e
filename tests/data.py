"""The files of tests/data: what each command writes of them, and of their sections on standard input.

A file's expected dump is not of dwline; README.md says whence it is. What other commands write is worked out from it,
or is what another command writes of the same file."""

import functools
import json
import os
import re

from cases.locations import LOCATIONS, NONE
from lib.dumps import addresses_of, counts_of, version_5, without_offsets
from lib.folders import DUMPED, FOLDERS, SECTIONS, dump, order, program, section, strings
from lib.program import differences, expect, folder, run

# Files that `copy` refuses though they aren't of a folder object-*: they have relocations, or may have.
UNCOPIED = ["clang-split", "operations"]

# Each file whose sections are compressed, and the file without compression.
COMPRESSED = {"compressed": "gcc-O2", "compressed-gnu": "gcc-O2", "compressed-powerpc": "gcc-powerpc",
              "compressed-gnu-powerpc": "gcc-powerpc", "compressed-object": "object-gcc"}

# The sections with code of the object files.
CODE = [".text", ".text.sum", ".text.longest_run", ".text.fail", ".text._start", ".text._Z3sumPKii5range",
        ".text._Z11longest_runPKii5range", ".text._Z6_startv"]


def cases():
    for name in DUMPED:
        yield from whole_files(name)
        yield from object_files(name) if name.startswith("object-") else sections(name)
    for name, plain in COMPRESSED.items():
        for command in ("dump", "check", "copy"):
            yield f"{name}: {command}", functools.partial(try_same, name, plain, command)
        yield f"{name}: find", functools.partial(try_same_rows, name, plain)
    for name in FOLDERS:
        yield f"{name}: dump --json", functools.partial(try_json, name)
        for words in ([], ["--all"], ["--comp-dir", "/build"]):
            yield " ".join([f"{name}: index", *words]), functools.partial(try_index, name, words)
    for name, words, answers in LOCATIONS:
        yield f"{name}: addr {words}", functools.partial(try_location, name, words, answers)


def counts(text):
    return counts_of(text.decode("latin-1"))


def case(name, words, *wanted, **given):
    return name, functools.partial(expect, words, *wanted, **given)


def whole_files(name):
    text, path = dump(name), program(name)
    yield case(f"{name}: dump", ["dump", path], text, "")
    yield case(f"{name}: check", ["check", path], counts(text), "")
    yield case(f"{name}: dump --keep-going", ["dump", "--keep-going", path], text, "")
    yield case(f"{name}: check --keep-going", ["check", "--keep-going", path], counts(text)[:-1] + b" damaged 0\n", "")
    yield f"{name}: dump --header", functools.partial(try_header, name)


# The fields of a header, which stand behind the line of its unit.
FIELD = re.compile(rb"(?m)^(unit_length|header_length|minimum_instruction_length|maximum_operations_per_instruction|"
                   rb"default_is_stmt|line_base|line_range|opcode_base|lengths|directory_format|file_format|padding)"
                   rb"( .*)?\n")


def try_header(name):
    """Without the fields the text is the same. peers/headers.py compares each field with other tools."""
    ran = run("dump", "--header", program(name))
    return "\n".join(differences(ran._replace(out=FIELD.sub(b"", ran.out)), dump(name), b"", 0)) or None


# ---- object files


def object_files(name):
    path = program(name)
    yield case(f"{name}: copy", ["copy", path], "",
               f"dwline: {path}: an object file; its copy would lose its relocations\n", 1)
    yield f"{name}: find", functools.partial(try_sections_of_code, name)


def try_sections_of_code(name):
    """What is found in the sections is rows of the dump, and something is found."""
    lines, count = dump(name).splitlines(), 0
    for part in CODE:
        for address in addresses_of(dump(name)):
            ran = run("find", "-j", part, address, program(name))
            if ran.status == 0:
                assert ran.out.splitlines()[-1] in lines, (part, address, ran)
                count += 1
    assert count, "nothing is found"


# ---- sections on standard input


def sections(name):
    older, alone, given = dump(name), version_5(dump(name)), section(name)
    both = order(name) + strings(name)
    yield case(f"{name}: dump of the section", ["dump", *both], alone, "", stdin=given)
    yield case(f"{name}: check of the section", ["check", *order(name)], counts(alone), "", stdin=given)
    if order(name) != SECTIONS[name]:
        words = ["dump", *SECTIONS[name], *strings(name)]
        yield case(f"{name}: dump of the section with older units", words, older, "", stdin=given)
    yield f"{name}: copy of the section", functools.partial(try_copy, name, alone)
    yield f"{name}: copy", functools.partial(try_copy_of_file, name)
    yield f"{name}: find", functools.partial(try_find, name, alone)


def try_copy(name, alone):
    """The copy has the same dump but for the units' offsets. It ends before a unit that isn't of version 5."""
    copied = run("copy", *order(name), stdin=section(name))
    other = re.search(rb"(?m)^unit (0x[0-9a-f]*) version \d+ skipped$", alone)
    fault = b"dwline: unit %s is not version 5\n" % other[1] if other else b""
    wrong = differences(copied, None, fault, int(bool(other)))
    wanted = without_offsets(alone[:other.start()] if other else alone)
    dumped = run("dump", *order(name), *strings(name), stdin=copied.out)
    wrong += differences(dumped._replace(out=without_offsets(dumped.out)), wanted, b"", 0)
    return "\n".join(wrong) or None


def try_copy_of_file(name):
    """It is that of the section, or is refused."""
    path = program(name)
    if name in UNCOPIED:
        return expect(["copy", path], "", f"dwline: {path}: an object file; its copy would lose its relocations\n", 1)
    status, out, err = run("copy", *order(name), stdin=section(name))
    return expect(["copy", path], out, err, status)


def try_find(name, alone):
    """At each row the section and the file answer the same, but that of a file it is told which units aren't read."""
    for address in addresses_of(alone):
        whole = run("find", address, program(name))
        told = re.sub(rb"(?m)^.* of version.* not read\n", b"", whole.err)
        ran = run("find", *order(name), *strings(name), address, stdin=section(name))
        assert (whole.status, whole.out, told) == ran, (address, whole, ran)


# ---- compressed files


def try_same(name, plain, command, *words):
    """The command answers and writes of both files the same."""
    status, out, _ = run(command, *words, program(plain))
    return expect([command, *words, program(name)], out, None, status)


def try_same_rows(name, plain):
    words = ["-j", ".text.sum"] if plain.startswith("object-") else []
    wrong = [try_same(name, plain, "find", *words, address) for address in addresses_of(dump(plain))]
    return "\n".join(text for text in wrong if text) or None


# ---- JSON


NUMBERS = ["unit_length", "header_length", "minimum_instruction_length", "maximum_operations_per_instruction",
           "default_is_stmt", "line_base", "line_range", "opcode_base"]
FLAGS = [("is_stmt", "stmt"), ("basic_block", "block"), ("prologue_end", "prologue"), ("epilogue_begin", "epilogue"),
         ("end_sequence", "end")]


def shown(text):
    """A text of ASCII as a line has it: quotes, backslashes and what isn't printed by their numbers."""
    return "".join(c if " " <= c <= "~" and c not in '"\\' else f"\\x{ord(c):02x}" for c in text)


def value(content, it):
    """A value of an entry, as a line has it."""
    if content == "md5" or isinstance(it, int):
        return str(it)
    if isinstance(it, str):
        return f'"{shown(it)}"'
    (form, where), = it.items()
    return where if form == "block" else f"{form}+0x{where:x}"


def entry(kind, it):
    values = "".join(f" {content}={value(content, of)}" for content, of in it.items() if content != "number")
    return f"{kind} {it['number']}{values}"


def pairs(formats):
    return "".join(f" {it['content']}={it['form']}" for it in formats)


def unit(it):
    yield f"unit 0x{it['offset']:x} {it['format']} version {it['version']} address_size {it['address_size']}"
    for name in NUMBERS:
        if name in it:
            yield f"{name} {it[name]}"
    yield " ".join(["lengths", *map(str, it["lengths"])])
    if it["version"] == 5:
        yield f"directory_format{pairs(it['directory_format'])}"
        yield f"file_format{pairs(it['file_format'])}"
    if it["padding"]:
        yield f"padding {it['padding']}"
    yield from (entry("dir", of) for of in it["directories"])
    yield from (entry("file", of) for of in it["files"])


def row(it):
    text = f"row {it['address']} {it['op_index']} {it['file']} {it['line']} {it['column']}"
    for name, word in FLAGS:
        text += f" {word}" if it[name] else ""
    for name, word in (("isa", "isa"), ("discriminator", "disc")):
        text += f" {word} {it[name]}" if it[name] else ""
    return text


def lines_of(it):
    if it["kind"] == "unit":
        return list(unit(it))
    if it["kind"] == "row":
        return [row(it)]
    if it["kind"] == "skipped":
        return [f"unit 0x{it['offset']:x} version {it['version']} skipped"]
    return [it["kind"]]


def try_json(name):
    """Each object, as Python's json reads it, says what the lines of its unit or its row say."""
    ran, wanted = run("dump", "--json", program(name)), run("dump", "--header", program(name))
    lines = "".join(f"{line}\n" for it in ran.out.splitlines() for line in lines_of(json.loads(it)))
    return "\n".join(differences(ran._replace(out=lines.encode()), wanted.out, wanted.err, wanted.status)) or None


# ---- indices


LINE = re.compile(rb"0x([0-9a-f]{16,17}) 0x([0-9a-f]{16,17}) (.*)\n?", re.DOTALL)
END = 1 << 64
FORMS = ([], ["-a"], ["-s"], ["--json"], ["--base", "0x10"])


def listed(path):
    """The stretches of an index: the first address of each, the first one after it, and its location."""
    found = run("index", "--list", path)
    assert found.status == 0 and found.err == b"", found
    stretches = []
    for line in found.out.splitlines(keepends=True):
        start, end, location = LINE.fullmatch(line).groups()
        stretches.append((int(start, 16), int(end, 16), location.rstrip(b"\n")))
    return stretches


def assert_stretches(stretches):
    """They follow one another to the last address, and the first tells something."""
    for (start, end, _), following in zip(stretches, stretches[1:] + [(END, None, None)]):
        assert start < end == following[0], (hex(start), hex(end))
    assert not stretches or stretches[0][2] != b"??:0"


def assert_same(words, form, path, out, addresses):
    """Of the file and of its index, in words and on lines, `addr` prints the same, and answers the same status."""
    asked = [f"0x{address:x}" for address in addresses]
    lines = "".join(f"{address}\n" for address in asked).encode()
    told = [run("addr", *form, *words, path, stdin=lines), run("addr", *form, out, stdin=lines)]
    if asked:
        told += [run("addr", *form, *words, path, *asked), run("addr", *form, out, *asked)]
    # That units of other versions aren't read is told of a file alone.
    assert len({(it.status, it.out) for it in told}) == 1, (words, form, [it.err for it in told])
    return told[0]


def assert_answers(words, path, out, stretches):
    """`addr` answers as the list says: at the first address of each stretch, at its last one, in its midst, and before
    the first one."""
    wanted = {}
    for start, end, location in stretches:
        for address in (start, (start + end) // 2, end - 1):
            wanted[address] = location
    if stretches and stretches[0][0] > 0:
        wanted[stretches[0][0] - 1] = b"??:0"
    found = assert_same(words, [], path, out, wanted)
    for form in FORMS[1:]:
        assert_same(words, form, path, out, wanted)
    assert found.status in (0, 1), found.err
    answers = found.out.splitlines()
    assert answers == list(wanted.values()), [(hex(address), told, answer) for (address, told), answer
                                              in zip(wanted.items(), answers) if told != answer][:5]


def try_index(name, words):
    """Two indices of a file have the same bytes, and tell what `addr` does of it. Where there is no line table none is
    written, what stood under its name stays, and the line and the status are those of `check`."""
    path, where = program(name), folder({"index": b"before"})
    out = os.path.join(where, "index")
    check = run("check", path)
    made = run("index", *words, "-o", out, path)
    assert (made.status, made.out, made.err) == (check.status, b"", check.err), made
    assert os.listdir(where) == ["index"]
    with open(out, "rb") as held:
        index = held.read()
    if check.status:
        assert index == b"before", index
        return
    again = run("index", *words, "-o", "-", path)
    assert (again.status, again.out) == (0, index), again.err
    stretches = listed(out)
    assert_stretches(stretches)
    plain = COMPRESSED.get(name, name)
    assert plain.startswith("object-") or bool(stretches) == (b"\nrow " in dump(plain)), "no stretches"
    assert_answers(words, path, out, stretches)


# ---- locations


def try_location(name, words, answers):
    output = "".join(f"{answer}\n" for answer in answers)
    return expect(["addr", program(name), *words.split()], output, "", int(NONE in answers))
