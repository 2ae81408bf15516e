"""Cases of what sections of an ELF file hold: compressed bytes, relocations of the line section, and code."""
import struct
import zlib
from dataclasses import replace

from cases.elf_cases import (
    CHECK, COMMANDS, COUNTS, DUMP, LINE, LINE_STR, STR, TEXT, Case, all_stop, dumps, line_section, stops, text_of)
from lib.elf import (
    ALLOC, BIG_32, BIG_64, COMPRESSED, CREL, ET_CORE, ET_DYN, ET_EXEC, ET_REL, EXECINSTR, LITTLE_32, LITTLE_64, NOBITS,
    OBJECT, REL, RELA, SYMTAB, SYMTAB_SHNDX, WRITE, Form, Section, changed, compact, image, line_unit, place_of,
    relocation, symbol, unit_text)
from lib.program import data

# `copy` refuses object files, so what else is wrong with them isn't asked of it.
LOOKING = [words for words in COMMANDS if words[0] != "copy"]
FORMS = [LITTLE_64, BIG_64, LITTLE_32, BIG_32]


def flagged(form, size, method=1):
    """The compression header of a file's class and order: ch_type, ch_size and ch_addralign. The size stands at 8 or
    at 4."""
    return form.pack("IIQQ", method, 0, size, 1) if form.wide else form.pack("III", method, size, 1)


def zdebug(size):
    """What a section begins with whose name begins `.zdebug_`. The size stands at 4."""
    return b"ZLIB" + struct.pack(">Q", size)


def compressed(name, size, stream, form=LITTLE_64):
    """A section that says that its stream inflates to this many bytes."""
    if name.startswith(".zdebug"):
        return Section(name, zdebug(size) + stream)
    return Section(name, flagged(form, size) + stream, flags=COMPRESSED)


def deflated(name, data, form=LITTLE_64):
    return compressed(name, len(data), zlib.compress(data, 9), form)


def streams():
    """Each class and order, with either header; a stream before other bytes, one of no bytes, and a long one."""
    for form in FORMS:
        data = line_section(2, form=form).data
        for name in (".debug_line", ".zdebug_line"):
            strings = [deflated(".debug_line_str", LINE_STR.data, form), deflated(".zdebug_str", STR.data, form)]
            file = image(form, [deflated(name, data, form), *strings])
            yield dumps(f"{name} of {form}", file, text_of(2, '"directory"', '"file"', form))
    more = compressed(".debug_line", len(LINE.data), zlib.compress(LINE.data, 9) + b"more")
    yield dumps("more bytes after the stream", image(LITTLE_64, [more]), text_of(2))
    yield dumps("no bytes", image(LITTLE_64, [deflated(".debug_line", b"")]), "")
    file = image(LITTLE_64, [deflated(".debug_line", b"\2\0\0\0\6\0" * 20_000)])
    counts = "units 0 skipped 20000 sequences 0 rows 0\n"
    yield Case("more bytes than a stream may point back to", file, CHECK, 0, counts)


def damages(data):
    """What is wrong with a stream of these bytes, the size that the section says, the stream, and at which of its bytes
    that shows by RFC 1950 and 1951, None where it inflates to another number of bytes; and how many of the lines of a
    dump come before."""
    size, whole, empty = len(data), zlib.compress(data, 9), b"\x78\xda\x03\x00\x00\x00\x00\x01"
    return [
        ("a size that is too small", size - 1, whole, None, 4),
        ("a size that is too large", size + 1, whole, None, 5),
        ("a size, and no bytes", 1, empty, None, 0),
        ("no check value", size, whole[:-4], len(whole) - 4, 5),
        ("half of a check value", size, whole[:-2], len(whole) - 2, 5),
        ("another check value", size, whole[:-1] + bytes([whole[-1] ^ 1]), len(whole) - 1, 5),
        ("no stream", 9, b"", 0, 0),
        ("another FCHECK", 0, b"\x78\xdb" + empty[2:], 1, 0),
        ("no bytes, another check value", 0, empty[:-1] + b"\2", 7, 0),
        ("a block of the third kind", 0, b"\x78\xda\x07" + empty[3:], 2, 0),
    ]


def damaged_streams():
    """A stream that is no stream of its section: what was written before stands, and of the section nothing is told."""
    for form in (LITTLE_64, BIG_32):
        data = line_section(2, form=form).data
        lines = text_of(2, form=form).splitlines(keepends=True)
        for name in (".debug_line", ".zdebug_line"):
            wide = form.wide and name == ".debug_line"
            for what, size, stream, at, count in damages(data):
                file = image(form, [compressed(name, size, stream, form)])
                place = (8 if wide else 4) if at is None else (24 if wide else 12) + at
                fault = f"section {name}: damaged zlib stream at 0x{place:x}"
                yield stops(f"{what}, {name} of {form}", file, fault, DUMP, "".join(lines[:count]))
                yield stops(f"{what}, {name} of {form}", file, fault, CHECK)


def damaged_strings():
    """The string sections are inflated before a command begins; `check` doesn't look into them."""
    cut = compressed(".zdebug_str", len(STR.data), zlib.compress(STR.data, 9)[:-1])
    file = image(LITTLE_64, [LINE, LINE_STR, cut])
    yield stops("a cut stream", file, f"section .zdebug_str: damaged zlib stream at 0x{len(cut.data):x}")
    yield Case("a cut stream", file, CHECK, 0, COUNTS)


def refused():
    """Sections that are compressed by other methods, or whose compression header is damaged."""
    def section(name, data):
        return Section(name, data, flags=0 if name.startswith(".z") else COMPRESSED)
    run = "; run objcopy --decompress-debug-sections"
    header = "damaged ELF file: compression header of section "
    zstd = flagged(LITTLE_64, 9, 2)
    for name, sections, fault in [
        ("zstd", [LINE, section(".debug_str", zstd)], f"section .debug_str is compressed with zstd{run}"),
        ("another method", [LINE, section(".debug_line_str", flagged(LITTLE_64, 9, 65536))],
         f"section .debug_line_str is compressed by method 65536{run}"),
        ("a short header of .zdebug_line", [section(".zdebug_line", b"ZLIB" + bytes(7)), LINE_STR],
         header + ".zdebug_line"),
        ("not ZLIB", [LINE, section(".zdebug_str", b"zlib" + bytes(8))], header + ".zdebug_str"),
        ("a short header", [section(".debug_line", b"short"), LINE_STR], header + ".debug_line"),
    ]:
        file = image(LITTLE_64, sections)
        yield stops(name, file, fault)
        if sections[0] == LINE:
            yield Case(name, file, CHECK, 0, COUNTS)
    first = image(OBJECT, [section(".debug_line", zstd), LINE_STR, Section(".rela.debug_line", zstd, RELA, info=1)])
    for name, file, fault in [
        ("compression before relocations", first, f"section .debug_line is compressed with zstd{run}"),
        ("damage of the strings before compression", changed(first, place_of(first, 2, "size") + 2, 1),
         "damaged ELF file: section .debug_line_str"),
        ("the headers before the sections", changed(first, 60, 255), "damaged ELF file: section headers"),
    ]:
        yield stops(name, file, fault)


# A line section of one sequence at 0x1000, and the place of its address, which relocations change.
UNIT, (PLACE,) = line_unit(OBJECT, [(0x1000, 2)])
MOVED = Section(".debug_line", UNIT)
# R_X86_64_NONE, R_X86_64_64, R_X86_64_32, and a type that x86-64 doesn't have.
NONE, SET_8, SET, UNKNOWN = 0, 1, 10, 99
SYMBOLS = Section(".symtab", symbol(OBJECT) + symbol(OBJECT, 0x100), SYMTAB)


def relocations(data, section_type=RELA, link=2, info=1):
    """A section of relocations of section `info` with the symbols of section `link`."""
    return Section(".rela.debug_line", data, section_type, link=link, info=info)


ADDEND = relocations(relocation(OBJECT, PLACE, 0, SET, 0x2000))
NO_ADDEND = relocations(relocation(OBJECT, PLACE, 1, SET), REL)
SYMBOL = relocations(relocation(OBJECT, PLACE, 1, SET, 0x2000))
COMPACT = relocations(compact([(PLACE, 1, SET, 0x2000)]), CREL)
COMPACT_NO_ADDEND = relocations(compact([(PLACE, 1, SET)]), CREL)


def applied():
    """Relocations of the line section, and the address that they make of 0x1000: the value of the symbol, 0x100 of
    symbol 1, and the addend, 0x2000 or else what stands there."""
    for name, sections, address in [
        ("an addend", [ADDEND], 0x2000),
        ("no symbol table", [replace(ADDEND, link=0)], 0x2000),
        ("a symbol and an addend", [SYMBOL], 0x2100),
        ("a symbol and what stands there", [NO_ADDEND], 0x1100),
        ("one section after the other", [ADDEND, NO_ADDEND], 0x2100),
        ("the order of the sections", [NO_ADDEND, ADDEND], 0x2000),
        ("of another section", [replace(ADDEND, info=2)], 0x1000),
        ("compact, a symbol and an addend", [COMPACT], 0x2100),
        ("compact, a symbol and what stands there", [COMPACT_NO_ADDEND], 0x1100),
        ("compact after others", [ADDEND, COMPACT_NO_ADDEND], 0x2100),
        ("compact, of another section", [replace(COMPACT, info=2)], 0x1000),
        ("16 sections", [NO_ADDEND] * 16, 0x2000),
    ]:
        sections = [MOVED, SYMBOLS, *sections, replace(TEXT, data=b"")]
        yield dumps(name, image(OBJECT, sections), unit_text(OBJECT, [(address, 2)]))
        for file_type in (ET_EXEC, ET_DYN):
            linked = image(replace(OBJECT, file_type=file_type), sections)
            yield dumps(f"{name}, of type {file_type}", linked, unit_text(OBJECT, [(0x1000, 2)]))


def not_applied():
    """What is told of relocations that can't be applied."""
    symbols = "damaged ELF file: symbols of the relocations of section .debug_line"
    entries = "damaged ELF file: relocations of section .debug_line"
    outside = relocations(relocation(OBJECT, len(MOVED.data) - 3, 0, SET, 0))
    unknown = relocations(relocation(OBJECT, PLACE, 0, UNKNOWN, 0))
    of_machine = "section .debug_line: unknown relocation 99 of machine 62"
    for name, sections, fault in [
        ("type", [unknown, outside], of_machine),
        ("place", [outside, unknown], "section .debug_line: relocation outside the section"),
        # The symbols are those of section 4, whose 24 bytes are symbol 0 alone.
        ("symbol", [ADDEND, replace(SYMBOL, link=4)], symbols),
        ("no such symbol table", [replace(ADDEND, link=200), unknown], symbols),
        ("compact, cut", [replace(COMPACT, data=compact([(PLACE, 1, SET)] * 2)[:-1]), unknown], entries),
        ("compact, type", [replace(COMPACT, data=compact([(PLACE, 0, UNKNOWN)] * 2)), outside], of_machine),
        ("compact, symbol", [replace(COMPACT, link=4), outside], symbols),
        ("17 sections", [NO_ADDEND] * 17, entries),
    ]:
        file = image(OBJECT, [MOVED, SYMBOLS, *sections])
        yield from all_stop(name, file, fault, LOOKING)


def claimed_sizes():
    """Sizes that go past the end of the file, by more than there is memory."""
    file = image(OBJECT, [MOVED, SYMBOLS, ADDEND])
    for number, part in [(1, "section"), (2, "symbols of the relocations of section"), (3, "relocations of section")]:
        yield from all_stop(f"section {number}", changed(file, place_of(file, number, "size") + 7, 0x10),
                            f"damaged ELF file: {part} .debug_line", LOOKING)


def object_files():
    """An object file whose line section no relocation changes, or whose section of them has no entry. It isn't
    copied."""
    for form in FORMS:
        line = line_section(2, form=form)
        for name, section in [
            ("no relocations", Section(".rela.debug_line", b"")),
            ("of another section", relocations(b"", info=1)),
            ("with addends", relocations(b"", info=2)),
            ("without addends", relocations(b"", REL, info=2)),
        ]:
            object_file = image(replace(form, file_type=ET_REL), [TEXT, line, section])
            yield dumps(f"{name}, {form}", object_file, text_of(2, form=form))
            yield stops(f"{name}, {form}", object_file, "an object file; its copy would lose its relocations",
                        ["copy", "elf"])


def relocated_streams():
    """Relocations are applied to what a line section inflates to. The faults of its stream are told before theirs."""
    size, whole, empty = len(MOVED.data), zlib.compress(MOVED.data, 9), b"\x78\xda\x03\x00\x00\x00\x00\x01"
    damaged, cut = "section .debug_line: damaged zlib stream at 0x", whole[:-2]
    for what, section, fault in [
        ("a size that is too large", compressed(".debug_line", size + 1, whole), damaged + "8"),
        ("a cut stream", compressed(".debug_line", size, cut), f"{damaged}{24 + len(cut):x}"),
        ("no bytes", compressed(".debug_line", 0, empty), "section .debug_line: relocation outside the section"),
        ("more than 2^32", compressed(".debug_line", 0x1_0000_0001, empty), damaged + "8"),
        ("2^33", compressed(".debug_line", 0x2_0000_0000, whole), damaged + "8"),
        ("2^64 - 1", compressed(".debug_line", 2**64 - 1, cut), f"{damaged}{24 + len(cut):x}"),
    ]:
        yield stops(what, image(OBJECT, [section, SYMBOLS, SYMBOL]), fault)
    file = image(OBJECT, [deflated(".debug_line", MOVED.data), SYMBOLS, SYMBOL])
    yield dumps("inflated", file, unit_text(OBJECT, [(0x2100, 2)]))


def with_sequences(form, sections, symbols, entries=(), section_type=RELA, wide=(), table_of_wide=None):
    """An object file of these sections, the first of which becomes its line section, and a symbol table with symbol 0
    and one of each section in `symbols`. The line section has a sequence for each entry, the first at 0x10 in line 1,
    the second at 0x20 in line 2; an entry is the symbol of a relocation of its address, and whether it changes that.
    The numbers of sections in `wide` stand apart from the symbols."""
    form = replace(form, file_type=ET_REL)
    entries = entries or [(number, True) for number in range(1, len(symbols) + 1)]
    entries = [(number, (SET_8 if form.wide else SET) if changes else NONE) for number, changes in entries]
    data, places = line_unit(form, [(0x10 * k, k) for k in range(1, len(entries) + 1)])
    if section_type == CREL:
        contents = compact([(place, *entry) for place, entry in zip(places, entries)])
    else:
        contents = b"".join(relocation(form, place, *entry, 0x10 * k)
                            for k, (place, entry) in enumerate(zip(places, entries), 1))
    table = form.empty + len(sections) + 1
    line = replace(sections[0], data=data)
    symtab = Section(".symtab", b"".join(symbol(form, 0, number) for number in [0, *symbols]), SYMTAB)
    shndx = Section(".symtab_shndx", form.pack(f"{len(wide)}I", *wide), SYMTAB_SHNDX, link=table_of_wide or table)
    return image(form, [line, *sections[1:], symtab, relocations(contents, section_type, table, form.empty + 1), shndx])


def located(name, file, words, answers, count=5, fault=None):
    """A case in which `addr` is asked for the addresses 0x10, 0x20 and so on, of which those in `answers` are of rows
    in the lines 1, 2 and so on."""
    addresses = [f"0x{0x10 * k:x}" for k in range(1, count + 1)]
    output = "".join(f"??:{k if k in answers else 0}\n" for k in range(1, count + 1))
    status = 0 if len(answers) == count else 1
    return Case(name, file, ["addr", *words, "elf", *addresses], status, output,
                f"dwline: elf: {fault}\n" if fault else "")


CODE = Section(".text.first", flags=ALLOC | EXECINSTR)
FULL = replace(CODE, data=b"code")
LINES = Section(".debug_line")


def numbers():
    """The section that a name is of, or else that with code: the first that has bytes and isn't of the type NOBITS, and
    the first without where none has any."""
    nobits = Section(".text.first", section_type=NOBITS)
    sections = [LINES, nobits, CODE, CODE, TEXT]
    for form in FORMS:
        file = with_sequences(form, sections, [1, 2, 3, 4, 5])
        for name, number in [(".debug_line", 1), (".text.first", 3), (".text", 5)]:
            yield located(f"{name}, {form}", file, ["-j", name], [number])
        behind = with_sequences(form, [LINES, CODE, FULL, FULL], [1, 2, 3, 4])
        yield located(f".text.first behind an empty one, {form}", behind, ["-j", ".text.first"], [3], 4)
        for name in (".text.firs", ".text.first.more", "text", ".shstrtab"):
            yield located(f"{name}, {form}", file, ["-j", name], [], fault=f"no section {name}")
    for name, sections, answers in [
        ("code in .text", [LINES, nobits, CODE, TEXT], [4]),
        ("code in another section", [LINES, nobits, CODE, CODE], [3]),
        ("code behind an empty .text", [LINES, replace(CODE, name=".text"), CODE, FULL], [4]),
        ("an empty .text alone", [LINES, CODE, replace(CODE, name=".text")], [3]),
        ("no code", [LINES, nobits], [1, 2]),
    ]:
        count = len(sections)
        file = with_sequences(LITTLE_64, sections, list(range(1, count + 1)))
        yield located(name, file, [], answers, count)


# The number of .text in the files of `sections_of_symbols`, no section (SHN_ABS), and SHN_XINDEX.
IN_TEXT, ABSOLUTE, ELSEWHERE = 4, 0xFFF1, 0xFFFF


def sections_of_symbols():
    """Sequences by symbols of .text, of no section, and of one whose number stands elsewhere; by none; and one whose
    address nothing changes."""
    sections = [LINES, Section(".first"), Section(".second"), TEXT]
    symbols = [IN_TEXT, ABSOLUTE, ELSEWHERE]
    entries = [(1, True), (2, True), (3, True), (0, True), (1, False)]
    wide = [0, 0, 0, 2]
    for form in FORMS:
        without = with_sequences(form, sections, symbols, entries)
        yield located(f"{form}", without, ["-j", ".text"], [1])
        yield located(f"{form}, no number elsewhere", without, ["-j", ".first"], [])
        whole = with_sequences(form, sections, symbols, entries, wide=wide)
        yield located(f"{form}, a number elsewhere", whole, ["-j", ".first"], [3])
        other = with_sequences(form, sections, symbols, entries, wide=wide, table_of_wide=2)
        yield located(f"{form}, a number of another table", other, ["-j", ".first"], [])
        some = with_sequences(form, sections, symbols, entries[:2], CREL)
        yield located(f"{form}, compact", some, ["-j", ".text"], [1], 2)
    many = Form(empty=0x12345 - 2, escapes=True)
    file = with_sequences(many, sections, symbols, entries, wide=[0, 0, 0, 0x12345])
    yield located("section 0x12345", file, ["-j", ".first"], [3])


def places_of_relocations():
    """The first of several relocations at an address says its section, and one beside it says nothing."""
    sections = [LINES, Section(".first"), Section(".second"), TEXT]
    symbols = Section(".symtab", b"".join(symbol(OBJECT, 0, number) for number in (0, 2, 3)), SYMTAB)
    data, (one, two) = line_unit(OBJECT, [(0x10, 1), (0x20, 2)])
    for name, entries, first, second in [
        ("falling", [(two, 1, SET_8, 0x20), (one, 2, SET_8, 0x10), (one, 1, SET_8, 0x10)], [2], [1]),
        ("rising", [(one, 1, SET_8, 0x10), (one, 2, SET_8, 0x10), (two, 2, SET_8, 0x20)], [1], [2]),
        ("beside", [(one + 4, 1, SET, 0), (two, 1, SET_8, 0x20)], [2], []),
    ]:
        contents = b"".join(relocation(OBJECT, *entry) for entry in entries)
        file = image(OBJECT, [replace(LINES, data=data), *sections[1:], symbols, relocations(contents, RELA, 5)])
        for words, answers in ((".first", first), (".second", second)):
            yield located(f"{name}, {words}", file, ["-j", words], answers, 2)


def unread_sequences():
    """After a reserved length, and of a sequence that doesn't end, nothing answers."""
    data, (one, two) = line_unit(OBJECT, [(0x10, 1), (0x20, 2)])
    # The second sequence without DW_LNE_end_sequence.
    cut = OBJECT.pack("I", len(data) - 7) + data[4:-3]
    for name, data, moved, answers, fault in [
        ("a reserved length", b"\xf0\xff\xff\xff" + data, 4, [], "dwline: damage at 0x0: reserved initial length\n"),
        ("no end", cut, 0, [1], ""),
    ]:
        symbols = Section(".symtab", symbol(OBJECT) + symbol(OBJECT, 0, 4), SYMTAB)
        contents = b"".join(relocation(OBJECT, place + moved, 1, SET_8, 0x10 * k)
                            for k, place in enumerate((one, two), 1))
        file = image(OBJECT, [replace(LINES, data=data), symbols, relocations(contents, RELA, 2), TEXT])
        yield replace(located(name, file, ["-j", ".text"], answers, 2), errors=fault)


# A unit by an assembler. The path of its directory has DW_FORM_line_strp, at byte 32, and those of its files have
# DW_FORM_strp, at byte 40.
OPERATIONS = data("operations", "debug_line")
DIRECTORY, FILE = 32, 40


def changed_units(*changes):
    """The unit once for each of these, with other bytes at places."""
    section = b""
    for places in changes:
        unit = bytearray(OPERATIONS)
        for place, byte in places.items():
            unit[place] = byte
        section += bytes(unit)
    return section


def named_strings():
    """A .debug_str that can't be inflated is refused where a table of any unit names it, as far as units are cut by
    their lengths; --version-5 passes over a unit of version 4."""
    none, directory = {FILE: 0x1f}, {DIRECTORY: 0x0e, FILE: 0x1f}
    reserved = {0: 0xf0, 1: 0xff, 2: 0xff, 3: 0xff}
    refused = "elf: section .debug_str is compressed with zstd; run objcopy --decompress-debug-sections"
    no_line, size = "no line for this address", "damage at 0x6: bad address size"
    unread = "elf: 1 unit of version 4 is not read\ndwline: " + no_line
    for name, units, fault in [
        ("no unit", [], no_line),
        ("files", [{}], refused),
        ("neither", [none, none], no_line),
        ("a directory of the second unit", [none, directory], refused),
        ("files of the second unit", [none, {}], refused),
        ("files behind version 4", [{4: 4}, {}], refused),
        ("neither behind version 4", [{4: 4}, none], unread),
        ("in version 4", [{4: 4, 0: 0x92}, {}], unread),
        ("files behind an address size of 3", [{6: 3}, {}], refused),
        ("neither behind an address size of 3", [{6: 3}, none], size),
        ("in a unit with an address size of 3", [{6: 3, 0: 0x92}, {}], size),
        ("behind a reserved length", [reserved, {}], "damage at 0x0: reserved initial length"),
    ]:
        strings = Section(".debug_str", flagged(LITTLE_64, 9, 2), flags=COMPRESSED)
        file = image(LITTLE_64, [Section(".debug_line", changed_units(*units)), strings])
        yield Case(name, file, ["find", "--version-5", "1", "elf"], 1, "", f"dwline: {fault}\n")


def not_relative():
    """No section may be named where no relocation changes the line section."""
    fault = "its addresses are not relative to a section"
    for name, file in [
        ("of another section", image(OBJECT, [MOVED, SYMBOLS, replace(COMPACT, info=2), TEXT])),
        ("linked", image(LITTLE_64, [MOVED, SYMBOLS, COMPACT, TEXT])),
    ]:
        yield located(name, file, ["-j", ".text"], [], fault=fault)
    twice = image(OBJECT, [MOVED, replace(SYMBOLS, data=symbol(OBJECT) + symbol(OBJECT, 0, 5)), COMPACT, COMPACT, TEXT])
    yield Case("two sections", twice, ["addr", "-j", ".text", "elf", "0x2000"], 0, "??:2\n")


# Sections with the flags of code and without them, and sequences at their edges.
PARTS = [Section(".text", b"code", flags=ALLOC | EXECINSTR, address=0x401000),
         Section(".data", b"data", flags=WRITE | ALLOC, address=0x402000),
         Section(".both", b"writable code", flags=WRITE | ALLOC | EXECINSTR, address=0x1000),
         Section(".note", b"note", flags=EXECINSTR, address=0x3000),
         Section(".end", b"", flags=ALLOC | EXECINSTR, address=0xFFFF_FFF0)]
INSIDE = [0x401000, 0x1000, 0x100C]
OUTSIDE = [0x400FFC, 0x401004, 0x402000, 0xFFC, 0x1010, 0x3000, 0xFFFF_FFF0]


def code():
    """In a linked file sequences answer that begin where it has code; where it has none, or isn't linked, all do."""
    def asked(name, form, sections, live):
        sequences = [(address, line) for line, address in enumerate(INSIDE + OUTSIDE, 1)]
        lines = Section(".debug_line", line_unit(form, sequences)[0])
        words = ["addr", "elf", *(hex(address) for address, _ in sequences)]
        output = "".join(f"??:{line if address in live else 0}\n" for address, line in sequences)
        return Case(name, image(form, [*sections, lines]), words, int(len(live) < len(sequences)), output)
    for form in FORMS:
        for file_type in (ET_EXEC, ET_DYN, ET_REL, ET_CORE):
            form = replace(form, file_type=file_type)
            linked = file_type in (ET_EXEC, ET_DYN)
            yield asked(f"{form}", form, PARTS, INSIDE if linked else INSIDE + OUTSIDE)
    yield asked("no code", LITTLE_64, [TEXT], INSIDE + OUTSIDE)


ABOUT_CODE = ["--rule=overlap", "--rule=dead-sequence", "--rule=no-code"]
DEAD = "0x0 dead-sequence: {} sequences begin outside the code, the first at 0x{:016x}\n"
COVERED = "0x{:x} overlap: row {} at 0x{:016x} ends a sequence that covers 0x{:016x}, as one of the unit at 0x0 does\n"
NO_CODE = "0x0 no-code: no sequence covers an address of the {} bytes of code from 0x{:016x} on\n"


def end_offset(form, number):
    """Where the end row of a sequence of `line_unit` stands, from 0 on: it takes 3 bytes behind an address and 8
    others."""
    return 34 + (number + 1) * (19 if form.wide else 15) - 3


def findings():
    """What `lint` finds of sequences: in a linked file with code those are live that begin there, and its ranges are
    known; of another one nothing is found, since there addresses may be relative to sections."""
    def linted(name, form, sections, addresses, findings, counts, words=()):
        lines = Section(".debug_line", line_unit(form, [(address, 1) for address in addresses])[0])
        return Case(name, image(form, [*sections, lines]), ["lint", "elf", *ABOUT_CODE, *words], 1 if findings else 0,
                    findings,
                    f"findings: {counts}\n" if findings else "")
    for form in FORMS:
        for file_type in (ET_EXEC, ET_DYN, ET_REL, ET_CORE):
            form = replace(form, file_type=file_type)
            linked = file_type in (ET_EXEC, ET_DYN)
            # The second one and the last one aren't live in a linked file, and cover a place of one another.
            addresses = [0x401000, 0x402000, 0x401002, 0x402002]
            live = COVERED.format(end_offset(form, 2), 6, 0x401006, 0x401002)
            if linked:
                yield linted(f"{form}", form, PARTS, addresses,
                             DEAD.format(2, 0x402000) + live + NO_CODE.format(13, 0x1000),
                             "overlap=1 dead-sequence=1 no-code=1")
                yield linted(f"{form}, one", form, PARTS, [0x1000, 0x3000],
                             DEAD.format(1, 0x3000) + NO_CODE.format(4, 0x401000),
                             "dead-sequence=1 no-code=1")
            else:
                yield linted(f"{form}", form, PARTS, addresses, "", "")
                yield linted(f"{form}, one", form, PARTS, [0x1000, 0x3000], "", "")
            yield linted(f"{form}, all", form, PARTS, [0x401000, 0x1000], "", "")
            none = NO_CODE.format(4, 0x401000) + NO_CODE.format(13, 0x1000) if linked else ""
            yield linted(f"{form}, no sequence", form, PARTS, [], none, "no-code=2")
    yield linted("no code", LITTLE_64, [TEXT], [0x401000, 0, 0x401000], "", "")
    yield linted("objects", LITTLE_64, PARTS, [0x401000, 0x402000, 0x401002],
                 '{"offset":0,"rule":"dead-sequence","sequences":1,"first":"0x0000000000402000"}\n'
                 '{"offset":88,"rule":"overlap","row":6,"address":"0x0000000000401006","op_index":0,'
                 '"covered":"0x0000000000401002","covered_op_index":0,"unit":0}\n'
                 '{"offset":0,"rule":"no-code","start":"0x0000000000001000","size":13}\n',
                 "overlap=1 dead-sequence=1 no-code=1", ["--json"])


GROUPS = [streams, damaged_streams, damaged_strings, refused, applied, not_applied, claimed_sizes, object_files,
          relocated_streams, numbers, sections_of_symbols, places_of_relocations, unread_sequences, named_strings,
          not_relative, code, findings]
