"""The bytes of indices: of rows `index` writes those that lib/indices.py writes of their stretches, and of such bytes
`index --list` and `addr` tell the stretches, or their damage."""

import bisect
import functools

from cases.indices import BASE, CHANGES, CUT, ODD, ODD_LISTING, OTHER, ROWS, SAMPLE, SIZES, SUM, many
from lib.elf import ALLOC, EXECINSTR, LITTLE_64, NOTE, Section, changed, image, sleb, uleb
from lib.indices import ALL_SEQUENCES, END, File, Stretch, index, listing, with_sums
from lib.program import expect, folder

BUILD_ID = bytes(range(0xa0, 0xb4))
FILES = ("a.c", "b.c")


def cases():
    for case in ROWS:
        yield f"rows: {case.name}", functools.partial(of_rows, case)
    yield "rows: each sequence, and a build ID", of_all_sequences
    for name, stretches, build_id in [("a sample", SAMPLE, BUILD_ID), ("the last address", OTHER, bytes([7] * 32)),
                                      ("nothing", [], b""), ("places of texts", ODD, b"")]:
        yield name, functools.partial(told, stretches, build_id)
    for count, step in SIZES:
        yield f"{count} stretches", functools.partial(asked_far_apart, count, step)
    for name, place, byte, fault in CHANGES:
        made = changed(index(SAMPLE, 0, BUILD_ID), place, byte)
        yield name, functools.partial(damaged, made if fault == SUM else with_sums(made), fault)
    for length, fault in CUT:
        yield f"{length} bytes", functools.partial(damaged, index(SAMPLE, 0, BUILD_ID)[:length], fault)
    equal = index([Stretch(16), Stretch(16)])
    yield "stretches that don't rise", functools.partial(damaged, equal, "damaged index: order of starts")


# ---- indices of rows


def program(rows):
    """A program in which each row sets what it has, and op_index counts in instructions of 255 operations."""
    out, line = b"", 1
    for address, op_index, wanted, *file in rows:
        out += b"\0\x09\2" + address.to_bytes(8, "little") + b"\2" + uleb(op_index)
        if wanted is None:
            out, line = out + b"\0\1\1", 1
            continue
        difference = (wanted - line + END // 2) % END - END // 2
        out += b"\4" + uleb(file[0] if file else 1) + b"\3" + sleb(difference) + b"\1"
        line = wanted
    return out


def unit(rows):
    """A unit of version 5 with two files under /d/."""
    names = b"".join(name.encode() + b"\0" for name in FILES)
    tables = b"\1\1\x08\1/d\0" + b"\1\1\x08\2" + names
    fields = b"\1\xff\1\xfb\x0e\x0d" + bytes([0, 1, 1, 1, 1, 0, 0, 0, 1, 0, 0, 1]) + tables
    body = b"\5\0\x08\0" + len(fields).to_bytes(4, "little") + fields + program(rows)
    return len(body).to_bytes(4, "little") + body


def file_of(units, build_id=b""):
    """A linked file, with code from 0x100 on and at the last addresses."""
    sections = [Section(".debug_line", b"".join(units)),
                Section(".text", bytes(0x1000), flags=ALLOC | EXECINSTR, address=0x100),
                Section(".end", bytes(15), flags=ALLOC | EXECINSTR, address=END - 16)]
    if build_id:
        note = len(build_id).to_bytes(4, "little")
        sections.append(Section(".note.gnu.build-id", b"\4\0\0\0" + note + b"\3\0\0\0GNU\0" + build_id, NOTE))
    return image(LITTLE_64, sections)


def stretches_of(case, units):
    """The stretches with their files: those of a unit have its offset."""
    offsets = [sum(len(unit) for unit in units[:number]) for number in range(len(units))]
    for start, line, *of in case.stretches:
        number, name = of or (0, 1)
        file = File(offsets[number], ("/d/", FILES[name]) if name is not None else ()) if line is not None else None
        yield Stretch(start, file, line or 0, is_stmt=line is not None)


def of_rows(case):
    units = [unit(rows) for rows in case.units]
    stretches = list(stretches_of(case, units))
    where = folder({"elf": file_of(units), "index": index(stretches)})
    return (expect(["index", "-o", "-", "elf"], index(stretches), "", cwd=where)
            or all_answers("elf", stretches, where) or all_answers("index", stretches, where))


def of_all_sequences():
    """With --all dead sequences count, which the index tells, as it does the build ID."""
    units = [unit([(0x80, 0, 3, 0), (0x90, 0, None)])]
    stretches = [Stretch(0x80, File(0, ("/d/", "a.c")), 3), Stretch(0x90)]
    where = folder({"elf": file_of(units, BUILD_ID)})
    return (expect(["index", "-o", "-", "elf"], index([], 0, BUILD_ID), "", cwd=where)
            or expect(["index", "--all", "-o", "-", "elf"], index(stretches, ALL_SEQUENCES, BUILD_ID), "", cwd=where))


# ---- what an index tells


def answer(stretches, address):
    """The object of an address, as addr --json prints it."""
    at = bisect.bisect([stretch.start for stretch in stretches], address)
    found = stretches[at - 1] if at else None
    if not found or not found.file:
        return f'{{"address":"0x{address:016x}"}}\n'
    path = f'"{found.file.path()}"' if found.file.texts else "null"
    return (f'{{"address":"0x{address:016x}","path":{path},"line":{found.line},"column":{found.column},'
            f'"discriminator":{found.discriminator},"is_stmt":{str(found.is_stmt).lower()},'
            f'"unit":"0x{found.file.unit:x}"}}\n')


def all_answers(name, stretches, where):
    """At the ends of each stretch, in its midst and around all."""
    ends = [stretch.start for stretch in stretches[1:]] + [END]
    addresses = {address for stretch, end in zip(stretches, ends)
                 for address in (stretch.start, (stretch.start + end) // 2, end - 1)}
    return answers(name, stretches, sorted(addresses | {0, END - 1}), where)


def asked_far_apart(count, step):
    stretches = many(count)
    addresses = [BASE - 3 + step * k for k in range(600)] + [0, END - 1]
    return answers("index", stretches, addresses, folder({"index": index(stretches)}))


def answers(name, stretches, addresses, where):
    """What is told of these addresses, asked in words and in lines."""
    objects = [answer(stretches, address) for address in addresses]
    status = int(any('"line"' not in line for line in objects))
    asked = [hex(address) for address in addresses]
    words = ["addr", "--json", name]
    return (expect(words + asked, "".join(objects), "", status, cwd=where)
            or expect(words, "".join(objects), "", status, "".join(f"{word}\n" for word in asked).encode(), where))


def told(stretches, build_id):
    where = folder({"index": index(stretches, 0, build_id)})
    wrong = expect(["index", "--list", "index"], ODD_LISTING if stretches is ODD else listing(stretches), "", cwd=where)
    return wrong or (None if stretches is ODD else all_answers("index", stretches, where))


def damaged(made, fault):
    where = folder({"index": made})
    return expect(["index", "--list", "index"], "", f"dwline: index: {fault}\n", 1, cwd=where)
