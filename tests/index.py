"""Indices: where they are written, of which file they are, and what becomes of damaged ones. data.py makes and asks the
index of each file."""

import functools
import os
import select
import subprocess

from cases import elf_cases
from data import assert_stretches, listed
from lib.elf import LITTLE_64, changed, image, sections_of
from lib.folders import program
from lib.program import DWLINE, data, expect, folder, run, write

GCC = program("gcc-O2")
# An index of each how manieth length is cut off, and how many changed indices a case has.
CUT, MANY = 7, 200


def cases():
    yield "a damaged unit", try_damaged
    yield "a folder that isn't there", try_missing
    yield "onto a device", try_device
    yield "onto a full device", try_full
    yield "a list of no index", functools.partial(
        expect, ["index", "--list", GCC], "", f"dwline: {GCC}: not an index\n", 1)
    yield "without -o", functools.partial(expect, ["index", GCC], "", status=2)
    yield "of a file by its build ID", try_for
    yield "of a file without a build ID", try_for_none
    yield "of a file that isn't there", try_for_missing
    for name, words in [
        ("--for with no index", ["--for", GCC, GCC]), ("--all with an index", ["--all", "INDEX"]),
        ("--comp-dir with an index", ["--comp-dir", "/", "INDEX"]),
        ("--version-5 with an index", ["--version-5", "INDEX"]),
    ]:
        yield name, functools.partial(try_refused_words, words)
    for name in ("the file", "its index"):
        yield f"answers of {name} as they are asked", functools.partial(try_as_they_come, name)
    yield from changed_indices()


def made(name="gcc-O2"):
    """The path of an index of a file."""
    out = os.path.join(folder(), "index")
    assert run("index", "-o", out, program(name)) == (0, b"", b"")
    return out


def try_damaged():
    """No index without --keep-going; with it the other units are told, and the status is 1."""
    elf = data("gcc-O2", "program")
    at = next(start for part, start, _, _ in sections_of(elf) if part == ".debug_line")
    where = folder({"damaged": changed(elf, at + 6, elf[at + 6] ^ 0xff)})
    path, out = os.path.join(where, "damaged"), os.path.join(where, "index")
    check = run("check", path)
    made = run("index", "-o", out, path)
    assert made.status == check.status == 1 and made.err == check.err, made.err
    assert not os.path.exists(out)
    around = run("index", "--keep-going", "-o", out, path)
    assert around.status == 1 and around.err.startswith(b"dwline: damage at 0x"), around.err
    assert_stretches(listed(out))


def try_missing():
    out = os.path.join(folder(), "missing", "index")
    ran = run("index", "-o", out, GCC)
    assert ran.status == 3 and ran.err.startswith(f"dwline: {out}: cannot write: ".encode()), ran


def try_device():
    """A device is written, and stays one."""
    wrong = expect(["index", "-o", "/dev/null", GCC], "", "")
    return "/dev/null is a file" if os.path.isfile("/dev/null") else wrong


def try_full():
    ran = run("index", "-o", "/dev/full", GCC)
    assert ran.status == 3 and ran.err.startswith(b"dwline: "), ran


def with_id(number):
    """A file with this build ID, of 4 bytes."""
    header = b"\4\0\0\0\4\0\0\0\3\0\0\0GNU\0"
    return image(LITTLE_64, [elf_cases.build_id(header, number), elf_cases.LINE, elf_cases.LINE_STR, elf_cases.STR])


def try_for():
    """The index is asked for the file whose build ID it has, and for no other."""
    where = folder({"one": with_id(b"1234"), "other": with_id(b"1235")})
    one, other, out = (os.path.join(where, name) for name in ("one", "other", "index"))
    assert run("index", "-o", out, one) == (0, b"", b"")
    return (expect(["addr", "--for", one, out, "0x1000"], "??:2\n", "")
            or expect(["addr", "--for", other, out, "0x1000"], "", f"dwline: {out}: made of another file\n", 1))


def try_for_none():
    """The files that ship have no build ID, so no index is known to be of one."""
    out = made()
    fault = f"dwline: {out}: made of another file\n"
    return (expect(["addr", "--for", GCC, out, "0x401008"], "", fault, 1)
            or expect(["addr", "--for", program("gcc-O0"), out, "0x401008"], "", fault, 1))


def try_for_missing():
    ran = run("addr", "--for", f"{GCC}.none", made(), "0x401008")
    assert ran.status == 3 and ran.err.startswith(f"dwline: {GCC}.none: cannot open: ".encode()), ran


def try_refused_words(words):
    out = made()
    return expect(["addr", *[out if word == "INDEX" else word for word in words], "0x401008"], "", status=2)


def try_as_they_come(name):
    """As a co-process: each answer is there before the next line is asked."""
    out = made()
    stretches = [it for it in listed(out) if it[2] != b"??:0"]
    with subprocess.Popen([DWLINE, "addr", GCC if name == "the file" else out], stdin=subprocess.PIPE,
                          stdout=subprocess.PIPE, stderr=subprocess.PIPE, bufsize=0) as asked:
        for start, _, location in stretches:
            asked.stdin.write(b"0x%x\n" % start)
            ready, _, _ = select.select([asked.stdout], [], [], 10)
            assert ready, hex(start)
            assert os.read(asked.stdout.fileno(), 4096) == location + b"\n", hex(start)
        asked.stdin.write(b"x\n0x%x" % stretches[0][0])
        assert os.read(asked.stdout.fileno(), 4096) == b"??:0\n"
        asked.stdin.close()
        assert asked.stdout.read() == stretches[0][2] + b"\n"
        assert asked.wait() == 1


def changed_indices():
    """Each byte of an index changed, fronts of it, and a byte behind it."""
    index = run("index", "-o", "-", program("gcc-O0")).out
    every = [(f"byte {at}", changed(index, at, index[at] ^ 0xff)) for at in range(len(index))]
    every += [(f"front of {at}", index[:at]) for at in range(0, len(index), CUT)]
    every += [("a byte behind it", index + b"\0")]
    for start in range(0, len(every), MANY):
        some = every[start:start + MANY]
        yield f"changed indices, {some[0][0]} to {some[-1][0]}", functools.partial(try_changed, some)


def try_changed(some):
    """A fault is told, and nothing is listed. `addr` answers, or tells one fault, and nothing else; what no longer
    begins as an index is no ELF file, of which no address has an answer."""
    path = os.path.join(folder(), "index")
    for name, index in some:
        write(path, index)
        found = run("index", "--list", path)
        assert (found.status, found.out) == (1, b""), (name, found)
        assert found.err.startswith(f"dwline: {path}: ".encode()) and found.err.count(b"\n") == 1, (name, found)
        asked = run("addr", path, "0x401008", "0x40101f")
        assert asked.status in (0, 1) and asked.err.count(b"\n") <= 1, (name, asked)
        if asked.err.endswith(b": not an ELF file\n"):
            assert asked.out == b"??:0\n??:0\n", (name, asked)
        else:
            assert asked.out.count(b"\n") == (0 if asked.err else 2), (name, asked)
