"""Words of the command line: the options of the commands, and what stops the program. The cases stand in
cases/words.py; here are those of several runs."""

import functools
import json
import os
import re
import shutil
import subprocess

from cases.words import (
    AFTER, BEFORE, COMMANDS, FIRST_DAMAGED, GCC, GCC_LINES, GROUPS, ODD_ANSWER, OPCODE, SAID, asks, line, no_answer)
from cases.locations import MAIN, RANGE, SERIES
from lib.dumps import counts_of
from lib.elf import place_of, replaced, section_of
from lib.folders import dump, program
from lib.program import DATA, DWLINE, Skipped, data, expect, folder, numbered, path, run


def cases():
    yield from numbered((f"{group.__name__}: {shown(case.words)}", functools.partial(try_case, case))
                        for group in GROUPS for case in group())
    yield "paths of version 4", try_paths
    for words in ("", "--older 8"):
        yield f"copy --to-5 {words} of fpc-dwarf2", functools.partial(try_newer, words)
    yield "copy --to-5 of gcc-dwarf4", try_newer_gcc
    yield "copy --to-5 of version 5", try_newer_same
    yield "a program of gcc -c", try_compiled
    yield "objects are JSON", try_objects
    yield "compressed .debug_info", try_compressed_info
    yield "rows, fault and rows as they are written", try_in_order
    yield "rows of a section that ends early", try_rows_before_the_end
    yield "the fields of a header", try_fields
    yield "check --keep-going onto a full device", try_full
    for command in COMMANDS:
        yield f"{command} of a pipe", functools.partial(try_pipe, command)
    yield "help of a command", try_help


def shown(words):
    words = words if isinstance(words, str) else " ".join(os.fsdecode(word) for word in words)
    return repr(words)[1:-1] or "no word"


def with_made(text, where):
    """A word or a text with the paths of files that are made."""
    return text.replace("MADE/", where + "/") if isinstance(text, str) else text


def try_case(case):
    where = folder(case.made) if case.made else ""
    words = case.words.split() if isinstance(case.words, str) else case.words
    return expect([with_made(word, where) for word in words], with_made(case.out, where), with_made(case.err, where),
                  case.status, case.stdin, DATA)


# ---- units of versions 2 to 4


def try_paths():
    """The paths of rows of version 4 stand under the directory that .debug_info says."""
    rows = run("dump", "--paths", program("gcc-dwarf4")).out.decode()
    paths = sorted(set(re.findall(r"(?m)^row .* (.*)$", rows)))
    wanted = ["/boxantrel/grammar.y", RANGE, MAIN, SERIES]
    return None if paths == wanted else f"paths: {paths}"


def newer(directory):
    """What the dump of the unit becomes as one of version 5: under a directory 0 that is said, or is `.`, and with a
    file 0 that is file 1."""
    for text in dump("fpc-dwarf2").decode().splitlines():
        text = re.sub(r" time=0 size=0$", "", re.sub(r"version [234] ", "version 5 ", text))
        if text.startswith("file 1 "):
            yield text.replace("file 1 ", "file 0 ", 1)
        yield text
        if text.startswith("unit"):
            yield f'dir 0 path="{directory}"'


def try_newer(words):
    """Units of versions 2 to 4 copied as units of version 5: the same rows."""
    if words:
        copied = run("copy", "--to-5", *words.split(), stdin=line("fpc-dwarf2"))
    else:
        copied = run("copy", "--to-5", *SAID.split(), program("fpc-dwarf2"))
    assert (copied.status, copied.err) == (0, b""), copied
    wanted = newer("." if words else "/boxantrel")
    return expect(["dump"], "".join(f"{text}\n" for text in wanted), "", stdin=copied.out)


def try_newer_gcc():
    copied = run("copy", "--to-5", *SAID.split(), program("gcc-dwarf4"))
    assert (copied.status, copied.err) == (0, b""), copied
    counts = counts_of(dump("gcc-dwarf4").decode("latin-1"))
    return (expect(["check"], counts, "", stdin=copied.out)
            or expect(["addr", "-", "0x401018", "0x401028"], f"{SERIES}:9:18\n{SERIES}:8:23\n", "", stdin=copied.out))


def try_newer_same():
    """A unit of version 5 is copied as it is without --to-5."""
    return expect(["copy", "--to-5", path(GCC)], run("copy", path(GCC)).out, "")


def try_compiled():
    """An object file of version 4 whose path is whole."""
    if not shutil.which("gcc"):
        return Skipped("gcc isn't installed")
    where = folder({"one.c": b"int one(void) { return 1; }\n"})
    source, file = os.path.join(where, "one.c"), os.path.join(where, "one.o")
    subprocess.run(["gcc", "-gdwarf-4", "-Wa,--gdwarf-4", "-c", source, "-o", file], check=True)
    return expect(["addr", file, "0"], f"{source}:1:15\n", "")


def try_objects():
    """What reads JSON reads these lines."""
    lines = ODD_ANSWER + run("addr", "--json", path(GCC), "0x401008", "1").out
    rows = {"discriminator": 0, "unit": "0x0"}
    wanted = [
        {"address": "0x0000000000020000", "path": "/boxantrel/q\"b\\\x01\n\x7f\u00e9\ufffd", "line": 10, "column": 0,
         "is_stmt": True, **rows},
        {"address": "0x0000000000401008", "path": SERIES, "line": 8, "column": 23, "is_stmt": False, **rows},
        {"address": "0x0000000000000001"}]
    read = [json.loads(it) for it in lines.decode("utf-8").split("\n")[:-1]]
    return None if read == wanted else f"Python reads {read}"


def try_compressed_info():
    """.debug_info that is compressed says the same directory. Where its stream is damaged, its check value being wrong,
    no directory is known."""
    if not shutil.which("objcopy"):
        return Skipped("objcopy isn't installed")
    where = folder({"packed": data("gcc-dwarf4", "program")})
    packed, damaged = os.path.join(where, "packed"), os.path.join(where, "damaged")
    subprocess.run(["objcopy", "--compress-debug-sections", packed], check=True)
    with open(packed, "rb") as file:
        elf = file.read()
    number, _, end = section_of(elf, ".debug_info")
    assert elf[place_of(elf, number, "flags") + 1] & 8, ".debug_info isn't compressed"
    with open(damaged, "wb") as file:
        file.write(replaced(elf, end - 4, bytes(4)))
    return (expect(["addr", packed, "0x401018"], f"{SERIES}:9:18\n", "")
            or expect(["addr", damaged, "0x401018"], "series.c:9:18\n", "")
            or expect(["addr", *SAID.split(), damaged, "0x401018"], f"{SERIES}:9:18\n", ""))


# ---- output


def try_in_order():
    """What was printed before the fault is out before its line."""
    done = subprocess.run([DWLINE, "dump", "--keep-going", *GCC_LINES.split()], input=FIRST_DAMAGED, cwd=DATA,
                          stdout=subprocess.PIPE, stderr=subprocess.STDOUT)
    wanted = BEFORE + OPCODE.encode() + AFTER
    return None if done.stdout == wanted else f"wanted {wanted}, got {done.stdout}"


def try_rows_before_the_end():
    """The rows before the place at which the section ends are printed, with --keep-going and without."""
    cut = line("gcc-O2")[:500]
    words = GCC_LINES.split()
    before = run("dump", *words, stdin=cut, cwd=DATA).out
    assert dump("gcc-O2").startswith(before) and before.count(b"\nunit ") == 1, before
    fault = "dwline: damage at 0x1f4: input ends inside a unit\n"
    return expect(["dump", "--keep-going", *words], before, fault, 1, cut, DATA)


def try_fields():
    """Versions 2 and 3 say no maximum of operations, and versions 2 to 4 no formats. peers/headers.py compares each
    field with other tools."""
    head = dump("clang-dwarf2").splitlines()[0].decode()
    wanted = [head, "unit_length 458", "header_length 50", "minimum_instruction_length 1", "default_is_stmt 1",
              "line_base -5", "line_range 14", "opcode_base 13", "lengths 0 1 1 1 1 0 0 0 1 0 0 1",
              'dir 1 path="include"']
    told = run("dump", "--header", program("clang-dwarf2")).out.decode().splitlines()[:len(wanted)]
    return None if told == wanted else f"fields: {told}"


def try_full():
    with open("/dev/full", "wb") as full:
        done = subprocess.run([DWLINE, "check", "--keep-going", path(GCC)], stdout=full, stderr=subprocess.PIPE)
    wanted = (3, b"dwline: cannot write the output\n")
    return None if (done.returncode, done.stderr) == wanted else f"wanted {wanted}, got {done}"


def try_pipe(command):
    """Nobody writes into the pipe."""
    pipe = os.path.join(folder(), "pipe")
    os.mkfifo(pipe)
    fault = f"dwline: {pipe}: cannot read: seek on unseekable file\n"
    return expect(asks(command, pipe), no_answer(command), fault, 3)


def try_help():
    return expect(["help", "find"], run("find", "--help").out, "")
