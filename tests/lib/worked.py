"""Worked sections, over which commands run: on standard input, whole and one byte a read, and as `.debug_line` of an
ELF file of either class."""
import json
import socket
import struct
import subprocess
from functools import partial
from typing import NamedTuple, Optional, Union

from lib import program
from lib.elf import ALLOC, EXECINSTR, LITTLE_32, LITTLE_64, NOBITS, Section, image, place_of

TRUNCATED = "input ends inside a unit"

# Code from address 0 on that no section says: none does.
NO_CODE = ()


class Case(NamedTuple):
    """What `dwline WORDS` does with a section. The words are those for a section on standard input."""
    name: str
    words: Union[str, tuple]
    section: bytes
    output: str
    # All of standard error.
    error: str = ""
    status: int = 0
    # The string sections.
    line_str: Optional[bytes] = None
    strings: Optional[bytes] = None
    # Where it is said, standard input has this, and the section is in a file alone.
    asked: Optional[bytes] = None
    # Where it is said, the section is in a file alone, which has code in these ranges of an address and a size.
    code: Optional[tuple] = None
    # Whether it runs over a file too.
    in_file: bool = True


def told(reason):
    """The line of standard error that tells this reason."""
    return f"dwline: {reason}\n"


def damage(offset, fault=TRUNCATED):
    return told(f"damage at 0x{offset:x}: {fault}")


def objects(*items):
    """The lines of these as JSON objects."""
    return "".join(json.dumps(item, separators=(",", ":"), ensure_ascii=False) + "\n" for item in items)


def cases_of(table):
    """The cases of the runner that a table stands for."""
    for case in table:
        if case.asked is None and case.code is None:
            yield f"{case.name}, whole", partial(over_input, case)
            yield f"{case.name}, one byte a read", partial(in_pieces, case)
        if case.in_file:
            # Only a file of 64 bits has sections of any size.
            for bits, form in ((64, LITTLE_64), (32, LITTLE_32))[:1 if case.code else 2]:
                yield f"{case.name}, file of {bits} bits", partial(over_file, case, form)
            if case.asked is not None:
                yield f"{case.name}, asked in pieces", partial(asked_in_pieces, case)


def words_of(case):
    return list(case.words.split() if isinstance(case.words, str) else case.words)


def over_input(case):
    words, files = on_input(case)
    return program.expect(words, case.output, case.error, case.status, case.section, program.folder(files))


def in_pieces(case):
    words, files = on_input(case)
    return wrong_in_pieces(case, words, case.section, program.folder(files))


def over_file(case, form):
    words, files = in_file(case, form)
    asked = case.asked or b""
    return program.expect(words, case.output, case.error, case.status, asked, program.folder(files))


def asked_in_pieces(case):
    words, files = in_file(case, LITTLE_64)
    return wrong_in_pieces(case, words, case.asked, program.folder(files))


def on_input(case):
    """The words of a section on standard input, and the files that these name."""
    words, files = words_of(case), {}
    for word, name, content in (("--line-str", "line", case.line_str), ("--str", "other", case.strings)):
        if content is not None:
            words += [word, name]
            files[name] = content
    return words, files


def in_file(case, form):
    """The words of the file `elf`, and the file. Older units have addresses of 8 bytes in it as on standard input."""
    words = ["--address-size" if word == "--older" else word for word in words_of(case)]
    if "-" in words:
        words[words.index("-")] = "elf"
    else:
        words.append("elf")
    return words, {"elf": elf_file(case, form)}


def elf_file(case, form):
    sections = [Section(".debug_line", case.section)]
    for name, content in ((".debug_line_str", case.line_str), (".debug_str", case.strings)):
        if content is not None:
            sections.append(Section(name, content))
    for address, _ in case.code or NO_CODE:
        sections.append(Section(".text", b"", NOBITS, ALLOC | EXECINSTR, address))
    file = bytearray(image(form, sections))
    for number, (_, size) in enumerate(case.code or NO_CODE, len(sections) - len(case.code or NO_CODE) + 1):
        struct.pack_into("<Q", file, place_of(file, number, "size"), size)
    return bytes(file)


def wrong_in_pieces(case, words, given, folder):
    """What is wrong where standard input gives one byte a read, or None. It is a socket that keeps the bytes apart."""
    ours, theirs = socket.socketpair(socket.AF_UNIX, socket.SOCK_SEQPACKET)
    pipe = subprocess.PIPE
    with theirs:
        process = subprocess.Popen([program.DWLINE, *words], stdin=theirs, stdout=pipe, stderr=pipe, cwd=folder,
                                   env=program.ENVIRONMENT)
    with ours:
        give(ours, given)
    output, error = process.communicate(timeout=program.SECONDS)
    ran = program.Ran(process.returncode, output, error)
    wrong = program.differences(ran, case.output, case.error, case.status)
    repeat = program.by_hand(words, given, folder)
    return "\n".join([*wrong, f"repeat, one byte a read: {repeat}"]) if wrong else None


def give(end, given):
    """Sends each byte by itself, as far as they are wanted."""
    try:
        for byte in given:
            end.send(bytes([byte]))
    except OSError:
        pass
