"""Worked sections on standard input: what each command writes and tells of them, whole and cut off at each byte, of
damage at a byte, of copies that are read again, and where the output takes less than all.

What is wanted is what DWARF 5 says of the bytes."""

import functools
import os
import resource
import subprocess

from cases import commands, headers, programs
from cases.units import THREE_ROWS, table, unit_of, unit_of_values
from lib.dumps import error, fronts_of_refused, fronts_of_unit, runs_of_refused, runs_of_whole, text, without_offsets
from lib.program import DWLINE, Ran, by_hand, differences, expect, folder, numbered, run

WHOLES = [*headers.wholes(), *programs.wholes()]
REFUSALS = [*headers.refusals(), *programs.refusals()]

# No input is longer than this.
MOST = 1 << 26

# A section of more bytes isn't cut off at each.
CUT_MOST = 200


def cases():
    yield from numbered((it.name, functools.partial(try_run, it)) for it in runs())
    yield from numbered((f"{it.name}: the copy", functools.partial(try_copy, it)) for it in WHOLES)
    for words, section, whole, room in rooms():
        yield (f"{' '.join(words)} of {len(section)} bytes with room for {room}",
               functools.partial(try_room, words, section, whole, room))
    yield "find without an end", try_endless


def runs():
    yield from commands.runs()
    for whole in WHOLES:
        yield from runs_of_whole(whole)
        if len(whole.section) <= CUT_MOST:
            yield from fronts_of_unit(whole)
    for refused in REFUSALS:
        yield from runs_of_refused(refused)
        yield from fronts_of_refused(refused)


def with_paths(words):
    """The words, in which one of bytes is the path of a file of them."""
    files = {str(at): word for at, word in enumerate(words) if isinstance(word, bytes)}
    where = folder(files) if files else None
    return [os.path.join(where, str(at)) if str(at) in files else word for at, word in enumerate(words)]


def try_run(wanted):
    words = with_paths(wanted.words)
    ran = run(*words, stdin=wanted.section)
    wrong = differences(ran, wanted.output, None, wanted.status)
    if ran.err not in wanted.errors:
        wrong.append(f"standard error: wanted one of {wanted.errors}, got {ran.err}")
    return "\n".join(wrong + [f"repeat: {by_hand(words, wanted.section)}"]) if wrong else None


def try_copy(case):
    """What `copy` writes has the same dump, and is copied as it is."""
    copied = run("copy", *case.order, stdin=case.section).out
    dump = run("dump", *case.order, *with_paths(case.strings), stdin=copied)
    wrong = differences(dump._replace(out=without_offsets(dump.out)), without_offsets(text(case.dump)), None, 0)
    if wrong:
        return "\n".join(wrong)
    return expect(["copy", *case.order], copied, "", stdin=copied)


def limited(room):
    """Lets the files that are written grow up to this size; a write beyond it fails."""
    return lambda: resource.setrlimit(resource.RLIMIT_FSIZE, (room, room))


def try_room(words, section, whole, room):
    """Where the output takes so many bytes, these are out, and it is told where they aren't all."""
    path = os.path.join(folder(), "output")
    with open(path, "w+b") as output:
        # Python ignores the signal that such a write sends, and so does what it starts here.
        done = subprocess.run([DWLINE, *words], input=section, stdout=output, stderr=subprocess.PIPE,
                              preexec_fn=limited(room), restore_signals=False)
        output.seek(0)
        ran = Ran(done.returncode, output.read(), done.stderr)
    if room >= len(whole):
        return "\n".join(differences(ran, whole, b"", 0)) or None
    return "\n".join(differences(ran, whole[:room], error("cannot write the output"), 3)) or None


def with_a_long_name(length):
    """Three rows, and a unit of the same rows with a directory whose name is long. It is copied as it is."""
    tables = table([(1, headers.STRING)], b"n" * length + b"\0") + bytes(2)
    return THREE_ROWS + unit_of(tables, THREE_ROWS[34:])


def rooms():
    """Words, a section, what is written of it, and how many bytes the output takes."""
    dump = text(programs.THREE_DUMP)
    for words, written in [
            (("dump",), dump), (("check",), b"units 1 skipped 0 sequences 1 rows 3\n"),
            (("find", "0x401000"), text(commands.FIRST)), (("copy",), THREE_ROWS)]:
        for room in range(len(written) + 1):
            yield words, THREE_ROWS, written, room
    # Headers of 1 MiB and of one byte more.
    for length in [(1 << 20) - 37, (1 << 20) - 36]:
        section = with_a_long_name(length)
        for room in [0, 51, 52, 63, 120, 1 << 20, len(section) - 1, len(section)]:
            yield ("copy",), section, section, room
    path = "a" * 100_000
    section = unit_of_values([(1, headers.STRING, path.encode() + b"\0")])
    for room in [0, 10, 70_000, 100_055, 100_100]:
        yield ("dump",), section, text(headers.in_directory(f' path="{path}"')), room


def try_endless():
    """`find` ends with its answer, though the input doesn't."""
    pipe = subprocess.PIPE
    with subprocess.Popen([DWLINE, "find", "0x401000"], stdin=pipe, stdout=pipe, stderr=pipe, bufsize=0) as process:
        given = 0
        try:
            while given < MOST:
                given += process.stdin.write(THREE_ROWS)
        except BrokenPipeError:
            pass
        output, errors = process.communicate()
    if given >= MOST:
        return f"{given} bytes were taken"
    return "\n".join(differences(Ran(process.returncode, output, errors), text(commands.FIRST), b"", 0)) or None
