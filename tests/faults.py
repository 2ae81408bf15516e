"""Calls of the system that fail while a command runs: memory that is refused; reads and writes that fail, are
interrupted, move a byte or end; and bytes of a file that can't be read.

Each call of each command line of tests/cases/faults.py fails once. The status is 3 then, standard error has the line
that says why, what is out is a front of the whole output, and no memory is asked for after a refusal. What isn't so is
marked as open in the table; a mark that nothing needs any more is told."""

import functools
import os
import re
import shutil
import subprocess
import tempfile
import zlib
from typing import NamedTuple

from cases.faults import (
    AGAIN, ANSWERS, ENDLESS, ENDS, FRONT, GOES_ON, LINES, MASKED, MISTOLD, NEAR, NEEDED, PARTS, READS, SPARED,
    UNTOLD, Line)
from cases.indices import many
from lib import elf
from lib.indices import index
from lib.program import ALL, by_hand, data, folder, path, run, shown

CALLS = ("growth", "read", "pread", "write")
FOR_GOOD = 1 << 40

# The first growths are of the words. Of those up to the first read so many are refused, and then one in so many.
OF_WORDS, THEN = 12, 6


def skipped():
    return None if shutil.which("cc") else "cc isn't installed"


def cases():
    library, files = built(), made_files()
    for line in LINES:
        stdin = f" < {line.stdin.decode()}" if isinstance(line.stdin, bytes) else " < lines" * bool(line.stdin)
        for call in (refused_growths, failing_reads, early_ends, failing_writes, small_steps):
            yield (f"{line.words}{stdin}: {call.__name__.replace('_', ' ')}",
                   functools.partial(tried, call, line, library, files))
    for first, second, most in NEAR:
        yield f"reads of an index, 0x{first:x} 0x{second:x}", functools.partial(few_reads, first, second, most, library)
    for words, *row in NEEDED:
        yield f"{words}: unreadable sections", functools.partial(unreadable, words, *row, library, files)


def built():
    """The path of the fault library."""
    library = os.path.join(tempfile.mkdtemp(dir=os.environ.get("TESTS_SCRATCH")), "faults.so")
    source = os.path.join(os.path.dirname(os.path.abspath(__file__)), "lib", "faults.c")
    subprocess.run(["cc", "-O1", "-Wall", "-Wextra", "-Werror", "-shared", "-fPIC", "-o", library, source, "-ldl"],
                   check=True)
    return library


# ---- the files


def made_files():
    program, older, object_file = (data(name, "program") for name in ("gcc-O2", "gcc-dwarf4", "object-gcc"))
    long_line, _ = elf.line_unit(elf.LITTLE_64, [(0x1000 + 16 * n, 1 + n) for n in range(600)])
    # Sequences of one line of a file /d/a, in no order.
    sequences, _ = elf.line_unit(elf.LITTLE_64, [(0x8000 + 16 * (37 * n % 100), 7) for n in range(100)],
                                 b"\1\1\x08\1/d\0" b"\1\1\x08\2a\0a\0")
    rows, _ = elf.line_unit(elf.LITTLE_64, [(0x1000, 7)])
    # A stream with another check value.
    compressed = elf.LITTLE_64.pack("IIQQ", 1, 0, len(rows), 1) + zlib.compress(rows)[:-1] + b"\xff"
    build_id = elf.Section(".note.gnu.build-id", b"\4\0\0\0\4\0\0\0\3\0\0\0GNU\0\xc0\xff\xee\1", elf.NOTE)
    apart = elf.image(elf.LITTLE_64, [elf.Section(".debug_line", rows), build_id])
    link = b"apart.debug\0" + zlib.crc32(apart).to_bytes(4, "little")
    return {
        "program": program,
        "older": older,
        "object.o": object_file,
        "compressed": data("compressed", "program"),
        "compressed.o": data("compressed-object", "program"),
        "damaged": elf.image(elf.LITTLE_64, [elf.Section(".debug_line", compressed, flags=elf.COMPRESSED)]),
        "many": elf.image(elf.LITTLE_64, [elf.Section(".debug_line", sequences)]),
        "long": elf.image(elf.LITTLE_64, [elf.Section(".debug_line", long_line)]),
        "by-id": elf.image(elf.LITTLE_64, [build_id]),
        "debug/.build-id/c0/ffee01.debug": apart,
        "by-link": elf.image(elf.LITTLE_64, [elf.Section(".gnu_debuglink", link)]),
        "apart.debug": apart,
        "apart.index": run("index", "-o", "-", "apart", cwd=folder({"apart": apart})).out,
        "lib.a": archive({"object.o": object_file, "program": program}),
        "names": b"program\nolder\n",
        "index": run("index", "-o", "-", path("gcc-O2", "program")).out,
        "debug_line": data("gcc-O2", "debug_line"),
        "debug_line_str": data("gcc-O2", "debug_line_str"),
        "debug_str": data("gcc-O2", "debug_str"),
        "long_line": long_line,
        "older_line": data("gcc-dwarf4", "debug_line"),
    }


def archive(members):
    """An archive of members whose sizes are even."""
    return b"!<arch>\n" + b"".join(f"{name + '/':16}{0:<12}{0:<6}{0:<6}{644:<8}{len(content):<10}`\n".encode() + content
                                   for name, content in members.items())


# ---- one command line


class Outcome(NamedTuple):
    status: int
    out: bytes
    err: bytes
    counts: dict
    # The bytes of the file `out`, and the names of other files that weren't there before.
    made: bytes
    strays: list

    def tells_as(self, other):
        return self[:3] == other[:3] and self.made == other.made


class Trial:
    """A command line in a folder of its own, and what it does where nothing fails."""

    def __init__(self, line, library, files):
        self.line, self.library, self.where = line, library, folder(files)
        self.stdin = files[line.stdin.decode()] if isinstance(line.stdin, bytes) else line.stdin.encode()
        self.names = set(os.listdir(self.where))
        self.marks, self.wrong = set(), []
        self.whole = self.run()

    def run(self, fault=None):
        ran = run(*self.line.words.split(), stdin=self.stdin, cwd=self.where, env=self.environment(fault))
        err, _, told = ran.err.rpartition(b"faults: ")
        told = told.decode().split()
        counts = {name: int(count) for name, count in zip(told[::2], told[1::2])}
        return Outcome(ran.status, ran.out, err, counts, self.taken("out"),
                       sorted(set(os.listdir(self.where)) - self.names))

    def environment(self, fault):
        return {"LD_PRELOAD": self.library, **({"FAULT": fault} if fault else {})}

    def taken(self, name):
        made = os.path.join(self.where, name)
        if not os.path.exists(made):
            return None
        with open(made, "rb") as file:
            content = file.read()
        os.remove(made)
        return content

    def numbers(self, call):
        """Of the calls those that are to fail."""
        counts = self.whole.counts
        words = 0 if ALL or call != "growth" else counts["before"]
        return [n for n in range(1, counts[call] + 1) if n > words or n <= OF_WORDS or n % THEN == 0]

    def blame(self, fault, outcome, wrong):
        hand = by_hand(self.line.words.split(), self.stdin, self.where, self.environment(fault))
        self.wrong.append(f"FAULT={fault!r}: {wrong}\n  status {outcome.status}, standard error "
                          f"{shown(outcome.err)}\n  standard output {shown(outcome.out)}\n  repeat: {hand}")

    def over(self, fault, why, marks=(), front=False):
        """One fault. `why` is the line that it is to be told by; a mark, with a test of what comes of the fault today,
        says that it isn't so."""
        outcome = self.run(fault)
        wrong = self.untold(outcome, why)
        if front and not self.whole.out.startswith(outcome.out):
            wrong = "standard output isn't a front of the whole output"
        if not wrong:
            return outcome
        for mark, is_so in marks:
            if mark in self.line.open and is_so(outcome):
                self.marks.add(mark)
                return outcome
        self.blame(fault, outcome, wrong)
        return outcome

    def untold(self, outcome, why):
        """What is wrong with how a fault is told, or nothing."""
        if outcome.status != 3:
            return "the status isn't 3"
        if not re.fullmatch(self.lines(why), outcome.err):
            return f"standard error isn't {why!r}"
        if not self.fits(outcome):
            return "standard output isn't a part of the whole output"
        if outcome.made is not None or outcome.strays:
            return f"files are left: {outcome.strays or ['out']}"
        return "memory was asked for after a refusal" if outcome.counts["after"] else None

    def fits(self, outcome):
        lines, others = self.whole.out.splitlines(True), outcome.out.splitlines(True)
        if self.line.out == FRONT or self.whole.out.startswith(outcome.out):
            return self.whole.out.startswith(outcome.out)
        if self.line.out == ANSWERS:
            unknown = self.line.unknown.encode()
            return len(others) <= len(lines) and all(line in (wanted, unknown) for line, wanted in zip(others, lines))
        rest = iter(lines)
        return all(line in rest for line in others)

    def told(self):
        """What is wrong, or None."""
        return "\n".join(self.wrong[:3] + [f"and {len(self.wrong) - 3} more"] * (len(self.wrong) > 3)) or None

    def lines(self, why):
        """The line, or where one file follows another, one or more of them."""
        return rb"(%s|findings: .*\n)+" % why if self.line.out == PARTS else why

    def masks(self, outcome):
        return (outcome.status, outcome.err) == (self.whole.status, self.whole.err)

    def is_whole(self, outcome):
        return outcome.tells_as(self.whole) and not outcome.strays


def tried(call, line, library, files):
    """Tries one kind of faults, and says what is wrong: with the line, or with its marks."""
    trial = Trial(line, library, files)
    for name, least in zip(CALLS, line.least):
        if trial.whole.counts.get(name, 0) < least:
            return f"{name} is called {trial.whole.counts.get(name)} times, and wanted {least} times at least"
    marks = call(trial) or ()
    needless = [mark for mark in marks if mark in line.open and mark not in trial.marks and not trial.wrong]
    if needless:
        trial.wrong.append(f"this is as it is to be, so that the mark can go: {needless}")
    return trial.told()


# ---- each kind of fault

FILE = rb"dwline: [-./a-z0-9]+(\([a-z.]+\))?: "
NO_MEMORY = rb"dwline: ([-./a-z0-9]+(\([a-z.]+\))?: (cannot read: )?)?out of memory\n"
UNREAD = {"fail": rb"cannot read: Input/output error \(os error 5\)\n",
          "interrupt": rb"cannot read: Interrupted system call \(os error 4\)\n"}


def refused_growths(trial):
    """Where a refusal changes nothing, all that is asked for after it is refused too."""
    def told_late(outcome):
        return not trial.untold(outcome._replace(counts={"after": 0}), NO_MEMORY)

    def again(outcome):
        return trial.is_whole(outcome) or told_late(outcome)

    marks = [(AGAIN, again), (MASKED, trial.masks)]
    for n in trial.numbers("growth"):
        if trial.is_whole(trial.over(f"growth fail {n} 1", NO_MEMORY, marks)):
            trial.over(f"growth fail {n} {FOR_GOOD}", NO_MEMORY, [(AGAIN, told_late), (SPARED, trial.is_whole)])
    return [AGAIN, SPARED]


def failing_reads(trial):
    def mistold(outcome):
        return outcome.status == 1 and re.fullmatch(FILE + rb"(no section .*|not an ELF file)\n", outcome.err)

    marks = [(UNTOLD, trial.is_whole), (MISTOLD, mistold)]
    for how, times in (("fail", 1), ("interrupt", 1001)):
        for n in trial.numbers("read"):
            why = rb"dwline: cannot read the input\n|" + FILE + UNREAD[how]
            trial.over(f"read {how} {n} {times}", why, [(ENDLESS, trial.is_whole)])
        for n in trial.numbers("pread"):
            trial.over(f"pread {how} {n} {times}", FILE + UNREAD[how], marks)
    return [UNTOLD, MISTOLD]


def early_ends(trial):
    """A file that ends at a read is damaged, or ends in an unexpected place."""
    why = trial.lines(FILE + rb".+\n")
    for n in trial.numbers("pread"):
        fault = f"pread end {n} {FOR_GOOD}"
        outcome = trial.run(fault)
        if trial.is_whole(outcome):
            continue
        if ENDS in trial.line.open and outcome.status in (0, 2) and trial.fits(outcome):
            trial.marks.add(ENDS)
        elif outcome.status not in (1, 3) or not re.fullmatch(why, outcome.err) or not trial.fits(outcome):
            trial.blame(fault, outcome, "the end isn't told")
    return [ENDS]


def failing_writes(trial):
    why = rb"dwline: ([a-z.]+: )?cannot write( the output|: .+)\n"

    def goes_on(outcome):
        return outcome.status == 3 and re.fullmatch(trial.lines(why), outcome.err)

    marks = [(GOES_ON, goes_on), (ENDLESS, trial.is_whole), (MASKED, trial.masks)]
    for n in trial.numbers("write"):
        for how, times in (("fail", 1), ("end", 1), ("interrupt", 1001)):
            trial.over(f"write {how} {n} {times}", why, marks, front=True)
    return [GOES_ON, ENDLESS, MASKED]


def small_steps(trial):
    """Calls that move one byte each, or are interrupted 1,000 times each before they are done, change nothing."""
    for call in CALLS[1:]:
        for fault in (f"{call} short 1 {FOR_GOOD}", f"{call} between 1 1000"):
            if trial.whole.counts[call]:
                outcome = trial.run(fault)
                if not trial.is_whole(outcome):
                    trial.blame(fault, outcome, "it changes what the command does")


# ---- how many reads there are


def few_reads(first, second, most, library):
    """An address of an index takes few reads, and the one after it so many at most."""
    large = {"index": index(many(20_000))}
    alone, both = (Trial(Line(f"addr index {words}", ()), library, large).whole.counts["pread"]
                   for words in (f"0x{first:x}", f"0x{first:x} 0x{second:x}"))
    if alone > READS or both - alone > most:
        return f"{alone} reads, wanted {READS}; and {both - alone} after them, wanted {most}"
    return None


# ---- bytes of a file that can't be read


def unreadable(words, name, needed, library, files):
    trial = Trial(Line(words, (), ANSWERS), library, files)
    sections = elf.sections_of(files[name])
    for section, start, end, _ in sections:
        fault = f"range fail {start} {end}"
        if section in needed:
            trial.over(fault, FILE + UNREAD["fail"])
        elif not trial.is_whole(trial.run(fault)):
            trial.blame(fault, trial.run(fault), f"{section} isn't needed")
    trial.wrong += [f"{name} has no section {section}" for section in needed
                    if not any(section == other for other, *_ in sections)]
    return trial.told()
