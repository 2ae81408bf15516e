"""How the work, the memory and the stack that dwline takes grow with its input.

Work: each run of cases/growth_cases.py takes for twice the input at most 2.3 times the instructions. They are counted
by valgrind; where that isn't installed, it is the time of the processor, over larger inputs, the least of alternate
rounds. Memory: each run of cases/growth_room.py over much larger files takes hardly more than it says that it holds.
Stack: each run of cases/growth_depths.py ends without a signal where the stack may have STACK bytes."""

import functools
import os
import re
import resource
import shutil
import subprocess

from cases.growth_cases import CASES
from cases.growth_depths import DEPTHS
from cases.growth_room import ROOMS, SLACK
from lib.program import DWLINE, folder

VALGRIND = shutil.which("valgrind")
TIME = shutil.which("time")
# Where times are measured: how many times as many parts an input has, and how many rounds there are at most.
LARGER, ROUNDS = 4, 40
STACK = 320 << 10

# Nothing runs beside what is timed.
ALONE = not VALGRIND
FIRST = True


def skipped():
    return None if TIME else "time isn't installed, which measures memory"


def cases():
    # Those with the largest files come first: they take longest.
    for room in ROOMS:
        yield f"room: {room.name}", functools.partial(try_room, room)
    for depth in DEPTHS:
        yield f"stack: {depth.name}", functools.partial(try_depth, depth)
    for case in CASES:
        yield f"work: {case.name}", functools.partial(try_work, case)


class Folder:
    """A folder with files, in which dwline is run: on its input comes the file `input`."""

    def __init__(self, files):
        self.path = folder({"input": b"", **files})

    def run(self, words, status, before=(), **options):
        """What the run writes on standard error. `before` are words before those of the run."""
        with open(os.path.join(self.path, "input"), "rb") as given:
            done = subprocess.run([*before, DWLINE, *words], cwd=self.path, stdin=given, stdout=subprocess.DEVNULL,
                                  stderr=subprocess.PIPE, **options)
        assert done.returncode == status, (words[:4], done.returncode, done.stderr[-300:])
        return done.stderr

    def instructions(self, words, status):
        tool = [VALGRIND, "--tool=cachegrind", "--cache-sim=no", "--cachegrind-out-file=/dev/null"]
        counted = re.search(rb"I +refs: +([0-9,]+)", self.run(words, status, tool))
        return int(counted[1].replace(b",", b""))

    def seconds(self, words, status):
        """The time of the processor."""
        before = resource.getrusage(resource.RUSAGE_CHILDREN)
        self.run(words, status)
        after = resource.getrusage(resource.RUSAGE_CHILDREN)
        return after.ru_utime + after.ru_stime - before.ru_utime - before.ru_stime

    def peak(self, words, status):
        """The most bytes of memory that a run has at a time. What Python starts begins with its own, so `time` starts
        it."""
        out = os.path.join(self.path, "peak")
        self.run(words, status, [TIME, "-q", "-f", "%M", "-o", out])
        with open(out) as told:
            return 1024 * int(told.read())


def prepared(run):
    """The folder of a case's run, after the run that comes before it."""
    made = Folder({"input": run.input, **run.files})
    if run.before:
        made.run(run.before, 0)
    return made


def count_work(case, count):
    run = case.run(count)
    return prepared(run).instructions(run.words, run.status)


def count_growth(case):
    """How many times the instructions twice the input takes."""
    return count_work(case, 2 * case.count) / count_work(case, case.count)


def time_growth(case):
    """The same of time: the least of alternate rounds, of which there are as many as it takes to keep the bound."""
    runs = [case.run(LARGER * count) for count in (case.count, 2 * case.count)]
    folders = [prepared(run) for run in runs]
    least = [float("inf")] * 2
    for number in range(ROUNDS):
        least = [min(known, made.seconds(run.words, run.status)) for known, made, run in zip(least, folders, runs)]
        if number > 1 and least[1] <= case.most * least[0]:
            break
    return least[1] / least[0]


def try_work(case):
    """A count shows too that the input is what takes the work."""
    growth = count_growth(case) if VALGRIND else time_growth(case)
    least = case.least if VALGRIND else 0
    if least <= growth <= case.most:
        return None
    return f"twice the input takes {growth:.2f} times the work, not {case.least} to {case.most}"


def try_room(room):
    counts = room.count, room.times * room.count
    small, large = (Folder(room.files(count)) for count in counts)
    wrong = []
    for words, holds, status in room.runs:
        peaks = [made.peak(words, status) for made in (small, large)]
        most = peaks[0] + SLACK + holds(counts[1])
        if peaks[1] > most:
            wrong.append(f"{' '.join(words)}: {peaks[1] >> 10} KiB, not at most {most >> 10}")
    return "\n".join(wrong) or None


def with_little_stack():
    resource.setrlimit(resource.RLIMIT_STACK, (STACK, STACK))


def try_depth(depth):
    """What stands in the environment is part of the stack."""
    made = Folder(depth.files())
    wrong = []
    for words, status in depth.runs:
        try:
            made.run(words, status, preexec_fn=with_little_stack, env={})
        except AssertionError as fault:
            wrong.append(str(fault))
    return "\n".join(wrong) or None
