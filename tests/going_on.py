"""What commands do with sections of which units are damaged."""
import subprocess
from functools import partial

from cases.section_damage import LATER_DAMAGE, LATER_LINE, TABLE
from lib.program import DWLINE, SECONDS
from lib.worked import cases_of, told, words_of


def cases():
    yield from cases_of(TABLE)
    for case in TABLE:
        yield f"{case.name}, no lines", partial(without_lines, case)
    yield "no room for the output", without_room


def without_lines(case):
    """Lines that can't be written change neither the output nor the status."""
    with open("/dev/full", "wb") as full:
        done = subprocess.run([DWLINE, *words_of(case)], input=case.section, stdout=subprocess.PIPE, stderr=full,
                              timeout=SECONDS)
    got, wanted = (done.returncode, done.stdout), (case.status, case.output.encode())
    return None if got == wanted else f"dwline {case.words} 2> /dev/full: wanted {wanted}, got {got}"


def without_room():
    """A write of the output that fails ends the work, after the line of the damaged unit before it."""
    with open("/dev/full", "wb") as full:
        done = subprocess.run([DWLINE, "check", "--keep-going"], input=LATER_DAMAGE, stdout=full,
                              stderr=subprocess.PIPE, timeout=SECONDS)
    got, wanted = (done.returncode, done.stderr), (3, (LATER_LINE + told("cannot write the output")).encode())
    return None if got == wanted else f"dwline check --keep-going > /dev/full: wanted {wanted}, got {got}"
