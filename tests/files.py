"""ELF files that are made by hand from the tables of the System V ABI, well-formed and damaged: what each command
writes and tells of them, and how many bytes of the input are left."""

import functools
import os
import subprocess

from cases import (
    archives, directories, elf_cases, elf_contents, elf_jobs, elf_lookups, elf_members, relocations)
from lib.program import DWLINE, ENVIRONMENT, SECONDS, Ran, by_hand, differences, folder, numbered

TABLES = (elf_cases, elf_contents, elf_jobs, elf_lookups, elf_members, relocations, directories, archives)
GROUPS = [group for table in TABLES for group in table.GROUPS]


def cases():
    yield from numbered((f"{group.__name__}: {case.name}: {case.words[0]}", functools.partial(try_case, case))
                        for group in GROUPS for case in group())


def try_case(case):
    where = folder(dict(case.files()))
    with open(os.path.join(where, "input"), "rb") as stdin:
        done = subprocess.run([DWLINE, *case.words], cwd=where, stdin=stdin, stdout=subprocess.PIPE,
                              stderr=subprocess.PIPE, env=ENVIRONMENT, timeout=SECONDS)
        left = len(case.input) - os.lseek(stdin.fileno(), 0, os.SEEK_CUR)
    status, output, errors, wanted_left = case.wanted()
    wrong = differences(Ran(done.returncode, done.stdout, done.stderr), output, errors, status)
    if left != wanted_left:
        wrong.append(f"bytes of the input that are left: wanted {wanted_left}, got {left}")
    return "\n".join(wrong + [f"repeat: {by_hand(case.words, cwd=where)} < input"]) if wrong else None
