#!/usr/bin/env python3
"""Counts the instructions (by callgrind) that each command takes for a row, beside those of `check`.

    bench/commands.py [PATH OF dwline]

The section is that of `bench/run.py`, which has to be run first, before it is repeated; `lines` asks for one line, which no row
has. `lint` and `check` are counted over the linked file too, where sequences of dropped functions aren't live, and their user and
system time is measured, the least of ROUNDS alternate runs: over the object file of the repeated section, and over a section of as many
copies at addresses of their own, which don't overlap each other.
Debian 12: apt-get install valgrind."""
import os
import re
import subprocess
import sys

HERE = os.path.dirname(os.path.abspath(__file__))
OUT = os.path.join(HERE, "out")
COMMANDS = [["check"], ["find", "0xffffffffffff"], ["dump"], ["dump", "--header"], ["dump", "--operations"], ["dump", "--paths"], ["dump", "--json"],
            ["dump", "--range", "0x401000-0x401001"], ["copy"], ["lint"],
            ["sources"], ["sources", "--rows"], ["lines", "-", "no_such_file:1"]]
WITHOUT_STRINGS = ("check", "copy")
LINKED = "sample"
REPEATED = "section.elf"
APART = "apart"
SET_ADDRESS = b"\x00\x09\x02"
ROUNDS = 15


def run(words, status):
    """What one run prints on both streams, which must end with one of these statuses."""
    with open("one", "rb") as section:
        done = subprocess.run(words, stdin=section, capture_output=True, text=True, errors="replace", check=False)
    if done.returncode not in status:
        sys.exit(f"{words}: {done.stderr}")
    return done


def instructions(dwline, command):
    strings = [] if command[0] in WITHOUT_STRINGS or LINKED in command else ["--line-str", "strings"]
    words = ["valgrind", "--tool=callgrind", "--callgrind-out-file=/dev/null", dwline, *command, *strings]
    return int(re.search(r"Collected : (\d+)", run(words, (0, 1)).stderr).group(1))


def write_apart():
    """The section as often as it is repeated, each copy at addresses of its own."""
    with open("one", "rb") as file:
        one = file.read()
    places = [it.end() for it in re.finditer(re.escape(SET_ADDRESS), one)]
    with open(APART, "wb") as file:
        for copy in range(os.path.getsize("section") // len(one)):
            moved = bytearray(one)
            for place in places:
                address = int.from_bytes(one[place:place + 8], "little") + (copy << 32)
                moved[place:place + 8] = address.to_bytes(8, "little")
            file.write(moved)


def seconds(words, section=os.devnull):
    """User and system time of one run."""
    with open(os.devnull, "wb") as null, open(section, "rb") as input:
        child = subprocess.Popen(words, stdin=input, stdout=null, stderr=null)
        _, status, usage = os.wait4(child.pid, 0)
        child.returncode = os.waitstatus_to_exitcode(status)
    if child.returncode not in (0, 1):
        sys.exit(f"{words} failed with {child.returncode}")
    return usage.ru_utime + usage.ru_stime


def over_files(dwline, rows):
    """`lint` beside `check`, over ELF files."""
    check, lint = (instructions(dwline, [command, LINKED]) for command in ("check", "lint"))
    print(f"of the linked file: check {check / rows:.1f} a row, lint {lint / rows:.1f}, {lint / check:.2f} times check")
    write_apart()
    print_times("the repeated section", lambda command: seconds([dwline, command, REPEATED]))
    print_times("copies at addresses of their own", lambda command: seconds([dwline, command], APART))


def print_times(what, of):
    """The least time of each of both commands, in alternate runs."""
    times = {command: [] for command in ("check", "lint")}
    for _ in range(ROUNDS):
        for command, taken in times.items():
            taken.append(of(command))
    check, lint = (min(taken) for taken in times.values())
    print(f"time, of {what}: check {check:.3f} s, lint {lint:.3f} s, {lint / check:.2f} times check")


def main():
    dwline = os.path.abspath(sys.argv[1] if len(sys.argv) > 1 else os.path.join(HERE, "../crates/dwline/out/dwline"))
    if not os.path.exists(os.path.join(OUT, "one")):
        sys.exit("run bench/run.py first: it builds the section")
    os.chdir(OUT)
    rows = int(run([dwline, "check"], (0,)).stdout.split()[-1])
    first = None
    for command in COMMANDS:
        count = instructions(dwline, command)
        first = first or count
        print(f"{' '.join(command):32} {count / rows:8.1f} a row {count / first:8.2f} times check")
    over_files(dwline, rows)


main()
