#!/usr/bin/env python3
"""Measures the making of an index, its size and look-up in it, beside `dwline check`, GSYM and a plain search in C.

    bench/index.py [PATH OF dwline]

The files are the linked program that `bench/run.py` builds, and the 1.7 million rows that `bench/files.py` puts into a linked
file, which has no code, so that each sequence counts (`--all`). Of both must be there. Times are user and system time, the
least of ROUNDS alternate runs; instructions are callgrind's. Memory is the peak resident size above that of `dwline check`.

Rows that can't be measured are named with the reason: look-up by the library until `make lib` has built one that reads
indices, `dwline addr` over an index until the program answers from one, and peers that aren't installed.
Debian 12: apt-get install valgrind time clang llvm binutils elfutils."""
import os
import random
import re
import select
import shutil
import subprocess
import sys
import time

ROUNDS = 7
ADDRESSES = 100_000
LINES = 2_000
MAKING = 3.0
ROW, SEQUENCE = 40, 200
FIND, FIND_MANY = 1.2, 0.7
ONE, MANY, PIPE = 0.002, 0.03, 1.3
HERE = os.path.dirname(os.path.abspath(__file__))
OUT = os.path.join(HERE, "out")
INCLUDE = os.path.join(HERE, "../include")
LIBRARY = os.path.join(HERE, "../out/libboxantrel.a")
PEERS = {
    "llvm-symbolizer": ["--functions=none", "--no-inlines"],
    "addr2line": [],
    "eu-addr2line": [],
}
OBJECT = {"llvm-symbolizer": "--obj={}", "addr2line": "-e{}", "eu-addr2line": "-e{}"}


def seconds(words, given=None, statuses=(0,)):
    """User and system time of one run, which must end with one of these statuses."""
    with open(given or os.devnull, "rb") as source:
        child = subprocess.Popen(words, stdin=source, stdout=subprocess.DEVNULL, stderr=subprocess.DEVNULL)
        _, status, usage = os.wait4(child.pid, 0)
    child.returncode = os.waitstatus_to_exitcode(status)
    if child.returncode not in statuses:
        sys.exit(f"{words} failed with {child.returncode}")
    return usage.ru_utime + usage.ru_stime


def least(commands, given=None, statuses=(0,)):
    """The least time of each command, of alternate runs."""
    times = [[seconds(words, given, statuses) for words in commands] for _ in range(ROUNDS)]
    return list(map(min, zip(*times)))


def instructions(words):
    """How many instructions one run takes."""
    run = subprocess.run(["valgrind", "--tool=callgrind", "--callgrind-out-file=/dev/null", *words],
                         stdout=subprocess.DEVNULL, stderr=subprocess.PIPE, text=True, check=True)
    return int(re.search(r"Collected : (\d+)", run.stderr).group(1))


def peak(words):
    """The peak resident size of one run, in bytes."""
    run = subprocess.run(["/usr/bin/time", "-f", "%M", *words], stdout=subprocess.DEVNULL,
                         stderr=subprocess.PIPE, text=True)
    return int(run.stderr.split()[-1]) * 1024


def tool(name):
    """A tool of LLVM by its name, with or without a version behind it."""
    found = shutil.which(name)
    versions = [f"{name}-{number}" for number in range(30, 10, -1)]
    return found or next(filter(None, map(shutil.which, versions)), None)


def rows_of(dwline, file):
    """How many rows and sequences a file has, as `check` counts them."""
    told = subprocess.run([dwline, "check", file], stdout=subprocess.PIPE, text=True, check=True).stdout
    return int(re.search(r"rows (\d+)", told).group(1)), int(re.search(r"sequences (\d+)", told).group(1))


def line_section(file):
    """How many bytes the section .debug_line has."""
    told = subprocess.run(["readelf", "-SW", file], stdout=subprocess.PIPE, text=True, check=True).stdout
    return int(re.search(r"\.debug_line +\S+ +\S+ +\S+ +(\S+)", told).group(1), 16)


def making(dwline, file, more):
    """Prints what the making of the index of a file takes, beside `check` and GSYM."""
    index = file + ".index"
    make, check = [dwline, "index", *more, "-o", index, file], [dwline, "check", file]
    ours, theirs = least([make, check])
    counts = instructions(make), instructions(check)
    rows, sequences = rows_of(dwline, file)
    size = os.path.getsize(index)
    more_memory = peak(make) - peak(check)
    beside = (more_memory - size - SEQUENCE * sequences) / rows
    print(f"{file}: {rows} rows in {sequences} sequences")
    print(f"    making {ours:.3f} s, check {theirs:.3f} s: {ours / theirs:.2f} times (at most {MAKING})")
    print(f"    making {counts[0]:,} instructions, check {counts[1]:,}: {counts[0] / counts[1]:.2f} times (at most {MAKING})")
    print(f"    memory {more_memory / rows:.1f} bytes a row; {beside:.1f} beside the index and {SEQUENCE} a sequence (at most {ROW})")
    print(f"    index {size:,} bytes, .debug_line {line_section(file):,}")
    gsymutil = tool("llvm-gsymutil")
    if gsymutil is None:
        print("    GSYM: llvm-gsymutil isn't installed")
        return index
    gsym = file + ".gsym"
    words = [gsymutil, f"--convert={file}", f"--out-file={gsym}"]
    if subprocess.run(words, stdout=subprocess.DEVNULL, stderr=subprocess.DEVNULL).returncode != 0:
        print("    GSYM: llvm-gsymutil makes none of this file")
        return index
    print(f"    GSYM {os.path.getsize(gsym):,} bytes, made in {least([words])[0]:.3f} s")
    return index


def looked_up(index):
    """Prints the times of look-ups in memory."""
    with open(os.path.join(INCLUDE, "boxantrel.h")) as file:
        reads = "dl_index_find_many" in file.read()
    library = reads and os.path.exists(LIBRARY)
    if not library:
        print("    look-up by the library: make lib hasn't built one that reads indices")
    found = {}
    for compiler in ["gcc", "clang"]:
        if shutil.which(compiler) is None:
            print(f"    {compiler} isn't installed")
            continue
        words = [compiler, "-O2", os.path.join(HERE, "index.c"), "-o", "index_search"]
        subprocess.run(words + (["-DLIBRARY", f"-I{INCLUDE}", LIBRARY] if library else []), check=True)
        run = subprocess.run(["./index_search", index], stdout=subprocess.PIPE, stderr=subprocess.DEVNULL, text=True,
                             check=True)
        for line in run.stdout.splitlines():
            name, time_of_one = line.split()
            name = f"{name} by {compiler}" if name == "search" else name
            found[name] = min(found.get(name, 1e9), float(time_of_one))
    plain = min(time_of_one for name, time_of_one in found.items() if name.startswith("search"))
    for name, time_of_one in found.items():
        wanted = {"find": FIND, "find_many": FIND_MANY}.get(name)
        more = f", {time_of_one / plain:.2f} times the better search in C (at most {wanted})" if wanted else ""
        print(f"    {name}: {time_of_one:.1f} ns a look-up{more}")


def spread(dwline, file, count):
    """Addresses of rows of live sequences, in no order."""
    told = subprocess.run([dwline, "dump", file], stdout=subprocess.PIPE, text=True, check=True).stdout
    all_rows = [int(line.split()[1], 16) for line in told.splitlines() if line.startswith("row ")]
    chance = random.Random(5)
    return [chance.choice(all_rows) for _ in range(count)]


def answers(dwline, index, file, more, addresses):
    """Whether the program answers from an index as it does from the file."""
    told = [subprocess.run([dwline, "addr", *words, *addresses], stdout=subprocess.PIPE, stderr=subprocess.DEVNULL).stdout
            for words in ([index], [*more, file])]
    return told[0] == told[1]


def asked(dwline, index, file, more):
    """Prints the times of `dwline addr` over an index, and of the peers over its file."""
    addresses = [f"0x{address:x}" for address in spread(dwline, file, ADDRESSES)]
    with open("addresses", "w") as out:
        out.write("\n".join(addresses) + "\n")
    commands = {}
    if answers(dwline, index, file, more, addresses[:100]):
        commands["dwline addr INDEX"] = [dwline, "addr", index]
    else:
        print("    dwline addr INDEX: the program doesn't answer from an index")
    for name, words in PEERS.items():
        if shutil.which(name):
            commands[name] = [name, OBJECT[name].format(file), *words]
        else:
            print(f"    {name} isn't installed")
    for name, words in commands.items():
        ours = name.startswith("dwline")
        one = least([words + [addresses[0]]], statuses=(0, 1))[0]
        many = least([words], "addresses", (0, 1))[0]
        print(f"    {name}: one address {one:.4f} s{f' (at most {ONE})' if ours else ''}, "
              f"{ADDRESSES} on standard input {many:.3f} s{f' (at most {MANY})' if ours else ''}")
    pipes = {"cat": ["cat"], **{name: words for name, words in commands.items() if name != "eu-addr2line"}}
    for name, words in pipes.items():
        told = one_by_one(words, addresses[:LINES])
        if told is None:
            print(f"    {name}: doesn't answer a line before the next one comes")
        else:
            print(f"    {name}: {told * 1e6:.1f} us for one line in, one line out")


def one_by_one(words, addresses):
    """The least time for a line that is written to a command's standard input until its answer is read, of a pipe that
    stays; None where no answer comes within a second."""
    child = subprocess.Popen(words, stdin=subprocess.PIPE, stdout=subprocess.PIPE, stderr=subprocess.DEVNULL, bufsize=0)
    asks, answers = child.stdin.fileno(), child.stdout.fileno()
    ending = b"\n\n" if "symbolizer" in words[0] else b"\n"
    os.write(asks, addresses[0].encode() + b"\n")
    if not select.select([answers], [], [], 1)[0]:
        child.kill()
        child.wait()
        return None
    read_to(answers, ending)
    best = None
    for _ in range(ROUNDS):
        start = time.monotonic()
        for address in addresses:
            os.write(asks, address.encode() + b"\n")
            read_to(answers, ending)
        spent = (time.monotonic() - start) / len(addresses)
        best = spent if best is None else min(best, spent)
    child.stdin.close()
    child.wait()
    return best


def read_to(pipe, ending):
    """Reads a pipe up to this ending."""
    read = b""
    while not read.endswith(ending):
        read += os.read(pipe, 1 << 16)


def main():
    dwline = os.path.abspath(sys.argv[1] if len(sys.argv) > 1
                             else os.path.join(HERE, "../crates/dwline/out/dwline"))
    os.makedirs(OUT, exist_ok=True)
    os.chdir(OUT)
    for file, more, script in [("sample", [], "bench/run.py"), ("linked.elf", ["--all"], "bench/files.py")]:
        if not os.path.exists(file):
            print(f"{file}: run {script} first, which builds it")
            continue
        index = making(dwline, file, more)
        looked_up(index)
        asked(dwline, index, file, more)


main()
