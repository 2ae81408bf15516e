#!/usr/bin/env python3
"""Measures dwline's time and memory against baseline.c, readelf and llvm-dwarfdump.

    bench/run.py [PATH OF dwline]

Times are user and system time, the least of ROUNDS alternate runs (of find and copy BESIDE_CHECK) with
the output thrown away.
Debian 12: apt-get install g++ time; readelf (binutils) and llvm-dwarfdump (llvm) are optional."""
import os
import shutil
import subprocess
import sys

ROUNDS = 7
BESIDE_CHECK = 25
SIZE = 8 * 2 ** 20
HERE = os.path.dirname(os.path.abspath(__file__))
OUT = os.path.join(HERE, "out")
SECTION = os.path.join(OUT, "section")
TARGETS = {"check": 2.0, "dump": 3.0}
FIND = 1.25
COPY = 2.2
MEMORY = 3.0


def build_sample():
    """The folder of what is built, and in it the program `sample`."""
    os.makedirs(OUT, exist_ok=True)
    os.chdir(OUT)
    with open(".gitignore", "w") as file:
        file.write("*\n")
    if os.path.exists("sample"):
        return
    print("building the program (about half a minute)")
    for part, level in enumerate(["-O0", "-O2"]):
        subprocess.run(["g++", "-gdwarf-5", level, f"-DPART={part}", "-c", "../sample.cc",
                        "-o", f"sample{part}.o"], check=True)
    subprocess.run(["g++", "sample0.o", "sample1.o", "-o", "sample"], check=True)


def build():
    """The baseline, a section of at least SIZE bytes and an ELF file with it for the peers."""
    build_sample()
    subprocess.run(["gcc", "-O3", "../baseline.c", "-o", "baseline"], check=True)
    if os.path.exists("section.elf"):
        return
    subprocess.run(["objcopy", "--dump-section", ".debug_line=one",
                    "--dump-section", ".debug_line_str=strings", "sample"], check=True)
    with open("one", "rb") as file:
        one = file.read()
    with open("section", "wb") as file:
        file.write(one * -(-SIZE // len(one)))
    subprocess.run(["gcc", "-x", "c", "-c", "/dev/null", "-o", "empty.o"], check=True)
    subprocess.run(["objcopy", "--add-section", ".debug_line=section",
                    "--add-section", ".debug_line_str=strings", "empty.o", "section.elf"],
                   check=True)


def seconds(words, wanted=0):
    """User and system time of one run, which must end with the wanted status."""
    with open(SECTION, "rb") as section, open(os.devnull, "wb") as null:
        child = subprocess.Popen(words, stdin=section, stdout=null, stderr=null)
        _, status, usage = os.wait4(child.pid, 0)
        child.returncode = os.waitstatus_to_exitcode(status)
    if child.returncode != wanted:
        sys.exit(f"{words} failed with {child.returncode}")
    return usage.ru_utime + usage.ru_stime


def megabytes(words):
    """Peak resident memory of one run."""
    with open(SECTION, "rb") as section, open(os.devnull, "wb") as null:
        run = subprocess.run(["/usr/bin/time", "-f", "%M", *words], stdin=section, stdout=null,
                             stderr=subprocess.PIPE, text=True)
    return int(run.stderr.split()[-1]) / 1024


def absent(baseline):
    """Addresses that no row answers for: the lowest gap between sequences, the middle one, and an
    address above all rows."""
    with open("one", "rb") as one:
        dump = subprocess.run([baseline, "dump"], stdin=one, stdout=subprocess.PIPE, text=True,
                              check=True)
    spans, first = [], None
    for words in map(str.split, dump.stdout.splitlines()):
        if words[0] == "row":
            address = int(words[1], 16)
            first = address if first is None else first
            if words[-1] == "end":
                spans.append((first, address))
                first = None
    gaps, top = [], 0
    for first, end in sorted(spans):
        if top < first:
            gaps.append(top)
        top = max(top, end)
    return [hex(gaps[0]), hex(gaps[len(gaps) // 2]), "0xfffffffffffffff0"]


def compare(dwline, baseline):
    """Stops where the two programs don't write the same."""
    for command in TARGETS:
        words = f'"{dwline}" {command} < {SECTION} | cmp - out'
        with open("out", "wb") as out, open(SECTION, "rb") as section:
            subprocess.run([baseline, command], stdin=section, stdout=out, check=True)
        subprocess.run(words, shell=True, check=True)
    os.remove("out")


def main():
    default = os.path.join(HERE, "../crates/dwline/out/dwline")
    dwline = os.path.abspath(sys.argv[1] if len(sys.argv) > 1 else default)
    build()
    baseline = os.path.join(OUT, "baseline")
    compare(dwline, baseline)
    size = os.path.getsize(SECTION) / 2 ** 20
    print(f"section: {size:.1f} MiB; least of {ROUNDS} runs, of find and copy {BESIDE_CHECK}")
    print(f"{'':32} {'seconds':>8} {'MiB/s':>8} {'ratio':>6} {'peak MiB':>9}")

    def show(name, time, ratio, memory):
        print(f"{name:32} {time:8.3f} {size / time:8.1f} {ratio:>6} {memory:9.2f}")

    met = True
    for command, target in TARGETS.items():
        ours, theirs = [dwline, command], [baseline, command]
        times = [(seconds(ours), seconds(theirs)) for _ in range(ROUNDS)]
        our_time, their_time = map(min, zip(*times))
        memory = megabytes(ours)
        met = met and our_time <= target * their_time and memory < MEMORY
        show(f"dwline {command}", our_time, f"{our_time / their_time:.2f}", memory)
        show(f"baseline {command}", their_time, "1", megabytes(theirs))
    beside = [([dwline, "find", address], 1, FIND) for address in absent(baseline)]
    beside.append(([dwline, "copy"], 0, COPY))
    times = [[seconds([dwline, "check"])] + [seconds(words, wanted) for words, wanted, _ in beside]
             for _ in range(BESIDE_CHECK)]
    check_time, *other_times = map(min, zip(*times))
    for (words, _, target), time in zip(beside, other_times):
        memory = megabytes(words)
        met = met and time <= target * check_time and memory < MEMORY
        show(" ".join(["dwline", *words[1:]]), time, f"{time / check_time:.2f}", memory)
    for words in [["readelf", "--debug-dump=decodedline"], ["llvm-dwarfdump", "--debug-line"]]:
        if shutil.which(words[0]):
            words.append("section.elf")
            show(" ".join(words[:2]), min(seconds(words) for _ in range(2)), "", megabytes(words))
    print(f"targets: check at most {TARGETS['check']} times the baseline, dump at most "
          f"{TARGETS['dump']} times, find at most {FIND} times dwline check, copy at most {COPY} times, "
          f"less than {MEMORY} MiB each: "
          + ("met" if met else "NOT met"))


if __name__ == "__main__":
    main()
