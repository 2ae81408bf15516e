#!/usr/bin/env python3
"""Measures dwline over an ELF file against the bytes of its section, over object files with 100,000
relocations against their sections with these applied, and over 100,000 sections.

    bench/files.py [PATH OF dwline]

Times are user and system time, the least of ROUNDS alternate runs with the output thrown away;
instructions are callgrind's, where valgrind is installed. `bench/run.py` builds the section first. The first object file
is what `ld -r` makes of sample.cc, compiled many times by g++ at -O0 and -O2: a relocation for each sequence. The second
has as many sequences of 13 rows, each in a section of its own. The third
is one for RISC-V (apt-get install binutils-riscv64-linux-gnu), whose linker may shorten code: each row but the first
of its table has two relocations, the sum and the difference of labels. readelf applies them for the comparison."""
import os
import re
import shutil
import struct
import subprocess
import sys

ROUNDS = 25
SECTIONS = 100_000
RATIO = 1.1
ROWS = 50_000
OBJECT_RATIO = 1.5
SECONDS = 0.05
HERE = os.path.dirname(os.path.abspath(__file__))
OUT = os.path.join(HERE, "out")


def linked():
    """A linked file with the section of 8.4 MiB."""
    subprocess.run(["gcc", "-x", "c", "-nostdlib", "-static", "-Wl,-e,0", "/dev/null",
                    "-o", "empty"], check=True)
    subprocess.run(["objcopy", "--add-section", ".debug_line=section",
                    "--add-section", ".debug_line_str=strings", "empty", "linked.elf"], check=True)


def many():
    """A file with SECTIONS sections, each with a name of its own, of which the last but one is
    .debug_line, empty; how many there are stands in section 0."""
    names = bytearray(b"\0")
    offsets = []
    for number in range(SECTIONS - 3):
        offsets.append(len(names))
        names += b".text.function_%d\0" % number
    offsets.append(len(names))
    names += b".debug_line\0"
    start = 64 + len(names)
    headers = [struct.pack("<IIQQQQIIQQ", 0, 0, 0, 0, 0, SECTIONS, SECTIONS - 1, 0, 0, 0)]
    headers += [struct.pack("<IIQQQQIIQQ", name, 1, 6, 0, 64, 0, 0, 0, 1, 0) for name in offsets]
    headers.append(struct.pack("<IIQQQQIIQQ", 0, 3, 0, 0, 64, len(names), 0, 0, 1, 0))
    header = b"\x7fELF\x02\x01\x01" + bytes(9)
    header += struct.pack("<HHIQQQIHHHHHH", 2, 62, 1, 0, 0, start, 0, 64, 0, 0, 64, 0, 0xffff)
    with open("many.elf", "wb") as file:
        file.write(header + names + b"".join(headers))


def linked_object():
    """An object file of many units, with a relocation for each sequence and more."""
    parts = []
    for level in ["-O0", "-O2"]:
        for part in "1234":
            parts.append(f"part{level}{part}.o")
            subprocess.run(["g++", "-c", "-gdwarf-5", level, f"-DPART={part}",
                            os.path.join(HERE, "sample.cc"), "-o", parts[-1]], check=True)
    subprocess.run(["ld", "-r", "-z", "muldefs", *parts * 6, "-o", "object.o"], check=True)


def object_of_sections():
    """One with a section for each of SECTIONS functions, and a relocation for each."""
    with open("object.s", "w") as source:
        source.write('.file 1 "a.c"\n')
        for number in range(SECTIONS):
            source.write(f'.section .text.f{number},"ax",@progbits\n')
            source.writelines(f".loc 1 {3 * number + line + 1}\nnop\n" for line in range(13))
    subprocess.run(["as", "--gdwarf-5", "object.s", "-o", "object.o"], check=True)


def riscv_object():
    """One with two relocations for each of ROWS rows."""
    with open("object.s", "w") as source:
        source.write('.file 1 "a.c"\n')
        source.writelines(f".loc 1 {number + 1}\nadd a0, a0, a1\n" for number in range(ROWS))
    subprocess.run(["riscv64-linux-gnu-as", "-gdwarf-5", "object.s", "-o", "object.o"], check=True)


def relocate():
    """The line section of the object file with its relocations applied, as readelf does."""
    dump = subprocess.run(["readelf", "--relocated-dump=.debug_line", "object.o"], check=True,
                          stdout=subprocess.PIPE, stderr=subprocess.DEVNULL, text=True).stdout
    with open("relocated", "wb") as section:
        for line in dump.splitlines():
            if line.startswith("  0x"):
                section.write(bytes.fromhex(line[13:48].replace(" ", "")))


def measure_object(dwline, name):
    """Compares and measures `check` of the object file and of its relocated section; false where it takes too long."""
    relocate()
    words = [dwline, "check"], [dwline, "check", "object.o"]
    answers = {subprocess.run(word, stdin=open("relocated", "rb"), stdout=subprocess.PIPE, check=True).stdout
               for word in words}
    if len(answers) != 1:
        sys.exit("check of the object file and of its relocated section differ")
    times = [(seconds(words[0], "relocated"), seconds(words[1], os.devnull)) for _ in range(ROUNDS)]
    section, file = (min(column) for column in zip(*times))
    print(f"{name}: section {section:.4f} s, object file {file:.4f} s, "
          f"{file / section:.2f} times as long (at most {OBJECT_RATIO})")
    return file <= OBJECT_RATIO * section


def seconds(words, path):
    """User and system time of one run, whose standard input is the file at the path."""
    with open(path, "rb") as section, open(os.devnull, "wb") as null:
        child = subprocess.Popen(words, stdin=section, stdout=null)
        _, status, usage = os.wait4(child.pid, 0)
        child.returncode = os.waitstatus_to_exitcode(status)
    if child.returncode:
        sys.exit(f"{words} failed with {child.returncode}")
    return usage.ru_utime + usage.ru_stime


def instructions(words, path):
    """The instructions of one run by callgrind."""
    with open(path, "rb") as section:
        run = subprocess.run(["valgrind", "--tool=callgrind", "--callgrind-out-file=/dev/null",
                              *words], stdin=section, stdout=subprocess.DEVNULL,
                             stderr=subprocess.PIPE, text=True, check=True)
    return int(re.search(r"Collected : (\d+)", run.stderr).group(1))


def main():
    dwline = os.path.abspath(sys.argv[1] if len(sys.argv) > 1
                             else os.path.join(HERE, "../crates/dwline/out/dwline"))
    if not os.path.exists(os.path.join(OUT, "strings")):
        sys.exit("run bench/run.py first: it builds the section")
    os.chdir(OUT)
    linked()
    many()
    failed = False
    for command in [["check"], ["dump", "--line-str", "strings"]]:
        of_section = [dwline, *command]
        of_file = [dwline, command[0], "linked.elf"]
        with open("section", "rb") as section:
            wanted = subprocess.run(of_section, stdin=section, stdout=subprocess.PIPE, check=True)
        if subprocess.run(of_file, stdout=subprocess.PIPE, check=True).stdout != wanted.stdout:
            sys.exit(f"{command[0]} of the file and of the section differ")
        times = [(seconds(of_section, "section"), seconds(of_file, os.devnull))
                 for _ in range(ROUNDS)]
        section, file = (min(column) for column in zip(*times))
        print(f"{command[0]}: section {section:.3f} s, file {file:.3f} s, "
              f"{file / section:.2f} times as long (at most {RATIO})")
        failed |= file > RATIO * section
        if shutil.which("valgrind"):
            counts = instructions(of_section, "section"), instructions(of_file, os.devnull)
            print(f"{command[0]}: {counts[0]:,} and {counts[1]:,} instructions, "
                  f"{counts[1] / counts[0]:.3f} times as many (at most {RATIO})")
            failed |= counts[1] > RATIO * counts[0]
        else:
            print("valgrind isn't installed, so no instructions were counted")
    linked_object()
    failed |= not measure_object(dwline, "an object file of many units")
    object_of_sections()
    failed |= not measure_object(dwline, f"{SECTIONS:,} relocations in as many sections")
    if shutil.which("riscv64-linux-gnu-as"):
        riscv_object()
        failed |= not measure_object(dwline, f"{2 * ROWS:,} relocations of {ROWS:,} rows")
    else:
        print("riscv64-linux-gnu-as isn't installed, so no relocations of RISC-V were measured")
    least = min(seconds([dwline, "check", "many.elf"], os.devnull) for _ in range(ROUNDS))
    print(f"{SECTIONS:,} sections: {least * 1000:.0f} ms (at most {SECONDS * 1000:.0f})")
    failed |= least > SECONDS
    sys.exit(1 if failed else 0)


main()
