#!/usr/bin/env python3
"""survey [--versions] FOLDER [PATH OF dwline]: `dwline check` over every ELF file below a folder, in one call.

Prints how many files, units, sequences and rows were read, how many files have units but none that is read, and for each reason how
many files were refused. Symbolic links aren't followed, and files without a section .debug_line are counted apart. With --versions
also how many units have each version, and how many of these were passed over, as `dwline dump` tells of each file.
"""
import collections
import os
import re
import subprocess
import sys
import time


def elf_files(folder):
    """The paths of the ELF files below a folder, in order."""
    for place, names, files in os.walk(folder):
        names.sort()
        for name in sorted(files):
            path = os.path.join(place, name)
            if os.path.isfile(path) and not os.path.islink(path) and begins_as_elf(path):
                yield path


def begins_as_elf(path):
    try:
        with open(path, "rb") as file:
            return file.read(4) == b"\x7fELF"
    except OSError:
        return False


def shown(path):
    """A path as dwline prints it."""
    return re.sub(r"[\x00-\x1f\x7f]", lambda found: f"\\x{ord(found[0]):02x}", path.replace("\\", "\\\\"))


def reason(text):
    """What is told of a file, without numbers, so that the same faults count together."""
    text = re.sub(r" \(((its debug information )?may be in|tried) .*\)$", "", text)
    text = re.sub(r" \(its debug information .*\)$", "", text)
    return re.sub(r"0x[0-9a-f]+", "0x..", text)


def check(dwline, paths):
    """The counts of each file that `dwline check` reads, and why it refuses each other one, by their paths. No other file is
    read in place of one without a line table."""
    files = b"".join(os.fsencode(path) + b"\0" for path in paths)
    done = subprocess.run([dwline, "check", "--no-follow", "--files-from", "-", "-0"], input=files, capture_output=True)
    if done.returncode < 0:
        print(f"dwline ended by signal {-done.returncode}")
    counts, refused = {}, {}
    for line in done.stdout.decode("utf8", "replace").splitlines():
        path, told = line.rsplit(": ", 1)
        counts[path] = {word: int(number) for word, number in re.findall(r"(\w+) (\d+)", told)}
    names = {shown(path) for path in paths}
    for line in done.stderr.decode("utf8", "replace").splitlines():
        line = line.removeprefix("dwline: ")
        ends = (found.start() for found in re.finditer(": ", line))
        path = next((line[:end] for end in ends if line[:end] in names), None)
        refused[path] = reason(line[len(path) + 2:] if path else line)
    return counts, refused


def versions(dwline, path):
    """How many units of a file have each version, and how many of these are passed over, by the lines of a dump."""
    dump = subprocess.Popen([dwline, "dump", path], stdout=subprocess.PIPE, stderr=subprocess.DEVNULL, stdin=subprocess.DEVNULL)
    units = subprocess.run(["grep", "-a", "^unit "], stdin=dump.stdout, capture_output=True, check=False)
    dump.stdout.close()
    dump.wait()
    found, skipped = collections.Counter(), collections.Counter()
    for line in units.stdout.splitlines():
        version = int(re.search(rb" version (\d+)", line)[1])
        found[version] += 1
        skipped[version] += line.endswith(b" skipped")
    return found, skipped


def tell_versions(dwline, paths):
    found, skipped = collections.Counter(), collections.Counter()
    for path in paths:
        for sum_of, more in zip((found, skipped), versions(dwline, path)):
            sum_of.update(more)
    for version, number in sorted(found.items()):
        print(f"version {version}: {number} units, {skipped[version]} of them passed over")


def main():
    words = [word for word in sys.argv[1:] if word != "--versions"]
    here = os.path.dirname(os.path.abspath(__file__))
    dwline = os.path.realpath(words[1] if len(words) > 1 else here + "/../crates/dwline/out/dwline")
    paths = list(elf_files(words[0]))
    begin = time.monotonic()
    counts, refused = check(dwline, paths)
    seconds = time.monotonic() - begin
    sums = collections.Counter()
    for of_file in counts.values():
        sums.update(of_file)
    passed_over = sum(1 for of_file in counts.values() if not of_file["units"] and of_file["skipped"])
    print(f"{len(paths)} ELF files in {seconds:.0f} s, {len(counts)} read: "
          + ", ".join(f"{number} {word}" for word, number in sums.items()))
    print(f"{passed_over} of them have units, of which none is read")
    for why, number in collections.Counter(refused.values()).most_common():
        print(f"{number} refused: {why}")
    if "--versions" in sys.argv[1:]:
        tell_versions(dwline, paths)


main()
