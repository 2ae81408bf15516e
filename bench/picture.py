#!/usr/bin/env python3
"""Measures dwline beside other programs that read line tables, and draws the picture of README.md.

    bench/picture.py [PATH OF dwline [PATH OF THE PICTURE]]

The file is the linked program that `bench/run.py` builds. Two jobs are measured: ADDRESSES addresses on standard input, and
the whole line table as text. Times are user and system time, the least of ROUNDS alternate runs with the output thrown away;
memory is the peak resident size of a run. The picture says of which machine and which versions it is, and how busy the machine
was. Debian 12: apt-get install g++ time binutils elfutils llvm; a program that isn't installed is left out."""
import os
import re
import shutil
import subprocess
import sys
from xml.sax.saxutils import escape

sys.dont_write_bytecode = True
import addr
import run

ADDRESSES = 100_000
ROUNDS = 7
HERE = os.path.dirname(os.path.abspath(__file__))
PRINTERS = {
    "readelf": ["--debug-dump=decodedline", "sample"],
    "llvm-dwarfdump": ["--debug-line", "sample"],
}

WIDTH = 880
PANEL = 400
NAME = 140
BAR = 17
STEP = 25
OURS, THEIRS = "#1f6f54", "#9aa3ab"


def installed(peers):
    """The commands of the peers that are there."""
    for name in peers:
        if not shutil.which(name):
            print(f"{name} isn't installed")
    return {name: [name, *words] for name, words in peers.items() if shutil.which(name)}


def version_of(name):
    """The version that a program says: the first number with a point in what it prints."""
    said = subprocess.run([name, "--version"], stdout=subprocess.PIPE, text=True, check=True).stdout
    return re.search(r"\d+\.\d+(\.\d+)?", said.replace("elfutils", "")).group()


def seconds(words, given):
    """User and system time of one run."""
    with open(given) as text:
        child = subprocess.Popen(words, stdin=text, stdout=subprocess.DEVNULL, stderr=subprocess.DEVNULL)
        _, status, usage = os.wait4(child.pid, 0)
        child.returncode = os.waitstatus_to_exitcode(status)
    if child.returncode not in (0, 1):
        sys.exit(f"{words} failed with {child.returncode}")
    return usage.ru_utime + usage.ru_stime


def mebibytes(words, given):
    """The peak resident size of one run."""
    with open(given) as text:
        subprocess.run(["/usr/bin/time", "-f", "%M", "-o", "peak", *words], stdin=text, stdout=subprocess.DEVNULL,
                       stderr=subprocess.DEVNULL)
    with open("peak") as file:
        return int(file.read().split()[-1]) / 1024


def measured(commands, given):
    """The seconds and the mebibytes of each command, the fastest first."""
    rounds = [{name: seconds(words, given) for name, words in commands.items()} for _ in range(ROUNDS)]
    times = {name: min(times[name] for times in rounds) for name in commands}
    return {name: (times[name], mebibytes(commands[name], given)) for name in sorted(commands, key=times.get)}


def machine():
    """What the machine is, in two lines."""
    with open("/proc/cpuinfo") as file:
        model = re.search(r"model name\s*: (.*)", file.read()).group(1)
    with open("/etc/os-release") as file:
        system = re.search(r'PRETTY_NAME="(.*)"', file.read()).group(1)
    gibibytes = os.sysconf("SC_PAGE_SIZE") * os.sysconf("SC_PHYS_PAGES") / 2**30
    load = os.getloadavg()[0]
    return [f"{os.cpu_count()} processors {' '.join(model.split())}, {gibibytes:.0f} GiB, {system}",
            f"User and system time, the least of {ROUNDS} runs; peak resident memory. Load of the machine meanwhile: {load:.1f}."]


def panel(left, top, title, unit, values):
    """The bars of one measure, the longest as wide as there is room."""
    most = max(values.values())
    room = PANEL - NAME - 75
    yield f'<text x="{left}" y="{top}" class="title">{escape(title)}</text>'
    for at, (name, value) in enumerate(values.items()):
        y = top + 14 + at * STEP
        width = max(1.5, value / most * room)
        colour = OURS if name.startswith("dwline") else THEIRS
        digits = 3 if unit == "s" else 1
        yield f'<text x="{left + NAME - 8}" y="{y + 13}" text-anchor="end">{escape(name)}</text>'
        yield f'<rect x="{left + NAME}" y="{y}" width="{width:.1f}" height="{BAR}" fill="{colour}"/>'
        yield f'<text x="{left + NAME + width + 6:.1f}" y="{y + 13}">{value:.{digits}f} {unit}</text>'


def drawn(jobs, notes):
    """The picture of these jobs, each a title and the measures of its commands."""
    parts, top = [], 28
    for title, found in jobs:
        for column, unit in enumerate(["s", "MiB"]):
            words = f"{title}: {'time' if unit == 's' else 'memory'}"
            parts += panel(20 + column * (PANEL + 40), top, words, unit, {name: both[column] for name, both in found.items()})
        top += 14 + len(found) * STEP + 36
    for note in notes:
        parts.append(f'<text x="20" y="{top}" class="note">{escape(note)}</text>')
        top += 17
    said = "; ".join(f"{title}: " + ", ".join(f"{name} {both[0]:.3f} s and {both[1]:.1f} MiB" for name, both in found.items())
                     for title, found in jobs)
    return "\n".join([
        f'<svg xmlns="http://www.w3.org/2000/svg" width="{WIDTH}" height="{top}" viewBox="0 0 {WIDTH} {top}" role="img">',
        f"<title>{escape(said)}</title>",
        "<style>text { font: 13px sans-serif; fill: #222 } .title { font-weight: bold } .note { font-size: 11px }</style>",
        f'<rect width="{WIDTH}" height="{top}" fill="#fff"/>', *parts, "</svg>", ""])


def main():
    dwline = os.path.abspath(sys.argv[1] if len(sys.argv) > 1 else os.path.join(HERE, "../crates/dwline/out/dwline"))
    picture = os.path.abspath(sys.argv[2] if len(sys.argv) > 2 else os.path.join(HERE, "speed.svg"))
    run.build_sample()
    live = [rows for rows in addr.sequences(dwline) if 0 < rows[0][0] < rows[-1][0]]
    with open("addresses", "w") as file:
        file.writelines(f"0x{address:x}\n" for address in addr.spread(live, ADDRESSES))
    subprocess.run([dwline, "index", "-o", "sample.dli", "sample"], check=True)
    counts = subprocess.run([dwline, "check", "sample"], stdout=subprocess.PIPE, text=True, check=True).stdout.split()
    locate, prints = installed(addr.PEERS), installed(PRINTERS)
    jobs = [
        (f"{ADDRESSES:,} addresses", measured({"dwline addr INDEX": [dwline, "addr", "sample.dli"],
                                               "dwline addr": [dwline, "addr", "sample"], **locate}, "addresses")),
        ("The whole table as text", measured({"dwline dump": [dwline, "dump", "sample"], **prints}, os.devnull)),
    ]
    versions = ", ".join(f"{name} {version_of(name)}" for name in [*locate, *prints])
    ours = subprocess.run([dwline, "--version"], stdout=subprocess.PIPE, text=True, check=True).stdout.strip()
    size = os.path.getsize("sample") / 2**20
    notes = [f"The program bench/sample.cc by g++: {size:.1f} MiB, {int(counts[-1]):,} rows in {int(counts[5]):,} sequences.",
             f"{ours}; {versions}.", *machine()]
    with open(picture, "w") as file:
        file.write(drawn(jobs, notes))
    for title, found in jobs:
        for name, (time, memory) in found.items():
            print(f"{title}: {name:20} {time:8.3f} s {memory:8.1f} MiB")
    print(*notes, picture, sep="\n")


main()
