#!/usr/bin/env python3
"""Compares the answers of `dwline addr` with those of llvm-symbolizer, addr2line and eu-addr2line, and
measures their times and memory in one run.

    bench/addr.py [PATH OF dwline]

The answers are those for a few thousand addresses made from the rows of the linked program that
`bench/run.py` builds: where rows begin, between them, the last bytes that they cover, the ends of
sequences and the gaps behind them. Paths are compared as they are once `.` and `..` are taken out of
them, and lines; each difference is counted under its reason, and the first few are printed.

The times are those for ADDRESSES addresses of that program, half of them asked for twice, and, of
dwline alone, for the 1.7 million rows that `bench/files.py` puts into a linked file.
Debian 12: apt-get install time llvm binutils elfutils; a peer that isn't installed is said and left
out."""
import os
import random
import shutil
import subprocess
import sys

ROUNDS = 5
ADDRESSES = 100_000
SHOWN = 3
HERE = os.path.dirname(os.path.abspath(__file__))
OUT = os.path.join(HERE, "out")
PEERS = {
    "llvm-symbolizer": ["--obj=sample", "--functions=none", "--no-inlines"],
    "addr2line": ["-e", "sample"],
    "eu-addr2line": ["-e", "sample"],
}


def sequences(dwline):
    """The sequences of the program's line table: lists of (address, line)."""
    found, open_one = [], []
    dump = subprocess.run([dwline, "dump", "sample"], stdout=subprocess.PIPE, check=True, text=True)
    for text in dump.stdout.splitlines():
        words = text.split()
        if words[0] != "row":
            continue
        open_one.append((int(words[1], 16), int(words[4])))
        if "end" in words[6:]:
            found.append(open_one)
            open_one = []
    return found


def made(live, count):
    """Addresses of every kind from these sequences, about `count` of them."""
    kinds = {"start": [], "middle": [], "last byte": [], "end": [], "behind": []}
    for rows in live:
        for (here, _), (then, _) in zip(rows, rows[1:]):
            kinds["start"].append(here)
            if then > here + 1:
                kinds["middle"].append((here + then) // 2)
                kinds["last byte"].append(then - 1)
        kinds["end"].append(rows[-1][0])
        kinds["behind"].append(rows[-1][0] + 3)
    chosen = []
    for kind, addresses in kinds.items():
        addresses.sort()
        step = max(1, len(addresses) * len(kinds) // count)
        chosen += [(kind, address) for address in addresses[::step]]
    return chosen


def measured(words, addresses):
    """What a command prints for these addresses on its standard input, and its user and system time."""
    text = "".join(f"0x{address:x}\n" for address in addresses)
    with open("addresses", "w") as file:
        file.write(text)
    with open("addresses") as given, open("answers", "w") as answers:
        child = subprocess.Popen(words, stdin=given, stdout=answers, stderr=subprocess.DEVNULL)
        _, status, usage = os.wait4(child.pid, 0)
        child.returncode = os.waitstatus_to_exitcode(status)
    if child.returncode not in (0, 1):
        sys.exit(f"{words} failed with {child.returncode}")
    with open("answers", errors="surrogateescape") as file:
        lines = [line for line in file.read().splitlines() if line]
    if len(lines) != len(addresses):
        sys.exit(f"{words[0]} printed {len(lines)} lines for {len(addresses)} addresses")
    return lines, usage.ru_utime + usage.ru_stime


def memory(words):
    """The peak resident size in KiB for the addresses that were asked for last."""
    with open("addresses") as given:
        subprocess.run(["/usr/bin/time", "-f", "%M", "-o", "peak", *words], stdin=given,
                       stdout=subprocess.DEVNULL, stderr=subprocess.DEVNULL)
    with open("peak") as file:
        return int(file.read().split()[-1])


def location(line):
    """Path and line of an answer; None where there is none."""
    line = line.split(" (discriminator")[0]
    parts = line.split(":")
    numbers = []
    while len(parts) > 1 and (parts[-1].isdigit() or parts[-1] == "?"):
        numbers.insert(0, parts.pop())
    path = ":".join(parts)
    if path == "??":
        return None
    number = int(numbers[0]) if numbers and numbers[0].isdigit() else 0
    return os.path.normpath(path), number


def reason(kind, lines_at, ours, theirs):
    """Why a peer's answer differs from ours."""
    if theirs is None:
        return f"the peer has no answer ({kind})"
    if ours is None:
        return f"only the peer has an answer ({kind})"
    if ours[1] == 0 or theirs[1] == 0:
        return "line 0, which one of them passes over"
    if ours[0] != theirs[0]:
        return f"another path ({kind})"
    if theirs[1] in lines_at:
        return f"another row at the same address ({kind})"
    return f"another line ({kind})"


def compare(dwline, peers, live):
    """Prints how far the answers agree."""
    chosen = made(live, 6000)
    addresses = [address for _, address in chosen]
    lines_at = {}
    for rows in live:
        for address, line in rows:
            lines_at.setdefault(address, set()).add(line)
    ours, _ = measured([dwline, "addr", "sample"], addresses)
    print(f"{len(addresses)} addresses of {len(live)} sequences")
    for name, words in peers.items():
        theirs, _ = measured([name, *words], addresses)
        differences = {}
        for (kind, address), our, their in zip(chosen, ours, theirs):
            if location(our) != location(their):
                why = reason(kind, lines_at.get(address, ()), location(our), location(their))
                differences.setdefault(why, []).append((address, our, their))
        same = len(addresses) - sum(map(len, differences.values()))
        print(f"{name}: {same} answers are the same")
        for why, cases in sorted(differences.items()):
            print(f"    {len(cases)} differ: {why}")
            for address, our, their in cases[:SHOWN]:
                print(f"        0x{address:x}: {our} | {their}")


def least(commands, addresses):
    """Prints the least of ROUNDS alternate runs of each command, and its memory."""
    best = {name: float("inf") for name in commands}
    for _ in range(ROUNDS):
        for name, words in commands.items():
            best[name] = min(best[name], measured(words, addresses)[1])
    for name, seconds in best.items():
        print(f"    {name:24} {seconds:8.3f} s {memory(commands[name]) / 1024:8.1f} MiB")


def checked(dwline, file):
    """The least time of `dwline check`."""
    times = []
    for _ in range(ROUNDS):
        child = subprocess.Popen([dwline, "check", file], stdout=subprocess.DEVNULL)
        _, _, usage = os.wait4(child.pid, 0)
        times.append(usage.ru_utime + usage.ru_stime)
    return min(times)


def spread(live, count):
    """`count` addresses spread over the code, each twice, in no order."""
    chance = random.Random(5)
    half = []
    for _ in range(count // 2):
        rows = chance.choice(live)
        half.append(chance.randrange(rows[0][0], rows[-1][0]))
    both = half * 2
    chance.shuffle(both)
    return both


def main():
    dwline = os.path.abspath(sys.argv[1] if len(sys.argv) > 1
                             else os.path.join(HERE, "../crates/dwline/out/dwline"))
    if not os.path.exists(os.path.join(OUT, "sample")):
        sys.exit("run bench/run.py first, which builds the program that is looked into")
    os.chdir(OUT)
    peers = {}
    for name, words in PEERS.items():
        if shutil.which(name):
            peers[name] = words
        else:
            print(f"{name} isn't installed")
    # the linker leaves the sequences of functions that it dropped at 0
    live = [rows for rows in sequences(dwline) if 0 < rows[0][0] < rows[-1][0]]
    compare(dwline, peers, live)
    addresses = spread(live, ADDRESSES)
    print(f"{len(addresses)} addresses of the program")
    least({"dwline addr": [dwline, "addr", "sample"],
           **{name: [name, *words] for name, words in peers.items()}}, addresses)
    if os.path.exists("linked.elf"):
        print(f"1.7 million rows; dwline check takes {checked(dwline, 'linked.elf'):.3f} s")
        for count in (1, ADDRESSES):
            print(f"  {count} addresses")
            least({"dwline addr --all": [dwline, "addr", "--all", "linked.elf"]},
                  addresses[:count])


if __name__ == "__main__":
    main()
