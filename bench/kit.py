#!/usr/bin/env python3
"""Counts the instructions of a call, by code of our crates or std's, and by what the kit has for it.

    bench/kit.py

The program (bench/kit/main.rt.txt and ways.rt.txt, with what its proof needs in the .antt.txt files) is built in a folder
of /tmp, over crates of the kit alone: what stands for a function of our crates is a copy of it. It is run under callgrind
for each way, and for the data without any. The difference, by the number of calls, is what a call takes, with the call
itself; of a list of one value an item counts as a call. Debian 12: apt-get install valgrind."""
import re
import subprocess
import sys

sys.dont_write_bytecode = True
import programs

WORK = "/tmp/dl_kit_bench"
USES = ["memchr", "itoa", "simdutf8", "bstr"]
PROOFS = ["texts_len", "component_start", "+write_decimal", "search", "filled"]
FILES = {"src/main.rt": "kit/main.rt.txt", "src/ways.rt": "kit/ways.rt.txt"}
FILES |= {f"proofs/ways/{name}/Invariants.antt": f"kit/{name.strip('+')}.antt.txt" for name in PROOFS}

# What is done, the kind of data, which data, our way, the kit's.
PAIRS = [
    ("first byte in a text", "bytes", "text with its end", "position", "memchr"),
    ("first byte in a section", "bytes", "rest", "position", "memchr"),
    ("last byte of a section", "bytes", "section", "texts_len", "memrchr"),
    ("last byte, in a text without it", "bytes", "text", "texts_len", "memrchr"),
    ("last component of a path", "bytes", "text", "component_start", "memrchr of '/'"),
    ("the same, in 14 bytes or fewer", "bytes", "name", "component_start", "memrchr of '/'"),
    ("last component, Windows", "bytes", "text", "component_start of Windows", "memrchr2"),
    ("whether a text is UTF-8", "bytes", "text", "from_utf8", "simdutf8"),
    *[(f"a character: {data}", "bytes", data, "character_len", "decode_utf8")
      for data in ["ASCII", "two bytes", "three bytes", "no character"]],
    *[(f"digits of a number: {size}", "digits", str(size), "write_decimal", "itoa") for size in range(1, 7)],
    *[(f"search of {kind}: {count}", kind, str(count), "loop", "partition_point")
      for kind in ["places", "starts"] for count in [100, 10_000]],
    *[(f"list of one value: {data}", "lists", data, "loop", way)
      for data in ["flags", "numbers", "entries"] for way in ["resize", "from_elem"]],
]


def run(program, *words):
    """The instructions of a run, how many calls it makes, and what they answer in all."""
    words = ["valgrind", "--tool=callgrind", "--callgrind-out-file=/dev/null", program, *words]
    done = subprocess.run(words, capture_output=True, text=True, check=True)
    calls, answers = done.stdout.split()
    return int(re.search(r"Collected : (\d+)", done.stderr).group(1)), int(calls), answers


def main():
    program = programs.run(WORK, "kit_bench", USES, FILES)
    print(f"{'':32} {'ours':26} {'kit':16} {'ours':>6} {'kit':>6} {'kit/ours':>8}")
    for done, kind, data, ours, kits in PAIRS:
        empty, calls, _ = run(program, kind, data, "nothing")
        own, _, own_answers = run(program, kind, data, ours)
        kit, _, kit_answers = run(program, kind, data, kits)
        if own_answers != kit_answers:
            sys.exit(f"{done}: {ours} and {kits} don't answer the same")
        own, kit = (own - empty) / calls, (kit - empty) / calls
        print(f"{done:32} {ours:26} {kits:16} {own:6.0f} {kit:6.0f} {kit / own:8.2f}", flush=True)


main()
