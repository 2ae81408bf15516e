#!/usr/bin/env python3
"""Counts instructions for each byte of a section whose bytes come one at a time, and all at once.

    bench/pieces.py [PATH OF PROGRAM WITH ITS WORDS..]
    bench/pieces.py --reader [SECTION..]

The program is `dwline check` unless another is named, which reads a section on its standard input. That is a socket
whose messages have one byte, and a read gives one message; what a read costs the program is part of the figure.

With `--reader` it is a program that reads 4,096 bytes at a time, feeds one after the other to a `Reader` and counts
the rows: bench/pieces.rt.txt, with what its proof needs in bench/pieces.antt.txt. The crates are copied to a folder of
/tmp, where it is built over them; the first run proves the crates again, which takes some minutes. The sections are
that of bench/run.py's program (bench/out/one), unless others are named.
Debian 12: apt-get install valgrind."""
import os
import re
import socket
import subprocess
import sys
import tempfile
import threading

sys.dont_write_bytecode = True
import programs

HERE = os.path.dirname(os.path.abspath(__file__))
DATA = os.path.join(HERE, "../tests/data")
WORK = "/tmp/dl_pieces_bench"
USES = ["dl_num", "dl_head", "dl_rows", "thiserror"]
FILES = {"src/main.rt": "pieces.rt.txt", "proofs/count/Invariants.antt": "pieces.antt.txt"}


def instructions(words, stdin):
    words = ["valgrind", "--tool=callgrind", "--callgrind-out-file=/dev/null", *words]
    run = subprocess.run(words, stdin=stdin, stdout=subprocess.DEVNULL, stderr=subprocess.PIPE,
                         text=True, check=True)
    return int(re.search(r"Collected : (\d+)", run.stderr).group(1))


def at_once(words, section):
    with tempfile.TemporaryFile() as file:
        file.write(section)
        file.seek(0)
        return instructions(words, file)


def send(sender, section):
    with sender:
        for byte in section:
            sender.send(bytes([byte]))


def one_at_a_time(words, section):
    sender, receiver = socket.socketpair(socket.AF_UNIX, socket.SOCK_SEQPACKET)
    thread = threading.Thread(target=send, args=(sender, section))
    thread.start()
    with receiver:
        taken = instructions(words, receiver)
    thread.join()
    return taken


def measure_reader(sections):
    words = [programs.run(WORK, "piece_rows", USES, FILES)]
    start = at_once(words, b"")
    for path in sections:
        with open(path, "rb") as file:
            section = file.read()
        taken = (at_once(words, section) - start) / len(section)
        print(f"{path}: {len(section):,} bytes; instructions a byte that is fed to a Reader by itself: {taken:.0f}")


def main():
    if sys.argv[1:2] == ["--reader"]:
        measure_reader(sys.argv[2:] or [os.path.join(HERE, "out/one")])
        return
    words = sys.argv[1:] or [os.path.join(HERE, "../crates/dwline/out/dwline"), "check"]
    words[0] = os.path.abspath(words[0])
    start = at_once(words, b"")
    for name in ["gcc-O2", "clang-O2", "gcc-dwarf64"]:
        with open(os.path.join(DATA, name, "debug_line"), "rb") as file:
            section = file.read()
        whole = (at_once(words, section) - start) / len(section)
        pieces = (one_at_a_time(words, section) - start) / len(section)
        print(f"{name}: {len(section):,} bytes; instructions a byte: {whole:.0f} at once, {pieces:.0f} one at a time")


main()
