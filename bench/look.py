#!/usr/bin/env python3
"""Measures Index::build and Index::find on two million rows in ten thousand sequences and on twenty thousand
in a hundred, and Finders over the former and over sequences that all lie in one place.

    bench/look.py

The crates are copied to a folder of /tmp, where the program bench/look.rt.txt is built over them: nothing here is part of
what `rt ci` proves. The first run proves the crates again, which takes some minutes."""
import sys

sys.dont_write_bytecode = True
import programs

WORK = "/tmp/dl_look_bench"
USES = ["dl_rows", "dl_look"]
FILES = {"src/main.rt": "look.rt.txt"}


def main():
    programs.run(WORK, "look_bench", USES, FILES)


main()
