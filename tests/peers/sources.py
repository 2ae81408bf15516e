#!/usr/bin/env python3
"""Compares the paths that `dwline sources` prints with those that `llvm-dwarfdump --show-sources` and `debugedit -l`
tell, of each file of tests/data, or of those that are named.

Paths are compared without `.` and `..`, which debugedit takes away. It stops at 64-bit DWARF and at forms that it
doesn't know, and tells nothing of such a file. Debian 12: apt-get install llvm-19 debugedit. It was used with
llvm-dwarfdump 19 (version 14 doesn't have the option) and debugedit 5.0."""

import os
import shutil
import subprocess
import tempfile

from readers import DWLINE, compare_each, output

LLVM = next((it for it in ("llvm-dwarfdump-19", "llvm-dwarfdump") if shutil.which(it)), None)


def normal(paths):
    return {os.path.normpath(it) for it in paths if it and not it.endswith("/")}


def by_debugedit(path):
    """It may write into the file, so it gets a copy."""
    with tempfile.TemporaryDirectory() as folder:
        shutil.copy(path, f"{folder}/program")
        done = subprocess.run(["debugedit", "-b", "/", "-l", f"{folder}/list", f"{folder}/program"],
                              stdout=subprocess.DEVNULL, stderr=subprocess.DEVNULL)
        if done.returncode or not os.path.exists(f"{folder}/list"):
            return []
        with open(f"{folder}/list", encoding="utf-8", errors="surrogateescape") as told:
            return told.read().split("\0")


def differences(path):
    mine, count, told = normal(output(DWLINE, "sources", path).splitlines()), 0, []
    by_llvm = output(LLVM, "--show-sources", path).splitlines()
    for peer, paths in (("llvm-dwarfdump", by_llvm), ("debugedit", by_debugedit(path))):
        theirs = normal(paths)
        count += len(mine & theirs) if theirs else 0
        told += [f"{path}: {it} by {peer} alone" for it in sorted(theirs - mine)]
        told += [f"{path}: {it} not by {peer}" for it in sorted(mine - theirs) if theirs]
    return told, count


if __name__ == "__main__":
    compare_each("paths", differences)
