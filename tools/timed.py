#!/usr/bin/env python3
"""Runs a command of the kit's compiler, and adds a line to FILE: the crate, what was done, seconds of processor time, and the most
memory of a process, in MB.

Usage: tools/timed.py FILE COMMAND..
"""
import os
import resource
import signal
import sys


def what_is_done(words):
    """The crate that a command is about, and what the command does."""
    name = words[words.index("--crate-name") + 1]
    verb = next(it for it in words if it in ("check", "build"))
    marks = [it[2:] for it in words if it in ("--test", "--crate-checked", "--backend")]
    return " ".join([name, verb, *marks])


def main():
    file, words = sys.argv[1], sys.argv[2:]
    child = os.fork()
    if child == 0:
        os.execvp(words[0], words)
    status = os.waitpid(child, 0)[1]
    used = resource.getrusage(resource.RUSAGE_CHILDREN)
    if "--crate-name" in words:
        with open(file, "a", encoding="utf-8") as table:
            table.write(f"{what_is_done(words)} {used.ru_utime + used.ru_stime:.0f} s {used.ru_maxrss >> 10} MB\n")
    if os.WIFSIGNALED(status):
        os.kill(os.getpid(), os.WTERMSIG(status))
        signal.pause()
    sys.exit(os.WEXITSTATUS(status))


main()
