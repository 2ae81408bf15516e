"""The kit's own program `rt` as a module, with what this repository adds to it.

- `rt` asks again and again whether a crate has changed since it was built: it sums the crate's files, and for that those of
  each crate that it stands on, in some kits anew for each way that leads there. Here a question keeps each crate's sum until
  it is answered. Sums and answers are the same.
- `rt ci` proves a static library and compiles nothing. Here it is compiled of what that proof has checked, as a program is.
- What each check took is written to out/seconds (tools/timed.py).
- `prove` does for some crates what `rt ci` does, and leaves what it built.
"""
import contextlib
import importlib.machinery
import importlib.util
import io
import os
import shutil
import sys
import tempfile
import threading

sys.dont_write_bytecode = True

TOP = os.path.dirname(os.path.dirname(os.path.realpath(__file__)))


def summed_once(stamp):
    """The method of a crate that sums its files, each crate below it being summed once."""
    question = threading.local()

    def kept(crate):
        sums = getattr(question, "sums", None)
        if sums is not None:
            if crate.folder not in sums:
                sums[crate.folder] = stamp(crate)
            return sums[crate.folder]
        question.sums = {}
        try:
            return stamp(crate)
        finally:
            question.sums = None

    return kept


def compiled_too(rt, prove):
    """The method of a crate under `rt ci` that proves it, and compiles a static library too."""

    def ci(crate, flags, tests):
        if tests or not crate.is_static:
            return prove(crate, flags, tests)
        words = crate.words(flags, keeps=False)
        with tempfile.TemporaryDirectory() as room:
            status = crate.prove(["check", *words, "-o", f"{room}/checked"])
            for flag in ("--logic-built", "--jobs"):
                at = words.index(flag)
                words = words[:at] + words[at + 2:]
            words += ["--crate-checked", f"{room}/checked", "--toolchain", f"{rt.KIT}/toolchain", "--backend", "llvm"]
            return status or crate.call(rt.rtlib.RATTLE, "build", *words, "-o", f"out/lib{crate.name}.a")

    return ci


def load():
    """The kit's program `rt`."""
    path = os.path.realpath(shutil.which("rt") or sys.exit("rt isn't on the PATH"))
    loader = importlib.machinery.SourceFileLoader("rt", path)
    rt = importlib.util.module_from_spec(importlib.util.spec_from_loader("rt", loader))
    sys.modules["rt"] = rt
    loader.exec_module(rt)
    guarded = rt.rtlib.guarded
    rt.rtlib.guarded = lambda: [f"{TOP}/tools/timed.py", f"{TOP}/out/seconds", *guarded()]
    rt.rtlib.Crate.stamp = summed_once(rt.rtlib.Crate.stamp)
    rt.Crate.ci = compiled_too(rt, rt.Crate.ci)
    os.makedirs(f"{TOP}/out", exist_ok=True)
    return rt


class Log(io.TextIOBase):
    """What a run prints, to a file; of its lines those of `rt` are told as well."""

    def __init__(self, path):
        self.file, self.told, self.line = open(path, "w", encoding="utf-8"), sys.stdout, ""

    def write(self, text):
        self.file.write(text)
        *lines, self.line = (self.line + text).split("\n")
        for line in lines:
            if line.startswith("rt: "):
                print(line[len("rt: "):], file=self.told, flush=True)
        return len(text)


def move_built(crate):
    """Moves what was built of a crate in a copy of the repository to its folder here."""
    if os.path.exists(f"{crate.folder}/out/rlib"):
        with open(f"{crate.folder}/out/rlib/stamp", "w", encoding="utf-8") as file:
            file.write(crate.stamp())
    for name in ("rlib", crate.name, f"lib{crate.name}.a"):
        made, to = f"{crate.folder}/out/{name}", f"{TOP}/crates/{crate.name}/out/{name}"
        if os.path.exists(made):
            os.makedirs(os.path.dirname(to), exist_ok=True)
            shutil.rmtree(to, ignore_errors=True)
            shutil.move(made, to)


def prove(rt, names):
    """Proves crates and those below them as `rt ci` does, on a copy of their files, and leaves what it built in out/ of each."""
    for name in names:
        for built in (name, f"lib{name}.a"):
            with contextlib.suppress(FileNotFoundError):
                os.remove(f"{TOP}/crates/{name}/out/{built}")
    with tempfile.TemporaryDirectory() as room:
        rt.copy_crates(TOP, f"{room}/copy")
        os.mkdir(f"{room}/copy/.git")
        os.mkdir(f"{room}/aside")
        os.chdir(f"{room}/copy")
        with contextlib.redirect_stdout(Log(f"{TOP}/out/prove.log")):
            status = rt.ci_over(f"{room}/aside", False, names, TOP)
        for crate in rt.crates_of(os.getcwd()) if status == 0 else []:
            move_built(crate)
        os.chdir(TOP)
    if status:
        print("not all is proved: out/prove.log says why", file=sys.stderr)
    return status
