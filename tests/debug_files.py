"""Files whose line table stands in another one, which is found by their build ID, by their debug link or in a cache of
debuginfod. What each command prints of them is compared with what it prints of the other one. Pairs are made by GNU
objcopy."""

import functools
import os
import shutil
import subprocess

from lib.folders import program
from lib.program import DATA, data, expect, folder, numbered, run, write

ID = "c0/ffee0123456789"
BY_ID = f".build-id/{ID}.debug"
MAY = f"its debug information may be in {BY_ID}"
STRIPPED = "stripped/program"
GCC = program("gcc-O2")
COMMANDS = ["dump FILE", "check FILE", "find 0x401000 FILE", "addr FILE 0x401000 0x401010", "index -o - FILE"]


def skipped():
    return None if shutil.which("objcopy") else "objcopy isn't installed"


def cases():
    yield from numbered(case for group in (by_build_id(), in_a_cache(), by_debug_link(), links()) for case in group)


def objcopy(*words):
    subprocess.run(["objcopy", *words], check=True)


def follows(file, other, *words, env=None):
    """Each command with the words says of the file what it says of the other one."""
    for command in COMMANDS:
        name, *behind = command.split()
        told = f"{name} {' '.join(words)} of {os.path.basename(other)}"
        yield told, functools.partial(try_same, [name, *words, *behind], file, other, env)


def try_same(words, file, other, env):
    status, out, err = run(*[other if word == "FILE" else word for word in words], cwd=DATA, env=env)
    assert out, (status, err)
    return expect([file if word == "FILE" else word for word in words], out, err, status, cwd=DATA, env=env)


def case(words, out="", err="", status=0, env=None, cwd=DATA):
    return " ".join(words), functools.partial(expect, words, out, err, status, b"", cwd, env)


def lacks(where, file, *words, env=None):
    """`check` says of the file, with the words, that it has no line section, and this of where it was looked for."""
    return case(["check", *words, file], "", f"dwline: {file}: no section .debug_line{where}\n", 1, env)


def with_id(path):
    """Makes a file with the build ID of STRIPPED, and a line table."""
    note = os.path.join(folder(), "note")
    objcopy("-O", "binary", "--only-section=.note.gnu.build-id", program("stripped"), note)
    objcopy("--add-section", f".note.gnu.build-id={note}", "--set-section-flags", ".note.gnu.build-id=readonly", GCC,
            path)


def by_build_id():
    where = folder({f"debug/{BY_ID}": b"", f"other/{BY_ID}": data("gcc-O2", "program")})
    debug, other, none = (f"{where}/{name}" for name in ("debug", "other", "none"))
    with_id(f"{debug}/{BY_ID}")
    counts = run("check", GCC).out
    yield from follows(STRIPPED, f"{debug}/{BY_ID}", "--debug-dir", debug)
    yield from follows(STRIPPED, f"{debug}/{BY_ID}", "--debug-dir", none, "--debug-dir", debug)
    # The first that fits is read, and one that doesn't is passed over.
    both = ["--debug-dir", other, "--debug-dir", debug]
    yield from follows(STRIPPED, f"{debug}/{BY_ID}", *both)
    yield case(["check", "--verbose", *both, STRIPPED], counts,
               f"not reading {other}/{BY_ID}: its build ID is another one\nreading {debug}/{BY_ID}\n")
    yield case(["check", "--verbose", GCC], counts, f"reading {GCC}\n")
    yield lacks(f" ({MAY}; tried {other}/{BY_ID})", STRIPPED, "--debug-dir", other)
    yield lacks(f" ({MAY}; tried /usr/lib/debug/{BY_ID})", STRIPPED)
    four = [word for name in "abcd" for word in ("--debug-dir", name)]
    yield lacks(f" ({MAY}; tried a/{BY_ID}, b/{BY_ID}, c/{BY_ID}, ..)", STRIPPED, *four)
    yield lacks(f" ({MAY})", STRIPPED, "--no-follow")
    yield case(["copy", STRIPPED], "", f"dwline: {STRIPPED}: no section .debug_line ({MAY})\n", 1)
    # Where nothing is found addr says so of each address.
    yield case(["addr", "--debug-dir", "x", STRIPPED, "1"], "??:0\n",
               f"dwline: {STRIPPED}: no section .debug_line ({MAY}; tried x/{BY_ID})\n", 1)


def in_a_cache():
    """A cache of debuginfod."""
    where = folder({"cache/c0ffee0123456789/debuginfo": b"", "home/.cache/none": b""})
    found = f"{where}/cache/c0ffee0123456789/debuginfo"
    with_id(found)
    os.symlink(f"{where}/cache", f"{where}/home/.cache/debuginfod_client")
    for name, place in (("DEBUGINFOD_CACHE_PATH", "cache"), ("XDG_CACHE_HOME", "home/.cache"), ("HOME", "home")):
        for told, call in follows(STRIPPED, found, "--debug-dir", f"{where}/none", env={name: f"{where}/{place}"}):
            yield f"{told} by {name}", call
    yield lacks(f" ({MAY}; tried x/{BY_ID}, {where}/.cache/debuginfod_client/c0ffee0123456789/debuginfo)", STRIPPED,
                "--debug-dir", "x", env={"HOME": where})


def linked():
    """A folder with bin/program, whose debug link is of apart/program.debug. Its path has no symbolic links."""
    where = os.path.realpath(folder({"apart/none": b"", "bin/none": b""}))
    objcopy("--only-keep-debug", GCC, f"{where}/apart/program.debug")
    objcopy("--strip-debug", f"--add-gnu-debuglink={where}/apart/program.debug", GCC, f"{where}/bin/program")
    return where


def tried_of(where):
    return f" (tried {where}/bin/program.debug, {where}/bin/.debug/program.debug, x{where}/bin/program.debug)"


def by_debug_link():
    """Beside it, in .debug, and below a folder for debug information."""
    counts = run("check", GCC).out
    for name in ("bin", "bin/.debug", "debug"):
        where = linked()
        place = f"{where}/{name}" if name != "debug" else f"{where}/debug{where}/bin"
        os.makedirs(place, exist_ok=True)
        shutil.copy(f"{where}/apart/program.debug", place)
        words = ["--debug-dir", f"{where}/debug"]
        yield from follows(f"{where}/bin/program", f"{place}/program.debug", *words)
        yield case(["check", *words, "program"], counts, "", cwd=f"{where}/bin")
    where = linked()
    yield lacks(tried_of(where), f"{where}/bin/program", "--debug-dir", "x")
    # A device, whose bytes have no end.
    where = linked()
    os.symlink("/dev/zero", f"{where}/bin/program.debug")
    yield lacks(tried_of(where), f"{where}/bin/program", "--debug-dir", "x")
    # Another check value.
    where = linked()
    shutil.copy(GCC, f"{where}/bin/program.debug")
    yield lacks(tried_of(where), f"{where}/bin/program", "--debug-dir", "x")
    yield case(["check", "--verbose", "--debug-dir", "x", f"{where}/bin/program"], "",
               f"not reading {where}/bin/program.debug: its CRC-32 is another one\n"
               f"dwline: {where}/bin/program: no section .debug_line{tried_of(where)}\n", 1)


def links():
    """One step is followed: what is found has no line section, but a link that leads on. A link to the file itself has
    the name of the file. Names that aren't those of a file in a folder are none: a slash in the midst, and the folder
    above."""
    where = linked()
    here = f"{where}/bin"
    objcopy("--strip-debug", f"--add-gnu-debuglink={where}/apart/program.debug", GCC, f"{here}/first")
    objcopy("--strip-debug", f"--add-gnu-debuglink={here}/first", GCC, f"{here}/start")
    shutil.copy(f"{where}/apart/program.debug", here)
    yield from follows(f"{here}/first", f"{where}/apart/program.debug")
    yield case(["check", f"{here}/start"], "", f"dwline: {here}/first: no section .debug_line\n", 1)
    shutil.copy(f"{here}/program", f"{here}/selves")
    objcopy("--remove-section", ".gnu_debuglink", f"{here}/selves")
    shutil.copy(f"{here}/selves", f"{where}/apart/selves")
    objcopy(f"--add-gnu-debuglink={where}/apart/selves", f"{here}/selves")
    yield lacks(f" (tried {here}/selves, {here}/.debug/selves, x{here}/selves)", f"{here}/selves", "--debug-dir", "x")
    with open(f"{here}/program", "rb") as file:
        elf = file.read()
    for number, name in enumerate([b"a/ogram.debug", b"..\0gram.debug", b".\0ogram.debug", b"\0rogram.debug"]):
        path = f"{here}/named{number}"
        write(path, elf.replace(b"program.debug", name, 1))
        yield lacks("", path)
