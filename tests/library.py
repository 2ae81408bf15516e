"""The library, from C, Rust and Python: it says what `dwline` says.

The drivers library/look.* print of each section of tests/data what `dwline check` prints, the rows that `dwline dump`
prints, what `dwline copy` writes, what `dwline find`, `addr`, `lines` and `sources` print, and the numbers of what
`dwline lint` finds. Where a section is damaged they say the same of it, after the same rows and locations. With
--keep-going they find what stands in the units after a damaged one. Where a growth is refused they say so, whichever it
is. The drivers library/where.* make of each ELF file the index that `dwline index` makes, and answer of it what `dwline
addr` says of the file. The examples in the documents of the Rust and the Python module hold, and so do the latter's
tests. Over damaged sections and with nothing the calls touch nothing but what they are given."""

import fcntl
import functools
import os
import re
import shutil
import subprocess

from lib import findings
from lib.folders import FOLDERS, SECTIONS, dump, order, program, section
from lib.program import TOP, Ran, Skipped, differences, folder, path, run, write

ARCHIVE = os.path.join(TOP, "out/libboxantrel.a")
TOOLS = {"c": "cc", "rust": "cargo", "python": "python3"}
LANGUAGES = [name for name, tool in TOOLS.items() if shutil.which(tool)]

# How many addresses and lines of a section are asked for, at most, in how many files.
ADDRESSES, LINES, FILES = 100, 50, 4
# At which bytes a section is cut off, how many of these a case has, and how many growths are refused in turn.
CUTS, MANY, GROWTHS = [*range(121), *range(123, 505, 13)], 30, 40
WARNINGS = ["-Wall", "-Wextra", "-Werror"]

FIRST = True

# The folder of what is built.
WHERE = None


def skipped():
    return None if os.path.exists(ARCHIVE) else "the library isn't built (make lib)"


def cases():
    global WHERE
    WHERE = folder()
    for name, tool in TOOLS.items():
        if name not in LANGUAGES:
            yield name, functools.partial(Skipped, f"{tool} isn't installed")
    if "c" in LANGUAGES:
        yield "the names that are exported", try_exported
        yield "nothing", functools.partial(try_checked, "nothing", path("gcc-O2", "debug_line"),
                                           path("gcc-O2", "debug_line_str"))
        yield "changed sections", functools.partial(try_checked, "fuzz", "20000", *sections())
        yield "changed indices", functools.partial(try_checked, "fuzz_index", "2000", *map(program, FOLDERS))
    if "rust" in LANGUAGES:
        yield "documents of the module in Rust", try_rust
    if "python" in LANGUAGES:
        yield "documents of the module in Python", functools.partial(try_python, "-m", "doctest",
                                                                     "bindings/python/boxantrel.py")
        yield "tests of the module in Python", functools.partial(try_python, "bindings/python/tests/test_boxantrel.py")
    for name in LANGUAGES:
        for words in REFUSED:
            yield f"memory refused to {name}: {' '.join(words) or 'check'}", functools.partial(try_refused, name, words)
    for name in SECTIONS:
        yield f"section of {name}", functools.partial(try_section, name)
    for start in range(0, len(CUTS), MANY):
        some = CUTS[start:start + MANY]
        yield f"cut off at {some[0]} to {some[-1]}", functools.partial(try_cuts, some)
    for name in ("gcc-O2", "clang-O2", "gcc-powerpc"):
        yield f"around a damaged unit of {name}", functools.partial(try_around, name)
    for name in FOLDERS:
        yield f"index of {name}", functools.partial(try_where, name)


def sections():
    return [path(name, "debug_line") for name in SECTIONS]


# ---- what is built


def once(name, build):
    """Builds what has this name in WHERE, if no other case has."""
    with open(os.path.join(WHERE, f"{name}.lock"), "w") as lock:
        fcntl.flock(lock, fcntl.LOCK_EX)
        done = os.path.join(WHERE, f"{name}.built")
        if not os.path.exists(done):
            build()
            write(done, b"")


def call(*words, **env):
    done = subprocess.run(words, cwd=TOP, env={**os.environ, **env}, stdout=subprocess.PIPE, stderr=subprocess.STDOUT)
    assert done.returncode == 0, (words, done.returncode, done.stdout.decode(errors="replace"))


def build_c(out, archive):
    for name in ("look", "where"):
        call("cc", "-std=c11", *WARNINGS, "-O2", "-Iinclude", "-o", f"{out}/{name}", f"tests/library/{name}.c", archive)


def cargo(target, archives, *words):
    manifest = "bindings/rust" if "test" in words else "tests/library"
    call("cargo", *words, "--quiet", "--offline", "--manifest-path", f"{manifest}/Cargo.toml",
         CARGO_TARGET_DIR=target, BOXANTREL_LIB_DIR=archives)


def build(language):
    """The folder of the drivers in a language."""
    if language == "c":
        once("c", lambda: build_c(WHERE, ARCHIVE))
        return WHERE
    if language == "rust":
        once("rust", lambda: cargo(f"{WHERE}/target", os.path.dirname(ARCHIVE), "build"))
        return f"{WHERE}/target/debug"
    return "tests/library"


def build_refusing_library():
    """The library again, over memory that refuses a growth."""
    out = f"{WHERE}/refusing"
    os.makedirs(out, exist_ok=True)
    call("cc", "-std=c11", *WARNINGS, "-O2", "-fPIC", "-c", "-o", f"{out}/memory.o", "tests/library/refusing.c")
    shutil.copy(ARCHIVE, out)
    call("ar", "rs", f"{out}/libboxantrel.a", f"{out}/memory.o")
    call("cc", "-shared", "-o", f"{out}/libboxantrel.so", "-Wl,--version-script=bindings/c/exports.map",
         "-Wl,--whole-archive", f"{out}/libboxantrel.a", "-Wl,--no-whole-archive")


def build_refusing(language):
    """The folder of the drivers over that library."""
    out = f"{WHERE}/refusing"
    once("refusing", build_refusing_library)
    if language == "c":
        once("refusing-c", lambda: build_c(out, f"{out}/libboxantrel.a"))
    if language == "rust":
        once("refusing-rust", lambda: cargo(f"{out}/target", out, "build"))
    return {"c": out, "rust": f"{out}/target/debug", "python": "tests/library"}[language]


def drive(folder, language, driver, words, stdin=b"", **env):
    """What a driver says: its own name stands before a fault as that of dwline does."""
    start = ["python3", f"{folder}/{driver}.py"] if language == "python" else [f"{folder}/{driver}"]
    env = {"PYTHONPATH": "bindings/python", "PYTHONDONTWRITEBYTECODE": "1", **env}
    done = subprocess.run([*start, *words], cwd=TOP, env={**os.environ, **env}, input=stdin, stdout=subprocess.PIPE,
                          stderr=subprocess.PIPE)
    return Ran(done.returncode, done.stdout, re.sub(b"(?m)^%s: " % driver.encode(), b"dwline: ", done.stderr))


def assert_says(language, driver, words, stdin, out, err=None, status=0):
    """A driver says what is wanted; `err` is the line of standard error. What is None isn't compared."""
    ran = drive(build(language), language, driver, words, stdin)
    wrong = differences(ran, out, err, status)
    assert not wrong, "\n".join([f"{language}: {driver} {' '.join(words)}", *wrong])


# ---- the library itself


def try_exported():
    """The shared library exports the names of the header."""
    done = subprocess.run(["nm", "-D", "--defined-only", f"{os.path.dirname(ARCHIVE)}/libboxantrel.so"], check=True,
                          stdout=subprocess.PIPE)
    exported = sorted(line.split()[-1] for line in done.stdout.decode().splitlines())
    with open(os.path.join(TOP, "include/boxantrel.h")) as header:
        named = sorted(re.findall(r"(?m)^[a-z].* (dl_[a-z_]*)\(", header.read()))
    assert exported == named and named, (exported, named)


def try_checked(name, *words):
    """A program in C, with checks of each read, write and sum."""
    out = os.path.join(folder(), name)
    call("cc", "-std=gnu11", *WARNINGS, "-O1", "-g", "-fsanitize=address,undefined", "-fno-sanitize-recover=all",
         "-Iinclude", "-o", out, f"tests/library/{name}.c", "bindings/c/calls.c", "bindings/c/memory.c", ARCHIVE)
    call(out, *words)


def try_rust():
    cargo(f"{WHERE}/tests", os.path.dirname(ARCHIVE), "test")


def try_python(*words):
    call("python3", *words, PYTHONPATH="bindings/python", PYTHONDONTWRITEBYTECODE="1")


# ---- sections


def texts(name):
    """The files of both string sections."""
    there = [path(name, file) for file in ("debug_line_str", "debug_str")]
    return [file if os.path.exists(file) else "/dev/null" for file in there]


def named(files):
    return ["--line-str", files[0], "--str", files[1]]


def found(words, addresses, given):
    """The row that answers for each address, as `find` prints it."""
    for address in addresses:
        ran = run("find", address, *words, stdin=given)
        yield ran.out.splitlines(True)[-1] if ran.out else b"no line for this address\n"


def numbers_of(words, given):
    return findings.lines(run("lint", "--json", *words, stdin=given).out)


def try_section(name):
    given, words, files = section(name), SECTIONS[name], texts(name)
    rows = [line for line in run("dump", *words, stdin=given).out.splitlines(True) if line.startswith(b"row ")]
    addresses = sorted({line.split()[1].decode() for line in rows})
    addresses = addresses[::len(addresses) // ADDRESSES + 1]
    asked = [*addresses, "0x0", "0x1"]
    copied = run("copy", *order(name), stdin=given)
    told = [
        ([], run("check", *words, stdin=given).out),
        (["--rows"], b"".join(rows)),
        (["--addr", *files, *asked], run("addr", "-", *named(files), *words, *asked, stdin=given).out),
        (["--sources", *files], run("sources", "--rows", "--md5", *named(files), *words, stdin=given).out),
        (["--findings", *files], numbers_of([*named(files), *words], given)),
    ]
    if addresses:
        told.append((addresses, b"".join(found(words, addresses, given))))
    told += places_of(rows, words, files, given)
    for language in LANGUAGES:
        for asks, wanted in told:
            assert_says(language, "look", [*words, *asks], given, wanted)
        wanted = b"" if copied.status else copied.out
        assert_says(language, "look", [*words, "--copy"], given, wanted, status=None)


def places_of(rows, words, files, given):
    """The places of lines of source files: of files that have rows, lines that have some, and those after them, of the
    line alone and of the least one above it."""
    numbers = {int(row.split()[4]) for row in rows}
    lines = [str(line) for line in sorted(numbers | {line + 1 for line in numbers})[:LINES]]
    listed = run("sources", "--rows", *named(files), *words, stdin=given).out.decode().splitlines()
    sources = {re.split("[ /]", line)[-1] for line in listed if not line.startswith("0 ")}
    for source in sorted(it for it in sources if re.fullmatch("[A-Za-z0-9._-]*", it))[:FILES]:
        for exact in ([], ["--exact"]):
            ran = run("lines", "-", *exact, *named(files), *words, *(f"{source}:{line}" for line in lines), stdin=given)
            yield [f"--{'exact-' * bool(exact)}lines", *files, source, *lines], without_paths(source, ran.out)


def without_paths(source, places):
    return re.sub(rb"(?m)^(0x[0-9a-f]*) .*%s:" % re.escape(source.encode()), rb"\1 ", places)


# ---- damage


def try_cuts(cuts):
    """A section that ends after so many bytes: whole where `dwline` has it whole, and else at fault where and how it
    says."""
    files = texts("gcc-O2")[:1]
    asked = ["0x401008", "0x401030", "0"]
    for cut in cuts:
        given = section("gcc-O2")[:cut]
        check, dumped = run("check", stdin=given), run("dump", stdin=given)
        located = run("addr", "-", "--line-str", *files, *asked, stdin=given)
        rows = b"".join(line for line in dumped.out.splitlines(True) if line.startswith(b"row "))
        for language in LANGUAGES:
            assert_says(language, "look", [], given, *check[1:], None)
            assert_says(language, "look", ["--rows"], given, rows, dumped.err, None)
            assert_says(language, "look", ["--addr", *files, "/dev/null", *asked], given, *located[1:], None)


def try_around(name):
    """A section whose first unit, of the 32-bit format and of version 5, is damaged, with the whole one behind it: its
    counts and its first fault are those that `dwline` tells with --keep-going, and each address is found in the whole
    one. Where the damaged unit stands behind it, the counts are the same but for the place of the fault."""
    whole, words, files = section(name), order(name), [texts(name)[0], "/dev/null"]
    damaged = whole[:16] + b"\0" + whole[17:]
    rows = [line for line in dump(name).splitlines() if line.startswith(b"row ")]
    asked = sorted({line.split()[1].decode() for line in rows}) + ["0x0"]
    located = run("addr", "-", "--line-str", files[0], *words, *asked, stdin=whole).out
    lines = [str(line) for line in range(1, 41)]
    places = without_paths("series.c", run("lines", "-", "--line-str", files[0], *words,
                                           *(f"series.c:{line}" for line in lines), stdin=whole).out)
    for given, without in ((damaged + whole, b"??\n" * 40), (whole + damaged + whole, places)):
        check = run("check", "--keep-going", *words, stdin=given)
        assert check.status == 1 and check.out.endswith(b" damaged 1\n"), check
        fault = check.err.splitlines(True)[0]
        told = [
            (["--keep-going"], check.out),
            (["--keep-going", "--addr", *files, *asked], located),
            (["--keep-going", "--lines", *files, "series.c", *lines], places),
            (["--lines", *files, "series.c", *lines], without),
        ]
        for goes_on in ([], ["--keep-going"]):
            listed = run("sources", "--rows", "--md5", *goes_on, "--line-str", files[0], *words, stdin=given).out
            told.append(([*goes_on, "--sources", *files], listed))
            told.append(([*goes_on, "--findings", *files], numbers_of([*goes_on, *named(files), *words], given)))
        for language in LANGUAGES:
            for asks, wanted in told:
                assert_says(language, "look", [*words, *asks], given, wanted, fault,
                            1 if asks == ["--keep-going"] else None)
    for language in LANGUAGES:
        counts = run("check", *words, stdin=whole).out[:-1] + b" damaged 0\n"
        assert_says(language, "look", [*words, "--keep-going"], whole, counts)


# ---- indices


def try_where(name):
    """Of an ELF file the index is the one that `dwline index` makes, its list the same, and at the ends of its
    stretches what `dwline addr` says of the file."""
    file, where = program(name), folder()
    for words in ([], ["--all"], ["--keep-going"]):
        index = run("index", *words, file, "-o", "-")
        for language in LANGUAGES:
            assert_says(language, "where", [*words, "--index", file], b"", index.out, status=index.status)
    if not index.out:
        return
    kept, cut = os.path.join(where, "index"), os.path.join(where, "cut")
    write(kept, index.out)
    write(cut, index.out[:100])
    listed = run("index", "--list", kept).out
    ends = re.findall(rb"(?m)^(0x\S+) (0x\S+) ", listed)
    asked = [place for start, end in ends for place in
             ([start.decode()] + ([hex(int(end, 16) - 1)] if len(end) == 18 else []))] + ["0x0"]
    located = run("addr", file, *asked).out
    for language in LANGUAGES:
        for path in (file, kept):
            assert_says(language, "where", ["--list", path], b"", listed)
            assert_says(language, "where", [path, *asked], b"", located, status=None)
        assert_says(language, "where", [cut], b"", b"", b"dwline: damaged index: length\n", None)


# ---- memory


STRINGS = path("gcc-O2", "debug_line_str")
REFUSED = [[], ["--keep-going"], ["--rows"], ["--copy"], ["--lines", STRINGS, "/dev/null", "series.c", "8"],
           ["--sources", STRINGS, "/dev/null"], ["--findings", STRINGS, "/dev/null"]]


def try_refused(language, words):
    """Each of the first growths is refused in turn: what is printed is all; or it is said that memory was refused, and
    before that the front of the rows is printed, and of other answers nothing, or all before a further call."""
    where, given = build_refusing(language), section("gcc-O2")
    env = {"BOXANTREL_LIBRARY": f"{WHERE}/refusing/libboxantrel.so"}
    whole = drive(where, language, "look", words, given, REFUSED="0", **env)
    assert whole.status == 0, whole
    refusals = 0
    for number in range(1, GROWTHS + 1):
        ran = drive(where, language, "look", words, given, REFUSED=str(number), **env)
        if ran.status == 0:
            assert ran.out == whole.out, (number, ran)
            continue
        assert ran.err.splitlines()[-1] == b"dwline: out of memory", (number, ran)
        assert whole.out.startswith(ran.out), (number, ran)
        assert words == ["--rows"] or ran.out in (b"", whole.out), (number, ran)
        refusals += 1
    assert refusals > 2, refusals
