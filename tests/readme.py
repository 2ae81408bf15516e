"""What README.md shows: every command and every program, and what they print.

A block `console` has commands behind `$ `, each with its output below it, standard error too; a line `...` stands for
any lines. The commands of other projects are run where they have the version that README.md names. Each command in a
table is run over a file of tests/data, and has to print something and to end well. The programs in C, Rust and Python
are compiled over the library as they say themselves; that in Rattle is the code of crates/list_rows. `make try` takes a
minute or more, so this suite begins early.

Lines have at most 120 columns and paragraphs four lines, and what a link of a page names is there."""

import functools
import os
import re
import shutil
import subprocess

from lib.program import DWLINE, TOP, Skipped, data, folder, numbered

PAGES = ["README.md", "CONTRIBUTING.md", "SECURITY.md", "CHANGELOG.md", "examples/README.md", "tests/README.md"]
PROGRAMS = ["c", "rust", "python", "rattle"]
FIRST = True
WIDTH, PARAGRAPH = 120, 4

# How much memory has to be free for `make try`, which takes 3.5 GiB.
TRY_MEMORY = 5 << 30

# What the names in commands of tables stand for.
PROGRAM = "tests/data/gcc-O2/program"
NAMES = {"FILE": PROGRAM, "ADDRESS": "0x401008", "HEX": "401008", "PATH:LINE": "series.c:8", "OFFSET": "0x129"}

# The project of each other command, as README.md names it with its version.
PROJECTS = {"addr2line": "binutils", "readelf": "binutils", "eu-addr2line": "elfutils", "llvm-symbolizer": "LLVM",
            "llvm-dwarfdump": "LLVM"}

# How a command may end: `lint` has a finding, and llvm-dwarfdump doesn't know all that it verifies.
ENDS = {"dwline lint": (0, 1), "llvm-dwarfdump --verify": (0, 1)}


def cases():
    text = read("README.md")
    for page in PAGES:
        yield f"the layout of {page}", functools.partial(try_layout, page)
        yield f"the links of {page}", functools.partial(try_links, page)
    yield from numbered((f"$ {line}", functools.partial(try_shown, line, shown)) for line, shown in consoles(text))
    yield from numbered((f"| {line}", functools.partial(try_in_table, line)) for line in in_tables(text))
    for language, program in blocks(text):
        if language in PROGRAMS:
            yield f"the program in {language}", functools.partial(try_program, language, program)
    for number, block in enumerate(block for language,
                                   block in blocks(read("examples/README.md")) if language == "console"):
        yield f"examples/README.md, block {number + 1}", functools.partial(try_examples, block)
    for target in sorted(targets(text)):
        yield f"make {target}".strip(), functools.partial(try_target, target)
    yield "make try with other words", try_words
    yield "what make try prints", try_make


def read(path):
    with open(os.path.join(TOP, path), encoding="utf-8") as file:
        return file.read()


def blocks(text):
    """The fenced blocks of a page: the language of each, and its text."""
    return re.findall(r"^```(\w+)\n(.*?)^```$", text, re.MULTILINE | re.DOTALL)


# ---- pages


def prose_of(page):
    return re.sub(r"^```.*?^```$", "", read(page), flags=re.MULTILINE | re.DOTALL)


def try_layout(page):
    wide = [number for number, line in enumerate(read(page).splitlines(), 1) if len(line) > WIDTH]
    paragraphs = [it.strip() for it in re.split(r"\n\s*\n|\n(?=[-|#]|\d+\. )", prose_of(page))]
    long = [it[:60] for it in paragraphs if len(it.splitlines()) > PARAGRAPH]
    return f"lines {wide} are wide, and paragraphs {long} long" if wide or long else None


def anchor(heading):
    return re.sub(r"[^\w -]", "", heading.lower()).replace(" ", "-")


def try_links(page):
    prose = prose_of(page)
    anchors = {anchor(heading) for heading in re.findall(r"^#+ (.*)", prose, re.MULTILINE)}
    missing = []
    for link in re.findall(r"\]\(([^)]+)\)", prose):
        path = os.path.join(TOP, os.path.dirname(page), link)
        is_there = link[1:] in anchors if link.startswith("#") else link.startswith("https://") or os.path.exists(path)
        missing += [] if is_there else [link]
    return f"links to {missing}, which aren't there" if missing else None


# ---- commands


def by_hand():
    """The environment without what a make around this run has put there."""
    return {name: value for name, value in os.environ.items() if name not in ("MAKEFLAGS", "MFLAGS", "MAKELEVEL")}


def shell(command, folder=TOP):
    """The status of a command and what it prints, standard error among it. `dwline` is the program that is tried."""
    env = {**by_hand(), "PATH": f"{programs()}:{os.environ['PATH']}", "LC_ALL": "C"}
    done = subprocess.run(["bash", "-c", command], cwd=folder, env=env, stdin=subprocess.DEVNULL,
                          stdout=subprocess.PIPE, stderr=subprocess.STDOUT)
    return done.returncode, done.stdout.decode("utf-8", "replace").rstrip()


def programs():
    where = folder()
    os.symlink(DWLINE, os.path.join(where, "dwline"))
    return where


def unlike(command, wanted, got):
    return None if wanted == got else f"{command}\nwanted {wanted}\ngot    {got}"


def peer_missing(command):
    """Why a command can't be run: it is of another project, and isn't there in the version that README.md names."""
    name = command.split()[0]
    if name == "dwline":
        return None
    assert name in PROJECTS, f"README.md has a command that nothing tries: {command}"
    version = re.search(rf"\b{PROJECTS[name]} (\d[\d.]*\d)", read("README.md")).group(1)
    if shutil.which(name) and re.search(rf"\b{re.escape(version)}\b", shell(f"{name} --version")[1]):
        return None
    return Skipped(f"{name} of {PROJECTS[name]} {version} isn't installed")


def consoles(text):
    """The commands whose output is shown."""
    for language, block in blocks(text):
        if language == "console":
            yield from commands(block)


def commands(block):
    """The commands of a block, each with its output."""
    for part in re.split(r"^\$ ", block, flags=re.MULTILINE)[1:]:
        line, _, shown = part.partition("\n")
        yield re.sub(r"\s+# .*", "", line), shown.rstrip()


def is_shown(shown, printed):
    """Whether a text is as it is shown, where a line `...` stands for any lines."""
    parts = [re.escape(part) for part in re.split(r"^\.\.\.$", shown, flags=re.MULTILINE)]
    return re.fullmatch(".*".join(parts), printed, re.DOTALL) is not None


def try_shown(command, shown):
    missing = peer_missing(command)
    if missing:
        return missing
    printed = shell(command)[1]
    return None if is_shown(shown, printed) else f"{command} prints\n{printed}"


def in_tables(text):
    for line in text.splitlines():
        if line.startswith("| `"):
            yield from re.findall(r"\| `([^`]+)`", line)


def try_in_table(command):
    missing = peer_missing(command)
    if missing:
        return missing
    index = os.path.join(folder(), "index")
    assert shell(f"dwline index -o {index} {PROGRAM}")[0] == 0
    names = {**NAMES, "INDEX": index}
    filled = " ".join(names.get(word, word) for word in command.split())
    for name, value in names.items():
        filled = filled.replace(f"={name}", f"={value}")
    status, printed = shell(filled)
    ends = next((ends for start, ends in ENDS.items() if command.startswith(start)), (0,))
    if status not in ends or bool(printed) == command.startswith("dwline index"):
        return f"{filled} ends with {status} and prints\n{printed}"
    if not command.startswith("dwline index"):
        return None
    return unlike(filled, (0, "/boxantrel/series.c:8:23"), shell(f"dwline addr {index} 0x401008"))


# ---- programs


def said_output():
    """What README.md says that its programs print."""
    return re.search(r"programs print `([^`]+)`", read("README.md")).group(1)


def try_program(language, program):
    """A program of README.md, compiled and run as it says."""
    if language == "rattle":
        return try_rattle(program)
    if not os.path.exists(os.path.join(TOP, "out/libboxantrel.a")):
        return Skipped("the library isn't built (make lib)")
    where = folder()
    path, tool, command = {"c": of_c, "rust": of_rust, "python": of_python}[language](program, where)
    if not shutil.which(tool):
        return Skipped(f"{tool} isn't installed")
    with open(os.path.join(where, path), "w") as file:
        file.write(program)
    return unlike(command, (0, said_output()), shell(command))


def of_c(program, where):
    build = re.search(r"^// (cc .+)", program).group(1).replace("where.c", f"{where}/where.c")
    return "where.c", "cc", f"{build} -std=c11 -Wall -Wextra -Werror -o {where}/where && {where}/where"


def of_rust(program, where):
    dependency = re.search(r"^// Cargo.toml: (.+)", program).group(1).replace('"bindings', f'"{TOP}/bindings')
    os.mkdir(os.path.join(where, "src"))
    with open(os.path.join(where, "Cargo.toml"), "w") as file:
        file.write(f'[package]\nname = "where"\nedition = "2021"\n[dependencies]\n{dependency}\n')
    return "src/main.rs", "cargo", (f"CARGO_TARGET_DIR={where}/target cargo run --quiet --offline "
                                    f"--manifest-path {where}/Cargo.toml")


def of_python(program, where):
    setting = re.search(r"^# (PYTHONPATH=.+)", program).group(1)
    return "where.py", "python3", f"{setting} python3 -B {where}/where.py"


def try_rattle(program):
    """It is that of crates/list_rows without its comments, and prints what is said of it."""
    lines = read("crates/list_rows/src/main.rt").splitlines()
    code = [line for line in lines if line and not re.match(r" *//", line)]
    assert program.splitlines() == code, "README.md has another program in Rattle than crates/list_rows"
    section, count, first = re.search(r"list_rows && rt try < ../../([^`]+)`\s+prints (\d+) rows, .*\s`([^`]+)`",
                                      read("README.md")).groups()
    with open(os.path.join(TOP, section), "rb") as file, open(os.path.join(TOP, "crates/list_rows/stdin"),
                                                              "rb") as given:
        assert file.read() == given.read(), f"crates/list_rows isn't run over {section}"
    rows = read("crates/list_rows/stdout").splitlines()
    return unlike("crates/list_rows", (int(count), first), (len(rows), rows[0]))


def try_examples(block):
    """The commands of a block of examples/README.md, one after the other, print what it shows."""
    if not os.path.exists(os.path.join(TOP, "out/libboxantrel.a")):
        return Skipped("the library isn't built (make lib)")
    if "cargo" in block and not shutil.which("cargo"):
        return Skipped("cargo isn't installed")
    target = folder()
    for command, shown in commands(block):
        status, printed = shell(f"CARGO_TARGET_DIR={target} {command}")
        if status or not is_shown(shown, printed):
            return f"{command} ends with {status} and prints\n{printed}"
    return None


# ---- make


def targets(text):
    """The targets of make that README.md names: in blocks of the shell and between backquotes."""
    shown = "".join(block for kind, block in blocks(text) if kind == "sh")
    return set(re.findall(r"^make ?(\w*)", shown, re.MULTILINE)) | set(re.findall(r"`make (\w+)", text))


def try_target(target):
    status, printed = shell(f"make --dry-run {target}")
    return None if status == 0 else printed


def try_words():
    """`make try` hands its words on."""
    words = re.search(r'`make try ARGS="(.*?)"`', read("README.md")).group(1)
    printed = shell(f'make --dry-run --no-print-directory try ARGS="{words}"')[1]
    assert printed == f"tools/try.sh {words}", f"make try hands on {printed}"
    assert shell(f"dwline {words}")[0] == 0, f"dwline {words} doesn't end well"


def free_memory():
    with open("/proc/meminfo") as file:
        return int(re.search(r"MemAvailable: *(\d+) kB", file.read()).group(1)) << 10


def try_make():
    """`make try` prints the expected dump."""
    if not shutil.which("rt"):
        return Skipped("rt isn't installed")
    if free_memory() < TRY_MEMORY:
        return Skipped(f"{TRY_MEMORY >> 30} GiB of memory aren't free")
    done = subprocess.run(["make", "--silent", "try"], cwd=TOP, env=by_hand(), stdin=subprocess.DEVNULL,
                          stdout=subprocess.PIPE, stderr=subprocess.PIPE)
    return unlike("make try", data("gcc-O2", "expected.dump"), done.stdout)
