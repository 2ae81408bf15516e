"""The documents say what stands in the code and in the help.

Each command, option and value that the help names stands in the man page and in the completions of each shell, the
version is everywhere the same, and man and the shells read these files without a complaint. Each file of lemmas stands
in the map of the proofs. No code names mem::forget or ManuallyDrop. README.md is tried by readme.py."""

import functools
import glob
import os
import re
import shutil
import subprocess

from lib.program import TOP, Skipped, run

MAN = "docs/dwline.1"
COMPLETIONS = ["completions/dwline.bash", "completions/_dwline"]
FISH = "completions/dwline.fish"

# How many commands, options and values the help names.
NAMED = 10, 49, 10

# What reads these files says nothing.
READERS = ["man -l --warnings docs/dwline.1", "groff -man -ww -z docs/dwline.1", "bash -n completions/dwline.bash",
           "zsh -n completions/_dwline", "fish -n completions/dwline.fish"]


def cases():
    commands, options, values = named()
    yield "how much the help names", lambda: differs("numbers", NAMED, (len(commands), len(options), len(values)))
    for word in sorted(commands | options):
        for file in (MAN, *COMPLETIONS):
            yield f"{file} has {word}", functools.partial(has, file, word)
    for word in sorted(values - {"COMMAND", "OPTIONS"}):
        yield f"{MAN} has {word}", functools.partial(has, MAN, word)
    # In fish a short option and a long one stand behind -s and -l.
    for word in sorted(commands | options):
        told = f"-l {word[2:]}" if word.startswith("--") else f"-s {word[1:]}" if word.startswith("-") else word
        yield f"{FISH} has {told}", functools.partial(has, FISH, told)
    yield "one version", try_version
    yield from proofs()
    yield from definitions()
    yield "no value is kept from being dropped", try_kept
    yield "no error is taken for a refusal of memory", try_refusals
    for line in READERS:
        yield line, functools.partial(try_reader, line.split())


def differs(what, wanted, got):
    return None if wanted == got else f"{what}: wanted {wanted}, got {got}"


@functools.lru_cache(None)
def read(path):
    with open(os.path.join(TOP, path), encoding="utf-8") as file:
        return file.read()


def named():
    """The commands, options and values that the help of the program and of each command names."""
    first = run("--help").out.decode()
    listed = re.search(r"(?m)^Commands:\n((?:  .*\n)*)", first)
    commands = set(re.findall(r"(?m)^  ([a-z]+) ", listed[1]))
    pages = first + "".join(run(command, "--help").out.decode() for command in sorted(commands - {"help"}))
    options = set()
    for short, long in re.findall(r"(?m)^ *(-[A-Za-z0-9], )?(--[a-z0-9-]+)", pages):
        options |= {long, short[:2]} - {""}
    return commands, options, set(re.findall(r"[<[]([A-Z]+)[]>]", pages))


def has(file, word):
    """The word stands whole in the file, a man page's \\- being -."""
    text = read(file).replace("\\-", "-")
    found = re.search(rf"(^|[^A-Za-z-]){re.escape(word)}([^A-Za-z-]|$)", text, re.MULTILINE)
    return None if found else f"{file} has no {word}"


def try_version():
    version = run("--version").out.decode().rstrip("\n")
    return (differs("-V", f"{version}\n", run("-V").out.decode()) or has(MAN, version)
            or has("CHANGELOG.md", f"[{version.split()[1]}]"))


# ---- proofs and definitions


def files(pattern):
    return sorted(os.path.relpath(path, TOP) for path in glob.glob(os.path.join(TOP, pattern)))


def names_of(pattern):
    return [os.path.basename(path)[:-len(".antt")] for path in files(pattern)]


def proofs():
    """The map of the proofs has each file of lemmas, and the guarantees each crate. Each lemma that the way from a
    clause to its proof names is declared in a file of that name."""
    page = read("docs/PROOFS.md")
    for name in sorted(set(names_of("crates/*/proofs/*.antt")) - {"Lib"}):
        yield f"docs/PROOFS.md has {name}", lambda name=name: (
            None if f"`{name}`" in page else f"docs/PROOFS.md has no {name}")
    ways = page[page.index("\n- "):]
    for file, lemma in sorted(set(re.findall(r"`([A-Z][A-Za-z]+)\.([A-Za-z_-]+)`", ways))):
        yield f"{file}.{lemma} is declared", functools.partial(try_lemma, file, lemma)
    for path in files("crates/dl_*"):
        name = os.path.basename(path)
        yield f"docs/GUARANTEES.md has {name}", lambda name=name: (
            None if re.search(rf"(?m)^## {name}", read("docs/GUARANTEES.md")) else f"docs/GUARANTEES.md has no {name}")


def try_lemma(file, lemma):
    paths = files(f"crates/*/proofs/{file}.antt")
    declared = any(re.search(rf"(?m)^ *(pub )?{lemma} :", read(path)) for path in paths)
    return None if declared else f"docs/PROOFS.md names {file}.{lemma}"


# Under these lines of a crate's list stands what each file says in its first line.
MARKS = [("-- What the public contracts say", ""), ("-- For what a value stands",
                                                    "No promise rests on how this is said."),
         ("-- Of contracts inside the crate", "No promise rests on this file.")]


def definitions():
    """What a promise rests on: each file of definitions says in its first line what the list of its crate says of it,
    and those that public contracts rest on are named in the definitions in words, or hold laws."""
    for lib in files("crates/*/specs/Lib.antt"):
        mark = ""
        for line in read(lib).splitlines():
            mark = next((of for start, of in MARKS if line.startswith(start)), mark)
            if line.startswith("pub mod "):
                path = os.path.join(os.path.dirname(lib), line[len("pub mod "):].strip() + ".antt")
                yield f"{path} says what rests on it", functools.partial(try_definitions, path, mark)


def try_definitions(path, mark):
    first, name = read(path).split("\n", 1)[0], os.path.basename(path)[:-len(".antt")]
    if mark:
        return None if first.endswith(mark) else f"its first line doesn't say: {mark}"
    if "No promise rests" in first:
        return "its first line says that no promise rests on it"
    is_named = name.endswith("Laws") or re.search(rf"specs/{name}\b", read("docs/DEFINITIONS.md"))
    return None if is_named else "it isn't in docs/DEFINITIONS.md"


# ---- code


def code(*ends):
    """The files of code, but those that are built."""
    for top in ("crates", "bindings"):
        for folder, folders, names in os.walk(os.path.join(TOP, top)):
            folders[:] = [name for name in folders if name not in ("out", "target")]
            for name in names:
                if name.endswith(ends):
                    yield os.path.relpath(os.path.join(folder, name), TOP)


def try_kept():
    """No code names what keeps a value from being dropped, `mem::forget` or `ManuallyDrop`: a reader would lose what it
    owes then. A function of our own may be named `forget`."""
    kept = [path for path in code(".rt", ".rs")
            if re.search(r"::\s*(\{[^}]*)?\bforget\b|\bManuallyDrop\b", read(path))]
    return f"mem::forget or ManuallyDrop stands in {kept}" if kept else None


def try_refusals():
    """That memory was refused is shown by an error of the standard library: what is taken for one is what a call has
    answered."""
    handed_on = r"fn refused\(|Err\(error\) => (return )?Err\((System::)?refused\(error(\.into\(\))?\)\)"
    made = [(path, line) for path in code(".rt") if path.startswith("crates/") for line in read(path).splitlines()
            if re.search(r"\brefused\(", line) and not re.search(handed_on, line)]
    return f"an error that no call answered is taken for a refusal: {made}" if made else None


def try_reader(words):
    if not shutil.which(words[0]):
        return Skipped(f"{words[0]} isn't installed")
    done = subprocess.run(words, cwd=TOP, stdout=subprocess.DEVNULL, stderr=subprocess.PIPE)
    return differs(" ".join(words), (0, b""), (done.returncode, done.stderr))
