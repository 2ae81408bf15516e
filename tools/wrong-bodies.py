#!/usr/bin/env python3
"""Tries the wrong bodies of crates: the prover has to refuse each edit of crates/NAME/wrong-bodies, those in its folder
`always` too, since a goal fails. It works over the libraries that `make dwline lib` or `rt ci` left built; where one isn't,
or its files have changed since, it is proved and built first. A line tells of each edit, and the last lines how many were
refused, and why each other one was not.

An edit changes the body of one function, and a function is proved by the contracts of those that it calls. So edits of
different functions of a crate are made at once, in rounds, and these functions alone are checked, with those that they call.
Where no goal of an edit's own function is refused, the edit is tried by itself, and then on the whole crate.

Usage: tools/wrong-bodies.py [NAME..]      of these crates, or of all
       tools/wrong-bodies.py --of COMMIT   those in `always` of each crate, and some of four others: first of up to two that the
                                        commit changes; its hash chooses the rest. After twenty minutes no round of these begins
"""
import hashlib
import os
import re
import shutil
import subprocess
import sys
import tempfile
import time
from concurrent.futures import ThreadPoolExecutor, as_completed

sys.dont_write_bytecode = True
import kit

ROOT = os.path.dirname(os.path.dirname(os.path.realpath(__file__)))

# How much memory a check may take, in bytes.
MEMORY = 3 << 30

# Of how many crates a commit chooses edits, beside those that are tried each time; how many of these may be crates that it
# changes; how many edits of each; and after how many seconds none of these is begun.
CHOSEN = 4
CHANGED = 2
EACH = 9
DEADLINE = 1200

# What an error says where a proof names what the edit took away, or rests on such a proof.
OF_NAMES = re.compile(r"(\./)?proofs/.*(has no field|is not in scope|has no `|was not admitted)")

# What a line says of a goal that fails, after its place.
OF_A_GOAL = re.compile(r"(\S+:\d+:\d+: error|note: \S+:\d+:\d+: it is not proved)")

# Where a function begins, and after it its name.
FUNCTION = r'(?m)^( *)(?:pub(?:\([a-z]+\))? )?(?:const )?(?:extern "C" )?fn (\w+)'

rt = kit.load()


def edits_in(name, *folders):
    """The files of the edits of a crate, in order."""
    found = []
    for folder in (f"{ROOT}/crates/{name}/{it}" for it in folders):
        if os.path.isdir(folder):
            found += [f"{folder}/{it}" for it in sorted(os.listdir(folder)) if it.endswith(".edit")]
    return found


def with_wrong_bodies():
    names = sorted(os.listdir(f"{ROOT}/crates"))
    return [it for it in names if os.path.isdir(f"{ROOT}/crates/{it}/wrong-bodies")]


def git(*words):
    """What git says, and nothing where it fails."""
    return subprocess.run(["git", *words], cwd=ROOT, capture_output=True, text=True).stdout


def chosen_by(commit):
    """The crates of which a commit chooses edits, and the order of their edits: by sums of its hash with their names."""
    hash = git("rev-parse", "--verify", commit).strip() or sys.exit(f"{commit} is no commit")

    def order(name):
        return hashlib.sha256(f"{hash} {name}".encode()).digest()

    changed = {it.split("/")[1] for it in git("diff", "--name-only", f"{hash}~", hash).split() if it.startswith("crates/")}
    names = sorted((it for it in with_wrong_bodies() if not edits_in(it, "wrong-bodies/always")), key=order)
    first = [it for it in names if it in changed][:CHANGED]
    return (first + [it for it in names if it not in first])[:CHOSEN], order


def is_left_by_ci(library):
    """Whether a library without a stamp is built and newer than its files, as `rt ci` leaves it."""
    if not os.path.exists(library.rlib) or os.path.exists(f"{library.folder}/out/rlib/stamp"):
        return False
    files = rt.rtlib.files_of(library.folder)
    return all(os.path.getmtime(it) <= os.path.getmtime(library.rlib) for it in files)


def lacking(crates):
    """The uppermost libraries below these crates that have to be built."""
    libraries = {below.name: below for it in crates for below in it.below()}.values()
    if all(is_left_by_ci(it) for it in libraries):
        return []
    missing = [it for it in libraries if not it.is_built()]
    beneath = {below.name for it in missing for below in it.below()}
    return [it.name for it in missing if it.name not in beneath]


def build_libraries(crates):
    missing = lacking(crates)
    if missing:
        subprocess.run([f"{ROOT}/tools/rt", "prove", *missing], check=True)
    still = lacking(crates)
    if still:
        sys.exit(f"not built: {' '.join(still)}")


def place_of(edit):
    """The file of an edit's first change, and the text that is changed."""
    path = ""
    with open(edit, encoding="utf-8") as lines:
        for line in lines:
            if line.startswith("file: "):
                path = line[len("file: ") :].strip()
            elif line.startswith("old: "):
                return path, line[len("old: ") :].rstrip("\n")
    return path, ""


def modules_of(file):
    """The path of a code file's module below the crate."""
    return [it for it in re.sub(r"\.rt$", "", file[len("src/") :]).split("/") if it not in ("lib", "main", "mod")]


def name_of(modules, owner, function):
    """A function as a check is told of it: a method by its owner, wherever its `impl` stands, another by its module."""
    return f"{owner}::{function}" if owner else "::".join([*modules, function])


def owner_of(line):
    """What a check calls the owner of the methods of an `impl`: its type, and after it the trait, if it is of one."""
    found = re.match(r"impl(?:<.*?>)? (?:(?:\w+::)*(\w+)(?:<.*>)? for )?(\w+)(?:<.*>)? \{", line)
    return found and found[2] + (found[1] or "")


def function_at(file, text, position):
    """The function in which a place of a code file stands; None where its owner isn't known."""
    functions = list(re.finditer(FUNCTION, text[:position]))
    if not functions:
        return None
    last = functions[-1]
    owners = re.findall(r"(?m)^impl\b.*", text[: last.start()]) if last[1] else []
    owner = owner_of(owners[-1]) if owners else None
    if last[1] and not owner:
        return None
    return name_of(modules_of(file), owner, last[2])


class Edit:
    """An edit of a crate, and what a check of it is about: the function that it changes, or else a module."""

    def __init__(self, crate, file):
        self.crate, self.file = crate, file
        self.label = f"{crate.name}/{os.path.basename(file)}"
        self.texts, self.why = rt.read_edit(file, crate.folder)
        code, old = place_of(file)
        self.function = self.module = None
        if code.startswith("src/") and self.texts:
            with open(f"{crate.folder}/{code}", encoding="utf-8") as it:
                text = it.read()
            self.function = function_at(code, text, text.index(old))
            self.module = "::".join(modules_of(code)) or None


def refusals(crate, texts, paths):
    """What the prover says against functions of a crate with these texts: by the function, the first line that tells of a
    goal; under None that of any. Nothing where it doesn't come so far."""
    only = [word for path in paths for word in ("--only", path)]
    ran = rt.checked(crate, texts, ["--jobs", "1", *only], None)
    lines = ran.stdout.rstrip("\n").split("\n")
    counts = re.fullmatch(r"only=(\d+) proved=(\d+).*", lines[-1])
    if ran.returncode != 1 or not counts or counts[1] == counts[2] or any(rt.unread(it, texts) for it in lines):
        return {}
    found = {}
    for line in lines:
        at = re.match(r"(?:note: )?(?:\./)?(\S+?):(\d+):\d+:", line)
        if at and OF_A_GOAL.match(line) and not OF_NAMES.match(line):
            found.setdefault(None, line)
            found.setdefault(function_of(crate, texts, at[1], int(at[2])), line)
    return found


def function_of(crate, texts, file, number):
    """The function that a line of the prover's is about: the one in which the line of code stands, or whose proof it is."""
    if file.startswith("proofs/"):
        path = file.split("/")[1:-1]
        owner = path[-2] if len(path) > 1 and path[-2][:1].isupper() else None
        return name_of(path[:-1], owner, path[-1]) if path else None
    text = texts.get(file)
    if text is None:
        with open(f"{crate.folder}/{file}", encoding="utf-8") as it:
            text = it.read()
    lines = text.splitlines(True)
    # What is said of an attribute is about the function below it.
    while number < len(lines) and lines[number - 1].lstrip().startswith("#["):
        number += 1
    return function_at(file, text, sum(len(it) for it in lines[:number]))


def next_round(edits, most=sys.maxsize):
    """Of edits of a crate so many of different functions that can be made at once, with the texts of its files, and the others."""
    chosen, texts, others = [], {}, []
    with tempfile.TemporaryDirectory(prefix="wrong-bodies-") as room:
        shutil.copytree(f"{edits[0].crate.folder}/src", f"{room}/src")
        for edit in edits:
            is_fit = len(chosen) < most and edit.function and all(edit.function != it.function for it in chosen)
            changed = rt.read_edit(edit.file, room)[0] if is_fit else None
            (others if changed is None else chosen).append(edit)
            for path, text in (changed or {}).items():
                texts[path] = text
                with open(f"{room}/{path}", "w", encoding="utf-8") as it:
                    it.write(text)
    return chosen, texts, others


def try_alone(edit):
    """Whether an edit is refused since a goal fails, and what to say of it."""
    if edit.why:
        return False, f"{edit.label}: can't be applied: {edit.why}"
    path = edit.function or edit.module
    told = refusals(edit.crate, edit.texts, [path]).get(None) if path else None
    if told:
        return True, f"{edit.label}: refused: {told[:160]}"
    kind, said = rt.must_fail(edit.crate, edit.file, ["--jobs", "1"])
    return kind == getattr(rt, "REFUSED", True) and "(only because" not in said, f"{edit.label}: {said.partition(': ')[2]}"


def try_round(edits, texts):
    """The same of edits of different functions of a crate, made at once."""
    found = refusals(edits[0].crate, texts, [it.function for it in edits])
    return [
        (True, f"{it.label}: refused: {found[it.function][:160]}") if it.function in found else try_alone(it)
        for it in edits
    ]


def rounds_of(edits):
    """The calls that try edits of a crate."""
    rounds = []
    while edits:
        chosen, texts, others = next_round(edits)
        if not chosen:
            return rounds + [lambda edit=it: [try_alone(edit)] for it in others]
        rounds.append(lambda edits=chosen, texts=texts: try_round(edits, texts))
        edits = others
    return rounds


def in_time(crate, edits, texts, begun):
    """Tries a round of a sample, where the time of a gate isn't over."""
    if time.monotonic() > begun + DEADLINE:
        print(f"{crate.name}: left for want of time: {len(edits)}", flush=True)
        return []
    return try_round(edits, texts)


def rounds_of_gate(crates, chosen, order):
    """The calls that try what a commit chooses: first the rounds of the edits that are tried each time."""
    always, sample, begun = [], [], time.monotonic()
    for crate in crates:
        edits = [Edit(crate, it) for it in edits_in(crate.name, "wrong-bodies/always")]
        if edits:
            together, texts, others = next_round(edits)
            always.append(lambda edits=together, texts=texts: try_round(edits, texts))
            always += [lambda edit=it: [try_alone(edit)] for it in others]
        if crate.name in chosen:
            files = sorted(edits_in(crate.name, "wrong-bodies"), key=lambda it: order(os.path.basename(it)))
            together, texts, _ = next_round([Edit(crate, it) for it in files], EACH)
            sample.append(lambda it=crate, edits=together, texts=texts: in_time(it, edits, texts, begun))
    return always + sample


def jobs_that_fit():
    return max(1, min(rt.processors(), rt.free() // MEMORY))


def try_all(rounds):
    """Makes these calls side by side, and prints how many edits were refused and what is said of the others."""
    refused, others = 0, []
    with ThreadPoolExecutor(jobs_that_fit()) as lanes:
        for done in as_completed([lanes.submit(it) for it in rounds]):
            for is_refused, said in done.result():
                print(said, flush=True)
                refused += is_refused
                others += [] if is_refused else [f"not refused: {said}"]
    print(f"{refused} refused, {len(others)} not", *others, sep="\n")
    return refused and not others


def main(words):
    os.chdir(ROOT)
    rt.rtlib.guarded()
    is_gate = words[:1] == ["--of"]
    chosen, order = chosen_by(words[1]) if is_gate else (words or with_wrong_bodies(), None)
    crates = [it for it in rt.rtlib.crates_below(ROOT) if it.name in chosen or is_gate and edits_in(it.name, "wrong-bodies/always")]
    build_libraries(crates)
    print(f"wrong bodies of {' '.join(it.name for it in crates)}", flush=True)
    if is_gate:
        rounds = rounds_of_gate(crates, chosen, order)
    else:
        edits = [[Edit(it, file) for file in edits_in(it.name, "wrong-bodies/always", "wrong-bodies")] for it in crates]
        rounds = [it for of_crate in edits for it in rounds_of(of_crate)]
    return 0 if try_all(rounds) else 1


if __name__ == "__main__":
    sys.exit(main(sys.argv[1:]))
