"""Builds and runs Rattle programs over copies of the crates, in a folder outside of the repository: nothing here is part
of what `rt ci` proves.

The files of the programs stand in bench/ with the ending .txt, since `rt ci` refuses any .rt or .antt file outside of
crates/."""
import os
import shutil
import subprocess

HERE = os.path.dirname(os.path.abspath(__file__))
CRATES = os.path.join(HERE, "../crates")
PARTS = ["src", "specs", "proofs"]


def crate_lines():
    """The line of each crate in crates.txt, by its name."""
    with open(os.path.join(HERE, "../crates.txt")) as file:
        lines = [line.split("#")[0].strip() for line in file]
    return {line.split(":")[0].split()[0]: line for line in lines if line}


def below(uses, lines):
    """The crates that these are or stand on, but for those of the kit, which crates.txt doesn't list."""
    found = []
    for name in uses:
        if name in lines and name not in found:
            found.append(name)
    for name in found:
        for used in lines[name].split(":")[1].split():
            if used in lines and used not in found:
                found.append(used)
    return found


def put(work, name, uses, files):
    """Puts a program into the folder `work`, with copies of all crates that it stands on, and answers its own folder.

    `files` gives for each path in that folder the file of bench/ whose copy goes there. What was built before stays."""
    lines = crate_lines()
    crates = below(uses, lines)
    for crate in crates:
        for part in PARTS:
            source = os.path.join(CRATES, crate, part)
            target = os.path.join(work, "crates", crate, part)
            shutil.rmtree(target, ignore_errors=True)
            if os.path.isdir(source):
                shutil.copytree(source, target)
    program = os.path.join(work, "crates", name)
    for part in PARTS:
        shutil.rmtree(os.path.join(program, part), ignore_errors=True)
    for path, source in files.items():
        target = os.path.join(program, path)
        os.makedirs(os.path.dirname(target), exist_ok=True)
        shutil.copyfile(os.path.join(HERE, source), target)
    with open(os.path.join(work, "crates.txt"), "w") as file:
        file.writelines(f"{lines[crate]}\n" for crate in crates)
        file.write(f"{name}: {' '.join(uses)}\n")
    return program


def run(work, name, uses, files):
    """Puts a program as `put` does, proves, builds and runs it without any input, and answers the path of what was built."""
    program = put(work, name, uses, files)
    subprocess.run(["rt", "run"], cwd=program, stdin=subprocess.DEVNULL, check=True)
    return os.path.join(program, "out", name)
