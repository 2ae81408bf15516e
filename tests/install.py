"""`make install` puts the program and what belongs to it below DESTDIR and PREFIX, and the library where it is built;
`make uninstall` takes these away again and nothing else. `make dist` packs the same files, the same bytes each time."""

import filecmp
import hashlib
import os
import subprocess

from lib.folders import section
from lib.program import TOP, Skipped, folder, run

BUILT = os.path.join(TOP, "crates/dwline/out/dwline")
LIBRARY = os.path.exists(os.path.join(TOP, "out/libboxantrel.a"))

# What is installed, and of which file of the repository each is a copy.
PROGRAM = {"bin/dwline": "crates/dwline/out/dwline", "share/man/man1/dwline.1": "docs/dwline.1",
           "share/bash-completion/completions/dwline": "completions/dwline.bash",
           "share/fish/vendor_completions.d/dwline.fish": "completions/dwline.fish",
           "share/zsh/site-functions/_dwline": "completions/_dwline"}
OF_LIBRARY = {"include/boxantrel.h": "include/boxantrel.h", "lib/libboxantrel.a": "out/libboxantrel.a",
              "lib/libboxantrel.so": "out/libboxantrel.so", "lib/pkgconfig/boxantrel.pc": None}
INSTALLED = {**PROGRAM, **(OF_LIBRARY if LIBRARY else {})}


def skipped():
    return None if os.path.exists(BUILT) else "crates/dwline/out/dwline isn't built"


def cases():
    yield "files come and go", try_install
    yield "the installed program runs", try_installed
    yield "packed files", try_packed
    if not LIBRARY:
        yield "the library", lambda: Skipped("the library isn't built (make lib)")


def make(*words):
    # What make says to those that it starts isn't for this one.
    env = {name: value for name, value in os.environ.items() if name not in ("MAKEFLAGS", "MFLAGS", "MAKELEVEL")}
    subprocess.run(["make", "-s", *words], cwd=TOP, env=env, check=True, stdout=subprocess.DEVNULL)


def below(top):
    return {os.path.relpath(os.path.join(where, name), top) for where, _, names in os.walk(top) for name in names}


def assert_copies(top):
    for name, of in INSTALLED.items():
        if of:
            assert filecmp.cmp(os.path.join(TOP, of), os.path.join(top, name), shallow=False), name


def installed():
    """A stage with the files, and one of another owner beside them."""
    stage = folder({"opt/own/bin/other": b"other\n"})
    make("install", f"DESTDIR={stage}", "PREFIX=/opt/own")
    return stage


def try_install():
    stage = installed()
    top = os.path.join(stage, "opt/own")
    wanted = {"opt/own/bin/other", *(f"opt/own/{name}" for name in INSTALLED)}
    assert below(stage) == wanted, below(stage) ^ wanted
    assert_copies(top)
    make("uninstall", f"DESTDIR={stage}", "PREFIX=/opt/own")
    assert below(stage) == {"opt/own/bin/other"}, below(stage)


def try_installed():
    program = os.path.join(installed(), "opt/own/bin/dwline")
    done = subprocess.run([program, "check"], input=section("gcc-O2"), stdout=subprocess.PIPE)
    assert (done.returncode, done.stdout) == (0, run("check", stdin=section("gcc-O2")).out), done


def pack():
    """The paths of what is packed, and the sums of their bytes."""
    version = run("--version").out.decode().split()[1]
    paths = subprocess.run(["tools/pack.sh", version], cwd=TOP, stdout=subprocess.PIPE, stderr=subprocess.DEVNULL,
                           check=True).stdout.decode().split()
    sums = {}
    for path in paths:
        with open(os.path.join(TOP, path), "rb") as file:
            sums[path] = hashlib.sha256(file.read()).hexdigest()
    return paths, sums


def try_packed():
    """The archive holds the files, and packed again the same bytes."""
    paths, sums = pack()
    os.utime(os.path.join(TOP, "docs/dwline.1"))
    assert pack() == (paths, sums), paths
    where = folder()
    archive = next(path for path in paths if path.endswith(".tar.gz"))
    subprocess.run(["tar", "-xzf", os.path.join(TOP, archive), "-C", where, "--strip-components=1"], check=True)
    assert_copies(where)
