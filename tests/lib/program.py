"""The built program: runs it, and says what differs from what was wanted."""

import os
import re
import shlex
import shutil
import subprocess
import tempfile
from collections import namedtuple

TOP = os.path.dirname(os.path.dirname(os.path.dirname(os.path.abspath(__file__))))
DATA = os.path.join(TOP, "tests", "data")
DWLINE = os.path.abspath(os.environ.get("DWLINE") or os.path.join(TOP, "crates/dwline/out/dwline"))

# Whether long cases are wanted too (tests/run --all).
ALL = bool(os.environ.get("TESTS_ALL"))
SECONDS = 60

Ran = namedtuple("Ran", "status out err")


class Skipped(str):
    """Why a case can't run here: what a call answers then."""


# The system's environment, without what says where a cache of debug information is.
ENVIRONMENT = {name: value for name, value in os.environ.items()
               if name not in ("DEBUGINFOD_CACHE_PATH", "XDG_CACHE_HOME", "HOME")}

# The folders that the case at hand made.
_folders = []


def run(*words, stdin=b"", cwd=None, env=None):
    """What the program does with these words. On standard input come bytes, or what the path leads to that is given as
    a text. `env` is put on top of the environment."""
    options = dict(stdout=subprocess.PIPE, stderr=subprocess.PIPE, cwd=cwd, env=dict(ENVIRONMENT, **(env or {})),
                   timeout=SECONDS)
    if isinstance(stdin, str):
        # A folder can be opened and not be read.
        handle = os.open(stdin, os.O_RDONLY)
        try:
            done = subprocess.run([DWLINE, *words], stdin=handle, **options)
        finally:
            os.close(handle)
    else:
        done = subprocess.run([DWLINE, *words], input=stdin, **options)
    return Ran(done.returncode, done.stdout, done.stderr)


def expect(words, out=None, err=None, status=0, stdin=b"", cwd=None, env=None):
    """None if the program does what is wanted, else a text. What is None isn't compared."""
    ran = run(*words, stdin=stdin, cwd=cwd, env=env)
    wrong = differences(ran, out, err, status)
    return "\n".join(wrong + [f"repeat: {by_hand(words, stdin, cwd, env)}"]) if wrong else None


def differences(ran, out, err, status):
    """What of a run isn't as wanted, as texts."""
    wrong = []
    if status is not None and ran.status != status:
        wrong.append(f"status: wanted {status}, got {ran.status}, and on standard error {shown(ran.err)}")
    wrong.extend(difference("standard output", out, ran.out))
    wrong.extend(difference("standard error", err, ran.err))
    return wrong


def difference(what, wanted, got):
    if wanted is None:
        return []
    if hasattr(wanted, "search"):
        text = got if isinstance(wanted.pattern, bytes) else got.decode("utf-8", "surrogateescape")
        return [] if wanted.search(text) else [f"{what}: wanted {wanted.pattern!r}, got {shown(got)}"]
    wanted = wanted.encode("utf-8", "surrogateescape") if isinstance(wanted, str) else wanted
    if wanted == got:
        return []
    if len(wanted) + len(got) <= 400:
        return [f"{what}: wanted {shown(wanted)}", f"{' ' * len(what)}  got    {shown(got)}"]
    return [f"{what}: {first_difference(wanted, got)}"]


def first_difference(wanted, got):
    """The first line in which two texts differ."""
    lines, others = wanted.splitlines(True), got.splitlines(True)
    at = next((n for n, pair in enumerate(zip(lines, others)) if pair[0] != pair[1]), min(len(lines), len(others)))
    line, other = (shown(b"".join(some[at:at + 1])) if at < len(some) else "no line" for some in (lines, others))
    return f"line {at + 1} of {len(lines)} wanted is {line}\n  and of {len(others)} that came {other}"


def shown(text):
    text = text if len(text) <= 600 else text[:600] + b".."
    return repr(text.decode("utf-8", "backslashreplace"))


def by_hand(words, stdin=b"", cwd=None, env=None):
    """A line for the shell that does the same."""
    line = " ".join([f"{name}={shlex.quote(value)}" for name, value in (env or {}).items()]
                    + [shlex.quote(os.fsdecode(word)) for word in (DWLINE, *words)])
    if isinstance(stdin, str) or len(stdin) > 100:
        line += " < " + shlex.quote(stdin if isinstance(stdin, str) else kept(stdin))
    elif stdin:
        line = "printf '" + "".join(f"\\{byte:03o}" for byte in stdin) + "' | " + line
    return f"cd {shlex.quote(os.fsdecode(cwd))} && {line}" if cwd else line


def kept(stdin):
    """A file of what went to standard input."""
    path = os.path.join(folder(), "stdin")
    write(path, stdin)
    return path


def folder(files=None):
    """The path of a new folder with these files, by name. It stays only if the case fails."""
    made = tempfile.mkdtemp(dir=os.environ.get("TESTS_SCRATCH"))
    _folders.append(made)
    for name, content in (files or {}).items():
        path = os.path.join(made, name)
        os.makedirs(os.path.dirname(path), exist_ok=True)
        write(path, content)
    return made


def forget_folders(remove):
    """The end of a case, whose folders go if `remove`."""
    for made in _folders if remove else []:
        shutil.rmtree(made, ignore_errors=True)
    _folders.clear()


def path(*parts):
    """The path of a file of tests/data."""
    return os.path.join(DATA, *parts)


def data(*parts):
    """The bytes of a file of tests/data."""
    with open(path(*parts), "rb") as file:
        return file.read()


def pattern(text):
    """A pattern over several lines, for `expect`."""
    return re.compile(text, re.MULTILINE)


def numbered(cases):
    """The cases, in which a name that came before has a number behind it. Names have no folders of this run."""
    seen = {}
    made = re.escape(os.environ.get("TESTS_SCRATCH", "/none")) + "/[^/ )]*/?"
    for name, call in cases:
        name = re.sub(made, "", name)
        seen[name] = seen.get(name, 0) + 1
        yield (name if seen[name] == 1 else f"{name} ({seen[name]})"), call


def write(path, content):
    with open(path, "wb") as file:
        file.write(content)
