"""where.py [--all] [--keep-going] [--index | --list] FILE [ADDRESS..]: over an ELF file, or an index of one, what
`dwline addr` prints of the addresses; with --list what `dwline index --list` prints of the index; with --index the
index itself."""

import sys
from typing import List, Optional

from boxantrel import Damage, Index, Location, NoIndex


def printed(location: Optional[Location]) -> bytes:
    if location is None:
        return b"??:0"
    column = b":%d" % location.column if location.column else b""
    return b"%b:%d%b" % (location.path, location.line, column)


def main(words: List[str]) -> int:
    options = [word for word in words if word.startswith("--")]
    path, *addresses = [word for word in words if not word.startswith("--")]
    with open(path, "rb") as file:
        data = file.read()
    try:
        if data.startswith(b"dlineidx"):
            index = Index.open(data)
        else:
            keep_going = "--keep-going" in options
            index = Index.of_file(path, "--all" in options, keep_going)
    except (Damage, NoIndex) as caught:
        print(f"where: {caught}", file=sys.stderr)
        return 1
    if "--index" in options:
        sys.stdout.buffer.write(index.data)
        return 0
    if "--list" in options:
        for stretch in index:
            line = b"0x%016x 0x%016x %b\n" % (stretch.start, stretch.last + 1, printed(stretch.location))
            sys.stdout.buffer.write(line)
        return 0
    found = index.find_many([int(word, 0) for word in addresses])
    for word, location in zip(addresses, found):
        assert index.find(int(word, 0)) == location
        sys.stdout.buffer.write(printed(location) + b"\n")
    return int(None in found)


if __name__ == "__main__":
    sys.exit(main(sys.argv[1:]))
