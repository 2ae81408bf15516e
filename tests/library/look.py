"""look.py [--big] [--older SIZE] [--keep-going] [--rows | --copy | --addr LINE_STR STR ADDRESS.. | --lines LINE_STR STR
PATH LINE.. | --exact-lines LINE_STR STR PATH LINE.. | --sources LINE_STR STR | --findings LINE_STR STR | ADDRESS..]: of
the section on standard input, what `dwline check` prints of it; with --rows the rows that `dwline dump` prints, with
--copy what `dwline copy` writes, with --addr and the files of both string sections what `dwline addr` prints; with
--lines what `dwline lines` prints of each line of the path, but for the paths, and with --exact-lines what it prints
with --exact; with --sources what `dwline sources --rows --md5` prints; with --findings the numbers of what `dwline
lint` finds; or with addresses the row that answers for each as `dwline find` prints it. With --keep-going the units
after a damaged one count too, and answer with --addr, --lines, --sources and --findings; the first fault is said."""

import pathlib
import sys
from typing import Dict, Iterable, List, Optional, Set, Tuple

from boxantrel import RULES, Damage, Found, OtherVersion, Place, Row, Section


def line_of(row: Row) -> str:
    words = [f"row 0x{row.address:016x} {row.op_index} {row.file} {row.line} {row.column}"]
    flags = {
        "stmt": row.is_stmt,
        "block": row.basic_block,
        "prologue": row.prologue_end,
        "epilogue": row.epilogue_begin,
        "end": row.end_sequence,
    }
    words += [word for word, is_set in flags.items() if is_set]
    words += [f"{word} {number}" for word, number in (("isa", row.isa), ("disc", row.discriminator)) if number]
    return " ".join(words)


def list_rows(section: Section) -> None:
    offset = 0
    while True:
        for row in section.rows_at(offset):
            print(line_of(row))
        unit = section.unit_at(offset)
        if unit is None:
            return
        offset += unit.length


def find_each(section: Section, words: List[str]) -> None:
    for word in words:
        found = section.find(int(word, 16))
        print("no line for this address" if found is None else line_of(found.row))


def paths_of(
    section: Section, found: Iterable[Optional[Found]], line_str: bytes, text: bytes
) -> Dict[Tuple[int, int], bytes]:
    """The paths of the files of rows, by unit and number, each unit read once."""
    files: Dict[int, Set[int]] = {}
    for each in found:
        if each is not None:
            files.setdefault(each.unit, set()).add(each.row.file)
    paths = {}
    for unit, numbers in files.items():
        asked = sorted(numbers)
        for number, path in zip(asked, section.paths_at(unit, asked, line_str, text) or []):
            paths[unit, number] = path
    return paths


def print_counts(section: Section, keep_going: bool) -> None:
    counts = section.check(keep_going)
    numbers = counts._asdict()
    numbers.pop("first")
    if not keep_going:
        numbers.pop("damaged")
    print(" ".join(f"{name} {number}" for name, number in numbers.items()))
    if counts.first is not None:
        raise counts.first


def locate_each(section: Section, keep_going: bool, line_str: bytes, text: bytes, words: List[str]) -> None:
    addresses = [int(word, 16) for word in words]
    all_found = section.find_all(addresses, keep_going=True) if keep_going else section.find_before(addresses)
    paths = paths_of(section, all_found, line_str, text)
    for found in all_found:
        if found is None:
            print("??:0")
            continue
        path = paths[found.unit, found.row.file]
        column = f":{found.row.column}" if found.row.column else ""
        print(f"{path.decode(errors='surrogateescape')}:{found.row.line}{column}")
    section.check()


def place_line(place: Place) -> str:
    column = f":{place.column}" if place.column else ""
    return f"0x{place.address:016x} {place.line}{column}{' prologue' if place.prologue_end else ''}"


def find_lines(
    section: Section, keep_going: bool, exact: bool, line_str: bytes, text: bytes, path: str, words: List[str]
) -> None:
    for word in words:
        if keep_going:
            places = section.lines(path, int(word), exact, line_str, text, keep_going=True)
        else:
            places = section.lines_before(path, int(word), exact, line_str, text)
        print("\n".join(map(place_line, places)) or "??")
    section.check()


def list_sources(section: Section, keep_going: bool, line_str: bytes, text: bytes) -> None:
    files = section.sources(line_str, text, keep_going=True) if keep_going else section.sources_before(line_str, text)
    for file in files:
        for sum_text in [each.hex() for each in file.sums] or ["-"]:
            print(f"{file.rows} {file.code_bytes} {sum_text} {file.path.decode(errors='surrogateescape')}")
    section.check()


def list_findings(section: Section, keep_going: bool, line_str: bytes, text: bytes) -> None:
    found = section.findings(line_str, text, keep_going=True) if keep_going else section.findings_before(line_str, text)
    for finding in found:
        place = (finding.row, finding.address, finding.op_index)
        print(finding.offset, RULES.index(finding.rule), *place, *finding.numbers)
    section.check()


def main(words: List[str]) -> int:
    big = words[:1] == ["--big"]
    words = words[big:]
    older = int(words[1]) if words[:1] == ["--older"] else 0
    words = words[2 * (older > 0) :]
    keep_going = words[:1] == ["--keep-going"]
    words = words[keep_going:]
    section = Section(sys.stdin.buffer.read(), big, older)
    try:
        if not words:
            print_counts(section, keep_going)
        elif words[0] == "--rows":
            list_rows(section)
        elif words[0] == "--copy":
            sys.stdout.buffer.write(section.copy())
        elif words[0] == "--addr":
            files = [pathlib.Path(name).read_bytes() for name in words[1:3]]
            locate_each(section, keep_going, *files, words[3:])
        elif words[0] in ("--lines", "--exact-lines"):
            files = [pathlib.Path(name).read_bytes() for name in words[1:3]]
            find_lines(section, keep_going, words[0] == "--exact-lines", *files, words[3], words[4:])
        elif words[0] == "--sources":
            list_sources(section, keep_going, *(pathlib.Path(name).read_bytes() for name in words[1:3]))
        elif words[0] == "--findings":
            list_findings(section, keep_going, *(pathlib.Path(name).read_bytes() for name in words[1:3]))
        else:
            find_each(section, words)
    except (Damage, OtherVersion) as refusal:
        sys.stdout.flush()
        print(f"look: {refusal}", file=sys.stderr)
        return 1
    except MemoryError:
        sys.stdout.flush()
        print("look: out of memory", file=sys.stderr)
        return 3
    return 0


if __name__ == "__main__":
    sys.exit(main(sys.argv[1:]))
