"""The numbers that the library tells of what `dwline lint --json` finds: the offset, the place of the rule, the number,
address and op_index of the row, and four numbers of what is found."""

import json

# The names under which the numbers of a rule stand, in their order.
NAMES = {
    "file-index": ("file", "files", "first"),
    "directory-index": ("file", "directory", "directories", "first"),
    "falling-place": ("before", "before_op_index"),
    "no-end": (),
    "empty-sequence": (),
    "overlap": ("covered", "covered_op_index", "unit"),
    "dead-sequence": ("sequences", "first"),
    "missing-text": ("section", "at"),
    "duplicate-file": ("file", "same_as"),
    "unused-file": ("unused", "first"),
    "md5-missing": ("without", "first"),
    "long-number": ("bytes",),
    "padding": ("bytes",),
    "wrapped-address": ("from", "size"),
    "line-wrapped": ("line",),
    "no-statement": (),
    "split-instruction": ("first", "least"),
    "unknown-opcode": (),
    "no-code": ("start", "size"),
}
# Of these one stands in an object, by its place here and its number.
CHOICES = {
    "missing-text": ("directory", "file"),
    "unknown-opcode": ("standard_opcode", "extended_opcode", "content_code"),
}
SECTIONS = {".debug_line_str": 0, ".debug_str": 1}


def number(value):
    """A number, an address in hexadecimal, or a section."""
    if isinstance(value, str):
        return SECTIONS[value] if value in SECTIONS else int(value, 16)
    return value


def numbers(finding):
    rule = finding["rule"]
    yield finding["offset"]
    yield list(NAMES).index(rule)
    for name in ("row", "address", "op_index"):
        yield number(finding.get(name, 0))
    for place, name in enumerate(CHOICES.get(rule, ())):
        if name in finding:
            yield place
            yield finding[name]
    for name in NAMES[rule]:
        yield number(finding[name])


def lines(objects):
    """A line of numbers for each of the objects."""
    told = [[str(it) for it in numbers(json.loads(line))] for line in objects.splitlines()]
    return "".join(" ".join(it + ["0"] * (9 - len(it))) + "\n" for it in told).encode()
