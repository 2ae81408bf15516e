"""Line tables of DWARF 5, and of versions 2 to 4 (the section .debug_line), read by the library Boxantrel, whose answers are proved.

    >>> section = Section(open("tests/data/gcc-O2/debug_line", "rb").read())
    >>> section.check()
    Counts(units=2, skipped=0, sequences=3, rows=91, damaged=0, first=None)
    >>> section.find(0x401008).row.line
    8
    >>> [found and found.row.line for found in section.find_all([0x401008, 0])]
    [8, None]
    >>> section.path_at(0, 1, open("tests/data/gcc-O2/debug_line_str", "rb").read())
    b'/boxantrel/series.c'
    >>> section.paths_at(0, [1, 2], open("tests/data/gcc-O2/debug_line_str", "rb").read())
    [b'/boxantrel/series.c', b'/boxantrel/include/range.h']
    >>> texts = open("tests/data/gcc-O2/debug_line_str", "rb").read()
    >>> [(hex(place.address), place.line, place.column) for place in section.lines("series.c", 7, line_str=texts)]
    [('0x401000', 8, 5), ('0x40102e', 8, 33)]
    >>> [(file.path, file.rows) for file in section.sources(texts)][2:]
    [(b'/boxantrel/main.c', 21), (b'/boxantrel/series.c', 48), (b'/boxantrel/series.h', 0)]
    >>> section.findings(texts, rules=["file-index", "falling-place"])
    []
    >>> [(unit.offset, unit.rows, len(list(section.rows_at(unit.offset)))) for unit in section.units()]
    [(0, 59, 59), (297, 32, 32)]

Of an ELF file an index is made once, and then asked:

    >>> index = Index.of_file("tests/data/gcc-O2/program")
    >>> location = index.find(0x401008)
    >>> location.path, location.line, location.column
    (b'/boxantrel/series.c', 8, 23)
    >>> [found and found.line for found in index.find_many([0x401008, 0])]
    [8, None]
    >>> Index.open(index.data).find(0x401008) == location
    True

The library is the file that the environment variable BOXANTREL_LIBRARY names, else `out/libboxantrel.so` of the repository
that this file stands in, else the one that the system finds.
"""

from __future__ import annotations

import ctypes
import ctypes.util
import itertools
import mmap
import operator
import os
import pathlib
from typing import Any, Iterable, Iterator, List, NamedTuple, NoReturn, Optional, Sequence, Tuple

__all__ = [
    "Counts",
    "Damage",
    "FileFault",
    "Finding",
    "Found",
    "Index",
    "Location",
    "NoIndex",
    "OtherVersion",
    "Place",
    "RULES",
    "Row",
    "Section",
    "SourceFile",
    "Stretch",
    "Unit",
]

_DONE, _FAULT, _NO_ANSWER, _NO_MEMORY, _OTHER_VERSION, _NO_ROOM = range(6)
_NO_UNIT = 2**64 - 1
_ALL, _KEEP_GOING = 64, 128
_NOT_ELF = 32


class _Counts(ctypes.Structure):
    _fields_ = [(name, ctypes.c_uint64) for name in ("units", "skipped", "sequences", "rows", "damaged")]


class _Fault(ctypes.Structure):
    _fields_ = [("offset", ctypes.c_uint64), ("detail", ctypes.c_uint64), ("kind", ctypes.c_uint32)]


class _Row(ctypes.Structure):
    _fields_ = [
        (name, ctypes.c_uint64) for name in ("address", "file", "line", "column", "isa", "discriminator")
    ] + [("op_index", ctypes.c_uint8), ("flags", ctypes.c_uint8)]


class _Unit(ctypes.Structure):
    _fields_ = [(name, ctypes.c_uint64) for name in ("offset", "length", "rows", "directories", "files")] + [
        ("version", ctypes.c_uint16),
        ("address_size", ctypes.c_uint8),
        ("is_dwarf64", ctypes.c_uint8),
    ]


class _Place(ctypes.Structure):
    _fields_ = [(name, ctypes.c_uint64) for name in ("address", "line", "column")] + [("prologue_end", ctypes.c_uint8)]


class _Source(ctypes.Structure):
    _fields_ = [
        ("path_begin", ctypes.c_size_t),
        ("path_len", ctypes.c_size_t),
        ("rows", ctypes.c_uint64),
        ("bytes", ctypes.c_uint64),
        ("md5", ctypes.c_uint8 * 16),
        ("has_md5", ctypes.c_uint8),
    ]


class _Finding(ctypes.Structure):
    _fields_ = [(name, ctypes.c_uint64) for name in ("offset", "rule", "row", "address", "op_index")] + [
        ("numbers", ctypes.c_uint64 * 4)
    ]


class _Layout(ctypes.Structure):
    _fields_ = [
        ("base", ctypes.c_uint64),
        ("len", ctypes.c_size_t),
        ("counts", ctypes.c_size_t * 4),
        ("places", ctypes.c_size_t * 8),
        ("widths", ctypes.c_uint8 * 5),
    ]


class _Index(ctypes.Structure):
    _fields_ = [
        ("bytes", ctypes.c_void_p),
        ("len", ctypes.c_size_t),
        ("stretches", ctypes.c_size_t),
        ("build_id", ctypes.c_void_p),
        ("build_id_len", ctypes.c_size_t),
        ("all", ctypes.c_bool),
        ("layout", _Layout),
    ]


class _IndexFault(ctypes.Structure):
    _fields_ = [("kind", ctypes.c_uint32), ("version", ctypes.c_uint32)]


class _Text(ctypes.Structure):
    _fields_ = [("bytes", ctypes.c_void_p), ("len", ctypes.c_size_t)]


class _Location(ctypes.Structure):
    _fields_ = (
        [(name, ctypes.c_uint64) for name in ("unit", "line", "column", "discriminator")]
        + [("texts", _Text * 3)]
        + [(name, ctypes.c_bool) for name in ("is_stmt", "has_path", "is_found")]
    )


class _Buffer(ctypes.Structure):
    """Py_buffer of Python's C API."""

    _fields_ = [
        ("buf", ctypes.c_void_p),
        ("obj", ctypes.c_void_p),
        ("len", ctypes.c_ssize_t),
        ("itemsize", ctypes.c_ssize_t),
        ("readonly", ctypes.c_int),
        ("ndim", ctypes.c_int),
        ("format", ctypes.c_void_p),
        ("shape", ctypes.c_void_p),
        ("strides", ctypes.c_void_p),
        ("suboffsets", ctypes.c_void_p),
        ("internal", ctypes.c_void_p),
    ]


class Counts(NamedTuple):
    """What the units of a section come to: units that are read, those that are passed over for their version, end rows,
    and rows. Where the reading went on after damaged units, `damaged` is how many there are, and `first` what is wrong
    with the first of them; else 0 and None."""

    units: int
    skipped: int
    sequences: int
    rows: int
    damaged: int = 0
    first: Optional[Damage] = None


class Row(NamedTuple):
    """A row of the matrix."""

    address: int
    file: int
    line: int
    column: int
    isa: int
    discriminator: int
    op_index: int
    is_stmt: bool
    basic_block: bool
    prologue_end: bool
    epilogue_begin: bool
    end_sequence: bool


class Unit(NamedTuple):
    """A unit that was read whole: its offset and length in bytes, how many rows, directories and files it has (of a
    version other than 5 none), its version, the size of an address in bytes (0 of a version other than 5), and whether
    it is of the 64-bit DWARF format."""

    offset: int
    length: int
    rows: int
    directories: int
    files: int
    version: int
    address_size: int
    is_dwarf64: bool


class Found(NamedTuple):
    """The row that answers for a place, and the offset of its unit."""

    row: Row
    unit: int


class Place(NamedTuple):
    """A place of a line, where a breakpoint on it goes: its address, the line that answers, the column from 1 on (0 is the
    line's left edge), and whether a breakpoint at the entry of a function belongs there."""

    address: int
    line: int
    column: int
    prologue_end: bool


class SourceFile(NamedTuple):
    """A source file: its path, how many rows name it, those that end a sequence left out, how many bytes of code these have,
    and its MD5 sums in the order of their bytes, of which there may be none. Where there are two, two versions of it were
    compiled."""

    path: bytes
    rows: int
    code_bytes: int
    sums: List[bytes]


# The names of the rules of what misleads a debugger, in the order in which the findings of one place are told.
RULES = (
    "file-index",
    "directory-index",
    "falling-place",
    "no-end",
    "empty-sequence",
    "overlap",
    "dead-sequence",
    "missing-text",
    "duplicate-file",
    "unused-file",
    "md5-missing",
    "long-number",
    "padding",
    "wrapped-address",
    "line-wrapped",
    "no-statement",
    "split-instruction",
    "unknown-opcode",
    "no-code",
)


class Finding(NamedTuple):
    """What in a section misleads a debugger: the offset, the name of the rule, the number in its unit, from 1 on, the address
    and the op_index of the row that it is about, or 0, and four numbers, which include/boxantrel.h tells beside the rules."""

    offset: int
    rule: str
    row: int
    address: int
    op_index: int
    numbers: Tuple[int, ...]


class Damage(Exception):
    """A unit is damaged. `offset` counts from the section's first byte; `kind` and `detail` are the numbers that stand
    for the fault in include/boxantrel.h. Its text says the same in words.

    >>> str(Damage(0x34, 16, 0))
    'damage at 0x34: unit ends inside an opcode'
    """

    def __init__(self, offset: int, kind: int, detail: int) -> None:
        self.offset = _number(offset, 64)
        self.kind = _number(kind, 32)
        self.detail = _number(detail, 64)
        super().__init__(self.offset, self.kind, self.detail)

    def __str__(self) -> str:
        return _fault_text(self.offset, self.kind, self.detail)


class FileFault(Damage):
    """An ELF file is damaged, or has no line table that is read. `kind`, `offset` and `detail` are the numbers that stand for
    the fault in include/boxantrel.h.

    >>> str(FileFault(0, 32, 0))
    'not an ELF file'
    """


class NoIndex(Exception):
    """Bytes are no index. `kind` is the number of the first check that fails in include/boxantrel.h, and `version` that of
    an index of another one.

    >>> str(NoIndex(2, 7))
    'an index of version 7'
    """

    def __init__(self, kind: int, version: int) -> None:
        self.kind = _number(kind, 32)
        self.version = _number(version, 32)
        super().__init__(self.kind, self.version)

    def __str__(self) -> str:
        fault, text = _IndexFault(self.kind, self.version), ctypes.create_string_buffer(64)
        length = _calls.dl_index_fault_text(ctypes.byref(fault), text, len(text))
        return text.raw[:length].decode()


class Location(NamedTuple):
    """What an index tells of an address: the path, `??` where it isn't known, the line, the column from 1 on (0 is the line's
    left edge), the discriminator, whether the row is a recommended place for a breakpoint, and the offset of the unit in the
    line section."""

    path: bytes
    line: int
    column: int
    discriminator: int
    is_stmt: bool
    unit: int


class Stretch(NamedTuple):
    """A run of addresses, as long as can be, of which the same is told: the first and the last one, and what is told of them,
    which is None in a gap."""

    start: int
    last: int
    location: Optional[Location]


class OtherVersion(Exception):
    """A unit isn't of version 5 where it has to be."""


def _library() -> ctypes.CDLL:
    named = os.environ.get("BOXANTREL_LIBRARY")
    built = pathlib.Path(__file__).resolve().parents[2] / "out" / "libboxantrel.so"
    path = named or (str(built) if built.exists() else ctypes.util.find_library("boxantrel"))
    if path is None:
        raise OSError("libboxantrel.so isn't found")
    library = ctypes.CDLL(path)
    held = [ctypes.c_void_p, ctypes.c_size_t]
    section = held + [ctypes.c_uint8]
    fault = ctypes.POINTER(_Fault)
    row = ctypes.POINTER(_Row)
    index, location = ctypes.POINTER(_Index), ctypes.POINTER(_Location)
    place = [ctypes.c_uint64, ctypes.c_uint8]
    rows = [row, ctypes.c_size_t, ctypes.POINTER(ctypes.c_size_t)]
    arguments = {
        "dl_check": section + [ctypes.POINTER(_Counts), fault],
        "dl_fault_text": [fault, ctypes.c_void_p, ctypes.c_size_t],
        "dl_unit_at": section + [ctypes.c_uint64, ctypes.POINTER(_Unit), fault],
        "dl_rows_at": section + [ctypes.c_uint64] + rows + [fault],
        "dl_copy": section + [ctypes.c_void_p, ctypes.c_size_t, ctypes.POINTER(ctypes.c_size_t), fault],
        "dl_path_at": section
        + [ctypes.c_uint64, ctypes.c_uint64]
        + held * 2
        + [ctypes.c_void_p, ctypes.c_size_t, ctypes.POINTER(ctypes.c_size_t), fault],
        "dl_paths_at": section
        + [ctypes.c_uint64, ctypes.POINTER(ctypes.c_uint64), ctypes.c_size_t]
        + held * 2
        + [ctypes.c_void_p, ctypes.c_size_t, ctypes.POINTER(ctypes.c_size_t), fault],
        "dl_find_all": section
        + [ctypes.POINTER(ctypes.c_uint64), ctypes.c_size_t, row, ctypes.POINTER(ctypes.c_uint64), fault],
        "dl_lines": section
        + held * 3
        + [ctypes.c_uint64, ctypes.c_bool, ctypes.POINTER(_Place), ctypes.c_size_t]
        + [ctypes.POINTER(ctypes.c_size_t), fault],
        "dl_sources": section
        + held * 2
        + [ctypes.POINTER(_Source), ctypes.c_size_t, ctypes.POINTER(ctypes.c_size_t)]
        + [ctypes.c_void_p, ctypes.c_size_t, ctypes.POINTER(ctypes.c_size_t), fault],
        "dl_findings": section
        + [ctypes.c_uint32]
        + held * 2
        + [ctypes.POINTER(_Finding), ctypes.c_size_t, ctypes.POINTER(ctypes.c_size_t), fault],
        "dl_find": section + place + [row, ctypes.POINTER(ctypes.c_uint64), fault],
        "dl_index_fault_text": [ctypes.POINTER(_IndexFault), ctypes.c_void_p, ctypes.c_size_t],
        "dl_index_open": held + [index, ctypes.POINTER(_IndexFault)],
        "dl_index_open_unchecked": held + [index, ctypes.POINTER(_IndexFault)],
        "dl_index_find": [index, ctypes.c_uint64, location],
        "dl_index_find_many": [index, ctypes.POINTER(ctypes.c_uint64), ctypes.c_size_t, location],
        "dl_index_stretch": [index, ctypes.c_size_t] + [ctypes.POINTER(ctypes.c_uint64)] * 2 + [location],
        "dl_index_build_into": section + [ctypes.c_void_p, ctypes.c_size_t, ctypes.POINTER(ctypes.c_size_t), fault],
    }
    for name, types in arguments.items():
        call = getattr(library, name)
        call.argtypes = types
        call.restype = ctypes.c_uint32
    library.dl_fault_text.restype = ctypes.c_size_t
    library.dl_index_fault_text.restype = ctypes.c_size_t
    return library


_calls = _library()


def _number(number: Any, bits: int) -> int:
    """A number of this many bits."""
    held = operator.index(number)
    if not 0 <= held < 1 << bits:
        raise OverflowError(f"{held} is no number of {bits} bits")
    return held


class _Bytes:
    """The bytes of an object with the buffer protocol, where they stand. While this is alive, so is the object, and its
    bytes aren't moved."""

    def __init__(self, data: Any) -> None:
        self._view = memoryview(data)
        buffer = _Buffer()
        ctypes.pythonapi.PyObject_GetBuffer(ctypes.py_object(data), ctypes.byref(buffer), 0)
        self.pointer = (buffer.buf, buffer.len)
        ctypes.pythonapi.PyBuffer_Release(ctypes.byref(buffer))


def _fault_text(offset: int, kind: int, detail: int) -> str:
    fault, text = _Fault(offset, detail, kind), ctypes.create_string_buffer(128)
    length = _calls.dl_fault_text(ctypes.byref(fault), text, len(text))
    return text.raw[:length].decode()


def _row(row: _Row) -> Row:
    flags = [bool(row.flags & bit) for bit in (1, 2, 4, 8, 16)]
    return Row(row.address, row.file, row.line, row.column, row.isa, row.discriminator, row.op_index, *flags)


def _refuse(status: int, fault: _Fault) -> NoReturn:
    """Raises what a status says that is none of an answer."""
    if status == _FAULT:
        raise (FileFault if fault.kind >= _NOT_ELF else Damage)(fault.offset, fault.kind, fault.detail)
    if status == _OTHER_VERSION:
        raise OtherVersion("a unit that is not of version 5")
    if status == _NO_MEMORY:
        raise MemoryError("out of memory")
    raise RuntimeError(f"the status {status}, which the call doesn't answer")


def _is_damage(status: int, fault: _Fault) -> bool:
    """Whether units are damaged, and nothing else is wrong with a section."""
    return status == _FAULT and fault.kind < _NOT_ELF


class Section:
    """The bytes of a section .debug_line, whose numbers stand with the lowest byte first, or with `big` the highest. With
    `older`, the size of an address in bytes (1, 2, 4 or 8), units of versions 2 to 4 are read too, whose headers don't
    say that size; another size is a ValueError.

    `data` is any object with the buffer protocol whose bytes stand one after the other, as bytes, bytearray, array or
    mmap; so are `line_str` and `text` below, the bytes of .debug_line_str and .debug_str. They are read where they
    stand, so nothing else may change them during a call. A number that doesn't fit its type (an offset, an address and
    a file have 64 bits, an operation 8) is an OverflowError.
    """

    def __init__(self, data: Any, big: bool = False, older: int = 0) -> None:
        if older not in (0, 1, 2, 4, 8):
            raise ValueError(f"no address has {older} bytes")
        self._held = _Bytes(data)
        self._bytes = (*self._held.pointer, 2 * older + bool(big))

    def check(self, keep_going: bool = False) -> Counts:
        """Reads all units, and counts them, their sequences and their rows. A damaged section is raised; but with
        `keep_going` the reading goes on with the unit that begins where the initial length of the damaged one says, and
        the counts are those of the units that aren't damaged, with how many are and the first fault."""
        counts, fault = _Counts(), _Fault()
        status = _calls.dl_check(*self._how(keep_going), ctypes.byref(counts), ctypes.byref(fault))
        if status != _DONE and not (keep_going and status == _FAULT):
            _refuse(status, fault)
        first = Damage(fault.offset, fault.kind, fault.detail) if status == _FAULT else None
        return Counts(counts.units, counts.skipped, counts.sequences, counts.rows, counts.damaged, first)

    def _how(self, keep_going: bool) -> tuple[Any, int, int]:
        """The bytes, and what the calls are told besides."""
        pointer, length, how = self._bytes
        return pointer, length, how + _KEEP_GOING * bool(keep_going)

    def unit_at(self, offset: int) -> Optional[Unit]:
        """The unit that begins at an offset; None where the section has no byte there. What comes before the offset
        isn't looked at."""
        unit, fault = _Unit(), _Fault()
        status = _calls.dl_unit_at(*self._bytes, _number(offset, 64), ctypes.byref(unit), ctypes.byref(fault))
        if status == _NO_ANSWER:
            return None
        if status != _DONE:
            _refuse(status, fault)
        numbers = [getattr(unit, name) for name, _ in _Unit._fields_]
        return Unit(*numbers[:-1], bool(unit.is_dwarf64))

    def units(self) -> Iterator[Unit]:
        """The units, one after the other."""
        unit = self.unit_at(0)
        while unit is not None:
            yield unit
            unit = self.unit_at(unit.offset + unit.length)

    def rows_at(self, offset: int) -> Iterator[Row]:
        """The rows of the unit that begins at an offset, none where the section has no byte there; of a damaged unit
        those before the fault, which is raised after them. A unit that has rows is read twice: how many there are is
        known after the first time."""
        return self._rows_at(_number(offset, 64))

    def _rows_at(self, offset: int) -> Iterator[Row]:
        count, fault = ctypes.c_size_t(0), _Fault()
        answer = (ctypes.byref(count), ctypes.byref(fault))
        status = _calls.dl_rows_at(*self._bytes, offset, None, 0, *answer)
        room = count.value
        if room > 0:
            rows = (_Row * room)()
            status = _calls.dl_rows_at(*self._bytes, offset, rows, room, *answer)
            if status in (_DONE, _FAULT):
                yield from map(_row, rows)
        if status not in (_DONE, _NO_ANSWER):
            _refuse(status, fault)

    def path_at(self, offset: int, file: int, line_str: Any = b"", text: Any = b"") -> Optional[bytes]:
        """The path of the file of this number in the unit that begins at an offset, joined as `dwline addr` joins it:
        `??` where the unit has no such file, or its own name isn't there; None where the section has no byte
        there. `line_str` and `text` are the bytes of .debug_line_str and .debug_str. A path of more than 256 bytes is
        told twice."""
        numbers = (_number(offset, 64), _number(file, 64))
        strings = (_Bytes(line_str), _Bytes(text))
        length, fault, room = ctypes.c_size_t(256), _Fault(), 0
        while room < length.value:
            room = length.value
            path = ctypes.create_string_buffer(room)
            answer = (path, room, ctypes.byref(length), ctypes.byref(fault))
            status = _calls.dl_path_at(*self._bytes, *numbers, *strings[0].pointer, *strings[1].pointer, *answer)
            if status == _NO_ANSWER:
                return None
            if status != _DONE:
                _refuse(status, fault)
        return path.raw[: length.value]

    def paths_at(
        self, offset: int, files: Sequence[int], line_str: Any = b"", text: Any = b""
    ) -> Optional[List[bytes]]:
        """The paths of the files of these numbers in the unit that begins at an offset, each as `path_at` tells it, in
        one pass over the unit; None where the section has no byte there. Paths of more than 64 bytes each are told
        twice."""
        count, room, fault = len(files), 64 * len(files), _Fault()
        asked = (ctypes.c_uint64 * count)(*(_number(file, 64) for file in files))
        unit, ends = _number(offset, 64), (ctypes.c_size_t * count)()
        strings = (_Bytes(line_str), _Bytes(text))
        status = _NO_ROOM
        while status == _NO_ROOM:
            paths = ctypes.create_string_buffer(room + 1)
            answer = (paths, room, ends, ctypes.byref(fault))
            status = _calls.dl_paths_at(
                *self._bytes, unit, asked, count, *strings[0].pointer, *strings[1].pointer, *answer
            )
            room = ends[-1] if count > 0 else 0
        if status == _NO_ANSWER:
            return None
        if status != _DONE:
            _refuse(status, fault)
        told = paths.raw
        return [told[start:end] for start, end in zip([0, *ends], ends)]

    def copy(self) -> bytes:
        """All units, written anew: each under its header with opcode_base 13 and with the same rows, its numbers
        shortest. Where the copy is longer than the section it is made twice."""
        room, status = self._bytes[1], _NO_ROOM
        while status == _NO_ROOM:
            out, copied, fault = ctypes.create_string_buffer(room + 1), ctypes.c_size_t(), _Fault()
            status = _calls.dl_copy(*self._bytes, out, room, ctypes.byref(copied), ctypes.byref(fault))
            room = copied.value
        if status != _DONE:
            _refuse(status, fault)
        return out.raw[:room]

    def find(self, address: int, op_index: int = 0) -> Optional[Found]:
        """The row that answers for an address and an operation of its instruction, in the first unit that has one."""
        row, unit, fault = _Row(), ctypes.c_uint64(), _Fault()
        place, answer = (_number(address, 64), _number(op_index, 8)), (ctypes.byref(row), ctypes.byref(unit))
        status = _calls.dl_find(*self._bytes, *place, *answer, ctypes.byref(fault))
        if status == _NO_ANSWER:
            return None
        if status != _DONE:
            _refuse(status, fault)
        return Found(_row(row), unit.value)

    def find_all(self, addresses: Sequence[int], keep_going: bool = False) -> List[Optional[Found]]:
        """For each address the row that answers for it, in the first unit that has one, in one pass over the section. A
        damaged section is raised; the units before the fault answer by `find_before`. With `keep_going` all units that
        aren't damaged answer, and no damage is raised: `check` tells of it."""
        found, status, fault = self._find_all(addresses, keep_going)
        if status != _DONE and not (keep_going and status == _FAULT):
            _refuse(status, fault)
        return found

    def find_before(self, addresses: Sequence[int]) -> List[Optional[Found]]:
        """The same by the units before the first fault, if there is one."""
        found, status, fault = self._find_all(addresses, False)
        if status not in (_DONE, _FAULT):
            _refuse(status, fault)
        return found

    def _find_all(self, addresses: Sequence[int], keep_going: bool) -> tuple[List[Optional[Found]], int, _Fault]:
        count, fault = len(addresses), _Fault()
        rows, units = (_Row * count)(), (ctypes.c_uint64 * count)()
        asked = (ctypes.c_uint64 * count)(*(_number(address, 64) for address in addresses))
        status = _calls.dl_find_all(*self._how(keep_going), asked, count, rows, units, ctypes.byref(fault))
        answers = zip(rows, units)
        return [None if unit == _NO_UNIT else Found(_row(row), unit) for row, unit in answers], status, fault

    def lines(
        self,
        path: Any,
        line: int,
        exact: bool = False,
        line_str: Any = b"",
        text: Any = b"",
        keep_going: bool = False,
    ) -> List[Place]:
        """The places of the line of a file, by their addresses, as `dwline lines` finds them: of the files whose path is this
        one (a str by its bytes in UTF-8, or bytes), or ends in it after a slash, the first statement of each run of rows that
        have the line. Where it has none, the least line above it that has one answers, but not with `exact`. A damaged section
        is raised; the units before the fault answer by `lines_before`. With `keep_going` all units that aren't damaged answer,
        and no damage is raised: `check` tells of it. More than 64 places are told twice."""
        places, status, fault = self._lines(path, line, exact, line_str, text, keep_going)
        if status not in (_DONE, _NO_ANSWER) and not (keep_going and _is_damage(status, fault)):
            _refuse(status, fault)
        return places

    def lines_before(
        self, path: Any, line: int, exact: bool = False, line_str: Any = b"", text: Any = b""
    ) -> List[Place]:
        """The same by the units before the first fault, if there is one."""
        places, status, fault = self._lines(path, line, exact, line_str, text, False)
        if status not in (_DONE, _NO_ANSWER, _FAULT):
            _refuse(status, fault)
        return places

    def _lines(
        self, path: Any, line: int, exact: bool, line_str: Any, text: Any, keep_going: bool
    ) -> tuple[List[Place], int, _Fault]:
        strings = (_Bytes(line_str), _Bytes(text), _Bytes(path.encode() if isinstance(path, str) else path))
        asked = [number for held in strings for number in held.pointer] + [_number(line, 64), bool(exact)]
        room, count, fault = 0, ctypes.c_size_t(64), _Fault()
        while room < count.value:
            room, count.value = count.value, 0
            places = (_Place * room)()
            answer = (places, room, ctypes.byref(count), ctypes.byref(fault))
            status = _calls.dl_lines(*self._how(keep_going), *asked, *answer)
        told = [Place(place.address, place.line, place.column, bool(place.prologue_end)) for place in places[: count.value]]
        return told, status, fault

    def sources(self, line_str: Any = b"", text: Any = b"", keep_going: bool = False) -> List[SourceFile]:
        """The source files, in the order of their paths' bytes, as `dwline sources` finds them: each path that a table of files
        names, with what the rows come to that name it, and its MD5 sums. A damaged section is raised; those of the units before
        the fault are told by `sources_before`. With `keep_going` those of all units that aren't damaged are told, and no damage
        is raised: `check` tells of it. More than 64 of them, or than 4,096 bytes of paths, are told twice."""
        files, status, fault = self._sources(line_str, text, keep_going)
        if status != _DONE and not (keep_going and _is_damage(status, fault)):
            _refuse(status, fault)
        return files

    def sources_before(self, line_str: Any = b"", text: Any = b"") -> List[SourceFile]:
        """The same of the units before the first fault, if there is one."""
        files, status, fault = self._sources(line_str, text, False)
        if status not in (_DONE, _FAULT):
            _refuse(status, fault)
        return files

    def _sources(self, line_str: Any, text: Any, keep_going: bool) -> tuple[List[SourceFile], int, _Fault]:
        strings = (_Bytes(line_str), _Bytes(text))
        asked = [number for held in strings for number in held.pointer]
        room, paths_room, fault = 0, 0, _Fault()
        count, paths_len = ctypes.c_size_t(64), ctypes.c_size_t(4096)
        while room < count.value or paths_room < paths_len.value:
            room, paths_room = max(room, count.value), max(paths_room, paths_len.value)
            count.value = paths_len.value = 0
            sources, paths = (_Source * room)(), ctypes.create_string_buffer(paths_room)
            answer = (sources, room, ctypes.byref(count), paths, paths_room, ctypes.byref(paths_len), ctypes.byref(fault))
            status = _calls.dl_sources(*self._how(keep_going), *asked, *answer)
        return _files(sources[: count.value], paths.raw), status, fault

    def findings(
        self, line_str: Any = b"", text: Any = b"", rules: Iterable[str] = RULES, keep_going: bool = False
    ) -> List[Finding]:
        """What misleads a debugger by these rules, in the order of the section, as `dwline lint` finds it of a section alone:
        of a string section without bytes each text is missing. A damaged section is raised; the findings before the fault are
        told by `findings_before`. With `keep_going` those in all units are told, in damaged ones those before their faults,
        and no damage is raised: `check` tells of it. More than 64 of them are told twice."""
        found, status, fault = self._findings(line_str, text, rules, keep_going)
        if status not in (_DONE, _NO_ANSWER) and not (keep_going and _is_damage(status, fault)):
            _refuse(status, fault)
        return found

    def findings_before(self, line_str: Any = b"", text: Any = b"", rules: Iterable[str] = RULES) -> List[Finding]:
        """The same up to the first fault, if there is one."""
        found, status, fault = self._findings(line_str, text, rules, False)
        if status not in (_DONE, _NO_ANSWER, _FAULT):
            _refuse(status, fault)
        return found

    def _findings(
        self, line_str: Any, text: Any, rules: Iterable[str], keep_going: bool
    ) -> tuple[List[Finding], int, _Fault]:
        strings = (_Bytes(line_str), _Bytes(text))
        asked = [number for held in strings for number in held.pointer]
        bits = sum(1 << place for place in {RULES.index(rule) for rule in rules})
        room, count, fault = 0, ctypes.c_size_t(64), _Fault()
        while room < count.value:
            room, count.value = count.value, 0
            findings = (_Finding * room)()
            answer = (findings, room, ctypes.byref(count), ctypes.byref(fault))
            status = _calls.dl_findings(*self._how(keep_going), bits, *asked, *answer)
        return [_finding(finding) for finding in findings[: count.value]], status, fault


def _finding(finding: _Finding) -> Finding:
    """A finding that a call told."""
    row = (finding.row, finding.address, finding.op_index)
    return Finding(finding.offset, RULES[finding.rule], *row, tuple(finding.numbers))


def _files(sources: Sequence[_Source], paths: bytes) -> List[SourceFile]:
    """The source files of elements and paths that a call told: those of one path, one for each of its sums, make one file."""
    files = []
    for (begin, length), of_one in itertools.groupby(sources, lambda source: (source.path_begin, source.path_len)):
        elements = list(of_one)
        sums = [bytes(source.md5) for source in elements if source.has_md5]
        files.append(SourceFile(paths[begin : begin + length], elements[0].rows, elements[0].bytes, sums))
    return files


def _location(location: _Location) -> Optional[Location]:
    """What a call told, with its path joined; None where it tells nothing."""
    if not location.is_found:
        return None
    path = b"".join(ctypes.string_at(text.bytes, text.len) for text in location.texts if text.len > 0)
    numbers = (location.line, location.column, location.discriminator)
    return Location(path if location.has_path else b"??", *numbers, location.is_stmt, location.unit)


class Index:
    """An index: bytes, made once of a file, that tell of each address what `dwline addr` tells of it. It is made by `of_file`,
    or opened by `open`; `data` has the bytes, which may be written to a file. Iterating gives its stretches, the gaps between
    them too, in rising order.

    The bytes are read where they stand, so nothing else may change them during a call. An address that doesn't fit 64 bits
    is an OverflowError.
    """

    def __init__(self, data: Any, checked: bool = True) -> None:
        self.data = data
        self._held = _Bytes(data)
        self._index, fault = _Index(), _IndexFault()
        call = _calls.dl_index_open if checked else _calls.dl_index_open_unchecked
        if call(*self._held.pointer, ctypes.byref(self._index), ctypes.byref(fault)) != _DONE:
            raise NoIndex(fault.kind, fault.version)

    @classmethod
    def open(cls, data: Any) -> Index:
        """The index that bytes are, which are checked whole, in one pass; else NoIndex is raised. `data` is any object with
        the buffer protocol whose bytes stand one after the other, as bytes, bytearray, array or mmap."""
        return cls(data)

    @classmethod
    def open_unchecked(cls, data: Any) -> Index:
        """The same, but of the bytes only the first 128 are checked. Where others are damaged the answers are wrong, or none;
        none outside is read."""
        return cls(data, False)

    @classmethod
    def of_file(cls, path: Any, all_sequences: bool = False, keep_going: bool = False) -> Index:
        """The index of the ELF file at a path, which is mapped while the index is made. With `all_sequences` each sequence
        counts, one that begins where there is no code too. FileFault is raised where it has no line table that is read, and
        Damage where that is damaged; with `keep_going` damaged units are gone around."""
        with open(path, "rb") as file, mmap.mmap(file.fileno(), 0, access=mmap.ACCESS_READ) as data:
            return cls.of_bytes(data, all_sequences, keep_going)

    @classmethod
    def of_bytes(cls, data: Any, all_sequences: bool = False, keep_going: bool = False) -> Index:
        """The index of the ELF file that these bytes are, as by `of_file`."""
        held, how = _Bytes(data), _ALL * bool(all_sequences) + _KEEP_GOING * bool(keep_going)
        room, status = held.pointer[1] + 4096, _NO_ROOM
        while status == _NO_ROOM:
            out, made, fault = bytearray(room), ctypes.c_size_t(), _Fault()
            answer = ((ctypes.c_uint8 * room).from_buffer(out), room, ctypes.byref(made), ctypes.byref(fault))
            status = _calls.dl_index_build_into(*held.pointer, how, *answer)
            room = made.value
        if room == 0 or (status == _FAULT and not keep_going):
            _refuse(status, fault)
        return cls(bytes(memoryview(out)[:room]), False)

    def find(self, address: int) -> Optional[Location]:
        """What is told of an address; None in a gap, and before the first stretch."""
        location = _Location()
        _calls.dl_index_find(ctypes.byref(self._index), _number(address, 64), ctypes.byref(location))
        return _location(location)

    def find_many(self, addresses: Sequence[int]) -> List[Optional[Location]]:
        """What is told of each address, as by `find`, in one call."""
        count = len(addresses)
        asked = (ctypes.c_uint64 * count)(*(_number(address, 64) for address in addresses))
        locations = (_Location * count)()
        _calls.dl_index_find_many(ctypes.byref(self._index), asked, count, locations)
        return list(map(_location, locations))

    def __len__(self) -> int:
        """How many stretches there are."""
        return self._index.stretches

    def __iter__(self) -> Iterator[Stretch]:
        for number in range(len(self)):
            start, last, location = ctypes.c_uint64(), ctypes.c_uint64(), _Location()
            answer = (ctypes.byref(start), ctypes.byref(last), ctypes.byref(location))
            if _calls.dl_index_stretch(ctypes.byref(self._index), number, *answer) == _DONE:
                yield Stretch(start.value, last.value, _location(location))

    @property
    def build_id(self) -> bytes:
        """The build ID of the file; of a longer one the first 32 bytes, and none where the file has none."""
        return ctypes.string_at(self._index.build_id, self._index.build_id_len)

    @property
    def has_all_sequences(self) -> bool:
        """Whether each sequence counts, one that begins where there is no code too."""
        return self._index.all
