"""Tests of the module, over sections of tests/data, whose rows and paths llvm-dwarfdump tells."""

import array
import copy
import ctypes
import gc
import mmap
import pathlib
import pickle
import tempfile
import unittest

from boxantrel import RULES, Counts, Damage, FileFault, Finding, Index, NoIndex, OtherVersion, Place, Section, SourceFile

DATA = pathlib.Path(__file__).resolve().parents[3] / "tests" / "data"
BYTES = (DATA / "gcc-O2" / "debug_line").read_bytes()
LINE_STR = (DATA / "gcc-O2" / "debug_line_str").read_bytes()
SERIES, RANGE = b"/boxantrel/series.c", b"/boxantrel/include/range.h"
ROWS = 91


# Of the first unit: how long it is, and where its line_range stands, which may not be 0 (DWARF 5, section 6.2.4).
FIRST, LINE_RANGE = 297, 16
DAMAGED = BYTES[:LINE_RANGE] + b"\0" + BYTES[LINE_RANGE + 1 : FIRST]


class LongBytes(bytes):
    """Bytes that say that they are more."""

    def __len__(self) -> int:
        return 1 << 40


class Numbers(unittest.TestCase):
    def setUp(self) -> None:
        self.section = Section(BYTES)

    def test_a_number_that_fits_no_64_bits(self) -> None:
        for number in (-1, 1 << 64, (1 << 64) + 0x401008):
            for call in (
                lambda: self.section.find(number),
                lambda: self.section.find_all([0x401008, number]),
                lambda: self.section.find_before([number]),
                lambda: self.section.unit_at(number),
                lambda: self.section.rows_at(number),
                lambda: self.section.path_at(number, 1),
                lambda: self.section.path_at(0, number),
                lambda: self.section.paths_at(number, [1]),
                lambda: self.section.paths_at(0, [1, number]),
                lambda: self.section.lines(SERIES, number),
                lambda: self.section.lines_before(SERIES, number),
                lambda: Damage(number, 16, 0),
                lambda: Damage(0, 16, number),
            ):
                self.assertRaises(OverflowError, call)

    def test_an_operation_that_fits_no_8_bits(self) -> None:
        for number in (-1, 256, 257):
            self.assertRaises(OverflowError, self.section.find, 0x401008, number)

    def test_a_kind_that_fits_no_32_bits(self) -> None:
        self.assertRaises(OverflowError, Damage, 0, 1 << 32, 0)

    def test_the_greatest_numbers(self) -> None:
        most = (1 << 64) - 1
        self.assertIsNone(self.section.find(most, 255))
        self.assertIsNone(self.section.unit_at(most))
        self.assertEqual(list(self.section.rows_at(most)), [])
        self.assertIsNone(self.section.path_at(most, most))
        self.assertIsNone(self.section.paths_at(most, [most]))
        self.assertEqual(self.section.lines(SERIES, most, line_str=LINE_STR), [])

    def test_what_is_no_number(self) -> None:
        self.assertRaises(TypeError, self.section.find, 1.5)


class Buffers(unittest.TestCase):
    def rows_of(self, data: object) -> int:
        return Section(data).check().rows

    def test_elements_of_four_bytes(self) -> None:
        four = (DATA / "clang-O2" / "debug_line").read_bytes()
        wanted = self.rows_of(four)
        self.assertGreater(wanted, 0)
        self.assertEqual(self.rows_of(array.array("I", four)), wanted)
        self.assertEqual(self.rows_of((ctypes.c_uint32 * (len(four) // 4)).from_buffer_copy(four)), wanted)
        self.assertEqual(self.rows_of(memoryview(four).cast("B", (len(four) // 4, 4))), wanted)

    def test_a_length_that_is_not_that_of_the_bytes(self) -> None:
        self.assertEqual(self.rows_of(LongBytes(BYTES)), ROWS)
        section = Section(BYTES)
        self.assertEqual(section.path_at(0, 1, LongBytes(LINE_STR), LongBytes(b"")), SERIES)
        self.assertEqual(section.paths_at(0, [1], LongBytes(LINE_STR), LongBytes(b"")), [SERIES])

    def test_a_part_of_an_object(self) -> None:
        self.assertEqual(self.rows_of(memoryview(b"??" + BYTES + b"??")[2:-2]), ROWS)

    def test_a_file_that_is_mapped(self) -> None:
        with open(DATA / "gcc-O2" / "debug_line", "rb") as file:
            self.assertEqual(self.rows_of(mmap.mmap(file.fileno(), 0, access=mmap.ACCESS_READ)), ROWS)

    def test_an_object_that_can_be_written(self) -> None:
        data = bytearray(BYTES)
        section = Section(data)
        self.assertRaises(BufferError, data.append, 0)
        self.assertEqual(section.check().rows, ROWS)
        del section
        data.append(0)

    def test_an_object_that_nothing_else_holds(self) -> None:
        section = Section(bytearray(BYTES))
        gc.collect()
        others = [bytearray(len(BYTES)) for _ in range(100)]
        self.assertEqual(section.check().rows, ROWS)
        self.assertEqual(len(others), 100)

    def test_strings_of_any_kind(self) -> None:
        section = Section(BYTES)
        for strings in (bytearray(LINE_STR), memoryview(LINE_STR), array.array("B", LINE_STR)):
            self.assertEqual(section.path_at(0, 2, strings, bytearray()), RANGE)
            self.assertEqual(section.paths_at(0, [2], strings, bytearray()), [RANGE])

    def test_what_has_no_bytes_side_by_side(self) -> None:
        self.assertRaises(BufferError, Section, memoryview(BYTES)[::2])
        self.assertRaises(TypeError, Section, "text")
        self.assertRaises(TypeError, Section, 5)

    def test_no_bytes(self) -> None:
        for nothing in (b"", bytearray(), array.array("I")):
            section = Section(nothing)
            self.assertEqual(section.check().rows, 0)
            self.assertIsNone(section.paths_at(0, []))
            self.assertEqual(section.copy(), b"")


class Paths(unittest.TestCase):
    def test_files_in_any_order(self) -> None:
        section = Section(BYTES)
        self.assertEqual(section.paths_at(0, [2, 1, 2, 0], LINE_STR), [RANGE, SERIES, RANGE, SERIES])
        self.assertEqual(section.paths_at(0, [], LINE_STR), [])
        for offset in (unit.offset for unit in section.units()):
            files = [0, 9, 1, 1 << 63, 2, 3]
            each = [section.path_at(offset, file, LINE_STR) for file in files]
            self.assertEqual(section.paths_at(offset, files, LINE_STR), each)

    def test_long_paths(self) -> None:
        section, strings = Section(BYTES), b"/" + 5000 * b"x" + b"\0"
        paths = section.paths_at(0, list(range(3)), strings)
        self.assertEqual(paths, [section.path_at(0, file, strings) for file in range(3)])
        self.assertGreater(min(map(len, paths)), 4000)

    def test_a_damaged_unit(self) -> None:
        with self.assertRaises(Damage) as caught:
            Section(BYTES[:100]).paths_at(0, [1])
        self.assertEqual((caught.exception.offset, caught.exception.kind), (100, 17))

    def test_another_version(self) -> None:
        version_4 = bytes([2, 0, 0, 0, 4, 0])
        self.assertRaises(OtherVersion, Section(version_4).paths_at, 0, [1])


# Of line 8 of series.c, which has two runs with a statement, and none on the line before.
PLACES = [Place(0x401000, 8, 5, False), Place(0x40102E, 8, 33, False)]


class Lines(unittest.TestCase):
    def setUp(self) -> None:
        self.section = Section(BYTES)

    def lines(self, path: object, line: int, exact: bool = False) -> list:
        return self.section.lines(path, line, exact, LINE_STR)

    def test_the_first_statements_of_runs(self) -> None:
        for path in (SERIES, b"series.c", "series.c", bytearray(SERIES)):
            self.assertEqual(self.lines(path, 8), PLACES)
            self.assertEqual(self.lines(path, 8, True), PLACES)
        self.assertEqual(self.lines("include/range.h", 17), [Place(0x40101A, 17, 5, False)])
        self.assertEqual(self.lines("grammar.y", 70002), [Place(0x4010E6, 70002, 5, False)])

    def test_the_least_line_above(self) -> None:
        self.assertEqual(self.lines("series.c", 7), PLACES)
        self.assertEqual(self.lines("range.h", 11), [Place(0x401072, 12, 5, False)])
        self.assertEqual(self.lines("series.c", 7, True), [])

    def test_no_place(self) -> None:
        # The rows of line 19 of range.h are no statements; the others are parts of names, or none.
        for path, line in (("range.h", 18), ("series.c", 34), ("eries.c", 8), ("", 8), ("/", 8), ("series.c/", 8)):
            self.assertEqual(self.lines(path, line), [])
        self.assertEqual(self.section.lines("series.c", 8), [])
        self.assertEqual(Section(b"").lines("series.c", 8), [])

    def test_an_end_of_the_prologue(self) -> None:
        folder = DATA / "clang-O2"
        section = Section((folder / "debug_line").read_bytes())
        strings = (folder / "debug_line_str").read_bytes()
        ends = {row.address for unit in section.units() for row in section.rows_at(unit.offset) if row.prologue_end}
        places = [place for line in range(100) for place in section.lines("series.c", line, True, strings)]
        self.assertEqual({place.address for place in places if place.prologue_end} - ends, set())
        self.assertTrue(any(place.prologue_end for place in places))

    def test_many_places(self) -> None:
        address = (0x401000).to_bytes(8, "little")
        starts = [0x401000 + 0x1000 * number for number in range(100)]
        self.section = Section(b"".join(BYTES[:FIRST].replace(address, start.to_bytes(8, "little")) for start in starts))
        places = [place._replace(address=place.address - 0x401000 + start) for start in starts for place in PLACES]
        self.assertEqual(self.lines("series.c", 8), places)

    def test_a_damaged_unit(self) -> None:
        section = Section(DAMAGED + BYTES)
        self.assertRaises(Damage, section.lines, "series.c", 8, False, LINE_STR)
        self.assertEqual(section.lines_before("series.c", 8, False, LINE_STR), [])
        self.assertEqual(section.lines("series.c", 8, False, LINE_STR, keep_going=True), PLACES)
        behind = Section(BYTES + DAMAGED)
        self.assertEqual(behind.lines_before("series.c", 8, False, LINE_STR), PLACES)


# As llvm-dwarfdump tells the rows and the tables of this section.
FILES = [
    SourceFile(b"/boxantrel/grammar.y", 10, 26, []),
    SourceFile(b"/boxantrel/include/range.h", 9, 23, []),
    SourceFile(b"/boxantrel/main.c", 21, 67, []),
    SourceFile(SERIES, 48, 150, []),
    SourceFile(b"/boxantrel/series.h", 0, 0, []),
]

# Version 5, directory `/s` and `a.c` in it, up to its MD5 sum; and behind that a row of it, which has 8 bytes of code.
SUMMED = bytes.fromhex(
    "510000000500080036000000010101fb0e0d000101010100000001000001"
    "010108012f7300030108020f051e01612e630000"
)
ONE_ROW = bytes.fromhex("00090200100000000000000400010208000101")


class Sources(unittest.TestCase):
    def test_paths_and_counts(self) -> None:
        self.assertEqual(Section(BYTES).sources(LINE_STR), FILES)
        self.assertEqual(Section(BYTES).sources_before(LINE_STR), FILES)
        self.assertEqual(Section(BYTES).sources(LINE_STR, keep_going=True), FILES)
        twice = [file._replace(rows=2 * file.rows, code_bytes=2 * file.code_bytes) for file in FILES]
        self.assertEqual(Section(BYTES + BYTES).sources(LINE_STR), twice)

    def test_no_path(self) -> None:
        self.assertEqual(Section(BYTES).sources(), [])
        self.assertEqual(Section(b"").sources(LINE_STR), [])

    def test_sums(self) -> None:
        low, high = bytes(range(16)), b"\xff" + bytes(15)
        for sums in ([low], [high, low], [high, low, high], [low] * 100):
            section = Section(b"".join(SUMMED + each + ONE_ROW for each in sums))
            told = SourceFile(b"/s/a.c", len(sums), 8 * len(sums), sorted(set(sums)))
            self.assertEqual(section.sources(), [told])

    def test_many_files(self) -> None:
        # Each unit has a name of its own, of as many bytes. Sixteen zeros are no sum.
        names = [f"{number:03}" for number in range(200)]
        section = Section(b"".join(SUMMED.replace(b"a.c", name.encode()) + bytes(16) + ONE_ROW for name in names))
        told = [SourceFile(f"/s/{name}".encode(), 1, 8, []) for name in names]
        self.assertEqual(section.sources(), told)
        sums = [number.to_bytes(16, "big") for number in range(1, 201)]
        section = Section(b"".join(SUMMED + each + ONE_ROW for each in sums))
        self.assertEqual(section.sources(), [SourceFile(b"/s/a.c", 200, 1600, sums)])

    def test_a_damaged_unit(self) -> None:
        section = Section(DAMAGED + BYTES)
        self.assertRaises(Damage, section.sources, LINE_STR)
        self.assertEqual(section.sources_before(LINE_STR), [])
        self.assertEqual(section.sources(LINE_STR, keep_going=True), FILES)
        self.assertEqual(Section(BYTES + DAMAGED).sources_before(LINE_STR), FILES)


# A row of file 9 at 0x1000 in a unit whose table has one file, numbered from 0 on, with operations for a second row and an end row.
NO_FILE = SUMMED + bytes(16) + bytes.fromhex("00090200100000000000000409010208000101")
NINTH = len(SUMMED) + 16 + 13
NO_FILE_FOUND = [
    Finding(NINTH, "file-index", 1, 0x1000, 0, (9, 1, 0, 0)),
]


class Findings(unittest.TestCase):
    def test_rules(self) -> None:
        self.assertEqual(len(RULES), 19)
        self.assertEqual(Section(b"").findings(), [])
        self.assertEqual(Section(NO_FILE).findings(rules=["file-index"]), NO_FILE_FOUND)
        self.assertEqual(Section(NO_FILE).findings(rules=["padding"]), [])
        self.assertEqual(Section(NO_FILE).findings(rules=[]), [])
        self.assertRaises(ValueError, Section(NO_FILE).findings, rules=["no-such"])

    def test_many(self) -> None:
        found = Section(NO_FILE * 100).findings(rules=["file-index"])
        self.assertEqual([finding.offset for finding in found], [NINTH + len(NO_FILE) * k for k in range(100)])

    def test_texts(self) -> None:
        self.assertEqual(Section(BYTES).findings(LINE_STR, rules=["missing-text"]), [])
        found = Section(BYTES).findings(rules=["missing-text"])
        self.assertTrue(found)
        self.assertEqual({finding.rule for finding in found}, {"missing-text"})

    def test_a_damaged_unit(self) -> None:
        section = Section(DAMAGED + NO_FILE)
        self.assertRaises(Damage, section.findings)
        self.assertEqual(section.findings_before(rules=["file-index"]), [])
        behind = [finding._replace(offset=finding.offset + len(DAMAGED)) for finding in NO_FILE_FOUND]
        self.assertEqual(section.findings(rules=["file-index"], keep_going=True), behind)
        self.assertEqual(Section(NO_FILE + DAMAGED).findings_before(rules=["file-index"]), NO_FILE_FOUND)


class Around(unittest.TestCase):
    def test_a_damaged_unit_in_the_middle(self) -> None:
        section = Section(BYTES[:FIRST] + DAMAGED + BYTES[FIRST:])
        with self.assertRaises(Damage) as caught:
            section.check()
        counts = section.check(keep_going=True)
        self.assertEqual(counts, Section(BYTES).check()._replace(damaged=1, first=counts.first))
        self.assertEqual(str(counts.first), str(caught.exception))
        self.assertEqual((caught.exception.offset, caught.exception.kind), (FIRST + LINE_RANGE, 8))

    def test_the_units_after_it_answer(self) -> None:
        whole = Section(BYTES)
        addresses = sorted({row.address for unit in whole.units() for row in whole.rows_at(unit.offset)}) + [0]
        section = Section(DAMAGED + BYTES)
        self.assertRaises(Damage, section.find_all, addresses)
        self.assertEqual(section.find_before(addresses), [None] * len(addresses))
        found = section.find_all(addresses, keep_going=True)
        wanted = [answer and answer._replace(unit=FIRST + answer.unit) for answer in whole.find_all(addresses)]
        self.assertEqual(found, wanted)
        self.assertGreater(len([answer for answer in found if answer]), 10)

    def test_the_first_of_many(self) -> None:
        counts = Section(DAMAGED + DAMAGED + BYTES[:100]).check(keep_going=True)
        self.assertEqual(counts[:5], (0, 0, 0, 0, 3))
        self.assertEqual((counts.first.offset, counts.first.kind), (LINE_RANGE, 8))

    def test_no_unit_is_known_to_follow(self) -> None:
        counts = Section(BYTES + b"\xf0\xff\xff\xff" + BYTES).check(keep_going=True)
        self.assertEqual(counts[:4], Section(BYTES).check()[:4])
        self.assertEqual((counts.damaged, counts.first.kind), (1, 1))

    def test_nothing_is_damaged(self) -> None:
        section = Section(BYTES)
        self.assertEqual(section.check(keep_going=True), section.check())
        self.assertEqual(section.find_all([0x401008, 0], keep_going=True), section.find_all([0x401008, 0]))
        self.assertEqual(Section(b"").check(keep_going=True), Counts(0, 0, 0, 0, 0, None))


class Faults(unittest.TestCase):
    def test_copies(self) -> None:
        with self.assertRaises(Damage) as caught:
            Section(BYTES[:100]).check()
        fault = caught.exception
        self.assertEqual(str(fault), "damage at 0x64: input ends inside a unit")
        again = [copy.copy(fault), copy.deepcopy(fault)]
        again += [pickle.loads(pickle.dumps(fault, protocol)) for protocol in range(pickle.HIGHEST_PROTOCOL + 1)]
        for other in again:
            self.assertIs(type(other), Damage)
            self.assertEqual(str(other), str(fault))
            self.assertEqual((other.offset, other.kind, other.detail), (100, 17, 0))


class Indices(unittest.TestCase):
    def setUp(self) -> None:
        self.path = DATA / "gcc-O2" / "program"
        self.index = Index.of_file(self.path)

    def test_addresses(self) -> None:
        found = self.index.find(0x401008)
        assert found is not None
        self.assertEqual((found.path, found.line, found.unit), (SERIES, 8, 0))
        self.assertIsNone(self.index.find(0))
        asked = [0, 0x401008] * 70
        self.assertEqual(self.index.find_many(asked), [None, found] * 70)
        self.assertEqual(self.index.find_many([]), [])
        for number in (-1, 1 << 64):
            self.assertRaises(OverflowError, self.index.find, number)
            self.assertRaises(OverflowError, self.index.find_many, [0, number])

    def test_stretches(self) -> None:
        stretches = list(self.index)
        self.assertEqual(len(stretches), len(self.index))
        self.assertEqual(stretches[-1].last, (1 << 64) - 1)
        for stretch, following in zip(stretches, stretches[1:]):
            self.assertEqual(stretch.last + 1, following.start)
            self.assertEqual(self.index.find(stretch.start), stretch.location)
            self.assertEqual(self.index.find(stretch.last), stretch.location)

    def test_buffers(self) -> None:
        whole = self.path.read_bytes()
        for data in (whole, bytearray(whole), memoryview(whole)):
            self.assertEqual(Index.of_bytes(data).data, self.index.data)
        for data in (bytearray(self.index.data), memoryview(self.index.data)):
            self.assertEqual(list(Index.open(data)), list(self.index))
        with tempfile.TemporaryFile() as file:
            file.write(self.index.data)
            file.flush()
            with mmap.mmap(file.fileno(), 0, access=mmap.ACCESS_READ) as mapped:
                opened = Index.open(mapped)
                self.assertEqual(opened.find(0x401008), self.index.find(0x401008))
                del opened
                gc.collect()

    def test_what_it_says_of_its_file(self) -> None:
        self.assertFalse(self.index.has_all_sequences)
        self.assertTrue(Index.of_file(self.path, all_sequences=True).has_all_sequences)
        self.assertLessEqual(len(self.index.build_id), 32)

    def test_faults(self) -> None:
        damaged = bytearray(self.index.data)
        damaged[-1] ^= 1
        with self.assertRaises(NoIndex) as caught:
            Index.open(damaged)
        self.assertEqual((caught.exception.kind, str(caught.exception)), (5, "damaged index: sum"))
        self.assertEqual(Index.open_unchecked(damaged).find(0), None)
        self.assertRaises(NoIndex, Index.open, b"")
        with self.assertRaises(FileFault) as refused:
            Index.of_bytes(BYTES)
        self.assertEqual(str(refused.exception), "not an ELF file")
        self.assertRaises(FileFault, Index.of_bytes, (DATA / "stripped" / "program").read_bytes())


if __name__ == "__main__":
    unittest.main()
