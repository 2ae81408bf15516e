"""Locations of addresses in the files of tests/data.

They are those of llvm-symbolizer 14 and of elfutils' eu-addr2line 0.188 where they answer, with the directories of
compilations that .debug_info says of units before version 5. LLVM keeps 16 bits of a column, and neither reads
operations, which has no .debug_info: those are the rows of its expected dump. Of object files they are those of
addr2line with the same section."""

SERIES = "/boxantrel/series.c"
RANGE = "/boxantrel/include/range.h"
MAIN = "/boxantrel/main.c"
NONE = "??:0"

# The folder, the words behind `addr FILE`, and the answers. The status is 1 where an address has none.
LOCATIONS = [
    # At a row, between rows, at the last byte of a sequence, where one ends and another begins, in the second unit. The
    # answers come in the order of the addresses, which may be repeated.
    ("gcc-O2", "0x401000 0x401017 0x40101a 0x40109c 0x40109d 0x4010ac 0x401000", [
        f"{SERIES}:8:23", f"{SERIES}:6:9", f"{RANGE}:19:44", f"{SERIES}:24:1", f"{SERIES}:30:18", f"{SERIES}:32:5",
        f"{SERIES}:8:23"]),
    ("gcc-O2", "4010e6 0x4010b0 0x40110c", ["/boxantrel/grammar.y:70004:27", f"{MAIN}:22:1", f"{MAIN}:28:9"]),
    # Below all rows, in the gap between two sequences, and behind the last one.
    ("gcc-O2", "0 0x400fff 0x401000 0x4010ad 0x4010af 0x40110d", [NONE, NONE, f"{SERIES}:8:23", NONE, NONE, NONE]),
    ("gcc-O2", "0xffffffffffffffff", [NONE]),
    # Columns and lines that are 0, two directories, big numbers, an operation, both orders, a table without rows.
    ("assembler", "0x401134 0x401133 0x4122b7", [
        "/boxantrel/parts/second.y:2", "/boxantrel/first.y:1000000:70000", "/boxantrel/parts/second.y:30:4"]),
    ("clang-O2", "0x401004", [f"{SERIES}:0:5"]),
    ("gcc-dwarf64", "0x40109d", [f"{SERIES}:30:5"]),
    ("operations", "0x20000 0x20004 0x2000c", ["/boxantrel/packed.c:10", "/boxantrel/packed.c:11", NONE]),
    ("gcc-powerpc", "0x10000087", [f"{SERIES}:5:1"]),
    ("gcc-mixed", "0x401110", ["/boxantrel/spare.c:4:31"]),
    ("clang-split", "0x401000", [NONE]),
    # Units of versions 2 to 4, whose tables don't have the compilation directory: .debug_info does.
    ("gcc-mixed", "0x4010b0", [f"{MAIN}:22:1"]),
    ("gcc-dwarf2", "0x401000 0x401012", [f"{SERIES}:8:10", f"{SERIES}:6:23"]),
    ("gcc-dwarf3", "0x401000 0x401012", [f"{SERIES}:8:10", f"{SERIES}:6:23"]),
    ("gcc-dwarf4", "0x401018 0x401028", [f"{SERIES}:9:18", f"{SERIES}:8:23"]),
    ("gcc-dwarf4-64", "0x401016 0x401034", [f"{RANGE}:12:48", f"{RANGE}:17:1"]),
    ("clang-dwarf2", "0x401020 0x4010db", [f"{SERIES}:8:5", f"{RANGE}:17:9"]),
    ("clang-dwarf4", "0x401020 0x4010db", [f"{SERIES}:8:5", f"{RANGE}:17:9"]),
    ("clang-dwarf3", "0x401041 0x401060", [f"{SERIES}:9:15", f"{RANGE}:16"]),
    ("clang-powerpc-dwarf4", "0x1001014c 0x10010190", [f"{SERIES}:8:33", f"{SERIES}:8:5"]),
    ("fpc-dwarf2", "0x4010ca", ["/tmp/ex2/fp/series.pas:13:27"]),
    ("go-dwarf2", "0x457c7b 0x457c80", ["series.go:8", "series.go:9"]),
    # In an object file an address is relative to a section: each function has its own here, and .text is empty.
    *[line for option in ("-j", "--section") for line in [
        ("object-gcc", f"{option} .text.sum 0 0x20", [f"{SERIES}:8:23", f"{RANGE}:19:44"]),
        ("object-gcc", f"0x20 {option} .text.longest_run", [f"{SERIES}:19:15"]),
        ("object-gcc", f"{option} .text.fail 0 0x10", [f"{SERIES}:30:18", NONE]),
    ]],
    ("object-gcc", "--section=.text._start 0 1", [f"{MAIN}:22:1", f"{MAIN}:24:17"]),
    ("object-gcc", "0x20", [f"{RANGE}:19:44"]),
    ("object-gcc", "-j .text 0x20", [NONE]),
    ("object-gcc", "-j .comment 0x20", [NONE]),
    ("object-clang", "-j .text._Z11longest_runPKii5range 0 1", [f"{SERIES}:14", f"{SERIES}:18:23"]),
    # Without relocations each sequence answers.
    ("operations", "0x20000", ["/boxantrel/packed.c:10"]),
]
