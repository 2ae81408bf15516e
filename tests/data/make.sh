#!/usr/bin/env bash
# Builds sources/ with several compilers and puts each build into a folder of its name: the ELF file
# `program` and its raw sections debug_line, debug_line_str, debug_str. The files expected.dump aren't touched.
# Debian 12: apt-get install gcc clang llvm lld fp-compiler golang gcc-aarch64-linux-gnu gcc-i686-linux-gnu gcc-powerpc-linux-gnu \
#     gcc-riscv64-linux-gnu gcc-s390x-linux-gnu
set -euo pipefail
cd "$(dirname "$0")"
here=$PWD
work=$(mktemp -d)
trap 'rm -rf "$work"' EXIT
cp -r sources "$work/boxantrel"
cd "$work/boxantrel"

flags="-gdwarf-5 -ffreestanding -fno-stack-protector -fno-pie -Iinclude"
flags+=" -fdebug-prefix-map=$PWD=/boxantrel"
# The programs are linked, so that the sections' relocations are done. They are never run.
link="-nostdlib -static -Wl,--build-id=none"

# section FILE SECTION FOLDER/NAME: the bytes of a section of an ELF file.
section() {
    mkdir -p "$here/${3%/*}"
    llvm-objcopy --dump-section="$2=$here/$3" "$1" /dev/null
}

# program FOLDER: the program just linked and its three sections.
program() {
    mkdir -p "$here/$1"
    cp program "$here/$1/program"
    for name in debug_line debug_line_str debug_str; do
        ! readelf -SW program | grep -q " \.$name " || section program ".$name" "$1/$name"
    done
}

# build FOLDER COMPILER OPTION..: both C files, compiled and linked by one command.
build() {
    "${@:2}" $flags $link series.c main.c -o program
    program "$1"
}

build gcc-O0 gcc -O0
build gcc-O2 gcc -O2
# Without the assembler's help gcc writes the table itself, with parameters of its own.
build gcc-dwarf64 gcc -O2 -gdwarf64 -gno-as-loc-support
build clang-O2 clang -O2
# -gembed-source puts each file's text into the table, under a content code of the vendor's.
build clang-dwarf64 clang -O0 -gdwarf64 -gembed-source
# Big-endian, addresses of 4 bytes, instructions of 4 bytes.
build gcc-powerpc powerpc-linux-gnu-gcc -O2 -Wa,--gdwarf-5,--debug-prefix-map="$PWD=/boxantrel"
# Big-endian, addresses of 8 bytes.
build gcc-s390x s390x-linux-gnu-gcc -O2 -Wa,--gdwarf-5,--debug-prefix-map="$PWD=/boxantrel"
# The linker may shorten code here, so the assembler writes each step as fixed_advance_pc.
build gcc-riscv64 riscv64-linux-gnu-gcc -O2

# A unit of version 4 between two of version 5.
gcc $flags -O2 -c series.c -o series.o
gcc $flags -gdwarf-4 -Wa,--gdwarf-4 -O2 -c main.c -o main.o
gcc $flags -O2 -c spare.c -o spare.o
gcc $link series.o main.o spare.o -o program
program gcc-mixed

# older FOLDER COMPILER OPTION..: the same programs with units of versions 2 to 4.
older() {
    "${@:2}" ${flags/-gdwarf-5/} $link series.c main.c -o program
    program "$1"
}

# gcc writes these tables itself where the assembler doesn't help it; the assembler has no version 2.
older gcc-dwarf2 gcc -O2 -gdwarf-2 -gno-as-loc-support
older gcc-dwarf3 gcc -O2 -gdwarf-3 -gdwarf64 -gno-as-loc-support
older gcc-dwarf4 gcc -O2 -gdwarf-4 -Wa,--gdwarf-4
older gcc-dwarf4-64 gcc -O0 -gdwarf-4 -gdwarf64 -gno-as-loc-support
older clang-dwarf2 clang -O2 -gdwarf-2
older clang-dwarf3 clang -O0 -gdwarf-3
# C++.
older clang-dwarf4 clang -O2 -gdwarf-4 -x c++
# Big-endian, addresses of 4 bytes.
older clang-powerpc-dwarf4 clang --target=powerpc-linux-gnu -O2 -gdwarf-4 -fuse-ld=lld

# Pascal, of which the debug information alone is kept.
fpc -O2 -gw2 series.pas -oseries > /dev/null
objcopy --only-section=.debug_line --only-section=.debug_info --only-section=.debug_abbrev series program
program fpc-dwarf2

# Go: the units of its line table but that of the package runtime, which is nineteen twentieths of it.
GO111MODULE=off GOFLAGS=-trimpath GOCACHE=$work/go go build -ldflags=-compressdwarf=false -o series_go series.go
objcopy --only-section=.debug_line series_go program
objcopy --dump-section .debug_line=whole program
python3 - whole short <<'END'
import struct
import sys

with open(sys.argv[1], "rb") as file:
    whole = file.read()
with open(sys.argv[2], "wb") as short:
    at = 0
    while at < len(whole):
        size = 4 + struct.unpack_from("<I", whole, at)[0]
        if size < 1 << 16:
            short.write(whole[at:at + size])
        at += size
END
objcopy --update-section .debug_line=short program
program go-dwarf2

# Every flag and register that an assembler can set.
gcc $link -Wa,--debug-prefix-map="$PWD=/boxantrel" flags.s -o program
program assembler

# Paths that stand in the table itself, and no rows.
clang $flags -O2 -gsplit-dwarf -fdebug-types-section -c -x c++ series.c -o series.o
section series.dwo .debug_line.dwo clang-split/debug_line
cp series.dwo "$here/clang-split/program"

# Without its debug information, which a build ID leads to.
mkdir -p "$here/stripped"
gcc $flags -O2 -nostdlib -static -Wl,--build-id=0xc0ffee0123456789 -s series.c main.c -o "$here/stripped/program"

# Sections that are compressed, by the assembler and the linker and in the programs of other folders.
compress() {
    mkdir -p "$here/$2"
    llvm-objcopy --compress-debug-sections="$1" "$here/$3/program" "$here/$2/program"
}

mkdir -p "$here/compressed"
gcc $flags -O2 $link -gz=zlib series.c main.c -o "$here/compressed/program"
compress zlib-gnu compressed-gnu gcc-O2
compress zlib compressed-powerpc gcc-powerpc
compress zlib-gnu compressed-gnu-powerpc gcc-powerpc

# Two operations in an instruction, and names in both string sections.
as operations.s -o program
program operations

# objects FOLDER PREFIX COMPILER OPTION..: both C files, each function in a section of its own, as one object file.
objects() {
    for name in series main; do
        "${@:3}" $flags -ffunction-sections -c "$name.c" -o "$name.o"
    done
    mkdir -p "$here/$1"
    "$2ld" -r series.o main.o -o "$here/$1/program"
}

objects object-gcc "" gcc -O2
# C++, and the table has the MD5 sums of its files.
objects object-clang "" clang -O2 -x c++
objects object-aarch64 aarch64-linux-gnu- aarch64-linux-gnu-gcc -O2
# The linker may shorten code: the table's advances are sums and differences of labels.
objects object-riscv64 riscv64-linux-gnu- riscv64-linux-gnu-gcc -O2
# Addends stand in the section, not in the relocations.
objects object-i386 i686-linux-gnu- i686-linux-gnu-gcc -O2
objects object-powerpc powerpc-linux-gnu- powerpc-linux-gnu-gcc -O2 -Wa,--gdwarf-5,--debug-prefix-map="$PWD=/boxantrel"

# Rust, whose units are of version 4.
mkdir -p "$here/object-rustc"
rustc --edition 2021 -g -O --remap-path-prefix "$PWD=/boxantrel" --emit obj series.rs -o "$here/object-rustc/program"

# machine FOLDER TRIPLE [INSTRUCTION]: an object file of another machine.
machine() {
    mkdir -p "$here/$1"
    sed "s/^ nop/ ${3-nop}/" machines.s > machine.s
    llvm-mc -triple="$2" -dwarf-version=5 -filetype=obj machine.s -o "$here/$1/program"
}

# Entries with three types, in either order.
machine object-mips64 mips64
machine object-mips64el mips64el
machine object-mips mips
machine object-sparc sparc
machine object-sparcv9 sparcv9
machine object-bpf bpfel "r0 = r0"
# Addresses of 2 bytes.
machine object-avr avr
machine object-msp430 msp430
machine object-hexagon hexagon "{ nop }"
machine object-lanai lanai

# An object file whose sections are compressed, and whose relocations are of the inflated bytes.
mkdir -p "$here/compressed-object"
objcopy --compress-debug-sections=zlib "$here/object-gcc/program" "$here/compressed-object/program"
