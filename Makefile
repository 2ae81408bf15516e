PREFIX ?= /usr/local
DESTDIR ?=

# Where the program and what belongs to it go.
bin = $(DESTDIR)$(PREFIX)/bin/dwline
man = $(DESTDIR)$(PREFIX)/share/man/man1/dwline.1
bash = $(DESTDIR)$(PREFIX)/share/bash-completion/completions/dwline
zsh = $(DESTDIR)$(PREFIX)/share/zsh/site-functions/_dwline
fish = $(DESTDIR)$(PREFIX)/share/fish/vendor_completions.d/dwline.fish

# Where the library and its header go.
archive = $(DESTDIR)$(PREFIX)/lib/libboxantrel.a
shared = $(DESTDIR)$(PREFIX)/lib/libboxantrel.so
header = $(DESTDIR)$(PREFIX)/include/boxantrel.h
package = $(DESTDIR)$(PREFIX)/lib/pkgconfig/boxantrel.pc

version = $(shell sed -n 's/^.* VERSION: &str = "\(.*\)";$$/\1/p' crates/dl_options/src/command_line.rt)

# The program, at crates/dwline/out/dwline. A line tells of each crate that is proved; out/prove.log has what the prover says, and
# out/seconds what each crate took.
dwline:
	tools/rt prove dwline

# What `dwline dump` prints of a section that ships with the repository.
example: dwline
	crates/dwline/out/dwline dump --line-str tests/data/gcc-O2/debug_line_str \
		--str tests/data/gcc-O2/debug_str < tests/data/gcc-O2/debug_line

# The same without a proof, or dwline with other words: make try ARGS="addr tests/data/gcc-O2/program 0x401008".
section = --line-str tests/data/gcc-O2/debug_line_str --str tests/data/gcc-O2/debug_str < tests/data/gcc-O2/debug_line
try:
	tools/try.sh $(or $(ARGS),dump $(section))

# The library for C, proved.
lib:
	tools/rt prove dl_c
	$(MAKE) archive library

# The archive of dl_c, where what was proved had no need to be proved again.
archive:
	test -e crates/dl_c/out/libdl_c.a || bindings/c/archive.sh

# Out of what rt built of dl_c: out/libboxantrel.a, out/libboxantrel.so and what pkg-config reads of it.
library:
	mkdir -p out
	$(CC) $(CFLAGS) -O2 -fPIC -c -o out/memory.o bindings/c/memory.c
	$(CC) $(CFLAGS) -O2 -fPIC -Iinclude -c -o out/calls.o bindings/c/calls.c
	cp crates/dl_c/out/libdl_c.a out/libboxantrel.a
	$(AR) rs out/libboxantrel.a out/memory.o out/calls.o
	$(CC) $(LDFLAGS) -shared -o out/libboxantrel.so -Wl,-soname,libboxantrel.so \
		-Wl,--version-script=bindings/c/exports.map -Wl,--whole-archive out/libboxantrel.a -Wl,--no-whole-archive
	sed 's|@PREFIX@|$(PREFIX)|; s|@VERSION@|$(version)|' bindings/c/boxantrel.pc.in > out/boxantrel.pc

# The program, its man page and its completions below PREFIX, and where the library is built that too. It builds nothing:
# `make` and `make lib` come first.
install:
	install -D -m 755 crates/dwline/out/dwline $(bin)
	install -D -m 644 docs/dwline.1 $(man)
	install -D -m 644 completions/dwline.bash $(bash)
	install -D -m 644 completions/_dwline $(zsh)
	install -D -m 644 completions/dwline.fish $(fish)
	test ! -e out/libboxantrel.a || $(MAKE) install-lib

# The library, its header and what pkg-config reads.
install-lib:
	install -D -m 644 out/libboxantrel.a $(archive)
	install -D -m 755 out/libboxantrel.so $(shared)
	install -D -m 644 include/boxantrel.h $(header)
	install -D -m 644 out/boxantrel.pc $(package)

# The same, and the library, as an archive that may be unpacked anywhere and as a package for Debian.
dist: dwline lib dist-built

dist-built:
	tools/pack.sh $(version)

clean:
	rm -rf out crates/*/out

uninstall:
	rm -f $(bin) $(man) $(bash) $(zsh) $(fish) $(archive) $(shared) $(header) $(package)

# Every proof from nothing, edits that must be refused, and every test. A library that is kept from an earlier run of the
# same files has the time of that run: it is given the present one, since what comes next looks whether a library is older
# than its files.
test:
	rm -f crates/dwline/out/dwline crates/dl_c/out/libdl_c.a out/libboxantrel.a
	tools/rt ci
	touch crates/*/out/rlib/*.rlib
	test -x crates/dwline/out/dwline || $(MAKE) dwline
	$(MAKE) --jobs --output-sync edits tests-proved

# The wrong bodies that the commit chooses, over the libraries that are built.
edits:
	tools/wrong-bodies.py --of HEAD

# What `tests` does, over the libraries that `rt ci` left.
tests-proved: archive
	$(MAKE) library
	tests/run

# Every wrong body that stands in the repository, and those that `rt plant` makes of each crate's functions, which takes
# hours: it lists those that the contracts let through.
wrong-bodies: dwline lib
	tools/wrong-bodies.py
	for crate in crates/dl_*; do (cd $$crate && ../../tools/rt plant) || exit 1; done

# The suites of tests/, over the program and the library.
tests: dwline lib
	tests/run

.PHONY: dwline example lib archive library try install install-lib dist dist-built clean uninstall test tests edits \
	wrong-bodies tests-proved
