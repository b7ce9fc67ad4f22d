# make           the static library, every function in it proved
# make archives  the same, and beside it the lookup of table entries that the comparison links
# make check     the gate: all proofs and tests
# make bench     our speed beside the crate's and libopus's, into docs/BENCH.md
# make install   header, library and pkg-config file under PREFIX
PREFIX ?= /usr/local
library = target/staticlib/libtignarops.a
sources := crates.txt $(shell find crates -name out -prune -o -type f -name '*.rt' -print -o -type f -name '*.antt' -print)
# The room that rt builds an archive of: what tignarops exports to C stands in one of its own.
room = $(patsubst tignarops,tignarops_c,$*)

.PHONY: all archives check bench install

all: $(library)

archives: $(library) target/staticlib/libtable_entries.a

target/staticlib/lib%.a: $(sources)
	cd crates/$(room) && rt lib
	install -D -m 644 crates/$(room)/out/lib$(room).a $@

check:
	bash .ci/run

bench:
	bench/run

install: all
	install -d $(DESTDIR)$(PREFIX)/include $(DESTDIR)$(PREFIX)/lib/pkgconfig
	install -m 644 include/tignarops.h $(DESTDIR)$(PREFIX)/include
	install -m 644 $(library) $(DESTDIR)$(PREFIX)/lib
	sed 's|@PREFIX@|$(PREFIX)|' tignarops.pc.in > $(DESTDIR)$(PREFIX)/lib/pkgconfig/tignarops.pc
