# make run                 prove the program and compile an example with it
# make test                the gate: every proof, every must-fail edit, every test; its last line is 'N passed, 0 failed'
# make lib                 prove the C entries and build build/lib/libpnf.a
# make install PREFIX=..   put library, header and pkg-config file below PREFIX (and DESTDIR)
# make uninstall PREFIX=.. take them away again
# make bench               the library's times beside those of the other implementation: one table of ratios
# make fuzz                fuzz the C entries for some minutes (needs clang)
# make clean               remove all that was built

.PHONY: run test bench lib install uninstall fuzz clean

PREFIX ?= /usr/local
# pkg-config wants a whole path
ROOT := $(abspath $(PREFIX))
PLACE := $(DESTDIR)$(ROOT)

run:
	@bash scripts/run

test:
	@bash scripts/test

lib:
	bash scripts/built library entries
	install -D -m 644 target/staticlib/libentries.a build/lib/libpnf.a

build/lib/libpnf.a:
	$(MAKE) lib

install: build/lib/libpnf.a
	install -D -m 644 build/lib/libpnf.a "$(PLACE)/lib/libpnf.a"
	install -D -m 644 include/pnf.h "$(PLACE)/include/pnf.h"
	install -d "$(PLACE)/lib/pkgconfig"
	sed 's|@PREFIX@|$(ROOT)|' include/pnf.pc.in >"$(PLACE)/lib/pkgconfig/pnf.pc"
	chmod 644 "$(PLACE)/lib/pkgconfig/pnf.pc"

uninstall:
	rm -f "$(PLACE)/lib/libpnf.a" "$(PLACE)/include/pnf.h" "$(PLACE)/lib/pkgconfig/pnf.pc"

fuzz:
	@bash tests/fuzz/run

bench:
	@bash scripts/bench

clean:
	rm -rf target build crates/*/out
