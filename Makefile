# Builds, tests and installs the ways in. `rt`, the command of the Rattle kit, proves and builds what is proved; README.md says more.
#
#     make                     the programs (target/bin) and the archive for C (target/lib/librefdesk.a)
#     make check               the tests from outside
#     make install PREFIX=..   the archive with its header and pkg-config file, and the commands ref and refdesk
#     make bench               the comparison with plain C

PREFIX = /usr/local
VERSION = 1.0
NAMES = refdesk listing unlisting
PROGRAMS = $(NAMES:%=target/bin/%)
ARCHIVE = target/lib/librefdesk.a
SOURCES := crates.txt $(shell find crates -name out -prune -o -type f -print)
TO = $(DESTDIR)$(PREFIX)
REF = $(TO)/lib/paltinoma
NEEDS_RT = @command -v rt >/dev/null || { echo "there is no 'rt' on the PATH; it is the command of the Rattle kit, and README.md says more" >&2; exit 127; }

.PHONY: all check install bench
.NOTPARALLEL: # one rt at a time
.SECONDARY: # what rt builds stays where it builds it

all: $(PROGRAMS) $(ARCHIVE)

# rt builds a crate in its folder out/, where `rt ci` leaves the programs too. It proves what has changed, and is quick where nothing has. No command of it
# builds a program alone: `rt run` runs it as well, here on the crate's example.
$(foreach name,$(NAMES),crates/$(name)/out/$(name)): $(SOURCES)
	$(NEEDS_RT)
	mkdir -p target
	cd $(@D)/.. && rt run <stdin >$(CURDIR)/target/$(@F).out 2>&1 || { cat $(CURDIR)/target/$(@F).out; exit 1; }
	touch $@

crates/exports_c/out/libexports_c.a: $(SOURCES)
	$(NEEDS_RT)
	mkdir -p target
	tools/archive >target/$(@F).out 2>&1 || { cat target/$(@F).out; exit 1; }
	touch $@

.SECONDEXPANSION:
$(PROGRAMS): target/bin/%: crates/$$*/out/$$*
	install -D $< $@

$(ARCHIVE): crates/exports_c/out/libexports_c.a
	install -D -m 644 $< $@

check: all
	python3 tests/selftest.py
	python3 tests/vectors.py
	python3 tests/run.py
	python3 tests/protocol.py
	python3 tests/drive.py
	python3 tests/listing.py
	python3 tests/unlisting.py
	tests/c/run
	cd python && python3 -m unittest
	python3 tests/installed.py

install: all
	$(if $(filter /%,$(PREFIX)),,$(error PREFIX is a path from the root, as $(HOME)/.local, and not '$(PREFIX)'))
	install -d "$(TO)/bin" "$(TO)/include" "$(TO)/lib/pkgconfig" "$(TO)/share/doc/paltinoma" "$(REF)/bin" "$(REF)/python/ref"
	install -m 644 $(ARCHIVE) "$(TO)/lib"
	install -m 644 include/refdesk.h "$(TO)/include"
	sed 's|@PREFIX@|$(PREFIX)|; s|@VERSION@|$(VERSION)|' include/refdesk.pc.in >target/refdesk.pc
	install -m 644 target/refdesk.pc "$(TO)/lib/pkgconfig"
	install -m 644 docs/PROTOCOL.md docs/NUMBERS.md docs/SPARE.md "$(TO)/share/doc/paltinoma"
	install -m 755 bin/ref bin/run target/bin/refdesk "$(REF)/bin"
	install -m 644 python/paltinoma.py python/paltinoma.json "$(REF)/python"
	install -m 644 python/ref/*.py "$(REF)/python/ref"
	ln -sf ../lib/paltinoma/bin/ref ../lib/paltinoma/bin/refdesk "$(TO)/bin"

bench: all
	bench/run
