# Tandawire for C programs.
#
#   make              proves the library and all that it stands on, and makes target/staticlib/libtandawire.a
#   make probe        the same of the functions that compare/ and bench/run call: target/staticlib/libprobe.a
#   make differ       the same of the program differ: target/bin/differ
#   make demo         two peers in one program, then eleven peers, each a process of its own
#   make hostile      a peer that sends damaged messages of every kind, and what it is answered
#   make install      headers, archive, pkg-config file, guide and examples under PREFIX (DESTDIR is put before it)
#   make uninstall    takes them away again
#   make version      says the version
#   make memory       tests and examples under valgrind and the sanitizers
#   make clean        takes away the examples; make distclean all that was made, and what rt keeps of its proofs
#
# It needs the Rattle toolchain (rt) and a C compiler; make memory also valgrind.

PREFIX ?= /usr/local
# A pkg-config file wants whole paths.
override PREFIX := $(abspath $(PREFIX))
LIBDIR ?= $(PREFIX)/lib
INCLUDEDIR ?= $(PREFIX)/include
DOCDIR ?= $(PREFIX)/share/doc/tandawire
CC ?= cc
CFLAGS ?= -O2
WARNINGS = -Wall -Wextra -pedantic

ARCHIVE = target/staticlib/libtandawire.a
HEADERS = include/tandawire.h include/tandawire_inline.h
EXAMPLES = smallest eleven hostile
VERSION := $(shell sed -n 's/^.define TANDAWIRE_VERSION "\(.*\)"/\1/p' include/tandawire.h)
# What the crates are made of: rt proves them again only where one of these has changed, and then mostly what changed (it keeps its work in crates/*/out).
sources = $(shell find $(1:%=crates/%) \( -name '*.rt' -o -name '*.antt' \) -not -path '*/out/*')
BELOW = bucket filter message ledger form session

all: $(ARCHIVE)
probe: target/staticlib/libprobe.a
differ: target/bin/differ

$(ARCHIVE): $(call sources,$(BELOW) tandawire)
target/staticlib/libprobe.a: $(call sources,bucket filter message probe)
target/bin/differ: $(call sources,bucket filter differ) crates/differ/stdin

target/staticlib/lib%.a: crates.txt
	@command -v rt >/dev/null || { echo "make: the Rattle toolchain (rt) is not on the PATH" >&2; exit 1; }
	@echo "proving $* and the crates below it: some minutes from nothing, less than one where rt kept its work"
	@mkdir -p target/staticlib
	@cd crates/$* && rt lib >../../target/staticlib/$*.log 2>&1 || { tail -n 40 ../../target/staticlib/$*.log >&2; exit 1; }
	@cp crates/$*/out/lib$*.a $@
	@echo "$@"

# rt builds a program as it runs it.
target/bin/%: crates.txt
	@command -v rt >/dev/null || { echo "make: the Rattle toolchain (rt) is not on the PATH" >&2; exit 1; }
	@mkdir -p target/bin
	@cd crates/$* && rt run <stdin >../../target/bin/$*.out 2>../../target/bin/$*.log || { tail -n 40 ../../target/bin/$*.log >&2; exit 1; }
	@cp crates/$*/out/$* $@
	@echo "$@"

target/examples/%: examples/%.c $(wildcard examples/*.h) $(HEADERS) $(ARCHIVE)
	@mkdir -p target/examples
	$(CC) -std=c11 $(CFLAGS) $(WARNINGS) -Iinclude -o $@ $< $(ARCHIVE)

examples: $(EXAMPLES:%=target/examples/%)

demo: target/examples/smallest target/examples/eleven
	target/examples/smallest
	@echo
	target/examples/eleven 11

hostile: target/examples/hostile
	target/examples/hostile

install: $(ARCHIVE)
	install -d "$(DESTDIR)$(INCLUDEDIR)" "$(DESTDIR)$(LIBDIR)/pkgconfig" "$(DESTDIR)$(DOCDIR)/examples"
	install -m 644 $(HEADERS) "$(DESTDIR)$(INCLUDEDIR)"
	install -m 644 $(ARCHIVE) "$(DESTDIR)$(LIBDIR)"
	install -m 644 docs/USING.md docs/FIGURES.md "$(DESTDIR)$(DOCDIR)"
	install -m 644 examples/*.c examples/*.h "$(DESTDIR)$(DOCDIR)/examples"
	printf '%s\n' 'prefix=$(PREFIX)' 'libdir=$(LIBDIR)' 'includedir=$(INCLUDEDIR)' '' 'Name: tandawire' \
	  'Description: Set reconciliation with peers that are not trusted' 'Version: $(VERSION)' \
	  'Libs: -L$${libdir} -ltandawire' 'Cflags: -I$${includedir}' >"$(DESTDIR)$(LIBDIR)/pkgconfig/tandawire.pc"
	@echo "tandawire $(VERSION) is installed under $(PREFIX)"

uninstall:
	rm -f "$(DESTDIR)$(INCLUDEDIR)/tandawire.h" "$(DESTDIR)$(INCLUDEDIR)/tandawire_inline.h" \
	  "$(DESTDIR)$(LIBDIR)/libtandawire.a" "$(DESTDIR)$(LIBDIR)/pkgconfig/tandawire.pc"
	rm -rf "$(DESTDIR)$(DOCDIR)"

version:
	@echo "$(VERSION)"

memory: examples
	tests/memory

clean:
	rm -rf target/examples

distclean:
	rm -rf target crates/*/out

.PHONY: all probe differ examples demo hostile install uninstall version memory clean distclean
.DELETE_ON_ERROR:
