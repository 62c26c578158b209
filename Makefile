# make                  builds the proved library, the libraries to link, the programs tipshare and parts, and their pages
# make check            proves and tests everything (.ci/run), after removing target, which it makes anew
# make checklist        builds, then runs the checklist
# make bench            builds, checks the hand-written C++, then times every call
# make example          builds the C example, then runs it
# make plan             builds everything, then plans docs/example.txt; LIST=my.txt plans yours
# make check-light      tests what needs no Rattle toolchain: layout, clippy, the second implementation, pages, numbers
# make install          copies all of it to PREFIX (/usr/local), below DESTDIR if that is set
# make uninstall        removes what make install with the same PREFIX and DESTDIR has copied, and nothing else
# make deb              makes Debian packages, in target/deb
# make check-kicad      has Debian's KiCad write position files of its demonstration boards, and checks what parts imports
# make clean            removes all that was built
.DELETE_ON_ERROR:
.PHONY: all check check-kicad check-light checklist bench example plan install uninstall deb clean parts pages

PREFIX = /usr/local
BINDIR = $(PREFIX)/bin
INCLUDEDIR = $(PREFIX)/include
LIBDIR = $(PREFIX)/lib
MANDIR = $(PREFIX)/share/man
# Where Debian's Python looks; others look in site-packages.
PYTHONDIR = $(PREFIX)/lib/$(shell python3 -c 'import sys; print("python%d.%d" % sys.version_info[:2])')/dist-packages
CC = gcc
CFLAGS = -std=c11 -Wall -Wextra -Werror -O2
LIST ?= docs/example.txt

include packaging/paths.mk

# The version is in Cargo.toml; tools/numbers holds the header, the pages and the checklist to it.
version := $(shell sed -n 's/^version = "\(.*\)"/\1/p' Cargo.toml)
soname := libtipshare.so.$(firstword $(subst ., ,$(version)))
library := target/staticlib/libtipshare_c.a
tipshare := target/bin/tipshare
example := target/example
parts := target-rust/release/parts
archive := target/lib/libtipshare.a
shared := target/lib/libtipshare.so.$(version)
# The folders too, so that a file taken away counts. The test programs are no part of the library, nor is the program tipshare.
proved = crates.txt $(shell find $(filter-out $(1),$(wildcard crates/*/src crates/*/specs crates/*/proofs)))
sources := $(call proved,crates/try_% crates/tipshare/% crates/tipshare_run/%)
program_sources := $(call proved,crates/try_%)

all: $(library) $(archive) $(shared) $(tipshare) parts pages

# rt lib proves what has changed of the crates below, one after the other, and then this one, over what earlier checks kept.
# Without --cpu it uses instructions of x86-64-v2, which older processors lack; its verdict then names that processor.
$(library): $(sources)
	@command -v rt > /dev/null || { cat packaging/no-toolchain; exit 1; }
	mkdir -p $(@D)
	cd crates/tipshare_c && rt lib --cpu=x86-64 > ../../$(@:.a=.report) 2>&1 || { cat ../../$(@:.a=.report); exit 1; }
	tools/no-axioms $(@:.a=.report)
	@if grep '^logic=.* cpu=' $(@:.a=.report); then echo "the library must run on every x86-64 processor (include/tipshare.h)"; exit 1; fi
	cp crates/tipshare_c/out/$(@F) $@

# Two functions are not proved: the version, and the refusals in words.
target/lib/words.o: library/words.c library/words.txt include/tipshare.h
	mkdir -p $(@D)
	sed 's/^\([0-9]*\) \(.*\)/    case \1: return "\2";/' library/words.txt > $(@D)/words.inc
	$(CC) $(CPPFLAGS) $(CFLAGS) -fPIC -Iinclude -I$(@D) -c library/words.c -o $@

$(archive): $(library) target/lib/words.o
	cp $(library) $@
	ar r $@ target/lib/words.o

$(shared): $(archive) packaging/exports.map
	$(CC) -shared -Wl,-soname,$(soname) -Wl,--version-script=packaging/exports.map -Wl,-z,defs -Wl,-z,relro -Wl,-z,now \
		-Wl,--whole-archive $(archive) -Wl,--no-whole-archive $(LDFLAGS) -o $@
	ln -sf $(@F) target/lib/$(soname)

$(example): examples/c/example.c include/tipshare.h $(archive)
	$(CC) $(CPPFLAGS) $(CFLAGS) -Iinclude examples/c/example.c $(archive) $(LDFLAGS) -o $@

# The program is proved too. rt run proves and links it, and then runs it. After the library: both are over the same crates.
$(tipshare): $(program_sources) | $(library)
	mkdir -p $(@D)
	cd crates/tipshare && rt run --cpu=x86-64 -- --version > ../../$@.report 2>&1 || { cat ../../$@.report; exit 1; }
	@if grep '^logic=.* cpu=' $@.report; then echo "the program must run on every x86-64 processor"; exit 1; fi
	cp crates/tipshare/out/$(@F) $@

# Cargo itself knows what is up to date. If it is not in the path, as under sudo make install, what it has built is used.
parts: $(library)
	@if command -v cargo > /dev/null || [ ! -x $(parts) ]; then \
		set -x; cargo build --quiet --release --offline --package parts; \
	fi

# The manual pages of the calls and of parts are made from the header and from what parts says of itself.
pages: parts
	packaging/manual $(version) $(parts) target/man

# rt ci refuses links in the checkout, and there are some in what make and the tests leave.
check:
	rm -rf target target-rust/tmp
	.ci/run

check-light:
	.ci/run --light

# The list is handed over as it is, whatever letters its name has.
plan: export LIST := $(LIST)
plan: all
	@$(parts) plan "$$LIST"

# Needs Debian's packages kicad and kicad-demos.
check-kicad: parts
	parts/tests/kicad/check $(parts) target/kicad

checklist: all
	checklist/run

bench: all
	bench/check
	bench/run

example: $(example)
	$(example)

where = DESTDIR='$(DESTDIR)' PREFIX='$(PREFIX)' BINDIR='$(BINDIR)' INCLUDEDIR='$(INCLUDEDIR)' LIBDIR='$(LIBDIR)' \
	MANDIR='$(MANDIR)' PYTHONDIR='$(PYTHONDIR)'
install: all
	$(where) packaging/install $(version) $(tipshare) $(parts) $(archive) $(shared)

uninstall:
	$(where) packaging/install --remove

deb: all
	packaging/deb $(version)

clean:
	rm -rf target target-rust crates/*/out

include targets/rules.mk
include web/rules.mk
