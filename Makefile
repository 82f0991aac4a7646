# The library for hosts and the programs over it, from target/staticlib/libladdertick_c.a, which `./laddertick build` proves and makes. Once that is there, cc, ar and make will do.
#
#   make                               target/lib: libladdertick.a and the shared object; target/examples: the programs
#   make install PREFIX=.. DESTDIR=..  headers, libraries, laddertick.pc, manual pages, the command, the Rust crate, the Python package and the pages of docs/, below PREFIX
#                                      (/usr/local); a package is staged below DESTDIR
#   make install PYTHONDIR=..          the Python package where a Python looks by itself
#   make uninstall PREFIX=.. DESTDIR=.. PYTHONDIR=..
PREFIX = /usr/local
BINDIR = $(PREFIX)/bin
INCLUDEDIR = $(PREFIX)/include
LIBDIR = $(PREFIX)/lib
LIBEXECDIR = $(PREFIX)/libexec
DATADIR = $(PREFIX)/share
MANDIR = $(DATADIR)/man
DOCDIR = $(DATADIR)/doc/laddertick
PYTHONDIR = $(DATADIR)/laddertick/python
INSTALL = install
CFLAGS = -O2 -Wall -Wextra

VERSION := $(shell cat VERSION)
MAJOR := $(firstword $(subst ., ,$(VERSION)))
PROVED := target/staticlib/libladdertick_c.a
ARCHIVE := target/lib/libladdertick.a
SHARED := libladdertick.so.$(VERSION)
SONAME := libladdertick.so.$(MAJOR)
HEADERS := include/laddertick.h include/laddertick_messages.h
PAGES := README.md NOTICE $(addprefix docs/,SCOPE.md FRAMES.md CONTRACTS.md DIFFERENCES.md)
PROGRAMS := $(shell cat examples/c/programs)
PACKAGE := $(filter-out %/_library.py,$(wildcard bindings/python/laddertick/*.py)) bindings/python/laddertick/py.typed NOTICE
CRATE := Cargo.toml build.rs rustfmt.toml $(patsubst bindings/rust/%,%,$(wildcard bindings/rust/src/*.rs))

# Behind the maker's own flags: the member needs nothing from outside, and goes into the shared object too.
MEMBER := -std=c99 -Iinclude -fPIC -ffreestanding -fno-stack-protector -fno-lto

all: $(ARCHIVE) target/lib/$(SHARED)
	@$(MAKE) --no-print-directory -C examples/c

# The proved functions as they are, and beside them a member for the version and the words of refusals.
$(ARCHIVE): $(PROVED) target/lib/laddertick_meaning.o
	cp $(PROVED) $@.new
	$(AR) rcs $@.new target/lib/laddertick_meaning.o
	mv $@.new $@

target/lib/laddertick_meaning.o: src/laddertick_meaning.c $(HEADERS)
	@mkdir -p target/lib
	$(CC) $(CFLAGS) $(MEMBER) -c -o $@ $<

target/lib/$(SHARED): $(ARCHIVE) src/laddertick.map
	$(CC) -shared -nostdlib $(LDFLAGS) -Wl,-soname,$(SONAME) -Wl,-z,defs,-z,noexecstack -Wl,--version-script=src/laddertick.map \
	  -Wl,--whole-archive $(ARCHIVE) -Wl,--no-whole-archive -o $@

# Missing, or older than what it is made from. Where times alone have changed, ./laddertick build puts them right and builds nothing.
$(PROVED): $(shell find crates crates.txt -name out -prune -o -type f -print)
	@echo "$@ is missing or out of date: make it by ./laddertick build" >&2; exit 1

# A word @NAME@ of a file is what this Makefile has under the name; of ./laddertick and of the Python package the parts for the repository are left out.
FILLED = sed -e 's|@VERSION@|$(VERSION)|g' -e 's|@PREFIX@|$(PREFIX)|g' -e 's|@LIBDIR@|$(LIBDIR)|g' -e 's|@INCLUDEDIR@|$(INCLUDEDIR)|g'
COMMAND = sed -e '/^ *\# repository: begin/,/^ *\# repository: end/d' -e 's|^\# installed: ||' -e 's|@VERSION@|$(VERSION)|g' -e 's|@PROGRAMS@|$(LIBEXECDIR)/laddertick|g' \
  -e 's|@LIBDIR@|$(LIBDIR)|g'

install: all
	@case '$(PREFIX)' in /*) ;; *) echo "PREFIX is no absolute path" >&2; exit 1 ;; esac
	$(INSTALL) -d '$(DESTDIR)$(BINDIR)' '$(DESTDIR)$(INCLUDEDIR)' '$(DESTDIR)$(LIBDIR)/pkgconfig' '$(DESTDIR)$(LIBEXECDIR)/laddertick' \
	  '$(DESTDIR)$(MANDIR)/man1' '$(DESTDIR)$(MANDIR)/man3' '$(DESTDIR)$(DOCDIR)' '$(DESTDIR)$(DATADIR)/laddertick/rust/src' \
	  '$(DESTDIR)$(PYTHONDIR)/laddertick'
	$(INSTALL) -m 644 $(HEADERS) '$(DESTDIR)$(INCLUDEDIR)'
	$(INSTALL) -m 644 $(ARCHIVE) '$(DESTDIR)$(LIBDIR)'
	$(INSTALL) -m 755 target/lib/$(SHARED) '$(DESTDIR)$(LIBDIR)'
	ln -sf $(SHARED) '$(DESTDIR)$(LIBDIR)/$(SONAME)'
	ln -sf $(SONAME) '$(DESTDIR)$(LIBDIR)/libladdertick.so'
	$(FILLED) src/laddertick.pc.in >target/lib/filled
	$(INSTALL) -m 644 target/lib/filled '$(DESTDIR)$(LIBDIR)/pkgconfig/laddertick.pc'
	$(FILLED) man/laddertick.1 >target/lib/filled
	$(INSTALL) -m 644 target/lib/filled '$(DESTDIR)$(MANDIR)/man1/laddertick.1'
	$(FILLED) man/laddertick.3 >target/lib/filled
	$(INSTALL) -m 644 target/lib/filled '$(DESTDIR)$(MANDIR)/man3/laddertick.3'
	$(COMMAND) laddertick >target/lib/filled
	$(INSTALL) -m 755 target/lib/filled '$(DESTDIR)$(BINDIR)/laddertick'
	$(INSTALL) -m 755 $(addprefix target/examples/,$(PROGRAMS)) '$(DESTDIR)$(LIBEXECDIR)/laddertick'
	$(INSTALL) -m 644 $(PAGES) '$(DESTDIR)$(DOCDIR)'
	for file in $(CRATE); do $(INSTALL) -m 644 bindings/rust/$$file '$(DESTDIR)$(DATADIR)/laddertick/rust'/$$file || exit 1; done
	$(INSTALL) -m 644 NOTICE '$(DESTDIR)$(DATADIR)/laddertick/rust'
	$(COMMAND) bindings/python/laddertick/_library.py >target/lib/filled
	$(INSTALL) -m 644 target/lib/filled '$(DESTDIR)$(PYTHONDIR)/laddertick/_library.py'
	$(INSTALL) -m 644 $(PACKAGE) '$(DESTDIR)$(PYTHONDIR)/laddertick'
	@rm -f target/lib/filled

uninstall:
	rm -f '$(DESTDIR)$(BINDIR)/laddertick' $(patsubst include/%,'$(DESTDIR)$(INCLUDEDIR)/%',$(HEADERS)) '$(DESTDIR)$(LIBDIR)/libladdertick.a' \
	  '$(DESTDIR)$(LIBDIR)/libladdertick.so' '$(DESTDIR)$(LIBDIR)/$(SONAME)' '$(DESTDIR)$(LIBDIR)/$(SHARED)' '$(DESTDIR)$(LIBDIR)/pkgconfig/laddertick.pc' \
	  '$(DESTDIR)$(MANDIR)/man1/laddertick.1' '$(DESTDIR)$(MANDIR)/man3/laddertick.3'
	rm -rf '$(DESTDIR)$(PYTHONDIR)/laddertick' '$(DESTDIR)$(LIBEXECDIR)/laddertick' '$(DESTDIR)$(DATADIR)/laddertick' '$(DESTDIR)$(DOCDIR)'

clean:
	rm -rf target/lib target/examples

.PHONY: all install uninstall clean
