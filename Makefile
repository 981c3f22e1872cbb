# Luffcringle's archives for C and Rust, the program `listing`, and their installation.
#
#   make                    proves what they hold and builds target/staticlib/libluffcringle.a (all) and libluffcringle-office.a (signatures and the resolver),
#                           and target/bin/listing, the program that reads and mends listings
#   make target/bin/replay  proves and builds the program that replays a script of calls; and so target/bin/longest, which measures the name reader
#   make install            installs both, the header, a file for pkg-config for each, and the program as luffcringle-listing; PREFIX, INCLUDEDIR, LIBDIR,
#                           BINDIR and DESTDIR say where
#   make uninstall          removes what was installed

SHELL := bash
.SHELLFLAGS := -o pipefail -c

PREFIX ?= /usr/local
INCLUDEDIR ?= $(PREFIX)/include
LIBDIR ?= $(PREFIX)/lib
BINDIR ?= $(PREFIX)/bin
INSTALL ?= install
CFLAGS ?= -O2

version := 0.5.0
built := target/staticlib
office_crates := capi_signing capi_resolver capi_version
crates := capi capi_listing capi_compare $(office_crates)
archives := $(built)/libluffcringle.a $(built)/libluffcringle-office.a
packages := luffcringle luffcringle-office
program := target/bin/listing
replayed := target/bin/replay target/bin/longest

.PHONY: all objects install uninstall proved

all: $(archives) $(program)

# Each crate's archive has one object; what is out of date is for rt to say.
objects:
	for crate in $(crates); do (cd crates/$$crate && rt lib) | tail -n 1 || exit 1; done
	mkdir -p $(built) && cd $(built) && for crate in $(crates); do ar x ../../crates/$$crate/out/lib$$crate.a || exit 1; done

$(built)/libluffcringle.a: objects
	rm -f $@ && cd $(built) && ar rcsD $(@F) $(crates:=.o)

$(built)/libluffcringle-office.a: objects
	rm -f $@ && cd $(built) && ar rcsD $(@F) $(office_crates:=.o)

$(program): bindings/c/listing.c include/luffcringle.h $(built)/libluffcringle.a
	mkdir -p $(@D) && $(CC) -std=c11 -Wall -Wextra $(CFLAGS) -Iinclude $< $(LDFLAGS) $(built)/libluffcringle.a -o $@

# rt run proves and builds a program, and runs it, here on no input.
$(replayed): target/bin/%: proved
	(cd crates/$* && rt run </dev/null 2>&1 >/dev/null) | sed -n '/^logic=/p'
	mkdir -p $(@D) && cp crates/$*/out/$* $@

install: all
	$(INSTALL) -d $(DESTDIR)$(INCLUDEDIR) $(DESTDIR)$(LIBDIR)/pkgconfig $(DESTDIR)$(BINDIR)
	$(INSTALL) -m 644 include/luffcringle.h $(DESTDIR)$(INCLUDEDIR)
	$(INSTALL) -m 644 $(archives) $(DESTDIR)$(LIBDIR)
	$(INSTALL) -m 755 $(program) $(DESTDIR)$(BINDIR)/luffcringle-listing
	for package in $(packages); do \
	    sed -e 's|@VERSION@|$(version)|; s|@INCLUDEDIR@|$(INCLUDEDIR)|; s|@LIBDIR@|$(LIBDIR)|' bindings/c/$$package.pc.in \
	        >$(DESTDIR)$(LIBDIR)/pkgconfig/$$package.pc || exit 1; \
	done

uninstall:
	rm -f $(DESTDIR)$(BINDIR)/luffcringle-listing $(DESTDIR)$(INCLUDEDIR)/luffcringle.h $(archives:$(built)/%=$(DESTDIR)$(LIBDIR)/%) $(packages:%=$(DESTDIR)$(LIBDIR)/pkgconfig/%.pc)
