# Builds, tries, installs and uninstalls the C library, the programs and their manual pages.
#
#   make              the archive, the shared library and the programs
#   make check        the tests in C over them (tests/run); `make test` is the same
#   make gate         the gate (.ci/run)
#   make install      puts all files in place; `make uninstall` takes just those away
#
# Variables:
#   PREFIX, BINDIR, INCLUDEDIR, LIBDIR, MANDIR   where the files belong
#   DESTDIR                                      what is put before each of these, and is named in no file
#   CC                                           links the shared library, for x86-64
#   INSTALL                                      puts a file in place
PREFIX ?= /usr/local
BINDIR ?= $(PREFIX)/bin
INCLUDEDIR ?= $(PREFIX)/include
LIBDIR ?= $(PREFIX)/lib
MANDIR ?= $(PREFIX)/share/man
DESTDIR ?=
INSTALL ?= install

# The first number grows where a program that was built before would not run as before; it is the soname's.
VERSION = 3.0.0
MAJOR = $(firstword $(subst ., ,$(VERSION)))
SONAME = libhalyardfig.so.$(MAJOR)

# The archive is for x86-64; elsewhere Debian's cross compiler links it.
ifeq ($(origin CC),default)
CC = $(if $(filter x86_64,$(shell uname -m)),cc,x86_64-linux-gnu-gcc)
endif

LIBRARY = target/staticlib/libhalyardfig.a
SHARED = target/shared/libhalyardfig.so.$(VERSION)
# What each program is called where it is installed: a crate of that name and _main.
PROGRAMS = compose sheet show
BUILT = $(PROGRAMS:%=target/bin/%_main)
SOURCES := crates.txt $(shell find crates -name out -prune -o -type f -name '*.rt' -print)

# The functions of the header: the manual has a link for each.
CALLS = $(shell sed -n 's/^\(static inline \)*uint[0-9]*_t \(halyardfig_[a-z0-9_]*\).*/\2/p' include/halyardfig.h)

.PHONY: all check test gate install uninstall
.NOTPARALLEL:

all: $(LIBRARY) $(SHARED) $(BUILT)

# What rt made is dated back to the beginning of that, so that code changed meanwhile is newer.
$(LIBRARY): $(SOURCES)
	mkdir -p $(@D) && touch target/$(@F).begun
	cd crates/halyardfig_c && rt lib
	cp crates/halyardfig_c/out/libhalyardfig_c.a $@
	touch -r target/$(@F).begun $@

$(BUILT): $(SOURCES)
	bash -c '. bin/running.sh && build $(@F) $@'

# Nothing of the C library's start files is linked in, and what is not defined must be in the C library.
$(SHARED): $(LIBRARY) Makefile
	mkdir -p $(@D)
	echo 'halyardfig_$(MAJOR) { global: halyardfig_*; local: *; };' > $(@D)/names.map
	$(CC) $(LDFLAGS) -shared -nostdlib -Wl,-soname,$(SONAME) -Wl,--version-script=$(@D)/names.map \
		-Wl,-z,defs,-z,text,-z,noexecstack,-z,relro,-z,now \
		-Wl,--whole-archive $(LIBRARY) -Wl,--no-whole-archive -lc -o $@

check test: all
	ARCHIVE=$(LIBRARY) tests/run

gate:
	bash .ci/run

install: all
	$(INSTALL) -d "$(DESTDIR)$(BINDIR)" "$(DESTDIR)$(INCLUDEDIR)" "$(DESTDIR)$(LIBDIR)/pkgconfig" \
		"$(DESTDIR)$(MANDIR)/man1" "$(DESTDIR)$(MANDIR)/man3"
	for program in $(PROGRAMS); do \
		$(INSTALL) -m 755 target/bin/$${program}_main "$(DESTDIR)$(BINDIR)/halyardfig-$$program" && \
		$(INSTALL) -m 644 man/halyardfig-$$program.1 "$(DESTDIR)$(MANDIR)/man1/halyardfig-$$program.1" || exit 1; \
	done
	$(INSTALL) -m 644 include/halyardfig.h "$(DESTDIR)$(INCLUDEDIR)/halyardfig.h"
	$(INSTALL) -m 644 $(LIBRARY) "$(DESTDIR)$(LIBDIR)/libhalyardfig.a"
	$(INSTALL) -m 644 $(SHARED) "$(DESTDIR)$(LIBDIR)/libhalyardfig.so.$(VERSION)"
	ln -sf libhalyardfig.so.$(VERSION) "$(DESTDIR)$(LIBDIR)/$(SONAME)"
	ln -sf $(SONAME) "$(DESTDIR)$(LIBDIR)/libhalyardfig.so"
	sed -e 's|@PREFIX@|$(PREFIX)|' -e 's|@VERSION@|$(VERSION)|' \
		-e 's|@INCLUDEDIR@|$(patsubst $(PREFIX)/%,$${prefix}/%,$(INCLUDEDIR))|' \
		-e 's|@LIBDIR@|$(patsubst $(PREFIX)/%,$${prefix}/%,$(LIBDIR))|' \
		halyardfig.pc.in > "$(DESTDIR)$(LIBDIR)/pkgconfig/halyardfig.pc"
	chmod 644 "$(DESTDIR)$(LIBDIR)/pkgconfig/halyardfig.pc"
	$(INSTALL) -m 644 man/halyardfig.3 "$(DESTDIR)$(MANDIR)/man3/halyardfig.3"
	for call in $(CALLS); do ln -sf halyardfig.3 "$(DESTDIR)$(MANDIR)/man3/$$call.3" || exit 1; done

uninstall:
	rm -f $(PROGRAMS:%="$(DESTDIR)$(BINDIR)/halyardfig-%") $(PROGRAMS:%="$(DESTDIR)$(MANDIR)/man1/halyardfig-%.1") \
		"$(DESTDIR)$(INCLUDEDIR)/halyardfig.h" \
		"$(DESTDIR)$(LIBDIR)/libhalyardfig.a" "$(DESTDIR)$(LIBDIR)/libhalyardfig.so" \
		"$(DESTDIR)$(LIBDIR)/$(SONAME)" "$(DESTDIR)$(LIBDIR)/libhalyardfig.so.$(VERSION)" \
		"$(DESTDIR)$(LIBDIR)/pkgconfig/halyardfig.pc" \
		"$(DESTDIR)$(MANDIR)/man3/halyardfig.3"
	for call in $(CALLS); do rm -f "$(DESTDIR)$(MANDIR)/man3/$$call.3" || exit 1; done
