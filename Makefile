# Builds, tests and installs the library and the command.
#   make                                  builds all in target/; what is proved is proved first where a source is newer, for some minutes
#   make check                            runs all tests that prove nothing
#   make install PREFIX=DIR DESTDIR=DIR   installs archive, shared object, header, pkg-config file, commands and man page
PREFIX ?= /usr/local
BINDIR ?= $(PREFIX)/bin
LIBDIR ?= $(PREFIX)/lib
INCLUDEDIR ?= $(PREFIX)/include
MANDIR ?= $(PREFIX)/share/man
CC ?= cc
CFLAGS ?= -O2 -Wall -Wextra -pedantic
INSTALL ?= install

VERSION := $(shell sed -n 's/^#define COMPASSNAIL_VERSION "\(.*\)"/\1/p' include/compassnail.h)
MAJOR := $(firstword $(subst ., ,$(VERSION)))
SOURCES := $(shell find crates \( -name must-fail -o -name out \) -prune -o \( -name '*.rt' -o -name '*.antt' \) -print) crates.txt
PROVED = target/staticlib/libcompassnail.a
PROGRAMS = target/bin/dump target/bin/trace
BUILT = target
ARCHIVE = $(BUILT)/lib/libcompassnail.a
SHARED = $(BUILT)/lib/libcompassnail.so.$(VERSION)
COMMAND = $(BUILT)/bin/compassnail

all: $(ARCHIVE) $(SHARED) $(COMMAND) $(PROGRAMS)

# What is proved is built by rt, which the path has to have.
$(PROVED): $(SOURCES)
	@command -v rt > /dev/null || { echo "$@ is proved and built by rt, the Rattle toolchain, which is not on the path" >&2; exit 1; }
	tools/build compassnail

$(PROGRAMS): target/bin/%: $(SOURCES)
	@command -v rt > /dev/null || { echo "$@ is proved and built by rt, the Rattle toolchain, which is not on the path" >&2; exit 1; }
	tools/build $*

# The library is what is proved and the plain C beside it.
$(BUILT)/lib/answers.o: source/answers.c include/compassnail.h
	mkdir -p $(BUILT)/lib
	$(CC) -std=c99 $(CFLAGS) -fPIC -Iinclude -c -o $@ $<

$(ARCHIVE): $(PROVED) $(BUILT)/lib/answers.o
	cp $(PROVED) $@
	$(AR) rs $@ $(BUILT)/lib/answers.o

$(SHARED): $(ARCHIVE)
	$(CC) $(LDFLAGS) -shared -Wl,-soname,libcompassnail.so.$(MAJOR) -Wl,-z,now -o $@ -Wl,--whole-archive $< -Wl,--no-whole-archive

$(COMMAND): $(wildcard command/*.c command/*.h) include/compassnail.h $(ARCHIVE)
	mkdir -p $(BUILT)/bin
	$(CC) -std=c99 $(CFLAGS) -Iinclude $(LDFLAGS) -o $@ $(filter %.c,$^) $(ARCHIVE)

check: all
	tests/c/run
	tests/texts/check
	tests/ghdl/compare
	tests/programs/run
	tests/command/run
	$(MAKE) -C examples check

# The proved programs are installed under longer names: many systems have a `dump` of their own.
install: all
	$(INSTALL) -d $(DESTDIR)$(BINDIR) $(DESTDIR)$(LIBDIR)/pkgconfig $(DESTDIR)$(INCLUDEDIR) $(DESTDIR)$(MANDIR)/man1
	$(INSTALL) -m 755 $(COMMAND) $(DESTDIR)$(BINDIR)/compassnail
	$(INSTALL) -m 755 target/bin/dump $(DESTDIR)$(BINDIR)/compassnail-dump
	$(INSTALL) -m 755 target/bin/trace $(DESTDIR)$(BINDIR)/compassnail-trace
	$(INSTALL) -m 644 include/compassnail.h $(DESTDIR)$(INCLUDEDIR)/compassnail.h
	$(INSTALL) -m 644 $(ARCHIVE) $(DESTDIR)$(LIBDIR)/libcompassnail.a
	$(INSTALL) -m 755 $(SHARED) $(DESTDIR)$(LIBDIR)/libcompassnail.so.$(VERSION)
	ln -sf libcompassnail.so.$(VERSION) $(DESTDIR)$(LIBDIR)/libcompassnail.so.$(MAJOR)
	ln -sf libcompassnail.so.$(MAJOR) $(DESTDIR)$(LIBDIR)/libcompassnail.so
	sed 's|@PREFIX@|$(PREFIX)|; s|@LIBDIR@|$(LIBDIR)|; s|@INCLUDEDIR@|$(INCLUDEDIR)|; s|@VERSION@|$(VERSION)|' source/compassnail.pc.in \
	  > $(DESTDIR)$(LIBDIR)/pkgconfig/compassnail.pc
	sed 's|@VERSION@|$(VERSION)|' docs/compassnail.1 > $(DESTDIR)$(MANDIR)/man1/compassnail.1

.PHONY: all check install
.NOTPARALLEL:
