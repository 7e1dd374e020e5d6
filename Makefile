# Builds, tests and installs the library for C and the programs; `make help` says how. Nothing is built before it is proved.
PREFIX = /usr/local
BINDIR = $(PREFIX)/bin
INCLUDEDIR = $(PREFIX)/include
LIBDIR = $(PREFIX)/lib
MANDIR = $(PREFIX)/share/man

version := $(shell sed -nE 's/^pub const (MAJOR|MINOR|PATCH): u32 = ([0-9]+);$$/\2/p' crates/version/src/lib.rt | paste -sd.)
# a 0.x may change its structs with each x
soname := liblarusqem.so.$(basename $(version))

static = target/lib/liblarusqem.a
shared = target/sharedlib/liblarusqem.so.$(version)
programs = date_lines quarrels week_counts

ifneq ($(words $(PREFIX)) $(filter-out /%,$(PREFIX) $(DESTDIR)),1 )
$(error PREFIX is an absolute path without blanks, and so is DESTDIR if there is one)
endif

fill = sed -e 's|@prefix@|$(PREFIX)|' -e 's|@includedir@|$(INCLUDEDIR)|' -e 's|@libdir@|$(LIBDIR)|' -e 's|@version@|$(version)|'

.PHONY: all library programs install install-library install-programs uninstall test help FORCE
# two provers would meet in crates/*/out
.NOTPARALLEL:

all: library programs
library: $(static) $(shared)

# tools/library knows whether the library is out of date, and the prover whether the programs are
$(static): FORCE
	@tools/library >/dev/null

$(shared): $(static)
	mkdir -p $(@D)
	$(CC) -shared -Wl,-z,defs -Wl,-soname,$(soname) $(LDFLAGS) -Wl,--whole-archive $< -Wl,--no-whole-archive -o $@

# a program is run once it is built: it says its version
programs:
	mkdir -p target/bin
	for program in $(programs); do (cd crates/$$program && rt run -- --version) && cp crates/$$program/out/$$program target/bin || exit; done

install: install-library install-programs

install-library: library
	install -d $(addprefix $(DESTDIR),$(INCLUDEDIR) $(LIBDIR)/pkgconfig $(MANDIR)/man3)
	install -m 644 include/larusqem.h $(DESTDIR)$(INCLUDEDIR)
	install -m 644 $(static) $(shared) $(DESTDIR)$(LIBDIR)
	ln -sf $(notdir $(shared)) $(DESTDIR)$(LIBDIR)/$(soname)
	ln -sf $(soname) $(DESTDIR)$(LIBDIR)/liblarusqem.so
	$(fill) larusqem.pc.in | install -m 644 /dev/stdin $(DESTDIR)$(LIBDIR)/pkgconfig/larusqem.pc
	$(fill) man/larusqem.3 | install -m 644 /dev/stdin $(DESTDIR)$(MANDIR)/man3/larusqem.3

install-programs: programs
	install -d $(addprefix $(DESTDIR),$(BINDIR) $(MANDIR)/man1)
	install -m 755 $(addprefix target/bin/,$(programs)) $(DESTDIR)$(BINDIR)
	for page in $(programs:=.1); do $(fill) man/$$page | install -m 644 /dev/stdin $(DESTDIR)$(MANDIR)/man1/$$page || exit; done

uninstall:
	rm -f $(DESTDIR)$(INCLUDEDIR)/larusqem.h $(addprefix $(DESTDIR)$(BINDIR)/,$(programs))
	rm -f $(addprefix $(DESTDIR)$(LIBDIR)/,liblarusqem.a liblarusqem.so $(soname) $(notdir $(shared)) pkgconfig/larusqem.pc)
	rm -f $(DESTDIR)$(MANDIR)/man3/larusqem.3 $(addprefix $(DESTDIR)$(MANDIR)/man1/,$(programs:=.1))

test:
	tests/run

help:
	@echo 'make                   proves and builds the library, static and shared, and the programs $(programs) (minutes)'
	@echo 'make library           the library alone'
	@echo 'make programs          the programs alone'
	@echo 'make install           installs header, libraries, pkg-config file, programs and manual pages under PREFIX ($(PREFIX));'
	@echo '                       also install-library and install-programs. A system library folder wants ldconfig after it.'
	@echo 'make uninstall         removes them'
	@echo 'make test              all tests (an hour)'
	@echo 'Variables: PREFIX, BINDIR, INCLUDEDIR, LIBDIR, MANDIR, DESTDIR, CC, LDFLAGS. The version is $(version).'
