# Builds, checks and installs the library, the programs and the man pages. `rt`, the command of the Rattle kit, proves
# and compiles, and the C compiler links. For GNU make.
#   make              proves and builds all, which takes some minutes the first time
#   make install      installs it below PREFIX, with DESTDIR in front of every path
#   make uninstall    removes what install put there
#   make check        the gate, and then every test outside it
#   make clean        removes what was built here; what rt proved stays

PREFIX ?= /usr/local
BINDIR ?= $(PREFIX)/bin
LIBDIR ?= $(PREFIX)/lib
INCLUDEDIR ?= $(PREFIX)/include
MANDIR ?= $(PREFIX)/share/man
PKGCONFIGDIR ?= $(LIBDIR)/pkgconfig
DESTDIR ?=
CFLAGS ?= -O2
INSTALL ?= install

# Where things are built: the archives and the program of the kit, and what is made of them.
BUILD ?= target/install

VERSION := $(shell sed -n 's/^.define THOMPSON_VERSION "\(.*\)"$$/\1/p' include/thompson.h)
SONAME := libthompson.so.$(firstword $(subst ., ,$(VERSION)))
SHARED := libthompson.so.$(VERSION)
SOURCES := crates.txt $(shell find crates -name out -prune -o \( -name '*.rt' -o -name '*.antt' \) -print)
ARCHIVES := $(BUILD)/libthompson.a $(BUILD)/libreceiving.a $(BUILD)/libconsole.a
PROGRAMS := $(BUILD)/receipt $(BUILD)/register $(BUILD)/thompsonf
PAGES_1 := receipt.1 register.1 thompsonf.1
PAGES_3 := thompson.3

.PHONY: all check install uninstall clean FORCE
.NOTPARALLEL:
.DELETE_ON_ERROR:

all: $(ARCHIVES) $(BUILD)/$(SHARED) $(PROGRAMS) $(BUILD)/thompson.pc $(BUILD)/man/thompson.3

# What C calls of a library NAME is exported by the static library NAME_c over it.
$(ARCHIVES): $(BUILD)/lib%.a: $(SOURCES)
	cd crates/$*_c && rt lib
	@mkdir -p $(BUILD)
	cp crates/$*_c/out/lib$*_c.a $@

# rt links a program in order to run it: here with no arguments, so that it writes its usage and touches nothing.
$(BUILD)/register: $(SOURCES)
	cd crates/register && rt check && rt run < /dev/null > /dev/null 2>&1
	@mkdir -p $(BUILD)
	cp crates/register/out/register $@

# The C code of the kit by which the archives know why a read or a write failed; a program that rt links has it already.
$(BUILD)/libos_c.a:
	@mkdir -p $(BUILD)
	page=$$(rt doc) && cp "$${page%/*}/c/libos_c.a" $@

$(BUILD)/receipt: programs/receipt.c $(BUILD)/libreceiving.a $(BUILD)/libos_c.a
	$(CC) -std=c99 $(CFLAGS) $(LDFLAGS) -o $@ $^

$(BUILD)/thompsonf: programs/thompsonf.c $(BUILD)/libconsole.a $(BUILD)/libos_c.a
	$(CC) -std=c99 $(CFLAGS) $(LDFLAGS) -o $@ $^

$(BUILD)/$(SHARED): $(BUILD)/libthompson.a
	$(CC) -shared -Wl,-soname,$(SONAME) -Wl,-z,defs $(LDFLAGS) -o $@ -Wl,--whole-archive $< -Wl,--no-whole-archive

# It names PREFIX, which may differ from one call of make to the next.
$(BUILD)/thompson.pc: FORCE
	@mkdir -p $(BUILD)
	@{ \
	    printf '%s\n' 'prefix=$(PREFIX)' 'libdir=$(LIBDIR)' 'includedir=$(INCLUDEDIR)' ''; \
	    printf '%s\n' 'Name: thompson' "Description: Thompson's group F: each element listed once"; \
	    printf '%s\n' 'Version: $(VERSION)' 'Libs: -L$${libdir} -lthompson' 'Cflags: -I$${includedir}'; \
	} > $@.new
	@if cmp -s $@.new $@; then rm -f $@.new; else mv -f $@.new $@; fi

$(BUILD)/man/thompson.3: man/make docs/MANUAL.md include/thompson.h
	man/make $(BUILD)/man

install: all
	$(INSTALL) -d "$(DESTDIR)$(BINDIR)" "$(DESTDIR)$(LIBDIR)" "$(DESTDIR)$(INCLUDEDIR)" "$(DESTDIR)$(PKGCONFIGDIR)"
	$(INSTALL) -d "$(DESTDIR)$(MANDIR)/man1" "$(DESTDIR)$(MANDIR)/man3"
	$(INSTALL) -m 755 $(PROGRAMS) "$(DESTDIR)$(BINDIR)"
	$(INSTALL) -m 644 $(BUILD)/libthompson.a "$(DESTDIR)$(LIBDIR)"
	$(INSTALL) -m 755 $(BUILD)/$(SHARED) "$(DESTDIR)$(LIBDIR)"
	ln -sf $(SHARED) "$(DESTDIR)$(LIBDIR)/$(SONAME)"
	ln -sf $(SONAME) "$(DESTDIR)$(LIBDIR)/libthompson.so"
	$(INSTALL) -m 644 include/thompson.h "$(DESTDIR)$(INCLUDEDIR)"
	$(INSTALL) -m 644 $(BUILD)/thompson.pc "$(DESTDIR)$(PKGCONFIGDIR)"
	$(INSTALL) -m 644 $(PAGES_1:%=$(BUILD)/man/%) "$(DESTDIR)$(MANDIR)/man1"
	$(INSTALL) -m 644 $(PAGES_3:%=$(BUILD)/man/%) "$(DESTDIR)$(MANDIR)/man3"
	@echo "installed; a program that links libthompson.so starts once the loader knows its folder (ldconfig)"

uninstall:
	for f in $(notdir $(PROGRAMS)); do rm -f "$(DESTDIR)$(BINDIR)/$$f"; done
	for f in libthompson.a libthompson.so $(SONAME) $(SHARED); do rm -f "$(DESTDIR)$(LIBDIR)/$$f"; done
	rm -f "$(DESTDIR)$(INCLUDEDIR)/thompson.h" "$(DESTDIR)$(PKGCONFIGDIR)/thompson.pc"
	for f in $(PAGES_1); do rm -f "$(DESTDIR)$(MANDIR)/man1/$$f"; done
	for f in $(PAGES_3); do rm -f "$(DESTDIR)$(MANDIR)/man3/$$f"; done

check:
	@rt version | cmp -s - KIT || echo "the kit is not the one that the file KIT names: $$(rt version)"
	.ci/run
	$(MAKE) all
	examples/run $(BUILD)/libthompson.a
	tests/receipt $(BUILD)/receipt
	tests/register $(BUILD)/register
	tests/lists $(BUILD)/libthompson.a
	tests/thompsonf $(BUILD)/thompsonf
	tests/install $(BUILD)
	tests/python $(BUILD)/$(SHARED)

clean:
	rm -rf $(BUILD) rust/target
