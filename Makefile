# The library for C and C++, the command `roffelaine` and its man page.
#
#   make                   builds all that is installed
#   make install           installs all of it; PREFIX=/usr/local, and DESTDIR= stands before every path, for packages
#   make install-library   the library, its headers and roffelaine.pc alone; needs no Cargo
#   make install-command   the command and its man page alone
#   make uninstall         removes what `make install` with the same PREFIX and DESTDIR has put there
#   make check             runs the tests
#   make clean             removes what was made here: target/kit
#
# The archive of the proved library is proved and built where that is due (`rt lib` in crates/c_interface); ROFFELAINE_ARCHIVE names another.

PREFIX ?= /usr/local
DESTDIR ?=
BINDIR ?= $(PREFIX)/bin
LIBDIR ?= $(PREFIX)/lib
INCLUDEDIR ?= $(PREFIX)/include
MANDIR ?= $(PREFIX)/share/man
CARGO ?= cargo
INSTALL ?= install
CARGO_TARGET_DIR ?= rust/target

# Not every shell puts in the home folder behind a "=".
override PREFIX := $(PREFIX:~/%=$(HOME)/%)

ifeq ($(filter /%,$(PREFIX)),)
$(error PREFIX has to be an absolute path, and is "$(PREFIX)")
endif
ifneq ($(words $(PREFIX)),1)
$(error PREFIX has to be without blanks, and is "$(PREFIX)")
endif

BUILT_ARCHIVE := crates/c_interface/out/libc_interface.a
ARCHIVE := $(or $(ROFFELAINE_ARCHIVE),$(BUILT_ARCHIVE))
KIT := target/kit
VERSION := $(shell sed -n 's/^version = "\(.*\)"$$/\1/p' rust/Cargo.toml)

# The shared library's file, the name by which programs ask for it, and the name by which they are linked.
FILE := libroffelaine.so.$(VERSION)
SONAME := $(basename $(FILE))
LINKED := libroffelaine.so

HEADERS := roffelaine.h roffelaine_util.h

# What the checks keep below out/ counts for nothing here.
PROVED := crates.txt $(shell find crates -name out -prune -o \( -name '*.rt' -o -name '*.antt' \) -print)
COMMAND := $(CARGO_TARGET_DIR)/release/roffelaine
RUST := $(shell find rust/Cargo.toml rust/Cargo.lock rust/roffelaine rust/roffelaine-cli -type f)

all: library command

library: $(KIT)/libroffelaine.a $(KIT)/$(FILE)

command: $(COMMAND)

# Touched, since what has not changed is not written anew.
$(BUILT_ARCHIVE): $(PROVED)
	scripts/prove c_interface
	touch $@

$(KIT)/libroffelaine.a: $(ARCHIVE)
	mkdir -p $(KIT)
	cp $(ARCHIVE) $@

# The archive's code may stand at any address (-z text refuses it where it may not).
$(KIT)/$(FILE): $(ARCHIVE) packaging/roffelaine.map Makefile
	mkdir -p $(KIT)
	$(CC) -shared $(LDFLAGS) -Wl,-soname,$(SONAME) -Wl,--version-script=packaging/roffelaine.map \
		-Wl,-z,text -Wl,-z,defs -Wl,-z,relro -Wl,-z,now -Wl,-z,noexecstack \
		-Wl,--whole-archive $(ARCHIVE) -Wl,--no-whole-archive -o $@

# Touched, since Cargo leaves a file as it is that comes out the same: `make install` then builds nothing that `make` has built.
$(COMMAND): $(ARCHIVE) $(RUST)
	$(CARGO) build --release --offline --manifest-path rust/Cargo.toml -p roffelaine-cli --target-dir "$(CARGO_TARGET_DIR)"
	touch "$@"

install: install-library install-command

install-library: library
	$(INSTALL) -d "$(DESTDIR)$(LIBDIR)/pkgconfig" "$(DESTDIR)$(INCLUDEDIR)"
	$(INSTALL) -m 644 $(KIT)/libroffelaine.a "$(DESTDIR)$(LIBDIR)/libroffelaine.a"
	$(INSTALL) -m 755 $(KIT)/$(FILE) "$(DESTDIR)$(LIBDIR)/$(FILE)"
	ln -sf $(FILE) "$(DESTDIR)$(LIBDIR)/$(SONAME)"
	ln -sf $(SONAME) "$(DESTDIR)$(LIBDIR)/$(LINKED)"
	$(INSTALL) -m 644 $(HEADERS:%=include/%) "$(DESTDIR)$(INCLUDEDIR)"
	sed -e 's|@PREFIX@|$(PREFIX)|' -e 's|@VERSION@|$(VERSION)|' \
		-e 's|@LIBDIR@|$(LIBDIR:$(PREFIX)/%=$${prefix}/%)|' \
		-e 's|@INCLUDEDIR@|$(INCLUDEDIR:$(PREFIX)/%=$${prefix}/%)|' \
		packaging/roffelaine.pc.in > "$(DESTDIR)$(LIBDIR)/pkgconfig/roffelaine.pc"
	chmod 644 "$(DESTDIR)$(LIBDIR)/pkgconfig/roffelaine.pc"

install-command: command
	$(INSTALL) -d "$(DESTDIR)$(BINDIR)" "$(DESTDIR)$(MANDIR)/man1"
	$(INSTALL) -m 755 "$(COMMAND)" "$(DESTDIR)$(BINDIR)/roffelaine"
	$(INSTALL) -m 644 man/roffelaine.1 "$(DESTDIR)$(MANDIR)/man1/roffelaine.1"

uninstall:
	rm -f "$(DESTDIR)$(LIBDIR)/libroffelaine.a" "$(DESTDIR)$(LIBDIR)/$(FILE)" \
		"$(DESTDIR)$(LIBDIR)/$(SONAME)" "$(DESTDIR)$(LIBDIR)/$(LINKED)" \
		$(HEADERS:%="$(DESTDIR)$(INCLUDEDIR)/%") "$(DESTDIR)$(LIBDIR)/pkgconfig/roffelaine.pc" \
		"$(DESTDIR)$(BINDIR)/roffelaine" "$(DESTDIR)$(MANDIR)/man1/roffelaine.1"

check:
	rust/check

clean:
	rm -rf $(KIT)

.PHONY: all library command install install-library install-command uninstall check clean
