# Builds and installs the library for C, and the programs gozdrit-relay and rtxtool where they were built.
#
#   make demo                                    a stream over a path that loses, with two relays and without, in ten seconds
#   make lib [PAYLOAD=1460]                      proves the library with payloads of so many octets, and builds it
#   make relay [PAYLOAD=1460]                    proves the program gozdrit-relay for such payloads, and builds it
#   make rtxtool [PAYLOAD=1460]                  the same of the program rtxtool
#   make install [PREFIX=FOLDER] [DESTDIR=ROOT]  installs it; the packager's ROOT stands before every path; LIBDIR=FOLDER for another lib
#   make uninstall [PREFIX=FOLDER] [DESTDIR=ROOT]
#   make dist                                    the archives of a release in out/dist: the sources, and what the three above build
#   make help                                    these lines
#
# ARCHIVE and INCLUDE install another build, an archive with the folder of its headers, in the place of `make lib`.
PAYLOAD ?= 1460
PREFIX ?= /usr/local
VERSION := $(shell cat $(dir $(firstword $(MAKEFILE_LIST)))VERSION)
SONAME = libgozdrit.so.$(firstword $(subst ., ,$(VERSION)))
SHARED = libgozdrit.so.$(VERSION)

BUILD ?= out/$(PAYLOAD)
TREE = $(BUILD)/tree
ARCHIVE ?= $(TREE)/crates/gozdrit/out/libgozdrit.a
INCLUDE ?= $(TREE)/include
PROGRAM ?= $(BUILD)/rtxtool
RELAY ?= $(BUILD)/gozdrit-relay
DIST ?= out/dist
HEAP ?= $(dir $(shell rt doc))c/liblibc_c.a
# What the tree of the library is made of. Where one of them is younger it is made and proved anew.
SOURCES = $(shell find crates -name out -prune -o \( -name '*.rt' -o -name '*.antt' \) -print) crates.txt HANDLES include/gozdrit.h
COMPILERS = $(firstword $(CC)) $(firstword $(LD)) $(firstword $(AR)) objcopy

BINDIR = $(PREFIX)/bin
LIBDIR = $(PREFIX)/lib
HEADERS = $(PREFIX)/include
PKGCONFIG = $(LIBDIR)/pkgconfig
MAN = $(PREFIX)/share/man
DOC = $(PREFIX)/share/doc/gozdrit
UNITS = $(PREFIX)/lib/systemd/system
UNITS_ALONE = packaging/gozdrit-relay@.socket packaging/gozdrit-join@.service
# A folder as the pkg-config file has it: below the prefix by that, so that a tree that was moved is found.
below = $(patsubst $(PREFIX)/%,$${prefix}/%,$(1))

lib: $(BUILD)/libgozdrit.a $(BUILD)/$(SHARED)
	@echo "$(BUILD) has libgozdrit.a and $(SHARED), made of $(ARCHIVE); next: make install (docs/LIBRARY.md)"

demo:
	@tools/need rt python3
	@tools/demo

help:
	@sed -n '/^#/!q; s/^# \{0,1\}//p' $(firstword $(MAKEFILE_LIST))

$(TREE)/crates/gozdrit/out/libgozdrit.a: $(SOURCES)
	@tools/need rt python3 $(COMPILERS)
	@rm -rf $(TREE)
	@tools/proving gozdrit $(BUILD)/library.log tools/limits $(PAYLOAD) $(TREE)
	@rt version >$(BUILD)/library.kit

# Its headers come with it.
$(TREE)/include/gozdrit.h: $(TREE)/crates/gozdrit/out/libgozdrit.a ;

relay: $(BUILD)/gozdrit-relay
	@echo "$(BUILD)/gozdrit-relay is built, and proved for payloads of $(PAYLOAD) octets; next: make install, or $(BUILD)/gozdrit-relay --help (docs/RELAY.md)"

# In the tree of the library, whose crates are proved for such payloads already.
$(BUILD)/gozdrit-relay: $(TREE)/crates/gozdrit/out/libgozdrit.a
	@tools/need rt python3
	@tools/proving gozdrit_relay $(BUILD)/relay.log sh -c 'cd $(TREE)/crates/gozdrit_relay && rt run -- --version'
	@rt version >$(BUILD)/relay.kit
	cp $(TREE)/crates/gozdrit_relay/out/gozdrit_relay $@

rtxtool: $(BUILD)/rtxtool
	@echo "$(BUILD)/rtxtool is built, and proved for payloads of $(PAYLOAD) octets; next: make install, or $(BUILD)/rtxtool --help (docs/SCRIPT.md)"

$(BUILD)/rtxtool: $(TREE)/crates/gozdrit/out/libgozdrit.a
	@tools/need rt python3
	@tools/proving rtxtool $(BUILD)/rtxtool.log sh -c 'cd $(TREE)/crates/rtxtool && rt run -- --version'
	@rt version >$(BUILD)/rtxtool.kit
	cp $(TREE)/crates/rtxtool/out/rtxtool $@

# What the header declares, a name a line.
$(BUILD)/exports: $(ARCHIVE)
	mkdir -p $(BUILD)
	sed -n 's/^u*int32_t \(gozdrit_[a-z_]*\)(.*/\1/p' $(INCLUDE)/gozdrit.h | sort -u >$@

# One object of the library and of the kit's heap functions, in which no other names than those are to be linked with.
$(BUILD)/gozdrit.o: $(ARCHIVE) $(BUILD)/exports
	@tools/need rt python3 $(COMPILERS)
	$(LD) -r -o $@ --whole-archive $(ARCHIVE) $(HEAP)
	objcopy --keep-global-symbols=$(BUILD)/exports $@

$(BUILD)/libgozdrit.a: $(BUILD)/gozdrit.o
	rm -f $@
	$(AR) rcsD $@ $<

$(BUILD)/symbols: $(INCLUDE)/gozdrit.h VERSION
	tools/symbols $(VERSION) $< >$@

$(BUILD)/$(SHARED): $(BUILD)/gozdrit.o $(BUILD)/symbols
	$(CC) -shared -Wl,-soname,$(SONAME) -Wl,--version-script=$(BUILD)/symbols -Wl,-z,defs -o $@ $<

install: lib programs
	install -d $(DESTDIR)$(HEADERS) $(DESTDIR)$(PKGCONFIG) $(DESTDIR)$(MAN)/man1 $(DESTDIR)$(MAN)/man3 $(DESTDIR)$(DOC)/docs/pictures
	install -m 644 $(INCLUDE)/gozdrit.h $(INCLUDE)/gozdrit_limits.h $(DESTDIR)$(HEADERS)
	install -m 644 $(BUILD)/libgozdrit.a $(DESTDIR)$(LIBDIR)
	install -m 755 $(BUILD)/$(SHARED) $(DESTDIR)$(LIBDIR)
	ln -sf $(SHARED) $(DESTDIR)$(LIBDIR)/$(SONAME)
	ln -sf $(SONAME) $(DESTDIR)$(LIBDIR)/libgozdrit.so
	sed 's|@PREFIX@|$(PREFIX)|; s|@LIBDIR@|$(call below,$(LIBDIR))|; s|@INCLUDEDIR@|$(call below,$(HEADERS))|; s|@VERSION@|$(VERSION)|' include/gozdrit.pc.in >$(DESTDIR)$(PKGCONFIG)/gozdrit.pc
	install -m 644 docs/gozdrit.3 $(DESTDIR)$(MAN)/man3
	install -m 644 docs/rtxtool.1 docs/gozdrit-relay.1 $(DESTDIR)$(MAN)/man1
	install -m 644 README.md CHANGELOG.md CONTRIBUTING.md SECURITY.md LICENSE LICENSE-APACHE LICENSE-MIT $(DESTDIR)$(DOC)
	install -m 644 docs/*.md $(DESTDIR)$(DOC)/docs
	install -m 644 docs/pictures/*.png $(DESTDIR)$(DOC)/docs/pictures
	[ ! -x $(RELAY) ] || [ -z "$(PREFIX)" ] || $(MAKE) -s --no-print-directory -f $(firstword $(MAKEFILE_LIST)) units PREFIX=$(PREFIX) DESTDIR=$(DESTDIR)
	@echo "installed below $(DESTDIR)$(PREFIX); next: cc ... \$$(pkg-config --cflags --libs gozdrit), and ldconfig where the loader knows $(LIBDIR)"

# Those that were built.
programs:
	[ ! -x $(PROGRAM) ] || install -D -m 755 $(PROGRAM) $(DESTDIR)$(BINDIR)/rtxtool
	[ ! -x $(RELAY) ] || install -D -m 755 $(RELAY) $(DESTDIR)$(BINDIR)/gozdrit-relay

# A unit names the program where it is installed, but for those that start none; what else stands in packaging/ is there to begin with.
units:
	install -d $(DESTDIR)$(UNITS) $(DESTDIR)$(DOC)/examples
	sed 's|@BINDIR@|$(BINDIR)|' packaging/gozdrit-relay@.service.in >$(DESTDIR)$(UNITS)/gozdrit-relay@.service
	install -m 644 $(UNITS_ALONE) $(DESTDIR)$(UNITS)
	install -m 644 $(filter-out %.in $(UNITS_ALONE),$(wildcard packaging/*)) $(DESTDIR)$(DOC)/examples

# Its parts stand below no prefix, since nobody knows where a user unpacks them.
dist: lib $(RELAY) $(PROGRAM)
	@tools/need python3
	@rm -rf $(BUILD)/stage
	@$(MAKE) -s --no-print-directory install PREFIX= DESTDIR=$(abspath $(BUILD)/stage) PAYLOAD=$(PAYLOAD) BUILD=$(BUILD) ARCHIVE=$(ARCHIVE) INCLUDE=$(INCLUDE) PROGRAM=$(PROGRAM) RELAY=$(RELAY) >$(BUILD)/stage.log
	@tools/dist $(VERSION) $(BUILD)/stage $(DIST) $$(find $(BUILD) -maxdepth 1 -name '*.kit')

uninstall:
	rm -f $(DESTDIR)$(HEADERS)/gozdrit.h $(DESTDIR)$(HEADERS)/gozdrit_limits.h $(DESTDIR)$(PKGCONFIG)/gozdrit.pc
	rm -f $(addprefix $(DESTDIR)$(LIBDIR)/,libgozdrit.a libgozdrit.so $(SONAME) $(SHARED))
	rm -f $(DESTDIR)$(MAN)/man3/gozdrit.3 $(addprefix $(DESTDIR)$(MAN)/man1/,rtxtool.1 gozdrit-relay.1)
	rm -f $(addprefix $(DESTDIR)$(BINDIR)/,rtxtool gozdrit-relay) $(DESTDIR)$(UNITS)/gozdrit-relay@.service $(addprefix $(DESTDIR)$(UNITS)/,$(notdir $(UNITS_ALONE)))
	rm -rf $(DESTDIR)$(DOC)

.PHONY: demo lib relay rtxtool install programs units dist uninstall help
