# Builds and installs what a host uses: archive and shared library, header, pkg-config file, command line, manual page.
#
#   make                          builds what is not there yet; the first time it proves the library, all crates below it too
#   make install PREFIX=/usr/local
#   make uninstall PREFIX=/usr/local
#   make farm                     examples/farm, from its tables to the auditor's page target/farm.html
#
# DESTDIR goes before every path that is written, for packages. What is built already is taken as it is: after a change
# of the crates run `tools/static_library repgypsum` first, after one of host/ `cargo build --release`.

PREFIX ?= /usr/local
DESTDIR ?=
CC ?= cc
PYTHON ?= python3
INSTALL ?= install

# Where the archive, the shared library and the program are.
ARCHIVE ?= target/staticlib/librepgypsum.a
BUILD ?= target/shared
PROGRAM ?= host/target/release/repgypsum

VERSION := $(shell sed -n 's/^version = "\(.*\)"/\1/p' host/Cargo.toml)
MAJOR := $(firstword $(subst ., ,$(VERSION)))
SONAME := librepgypsum.so.$(MAJOR)
SHARED := $(BUILD)/librepgypsum.so.$(VERSION)

TO := $(DESTDIR)$(PREFIX)
INSTALLED := lib/librepgypsum.a lib/librepgypsum.so.$(VERSION) lib/$(SONAME) lib/librepgypsum.so include/repgypsum.h \
	lib/pkgconfig/repgypsum.pc bin/repgypsum share/man/man1/repgypsum.1

.PHONY: all install uninstall farm

all: $(ARCHIVE) $(SHARED) $(PROGRAM)

$(ARCHIVE):
	tools/static_library repgypsum

$(PROGRAM): | $(ARCHIVE)
	cargo build --release --offline --manifest-path host/Cargo.toml

# The archive is position independent. Only the functions of the header are exported.
$(SHARED): $(ARCHIVE) host/repgypsum.map
	mkdir -p $(BUILD)
	$(CC) -shared -o $@ -Wl,--whole-archive $(ARCHIVE) -Wl,--no-whole-archive -Wl,-soname,$(SONAME) \
		-Wl,--version-script,host/repgypsum.map -Wl,-z,defs -Wl,-z,relro -Wl,-z,now
	ln -sf librepgypsum.so.$(VERSION) $(BUILD)/$(SONAME)
	ln -sf $(SONAME) $(BUILD)/librepgypsum.so

install: all
	@case "$(PREFIX)" in /*) ;; *) echo "PREFIX is a path from the root, such as /usr/local" >&2; exit 2;; esac
	$(INSTALL) -d "$(TO)/lib/pkgconfig" "$(TO)/include" "$(TO)/bin" "$(TO)/share/man/man1"
	$(INSTALL) -m 644 $(ARCHIVE) "$(TO)/lib/librepgypsum.a"
	$(INSTALL) -m 755 $(SHARED) "$(TO)/lib/librepgypsum.so.$(VERSION)"
	ln -sf librepgypsum.so.$(VERSION) "$(TO)/lib/$(SONAME)"
	ln -sf $(SONAME) "$(TO)/lib/librepgypsum.so"
	$(INSTALL) -m 644 host/repgypsum.h "$(TO)/include/repgypsum.h"
	sed -e 's|@PREFIX@|$(PREFIX)|' -e 's|@VERSION@|$(VERSION)|' host/repgypsum.pc.in > "$(TO)/lib/pkgconfig/repgypsum.pc"
	$(INSTALL) -m 755 $(PROGRAM) "$(TO)/bin/repgypsum"
	sed -e 's|@VERSION@|$(VERSION)|' host/repgypsum.1.in > "$(TO)/share/man/man1/repgypsum.1"
	chmod 644 "$(TO)/lib/pkgconfig/repgypsum.pc" "$(TO)/share/man/man1/repgypsum.1"

uninstall:
	for file in $(INSTALLED); do rm -f "$(TO)/$$file"; done

farm: all
	REPGYPSUM_LIBRARY=$(abspath $(SHARED)) REPGYPSUM_PROGRAM=$(abspath $(PROGRAM)) $(PYTHON) examples/farm/farm.py target/farm.html
