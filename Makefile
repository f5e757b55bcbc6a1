# Installs Bellpulsar for use outside this tree: the header, both libraries, the file for pkg-config, the package for CMake, the
# Python package, the command, and the man pages of the command and of the C calls.
#
#     make              proves and builds the engine where that is needed: ./build.sh
#     make install      builds it and puts all of it below PREFIX
#     make uninstall    with the words that install was given: takes away what that put there, and the bytecode that Python
#                       has kept of it since; folders that others use too stay
#     make dist         builds it and packs a release into dist, for machines without the toolchain
#     make clean        takes away all that was built, packed or kept here, so that the next build proves everything again
#     make test         the gate
#
# PREFIX and each folder below may be given, as `make install PREFIX=/opt/bellpulsar`; they are where the files are used.
# DESTDIR stands before them where files are written, and is named in none of them.

PREFIX ?= /usr/local
INCLUDEDIR ?= $(PREFIX)/include
LIBDIR ?= $(PREFIX)/lib
BINDIR ?= $(PREFIX)/bin
MANDIR ?= $(PREFIX)/share/man
PKGCONFIGDIR ?= $(LIBDIR)/pkgconfig
CMAKEDIR ?= $(LIBDIR)/cmake/bellpulsar

# The folder of packages below PREFIX/lib that this python3 looks at by itself (for /usr/local Debian's has one with a name
# of its own), else the one that a Python of this version has when PREFIX is its own.
ifndef PYTHONDIR
PYTHONDIR := $(shell python3 -c 'import os, site, sys, sysconfig; prefix = os.path.normpath(sys.argv[1]); \
    own = sysconfig.get_path("purelib", "posix_prefix", {"base": prefix}); \
    print(next((path for path in site.getsitepackages() if path.startswith(prefix + "/lib/")), own))' '$(PREFIX)')
endif

# pkg-config parts words by blanks, and what is relative would be so to whatever folder the files are used from.
$(foreach name,PREFIX INCLUDEDIR LIBDIR BINDIR MANDIR PKGCONFIGDIR CMAKEDIR PYTHONDIR,$(if \
    $(filter-out /%,$($(name)))$(filter-out 1,$(words $($(name)))),$(error $(name) must be one absolute path, without blanks)))

# The header tells the version and the calls.
number = $(or $(shell sed -n 's/^\#define $(1) \([0-9][0-9]*\)$$/\1/p' include/bellpulsar.h),$(error \
    include/bellpulsar.h has no $(1)))
version = $(call number,BP_VERSION).$(call number,BP_VERSION_MINOR).$(call number,BP_VERSION_PATCH)
shared = libbellpulsar.so.$(call number,BP_VERSION)
calls := $(shell sed -n 's/^[a-z0-9]*_t \(bp_[a-z_]*\).*/\1/p' include/bellpulsar.h)

package = $(PYTHONDIR)/bellpulsar
modules := $(notdir $(wildcard python/bellpulsar/*.py python/bellpulsar/py.typed))

cmake_files = bellpulsar-config.cmake bellpulsar-config-version.cmake

# A folder or file as it is written, a folder as the file for pkg-config has it, and the way from one folder to another.
to = '$(DESTDIR)$(1)'
by_prefix = $(patsubst $(PREFIX)/%,$${prefix}/%,$(1))
way = $$(realpath --relative-to=$(call to,$(1)) $(call to,$(2)))

.PHONY: all install uninstall dist clean test

all:
	./build.sh

install: all
	umask 022 && mkdir -p $(call to,$(INCLUDEDIR)) $(call to,$(LIBDIR)) $(call to,$(PKGCONFIGDIR)) \
	    $(call to,$(CMAKEDIR)) $(call to,$(package)) $(call to,$(BINDIR)) $(call to,$(MANDIR)/man1) \
	    $(call to,$(MANDIR)/man3)
	install -m 644 include/bellpulsar.h $(call to,$(INCLUDEDIR))
	install -m 644 build/libbellpulsar.a $(call to,$(LIBDIR))
	install -m 755 build/$(shared) $(call to,$(LIBDIR))
	ln -sf $(shared) $(call to,$(LIBDIR)/libbellpulsar.so)
	install -m 644 installed/bellpulsar.pc $(call to,$(PKGCONFIGDIR))
	sed -i -e 's|@PREFIX@|$(PREFIX)|' -e 's|@INCLUDEDIR@|$(call by_prefix,$(INCLUDEDIR))|' \
	    -e 's|@LIBDIR@|$(call by_prefix,$(LIBDIR))|' -e 's|@VERSION@|$(version)|' \
	    $(call to,$(PKGCONFIGDIR)/bellpulsar.pc)
	install -m 644 $(addprefix installed/,$(cmake_files)) $(call to,$(CMAKEDIR))
	sed -i -e "s|@LIBDIR@|$(call way,$(CMAKEDIR),$(LIBDIR))|" -e "s|@INCLUDEDIR@|$(call way,$(CMAKEDIR),$(INCLUDEDIR))|" \
	    -e 's|@SHARED@|$(shared)|' -e 's|@VERSION@|$(version)|' -e 's|@MAJOR@|$(call number,BP_VERSION)|' \
	    $(foreach name,$(cmake_files),$(call to,$(CMAKEDIR)/$(name)))
	install -m 644 $(addprefix python/bellpulsar/,$(modules)) $(call to,$(package))
	install -m 644 /dev/null $(call to,$(package)/VERSION)
	echo $(version) >$(call to,$(package)/VERSION)
	ln -srf $(call to,$(LIBDIR)/$(shared)) $(call to,$(package)/$(shared))
	install -m 755 installed/bellpulsar $(call to,$(BINDIR))
	sed -i "s|@PACKAGE@|$(call way,$(BINDIR),$(package))|" $(call to,$(BINDIR)/bellpulsar)
	install -m 644 docs/bellpulsar.1 $(call to,$(MANDIR)/man1)
	sed -i 's|@VERSION@|$(version)|' $(call to,$(MANDIR)/man1/bellpulsar.1)
	umask 022 && python3 installed/manual.py <include/bellpulsar.h >$(call to,$(MANDIR)/man3/bellpulsar.3) && \
	    for call in $(calls); do echo '.so man3/bellpulsar.3' >$(call to,$(MANDIR)/man3)/$$call.3 || exit; done

uninstall:
	rm -f $(call to,$(INCLUDEDIR)/bellpulsar.h) $(call to,$(LIBDIR)/libbellpulsar.a) $(call to,$(LIBDIR)/$(shared)) \
	    $(call to,$(LIBDIR)/libbellpulsar.so) $(call to,$(PKGCONFIGDIR)/bellpulsar.pc) \
	    $(call to,$(BINDIR)/bellpulsar) $(call to,$(MANDIR)/man1/bellpulsar.1) \
	    $(foreach name,$(cmake_files),$(call to,$(CMAKEDIR)/$(name))) \
	    $(foreach name,bellpulsar $(calls),$(call to,$(MANDIR)/man3/$(name).3))
	rm -f $(foreach name,$(modules) VERSION $(shared),$(call to,$(package)/$(name)))
	rm -f $(foreach name,$(basename $(filter %.py,$(modules))),$(call to,$(package)/__pycache__/$(name)).*.pyc)
	for folder in $(call to,$(package)/__pycache__) $(call to,$(package)) $(call to,$(CMAKEDIR)); do \
	    [ ! -d "$$folder" ] || rmdir --ignore-fail-on-non-empty "$$folder"; \
	done

dist: all
	python3 -B python/bellpulsar_release.py

# All that .gitignore names.
clean:
	rm -rf build dist crates/*/out rust/target examples/rust/target tests/rust/target
	rm -f rust/Cargo.lock examples/rust/Cargo.lock tests/rust/Cargo.lock
	find python tests bench examples installed -name __pycache__ -prune -exec rm -rf {} +

test:
	.ci/run
