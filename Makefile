# Makes and installs what other programs use: the shared library, its header and pkg-config file, the Python module, the command and its man page.
#
#     make library                     target/lib/libgolfcedar.so.MAJOR, from the proved static library
#     make install PREFIX=/usr/local   all of it under the prefix (DESTDIR stands before every path, for packagers)
#     make uninstall PREFIX=/usr/local
#     make check                       the tests of the module and the command
#
# Needed: rt, for what is proved; a C compiler, to link the shared library; python3, 3.9 or later.

PREFIX ?= /usr/local
BINDIR ?= $(PREFIX)/bin
LIBDIR ?= $(PREFIX)/lib
INCLUDEDIR ?= $(PREFIX)/include
MANDIR ?= $(PREFIX)/share/man
PYTHON ?= python3
PYTHONDIR ?= $(shell $(PYTHON) -c 'import sysconfig, sys; print(sysconfig.get_path("purelib", "posix_prefix", {"base": sys.argv[1]}))' '$(PREFIX)')
DESTDIR ?=

# The version stands in the header, and the library's own is tested to be the same.
number = $(shell sed -n 's/^\#define GOLFCEDAR_VERSION_$(1) //p' include/golfcedar.h)
MAJOR := $(call number,MAJOR)
VERSION := $(MAJOR).$(call number,MINOR).$(call number,PATCH)

STATIC = crates/c_api/out/libc_api.a
SONAME = libgolfcedar.so.$(MAJOR)
SHARED = target/lib/$(SONAME)
MODULE = $(wildcard python/golfcedar/*.py) python/golfcedar/py.typed

.PHONY: library install uninstall check
# A library that was half written must not count as made.
.DELETE_ON_ERROR:

library: $(SHARED)

$(STATIC): crates.txt $(shell find crates -name out -prune -o \( -name '*.rt' -o -name '*.antt' \) -print)
	cd crates/c_api && rt lib
	touch $@

# Only the functions of the header are exported.
$(SHARED): $(STATIC) include/golfcedar.h
	mkdir -p target/lib
	printf '{ global: golfcedar_*; local: *; };\n' > target/lib/exports
	$(CC) -shared -Wl,-soname,$(SONAME) -Wl,--version-script,target/lib/exports -Wl,-z,defs \
	    -Wl,--whole-archive $(STATIC) -Wl,--no-whole-archive -o $@

# Files that name other files need whole paths, and without python3 there would be none for the module.
paths = @case '$(PREFIX)' in /*) ;; *) echo "make: PREFIX is to begin with /, not '$(PREFIX)'" >&2; exit 1 ;; esac; \
    case '$(PYTHONDIR)' in /*) ;; *) echo "make: no folder for the module: is there a $(PYTHON)?" >&2; exit 1 ;; esac

install: $(SHARED)
	$(paths)
	install -d '$(DESTDIR)$(BINDIR)' '$(DESTDIR)$(LIBDIR)/pkgconfig' '$(DESTDIR)$(INCLUDEDIR)' '$(DESTDIR)$(MANDIR)/man1' '$(DESTDIR)$(PYTHONDIR)/golfcedar'
	install -m 644 include/golfcedar.h '$(DESTDIR)$(INCLUDEDIR)/golfcedar.h'
	install -m 755 $(SHARED) '$(DESTDIR)$(LIBDIR)/libgolfcedar.so.$(VERSION)'
	ln -sf libgolfcedar.so.$(VERSION) '$(DESTDIR)$(LIBDIR)/$(SONAME)'
	ln -sf $(SONAME) '$(DESTDIR)$(LIBDIR)/libgolfcedar.so'
	install -m 644 $(STATIC) '$(DESTDIR)$(LIBDIR)/libgolfcedar.a'
	printf '%s\n' 'prefix=$(PREFIX)' 'includedir=$(INCLUDEDIR)' 'libdir=$(LIBDIR)' '' 'Name: golfcedar' \
	    'Description: the largest common subgraph of two labelled graphs, by a proved search' 'Version: $(VERSION)' \
	    'Cflags: -I$${includedir}' 'Libs: -L$${libdir} -lgolfcedar' > '$(DESTDIR)$(LIBDIR)/pkgconfig/golfcedar.pc'
	install -m 644 $(MODULE) '$(DESTDIR)$(PYTHONDIR)/golfcedar'
	printf '# Written by make install: where the library is.\nLIBRARY = "%s"\n' '$(LIBDIR)/$(SONAME)' > '$(DESTDIR)$(PYTHONDIR)/golfcedar/_installed.py'
	printf '%s\n' '#!/usr/bin/env $(PYTHON)' 'import sys' '' 'sys.path.append("$(PYTHONDIR)")' '' \
	    'from golfcedar.command import main' '' 'sys.exit(main())' > '$(DESTDIR)$(BINDIR)/golfcedar'
	chmod 755 '$(DESTDIR)$(BINDIR)/golfcedar'
	chmod 644 '$(DESTDIR)$(LIBDIR)/pkgconfig/golfcedar.pc' '$(DESTDIR)$(PYTHONDIR)/golfcedar/_installed.py'
	install -m 644 man/golfcedar.1 '$(DESTDIR)$(MANDIR)/man1/golfcedar.1'

uninstall:
	$(paths)
	rm -f '$(DESTDIR)$(BINDIR)/golfcedar' '$(DESTDIR)$(INCLUDEDIR)/golfcedar.h' '$(DESTDIR)$(LIBDIR)/pkgconfig/golfcedar.pc' \
	    '$(DESTDIR)$(MANDIR)/man1/golfcedar.1' '$(DESTDIR)$(LIBDIR)/libgolfcedar.a' '$(DESTDIR)$(LIBDIR)/libgolfcedar.so' \
	    '$(DESTDIR)$(LIBDIR)/$(SONAME)' '$(DESTDIR)$(LIBDIR)/libgolfcedar.so.$(VERSION)'
	rm -rf '$(DESTDIR)$(PYTHONDIR)/golfcedar'

check: $(SHARED)
	PYTHONPATH=python $(PYTHON) -m unittest discover -s python/tests
