# Installs what is built, and takes it away again. PREFIX, LIBDIR and DESTDIR say where, as release/install.sh explains.

PREFIX ?= /usr/local

INSTALL = DESTDIR='$(DESTDIR)' PREFIX='$(PREFIX)' LIBDIR='$(LIBDIR)' sh release/install.sh

# What the program and the library are built from.
SOURCES = crates.txt $(shell find crates -name out -prune -o \( -name '*.rt' -o -name '*.antt' \) -print)

.PHONY: install install-lib uninstall

# Installs the program with its man page, completions and documents.
install: crates/mpslp/out/mpslp
	$(INSTALL) program documents

# Installs the library for C with its header, pkg-config file and documents.
install-lib: build/libmpslp.so.0
	$(INSTALL) library documents

# Removes what `install` and `install-lib` bring to the same PREFIX and LIBDIR.
uninstall:
	$(INSTALL) uninstall

# Both are built if they are missing or older than a source. If they are there, whoever installs them needs no kit.
crates/mpslp/out/mpslp: $(SOURCES)
	$(MAKE) --no-print-directory

build/libmpslp.so.0: $(SOURCES) include/mpslp.h lib/build.sh lib/inline.c lib/doubles.c lib/mpslp.map VERSION
	$(MAKE) --no-print-directory lib
