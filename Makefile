# The library, the program and what a packager installs. From the top of a clone:
#
#   make                        proves and builds the library, as an archive and as
#                               a shared library, the program and the desk
#   make check                  the quick look: every crate proved, the programs
#                               run, and the C tests; no must-fail edits
#   make install PREFIX=/usr    installs header, both libraries, the command with all
#                               that it needs, its completion for bash, manual pages,
#                               pkg-config files and a CMake package; DESTDIR is put
#                               before PREFIX
#   make install-data           of these, what needs no proof: header, completion,
#                               manual pages, pkg-config files and CMake package
#   make uninstall              removes what make install has installed
#   make clean                  removes crates/*/out/, build/ and desk/build/

TOP = .
include library.mk

PREFIX = /usr/local
DESTDIR =
INSTALL = install

PROGRAM = crates/solve/out/solve
ROOT = $(DESTDIR)$(PREFIX)

# The header has the version; the manual pages, the pkg-config files and the CMake package are given it.
VERSION := $(shell sed -n 's/^\#define LW_VERSION_TEXT "\(.*\)"$$/\1/p' $(HEADER))
FILL_IN = sed -e 's|@PREFIX@|$(PREFIX)|' -e 's|@VERSION@|$(VERSION)|'

# The shared library has the archive's objects, and exports the calls alone.
SONAME = liblinkwords.so.0
SHARED = build/$(SONAME)

.PHONY: all check desk install install-data uninstall clean

all: $(LIB) $(SHARED) $(PROGRAM) desk

$(SHARED): $(LIB) package/exports.map
	mkdir -p $(@D)
	$(CC) -shared -Wl,-soname,$(SONAME) -Wl,--version-script=package/exports.map -Wl,-z,defs \
	    -o $@ -Wl,--whole-archive $(LIB) -Wl,--no-whole-archive

desk: $(LIB)
	$(MAKE) -C desk

# `rt run` proves a program, builds it and runs it; it leaves one as it is if nothing that it is made of has changed.
$(PROGRAM): $(SOURCES)
	cd crates/solve && rt run <stdin >/dev/null
	touch $@

# The layout is looked at by `rt ci` alone. Of cases, which reads the files that its arguments name, `rt run` makes the program only.
check:
	rt all check
	cd crates/solve && rt run <stdin | cmp - stdout
	cd crates/cases && rt run </dev/null >/dev/null
	cd crates/cases/data && xargs ../out/cases <../args | cmp - ../stdout
	$(MAKE) -C host test
	$(MAKE) -C desk test

# Where each file goes, below PREFIX; make uninstall removes these. The manual pages, the pkg-config files and the CMake
# package are filled in.
FILLED = share/man/man1/linkwords.1 share/man/man3/linkwords.3 lib/pkgconfig/linkwords.pc lib/pkgconfig/linkwords-static.pc \
    lib/cmake/linkwords/linkwords-config.cmake lib/cmake/linkwords/linkwords-config-version.cmake
COMPLETION = share/bash-completion/completions/linkwords
INSTALLED = $(FILLED) $(COMPLETION) include/linkwords.h lib/liblinkwords.a lib/$(SONAME) lib/liblinkwords.so bin/linkwords \
    libexec/linkwords/solve libexec/linkwords/desk

# bin/linkwords is the script linkwords over the program and the desk.
install: all install-data
	$(INSTALL) -d $(ROOT)/lib $(ROOT)/bin $(ROOT)/libexec/linkwords
	$(INSTALL) -m 644 $(LIB) $(ROOT)/lib/liblinkwords.a
	$(INSTALL) -m 755 $(SHARED) $(ROOT)/lib/
	ln -sf $(SONAME) $(ROOT)/lib/liblinkwords.so
	$(INSTALL) -m 755 $(PROGRAM) desk/build/desk $(ROOT)/libexec/linkwords/
	sed '/^# In a clone: /,/^# Here ends /c here="$(PREFIX)/libexec/linkwords" version=$(VERSION); program=$$here/solve desk=$$here/desk' \
	    linkwords >$(ROOT)/bin/linkwords
	chmod 755 $(ROOT)/bin/linkwords

install-data:
	test -n '$(VERSION)'
	$(INSTALL) -d $(sort $(dir $(addprefix $(ROOT)/,$(FILLED) $(COMPLETION)))) $(ROOT)/include
	$(INSTALL) -m 644 $(HEADER) $(ROOT)/include/
	$(INSTALL) -m 644 package/completion.bash $(ROOT)/$(COMPLETION)
	for file in $(FILLED); do \
	    source=package/$${file##*/}.in; test -e $$source || source=man/$${file##*/}; \
	    $(FILL_IN) $$source >$(ROOT)/$$file && chmod 644 $(ROOT)/$$file || exit 1; \
	done

uninstall:
	rm -f $(addprefix $(ROOT)/,$(INSTALLED))
	for folder in lib/cmake/linkwords libexec/linkwords; do test ! -d $(ROOT)/$$folder || rmdir $(ROOT)/$$folder; done

clean:
	rm -rf crates/*/out build desk/build
