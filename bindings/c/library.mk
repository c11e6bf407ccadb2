# The library for C, a part of the Makefile at the top. libcola.a is the proved crate cola_c, the toolchain's heap and
# bindings/c in one archive; libcola.so.1 is the same, for programs and languages that load it; cola-recover stands on the first.
#
#     make library                     builds them in $(LIBRARY)
#     make install-library             installs what was built, the headers with their manual page, cola.pc, the module for
#                                      Python with its shell, and that for clusters
#     make uninstall-library           removes what was installed
#     make check-library               builds, and runs tests/library.sh on what was built
#
# CORE names another libcola_c.a than the one that rt lib builds. The library's number rises where a program that was
# linked with the one before no longer runs with it; what is added to cola.map gets the version that adds it.

PREFIX ?= /usr/local
LIBDIR ?= $(PREFIX)/lib
INSTALL ?= install
CFLAGS ?= -O2
LIBRARY = out/lib

version := $(shell cat VERSION)
shared = libcola.so.1
strict = -std=gnu11 -Wall -Wextra -Werror -fPIC -Iinclude
heap = $(dir $(shell rt doc))c/liblibc_c.a
objects = $(patsubst bindings/c/%.c,$(LIBRARY)/%.o,$(wildcard bindings/c/*.c))
headers = include/cola.h bindings/c/cola_file.h
inner = $(wildcard bindings/c/*.h)
libraries = $(DESTDIR)$(LIBDIR)
included = $(DESTDIR)$(PREFIX)/include
pages = $(DESTDIR)$(PREFIX)/share/man/man3
modules = $(DESTDIR)$(PREFIX)/share/cola
commands = $(DESTDIR)$(PREFIX)/bin
command_pages = $(DESTDIR)$(PREFIX)/share/man/man1
module_files = $(notdir $(wildcard bindings/python/cola/*.py))

.PHONY: library install-library uninstall-library check-library always

all: library
uninstall: uninstall-library
check: check-library

# What was built is installed: behind a first run of ./cola that is the program alone.
install:
	@if [ -f '$(LIBRARY)/$(shared)' ]; then $(MAKE) --no-print-directory install-library; \
	    else echo 'cola: the library for programs is not installed, since it was not built: make library builds it' >&2; fi

library: $(LIBRARY)/libcola.a $(LIBRARY)/libcola.so $(LIBRARY)/cola-recover

ifndef CORE
CORE = crates/cola_c/out/libcola_c.a
$(CORE): always
	cd crates/cola_c && rt lib
endif

$(LIBRARY)/%.o: bindings/c/%.c $(headers) $(inner)
	mkdir -p '$(LIBRARY)'
	$(CC) $(CFLAGS) $(strict) -c $< -o $@

$(LIBRARY)/libcola.a: $(CORE) $(objects)
	rm -f $@
	printf '%s\n' 'create $@' 'addlib $(CORE)' 'addlib $(heap)' $(objects:%='addmod %') save end | $(AR) -M

$(LIBRARY)/$(shared): $(LIBRARY)/libcola.a bindings/c/cola.map
	$(CC) $(LDFLAGS) -shared -Wl,-soname,$(shared) -Wl,--version-script=bindings/c/cola.map -Wl,-z,defs -o $@ \
	    -Wl,--whole-archive $< -Wl,--no-whole-archive

$(LIBRARY)/libcola.so: $(LIBRARY)/$(shared)
	ln -sf $(shared) $@

$(LIBRARY)/cola-recover: bindings/c/recover/cola_recover.c $(LIBRARY)/libcola.a
	$(CC) $(CFLAGS) $(strict) -Ibindings/c $(LDFLAGS) $^ -o $@

install-library:
	@test -f '$(LIBRARY)/$(shared)' || { echo 'cola: make library builds the library first' >&2; exit 1; }
	$(INSTALL) -d '$(libraries)/pkgconfig' '$(included)' '$(pages)' '$(modules)/cola' '$(commands)' '$(command_pages)'
	$(INSTALL) -m 644 '$(LIBRARY)/libcola.a' '$(libraries)/libcola.a'
	$(INSTALL) -m 644 '$(LIBRARY)/$(shared)' '$(libraries)/$(shared)'
	ln -sf $(shared) '$(libraries)/libcola.so'
	$(INSTALL) -m 644 $(headers) '$(included)'
	sed 's|@PREFIX@|$(PREFIX)|; s|@LIBDIR@|$(LIBDIR:$(PREFIX)/%=$${prefix}/%)|; s|@VERSION@|$(version)|' bindings/c/cola.pc.in >'$(libraries)/pkgconfig/cola.pc'
	awk -v version='$(version)' -f docs/header.awk $(headers) >'$(pages)/cola.3'
	chmod 644 '$(libraries)/pkgconfig/cola.pc' '$(pages)/cola.3'
	$(INSTALL) -m 644 $(module_files:%=bindings/python/cola/%) '$(modules)/cola'
	$(INSTALL) -m 644 bindings/python/cola_cluster.py '$(modules)/cola_cluster.py'
	$(INSTALL) -m 755 bindings/python/cola-shell '$(commands)/cola-shell'
	$(INSTALL) -m 755 '$(LIBRARY)/cola-recover' '$(commands)/cola-recover'
	$(INSTALL) -m 644 docs/cola-shell.1 docs/cola-recover.1 '$(command_pages)'

uninstall-library:
	rm -f '$(libraries)/libcola.a' '$(libraries)/libcola.so' '$(libraries)/$(shared)' '$(libraries)/pkgconfig/cola.pc'
	rm -f '$(included)/cola.h' '$(included)/cola_file.h' '$(pages)/cola.3'
	rm -f $(module_files:%='$(modules)/cola/%') '$(modules)/cola_cluster.py' '$(commands)/cola-shell' '$(command_pages)/cola-shell.1'
	rm -f '$(commands)/cola-recover' '$(command_pages)/cola-recover.1'
	-rm -rf '$(modules)/cola/__pycache__'
	-rmdir '$(modules)/cola' '$(modules)' 2>/dev/null

check-library: library
	tests/library.sh '$(LIBRARY)'
