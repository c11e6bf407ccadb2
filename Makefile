# Builds, tests and installs cola. Installed are the launcher, the program beside it, the manual and the completion of bash:
#
#     make                              proves and builds the program (the toolchain's rt is on PATH)
#     make check                        the tests of what was built
#     make install PREFIX=/usr/local    DESTDIR=.. puts all of it below another folder
#     make uninstall PREFIX=/usr/local
#
# make library, make dist, make deb and make wheel stand in bindings/c/library.mk and packaging/packages.mk.

PREFIX = /usr/local
DESTDIR =
INSTALL = install

bin = $(DESTDIR)$(PREFIX)/bin
program = $(DESTDIR)$(PREFIX)/libexec/cola
texts = $(DESTDIR)$(PREFIX)/share/cola
manual = $(DESTDIR)$(PREFIX)/share/man/man1
completion = $(DESTDIR)$(PREFIX)/share/bash-completion/completions

.PHONY: all program check documents install install-program uninstall uninstall-program

all: program

program:
	./cola mem 1 </dev/null

check: program
	for it in launcher create run signals mirror examples shards manual install documents; do tests/$$it.sh || exit 1; done

# The manual page and the plots, made anew of docs/COMMANDS.md, bench/measured.md and bench/waits.md.
documents:
	awk -v version="$$(cat VERSION)" -f docs/manual.awk docs/COMMANDS.md >docs/cola.1
	awk -v folder=bench -f bench/plots.awk bench/measured.md bench/waits.md

install: install-program

# (no toolchain is asked for: what is installed is what was built)
install-program:
	@test -x crates/cola/out/cola || { echo 'cola: the program was not built: the first run of ./cola builds it, as make does' >&2; exit 1; }
	$(INSTALL) -d '$(bin)' '$(program)' '$(texts)' '$(manual)' '$(completion)'
	$(INSTALL) -m 755 cola '$(bin)/cola'
	$(INSTALL) -m 755 crates/cola/out/cola '$(program)/cola'
	$(INSTALL) -m 644 docs/COMMANDS.md '$(texts)/COMMANDS.md'
	$(INSTALL) -m 644 docs/cola.1 '$(manual)/cola.1'
	$(INSTALL) -m 644 docs/cola.bash '$(completion)/cola'

uninstall: uninstall-program

uninstall-program:
	rm -f '$(bin)/cola' '$(program)/cola' '$(texts)/COMMANDS.md' '$(manual)/cola.1' '$(completion)/cola'
	-rmdir '$(program)' '$(texts)' 2>/dev/null

# The library, where there is one: it adds to all, check, install and uninstall. And packages of what was built.
-include bindings/c/library.mk
-include packaging/packages.mk
