# Packages of what was built, a part of the Makefile at the top. Like an installation they ask for no toolchain; make builds
# the program and the library first.
#
#     make dist     cola-VERSION-MACHINE.tar.gz: what make install puts there, to be unpacked in any folder, with a list of sums
#     make deb      packages of Debian: cola, libcola1, libcola-dev and python3-cola
#     make wheel    the module for Python with the library in it, by pip and setuptools
#
# They go to $(PACKAGES). From the same sources, by the same tools, each is the same byte for byte: all their times are the
# day of the version in CHANGELOG.md.

PACKAGES = out/packages
PYTHON = python3

version := $(shell cat VERSION)
SOURCE_DATE_EPOCH ?= $(shell date -u -d "$$(sed -n 's/^## $(version), //p' CHANGELOG.md)" +%s)
export SOURCE_DATE_EPOCH
dist = cola-$(version)-$(shell uname -m)-linux

.PHONY: dist deb wheel is-built

is-built:
	@test -x crates/cola/out/cola && test -f '$(LIBRARY)/$(shared)' || { echo 'cola: make builds the program and the library first' >&2; exit 1; }

dist: is-built
	packaging/dist.sh '$(PACKAGES)' $(dist) LIBRARY='$(LIBRARY)'

deb: is-built
	packaging/deb.sh '$(PACKAGES)' LIBRARY='$(LIBRARY)'

wheel: is-built
	packaging/wheel.sh '$(PACKAGES)' '$(PYTHON)' '$(LIBRARY)'
