# Installs and packs the builds of the present sources: those that were proved here, or else those of release/. Each
# command says which it took. `make prove` proves the programs and the library first.
#     make install PREFIX=/usr/local DESTDIR= LIBDIR=lib
#     make deb wheel crate dist OUT=out/packages
#     make release

PREFIX = /usr/local
LIBDIR = lib
DESTDIR =
OUT = out/packages

all:
	@sed -n 's/^#     /    /p' Makefile

install:
	packaging/stage "$(DESTDIR)" "$(PREFIX)" "$(LIBDIR)" programs library

deb:
	packaging/deb "$(OUT)"

wheel:
	@command -v python3 >/dev/null || { echo "wheel: there is no python3, which makes it" >&2; exit 1; }
	packaging/wheel "$(OUT)"

crate:
	packaging/crate "$(OUT)"

dist:
	packaging/dist "$(OUT)"

release:
	scripts/release

prove:
	./prove

check test:
	./test

.PHONY: all install deb wheel crate dist release prove check test
