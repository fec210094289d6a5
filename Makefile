# The library, the program, and what belongs to them, installed as any other: docs/EMBEDDING.md.
#
#   make [FLAGS=--plain]                      the library, in out/library, and the program
#   make install [PREFIX=/usr/local] [DESTDIR=]
#   make uninstall [PREFIX=/usr/local] [DESTDIR=]
#   make deb                                  a package for Debian, in out/deb
PREFIX ?= /usr/local
DESTDIR ?=
FLAGS ?=

LIBRARY = out/library/libcodzvregi.so.2

# The library is made anew where one of these is newer.
SOURCES := $(shell find crates/*/src -name '*.rt') $(wildcard crates/spin_c/out/libspin_c.a) \
	bindings/c/spin.h bindings/c/installed.h wrapper/library.py wrapper/plain.py

.PHONY: all install uninstall deb

all:
	@./spin library $(FLAGS)
	@tools/install program

$(LIBRARY): $(SOURCES)
	@./spin library $(FLAGS)

install: $(LIBRARY)
	@tools/install put "$(PREFIX)" "$(DESTDIR)"

uninstall:
	@tools/install remove "$(PREFIX)" "$(DESTDIR)"

deb: $(LIBRARY)
	@tools/install deb
