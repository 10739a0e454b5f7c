# Installs the library from prebuilt/, without the Rattle kit: `make install PREFIX=/opt/rimopaku`. The head of tools/install has the rest.
# BUILT names another folder with the archives, such as one that tools/build made.
PREFIX = /usr/local
LIBDIR = lib
DESTDIR =
BUILT =

all:
	@echo "Nothing is to be made: say make install PREFIX=FOLDER."

install:
	@PREFIX="$(PREFIX)" LIBDIR="$(LIBDIR)" DESTDIR="$(DESTDIR)" tools/install $(BUILT)

.PHONY: all install
