# The usual words, over the scripts of package/ and tests/. CC, AR, CFLAGS and LDFLAGS count as usual.
PREFIX ?= /usr/local
DESTDIR ?=
export PREFIX DESTDIR

all:
	@package/build

check:
	@tests/check

install: all
	@package/install "$$PREFIX"

uninstall:
	@package/uninstall "$$PREFIX"

help:
	@echo 'make                         proves and builds into build/'
	@echo 'make check                   tests the calls from C, the programs and the package'
	@echo 'make install PREFIX=DIR      installs below DIR (/usr/local); DESTDIR=DIR lays it out below another folder'
	@echo 'make uninstall PREFIX=DIR    removes what was installed below DIR'
	@echo 'package/install DIR          installs what is built, without building: for another user, as root'

.PHONY: all check install uninstall help
.NOTPARALLEL:
