# make install PREFIX=FOLDER installs the programs, the library for C and C++, and what Rust, Python and Java need (docs/install.md).
# make dist makes out/samvolip-VERSION-linux-x86_64.tar.gz of the same. Both build what isn't built yet, by the kit, whose folder is
# KIT or else the one that rt names. make uninstall PREFIX=FOLDER takes away what make install put there.
PREFIX ?= /usr/local
DESTDIR ?=

all:
	@sed -n '/^#/!q; s/^# //p' Makefile

# the tree, laid out anew
out/installed: FORCE
	rm -rf $@
	install/tree $@

install: out/installed
	mkdir -p "$(DESTDIR)$(PREFIX)"
	cp -R -P out/installed/. "$(DESTDIR)$(PREFIX)/"

uninstall:
	cd out/installed && find . ! -type d -exec sh -c 'for file; do rm -f "$$0/$$file"; done' "$(DESTDIR)$(PREFIX)" {} +
	rm -rf "$(DESTDIR)$(PREFIX)/share/samvolip" "$(DESTDIR)$(PREFIX)/share/doc/samvolip" "$(DESTDIR)$(PREFIX)/lib/cmake/samvolip"

dist:
	install/archive

FORCE:
.PHONY: all install uninstall dist FORCE
