# make: the command over the archive of the proved library: dist's, or one that is proved here where the sources are others (./urk does it).
# make install [PREFIX=/usr/local] [DESTDIR=]: archive, header, pkg-config file, command, man page, completion. make dist: a tarball for C users.
PREFIX ?= /usr/local
DESTDIR ?=
VERSION := $(shell sed -n 's/^version = "\(.*\)"/\1/p' rust/Cargo.toml)
BUILT := target/install
INTO := $(DESTDIR)$(PREFIX)

PACKED := urkibasko-$(VERSION)-x86_64-linux

.PHONY: all install uninstall dist
all:
	./urk --version > /dev/null
	mkdir -p $(BUILT)
	$(CC) -std=c99 -O2 -Wall -Wextra -Iinclude -c c/urkibasko_names.c -o $(BUILT)/urkibasko_names.o
	cp $$(tools/library folder)/liburkibasko.a $(BUILT)/liburkibasko.a
	chmod u+w $(BUILT)/liburkibasko.a
	$(AR) rs $(BUILT)/liburkibasko.a $(BUILT)/urkibasko_names.o
	sed -e 's|@PREFIX@|$(PREFIX)|' -e 's|@VERSION@|$(VERSION)|' share/urkibasko.pc.in > $(BUILT)/urkibasko.pc

install: all
	install -d $(INTO)/lib/pkgconfig $(INTO)/include $(INTO)/bin $(INTO)/share/man/man1 $(INTO)/share/bash-completion/completions
	install -m 644 $(BUILT)/liburkibasko.a $(INTO)/lib/
	install -m 644 $(BUILT)/urkibasko.pc $(INTO)/lib/pkgconfig/
	install -m 644 include/urkibasko.h $(INTO)/include/
	install -m 755 rust/target/release/urk $(INTO)/bin/
	install -m 644 share/urk.1 $(INTO)/share/man/man1/
	install -m 644 share/urk.bash $(INTO)/share/bash-completion/completions/urk

uninstall:
	rm -f $(INTO)/lib/liburkibasko.a $(INTO)/lib/pkgconfig/urkibasko.pc $(INTO)/include/urkibasko.h $(INTO)/bin/urk
	rm -f $(INTO)/share/man/man1/urk.1 $(INTO)/share/bash-completion/completions/urk

# make dist: what C users need, as target/dist/urkibasko-VERSION-x86_64-linux.tar.gz: the archive of dist/, header, names, example, pkg-config file, man page,
# licence and their sums. The same bytes from the same commit. It needs neither the Rattle kit nor cargo nor a compiler.
dist:
	tools/library matches
	rm -rf target/dist
	mkdir -p target/dist/$(PACKED)
	cp dist/x86_64-linux/liburkibasko.a dist/x86_64-linux/MADE-OF include/urkibasko.h c/urkibasko_names.c examples/counter.c examples/counter.db share/urk.1 LICENSE target/dist/$(PACKED)/
	sed -e 's|@PREFIX@|/usr/local|' -e 's|@VERSION@|$(VERSION)|' share/urkibasko.pc.in > target/dist/$(PACKED)/urkibasko.pc
	cd target/dist/$(PACKED) && chmod 644 * && sha256sum * > ../SHA256SUMS && mv ../SHA256SUMS . && chmod 644 SHA256SUMS
	cd target/dist && tar --sort=name --owner=0 --group=0 --numeric-owner --mtime='2000-01-01 00:00Z' -cf - $(PACKED) | gzip -n -9 > $(PACKED).tar.gz
