# The library for C: an archive, a shared object and their headers in the folder lib, which needs no toolchain, and their installation.

PREFIX = /usr/local
VERSION := $(shell sed -n 's/^\#define FODDERPAUSE_VERSION_\(MAJOR\|MINOR\|PATCH\) //p' include/fodderpause.h | paste -sd .)
HEADERS = include/fodderpause.h include/fodderpause_tools.h include/fodderpause.hpp

.PHONY: lib install uninstall

# The archive has the toolchain's own object inside by which the library calls malloc, realloc and free.
lib:
	cd crates/fodderpause_c && rt lib
	mkdir -p lib
	rm -f lib/*
	printf 'create lib/libfodderpause.a\naddlib crates/fodderpause_c/out/libfodderpause_c.a\naddlib %s\nsave\nend\n' "$$(dirname "$$(rt doc)")/c/liblibc_c.a" | ar -M
	cc -shared -o lib/libfodderpause.so -Wl,--whole-archive lib/libfodderpause.a -Wl,--no-whole-archive
	cp $(HEADERS) lib/

# Installs what `make lib` left.
install:
	install -d $(DESTDIR)$(PREFIX)/include $(DESTDIR)$(PREFIX)/lib/pkgconfig $(DESTDIR)$(PREFIX)/share/man/man1 $(DESTDIR)$(PREFIX)/share/man/man3
	install -m 644 $(HEADERS) $(DESTDIR)$(PREFIX)/include/
	install -m 644 lib/libfodderpause.a lib/libfodderpause.so $(DESTDIR)$(PREFIX)/lib/
	sed 's|@PREFIX@|$(PREFIX)|; s|@VERSION@|$(VERSION)|' fodderpause.pc.in > $(DESTDIR)$(PREFIX)/lib/pkgconfig/fodderpause.pc
	install -m 644 man/schism.1 $(DESTDIR)$(PREFIX)/share/man/man1/
	install -m 644 man/fodderpause.3 $(DESTDIR)$(PREFIX)/share/man/man3/

uninstall:
	rm -f $(addprefix $(DESTDIR)$(PREFIX)/include/,$(notdir $(HEADERS))) $(DESTDIR)$(PREFIX)/lib/libfodderpause.a $(DESTDIR)$(PREFIX)/lib/libfodderpause.so
	rm -f $(DESTDIR)$(PREFIX)/lib/pkgconfig/fodderpause.pc $(DESTDIR)$(PREFIX)/share/man/man1/schism.1 $(DESTDIR)$(PREFIX)/share/man/man3/fodderpause.3
