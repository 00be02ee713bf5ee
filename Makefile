# make                 the engine's archive (proved first by rt, see tools/archive) and the player
# make run             speaks an example
# make shared          the engine as a shared library, target/shared/libdiphone_c.so.1
# make install         header, archive, pkg-config file and player, under PREFIX (/usr/local)
# make install-shared  the shared library too
# make uninstall       takes all of these away
# make test            the tests of the C interface, the tools and the player
# DESTDIR goes before PREFIX in what is written.
PREFIX ?= /usr/local
DESTDIR ?=
ARCHIVE := target/staticlib/libdiphone_c.a
SHARED := target/shared/libdiphone_c.so.1
VERSION := $(shell sed -n 's/^.define DIPHONE_VERSION "\(.*\)"/\1/p' include/diphone.h)
INTO := $(DESTDIR)$(PREFIX)

.PHONY: all run player shared install install-shared uninstall test FORCE
all: player

player:
	@$(MAKE) -s -C player

run:
	@./run

$(ARCHIVE): FORCE
	@tools/archive

shared: $(SHARED)
$(SHARED): $(ARCHIVE)
	@mkdir -p target/shared
	$(CC) -shared -Wl,-soname,libdiphone_c.so.1 -o $@ -Wl,--whole-archive $(ARCHIVE) -Wl,--no-whole-archive

install: $(ARCHIVE) player
	install -d "$(INTO)/include" "$(INTO)/lib/pkgconfig" "$(INTO)/bin"
	install -m 644 include/diphone.h "$(INTO)/include/diphone.h"
	install -m 644 $(ARCHIVE) "$(INTO)/lib/libdiphone_c.a"
	install -m 755 target/player/player "$(INTO)/bin/diphone-player"
	printf '%s\n' 'prefix=$(PREFIX)' 'Name: diphone_c' 'Description: diphone speech engine, proved' \
	    'Version: $(VERSION)' 'Cflags: -I$${prefix}/include' 'Libs: -L$${prefix}/lib -ldiphone_c' \
	    >"$(INTO)/lib/pkgconfig/diphone_c.pc"

install-shared: $(SHARED) install
	install -m 644 $(SHARED) "$(INTO)/lib/libdiphone_c.so.1"
	ln -sf libdiphone_c.so.1 "$(INTO)/lib/libdiphone_c.so"

uninstall:
	rm -f "$(INTO)/include/diphone.h" "$(INTO)/lib/libdiphone_c.a" "$(INTO)/lib/libdiphone_c.so" \
	    "$(INTO)/lib/libdiphone_c.so.1" "$(INTO)/lib/pkgconfig/diphone_c.pc" "$(INTO)/bin/diphone-player"

test: $(ARCHIVE)
	tests/c/run
	tests/tools/run
	tests/player/run
