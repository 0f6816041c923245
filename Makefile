# The C library: builds it with the toolchain, which proves it first, and installs it.
#
#     make                              out/clib/libbelkjoef.a and belkjoef.pc
#     make install PREFIX=/usr/local DESTDIR=
#     make shared install-shared        the same octets as a shared library, for Python and others
#     make examples                     out/clib/server and client, of examples/c
#     make check                        tries the library and the examples: examples/c/try; and
#                                       writes .ci/make-check.stamp, of the code that was tried
#     make ARCHIVE=some/libbelkjoef.a   any of these over an archive that is there, with no proof
#
# What it installs is one object: the crates' code and the toolchain's C parts that it needs, of
# which only the functions of belkjoef.h can be seen. GNU make, binutils and a C compiler.

VERSION = 0.1.0
PREFIX = /usr/local
LIBDIR = $(PREFIX)/lib
INCLUDEDIR = $(PREFIX)/include
CFLAGS = -O2 -g
OUT = out/clib
CRATE = crates/belkjoef
KIT = $(patsubst %/bin/,%,$(dir $(realpath $(shell command -v rt))))
C_PARTS = $(wildcard $(KIT)/c/liblibc_c.a $(KIT)/c/libos_c.a)
STRICT = -std=c11 -Wall -Wextra -Wpedantic
LIBRARY = $(OUT)/libbelkjoef.a
ifneq ($(PREFIX),$(abspath $(PREFIX)))
$(error PREFIX is an absolute path)
endif
OBJCOPY = objcopy

.DELETE_ON_ERROR:

all: $(LIBRARY) $(OUT)/belkjoef.pc

shared: $(OUT)/libbelkjoef.so.$(VERSION)

ifdef ARCHIVE
STAMP = echo "no stamp: $(ARCHIVE) was there, and may be of other code"
$(LIBRARY): $(ARCHIVE)
else
ARCHIVE = $(CRATE)/out/libbelkjoef.a
STAMP = .ci/stamps.py --make-check $(LIBRARY)
$(LIBRARY): PROVE = (cd $(CRATE) && rt lib)
$(LIBRARY): $(wildcard crates.txt crates/*/src/*.rt crates/*/src/*/*.rt crates/*/specs/*.antt)
endif
	@mkdir -p $(OUT)
	$(PROVE)
	$(LD) -r -o $(OUT)/belkjoef.o --whole-archive $(ARCHIVE) --no-whole-archive $(C_PARTS)
	@if nm -u $(OUT)/belkjoef.o | grep rattle_; then echo "the kit's C parts are missing" >&2; exit 1; fi
	$(OBJCOPY) --wildcard --keep-global-symbol='bj_*' $(OUT)/belkjoef.o
	rm -f $@
	$(AR) rcs $@ $(OUT)/belkjoef.o

# Which archive it is made of: another one makes another library, whatever their ages.
$(LIBRARY): $(OUT)/archive Makefile
$(OUT)/archive: .FORCE
	@mkdir -p $(OUT)
	@echo '$(ARCHIVE)' | cmp -s - $@ || echo '$(ARCHIVE)' > $@
.FORCE:

$(OUT)/libbelkjoef.so.$(VERSION): $(LIBRARY)
	$(CC) -shared -Wl,-soname,libbelkjoef.so.0 -Wl,--whole-archive $< -Wl,--no-whole-archive -o $@

$(OUT)/belkjoef.pc:
	@mkdir -p $(OUT)
	printf '%s\n' 'prefix=$(PREFIX)' 'libdir=$(LIBDIR)' 'includedir=$(INCLUDEDIR)' '' \
	  'Name: belkjoef' 'Description: HTTP/2 over cleartext: ends of connections, proved' \
	  'Version: $(VERSION)' 'Libs: -L$${libdir} -lbelkjoef' 'Cflags: -I$${includedir}' > $@

install: all
	install -d $(DESTDIR)$(LIBDIR)/pkgconfig $(DESTDIR)$(INCLUDEDIR)
	install -m 644 $(LIBRARY) $(DESTDIR)$(LIBDIR)
	install -m 644 $(CRATE)/belkjoef.h $(DESTDIR)$(INCLUDEDIR)
	install -m 644 $(OUT)/belkjoef.pc $(DESTDIR)$(LIBDIR)/pkgconfig

install-shared: shared
	install -d $(DESTDIR)$(LIBDIR)
	install -m 755 $(OUT)/libbelkjoef.so.$(VERSION) $(DESTDIR)$(LIBDIR)
	ln -sf libbelkjoef.so.$(VERSION) $(DESTDIR)$(LIBDIR)/libbelkjoef.so.0
	ln -sf libbelkjoef.so.0 $(DESTDIR)$(LIBDIR)/libbelkjoef.so
	@[ -n "$(DESTDIR)" ] || ldconfig 2> /dev/null || true

uninstall:
	rm -f $(addprefix $(DESTDIR)$(LIBDIR)/,libbelkjoef.a pkgconfig/belkjoef.pc libbelkjoef.so \
	  libbelkjoef.so.0 libbelkjoef.so.$(VERSION)) $(DESTDIR)$(INCLUDEDIR)/belkjoef.h

examples: $(OUT)/server $(OUT)/client

$(OUT)/%: examples/c/%.c examples/c/common.h $(CRATE)/belkjoef.h $(LIBRARY)
	$(CC) $(STRICT) $(CFLAGS) -I $(CRATE) -o $@ $< $(LIBRARY)

check: all
	examples/c/try $(OUT)
	@if command -v python3 > /dev/null; then $(STAMP); else echo "no stamp: no python3"; fi

clean:
	rm -rf $(OUT)

# Its text depends on the variables.
.PHONY: $(OUT)/belkjoef.pc
.PHONY: all shared install install-shared uninstall examples check clean
