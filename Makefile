# The archive for hosts in C or Rust, and its place on a system:
#
#     make                        target/staticlib/libpnoelithe.a, where it is missing or older than a source
#     make install                header, archive and pnoelithe.pc below PREFIX, which is /usr/local
#     make install PREFIX=/usr DESTDIR=stage
#                                 those for /usr, laid down below stage
#     make uninstall              removes the three; PREFIX and DESTDIR as they were installed with
#
# INCLUDEDIR and LIBDIR lie below PREFIX where they are not set. ARCHIVE names another archive to install:
# then none is built. To build is to prove, which takes the Rattle kit and some minutes.

PREFIX = /usr/local
INCLUDEDIR = $(PREFIX)/include
LIBDIR = $(PREFIX)/lib
BUILT = target/staticlib/libpnoelithe.a
ARCHIVE = $(BUILT)
RT = $(if $(RATTLE_HOME),$(RATTLE_HOME)/bin/rt,rt)

VERSION = $(shell awk '$$2 ~ /^PNO_VERSION_M(AJOR|INOR)$$/ { printf "%s.", $$3 } \
    $$2 == "PNO_VERSION_PATCH" { print $$3 }' include/pnoelithe.h)
# What lies below the prefix is written so: pkg-config can then move it.
below_prefix = $(patsubst $(PREFIX)/%,$${prefix}/%,$(1))

all: $(ARCHIVE)

$(BUILT): crates.txt $(shell find crates -name '*.rt')
	@command -v $(RT) >/dev/null || \
	    { echo 'there is no command $(RT): the Rattle kit, which builds the archive, is not here' >&2; exit 1; }
	cd crates/pnoelithe && $(RT) lib
	install -D -m 644 crates/pnoelithe/out/libpnoelithe.a $(BUILT)

install: $(ARCHIVE)
	install -d '$(DESTDIR)$(INCLUDEDIR)' '$(DESTDIR)$(LIBDIR)/pkgconfig'
	install -m 644 include/pnoelithe.h '$(DESTDIR)$(INCLUDEDIR)/pnoelithe.h'
	install -m 644 '$(ARCHIVE)' '$(DESTDIR)$(LIBDIR)/libpnoelithe.a'
	sed -e 's|@PREFIX@|$(PREFIX)|' -e 's|@VERSION@|$(VERSION)|' \
	    -e 's|@INCLUDEDIR@|$(call below_prefix,$(INCLUDEDIR))|' \
	    -e 's|@LIBDIR@|$(call below_prefix,$(LIBDIR))|' \
	    pnoelithe.pc.in >'$(DESTDIR)$(LIBDIR)/pkgconfig/pnoelithe.pc'
	chmod 644 '$(DESTDIR)$(LIBDIR)/pkgconfig/pnoelithe.pc'

uninstall:
	rm -f '$(DESTDIR)$(INCLUDEDIR)/pnoelithe.h' '$(DESTDIR)$(LIBDIR)/libpnoelithe.a' \
	    '$(DESTDIR)$(LIBDIR)/pkgconfig/pnoelithe.pc'

.PHONY: all install uninstall
