# Builds, installs and packs the program and the library. Proofs, tests and the benchmark are under .ci/run, conformance/ and bench/.
#
#   make                                 proves and builds the program and the library, and builds registrar over it
#   make install PREFIX= DESTDIR=        installs them with the header, retraction.pc and the manual pages
#   make release                         the same in target/release/retraction-VERSION, with their SHA-256 sums
#
# Without cargo, registrar is passed over.

PREFIX ?= /usr/local
MANDIR = $(PREFIX)/share/man
INSTALL = install
VERSION := $(shell sed -n 's/.*RETRACTION_VERSION_TEXT "\(.*\)"/\1/p' include/retraction.h)
RELEASE = target/release/retraction-$(VERSION)
# what retraction.pc gives as its prefix: a release may be unpacked anywhere
PC_PREFIX = $(PREFIX)

all: program library registrar

program:
	samples/build

library:
	bindings/build

registrar: library
	@if command -v cargo >/dev/null; then cargo build --release --quiet --package registrar; else echo "no cargo here: registrar is passed over"; fi

install: install-program install-library install-registrar

install-program: program
	$(INSTALL) -d $(DESTDIR)$(PREFIX)/bin $(DESTDIR)$(MANDIR)/man1 $(DESTDIR)$(MANDIR)/man5
	$(INSTALL) -m 755 target/bin/unwind $(DESTDIR)$(PREFIX)/bin/unwind
	$(INSTALL) -m 644 man/unwind.1 $(DESTDIR)$(MANDIR)/man1/unwind.1
	$(INSTALL) -m 644 man/plan.5 $(DESTDIR)$(MANDIR)/man5/plan.5

install-library: library
	$(INSTALL) -d $(DESTDIR)$(PREFIX)/lib/pkgconfig $(DESTDIR)$(PREFIX)/include $(DESTDIR)$(MANDIR)/man3
	$(INSTALL) -m 644 target/staticlib/libretraction.a $(DESTDIR)$(PREFIX)/lib/libretraction.a
	$(INSTALL) -m 644 include/retraction.h $(DESTDIR)$(PREFIX)/include/retraction.h
	$(INSTALL) -m 644 man/retraction.3 $(DESTDIR)$(MANDIR)/man3/retraction.3
	sed -e 's|@PREFIX@|$(PC_PREFIX)|' -e 's|@VERSION@|$(VERSION)|' bindings/retraction.pc.in >$(DESTDIR)$(PREFIX)/lib/pkgconfig/retraction.pc
	chmod 644 $(DESTDIR)$(PREFIX)/lib/pkgconfig/retraction.pc

install-registrar: registrar
	$(INSTALL) -d $(DESTDIR)$(PREFIX)/bin $(DESTDIR)$(MANDIR)/man1
	@if command -v cargo >/dev/null; then \
	  $(INSTALL) -m 755 target-cargo/release/registrar $(DESTDIR)$(PREFIX)/bin/registrar && \
	  $(INSTALL) -m 644 man/registrar.1 $(DESTDIR)$(MANDIR)/man1/registrar.1; fi

release:
	rm -rf $(RELEASE)
	$(MAKE) install PREFIX= DESTDIR=$(RELEASE) PC_PREFIX='$$$${pcfiledir}/../..'
	rt version >$(RELEASE)/KIT
	@if command -v rustc >/dev/null; then rustc --version >>$(RELEASE)/KIT; fi
	cd $(RELEASE) && find * -type f | LC_ALL=C sort | xargs sha256sum >../SHA256SUMS && mv ../SHA256SUMS .
	@echo "$(RELEASE): whoever has the kit and the rustc named in KIT proves it again and gets the bytes of SHA256SUMS"

.PHONY: all program library registrar install install-program install-library install-registrar release
