# What `make install` puts where. The programs are those for x86-64 themselves, also where they were built on another processor.
BINDIR = $(PREFIX)/bin
LIBDIR = $(PREFIX)/lib
INCLUDEDIR = $(PREFIX)/include
MANDIR = $(PREFIX)/share/man
UNITDIR = $(PREFIX)/lib/systemd/system
COMPLETIONDIR = $(PREFIX)/share/bash-completion/completions
EXAMPLEDIR = $(PREFIX)/share/doc/rsmp-site/examples

PROGRAMS = rsmp-site rsmp-replay rsmp-table rsmp-week rsmp-csv
HEADERS = rsmp_site.h rsmp_week.h rsmp_csv.h
LIBRARIES = librsmp_site.a librsmp_week.a librsmp_csv.a
CONFIGS = rsmp_site.pc rsmp_week.pc rsmp_csv.pc
PAGES = $(addsuffix .1,$(PROGRAMS))
EXAMPLES = examples/rsmp-site.conf examples/barrier.txt examples/commands.txt host/unit/rsmp-site.logrotate examples/move
INSTALLED = $(addprefix $(BINDIR)/,$(PROGRAMS)) $(addprefix $(LIBDIR)/,$(LIBRARIES)) $(addprefix $(INCLUDEDIR)/,$(HEADERS)) $(addprefix $(LIBDIR)/pkgconfig/,$(CONFIGS)) \
	$(addprefix $(MANDIR)/man1/,$(PAGES)) $(UNITDIR)/rsmp-site.service \
	$(addprefix $(COMPLETIONDIR)/,$(PROGRAMS)) $(addprefix $(EXAMPLEDIR)/,$(notdir $(EXAMPLES)))

FILLED = sed -e 's|@PREFIX@|$(PREFIX)|g; s|@BINDIR@|$(BINDIR)|g; s|@LIBDIR@|$(LIBDIR)|g; s|@INCLUDEDIR@|$(INCLUDEDIR)|g; s|@VERSION@|$(RSMP_VERSION)|g'

# For everybody to read, whatever the umask is; folders that are there stay as they are.
install: build
	umask 022 && mkdir -p $(sort $(addprefix $(DESTDIR),$(dir $(INSTALLED))))
	install -m 755 $(addprefix $(OUT)/,$(PROGRAMS)) $(DESTDIR)$(BINDIR)
	install -m 644 $(addprefix build/,$(LIBRARIES)) $(DESTDIR)$(LIBDIR)
	install -m 644 $(addprefix build/,$(HEADERS)) $(DESTDIR)$(INCLUDEDIR)
	umask 022 && for config in $(CONFIGS); do $(FILLED) host/include/$$config >$(DESTDIR)$(LIBDIR)/pkgconfig/$$config; done
	umask 022 && for page in $(PAGES); do $(FILLED) host/man/$$page >$(DESTDIR)$(MANDIR)/man1/$$page; done
	umask 022 && $(FILLED) host/unit/rsmp-site.service >$(DESTDIR)$(UNITDIR)/rsmp-site.service
	for name in $(PROGRAMS); do install -m 644 host/unit/rsmp-site.bash $(DESTDIR)$(COMPLETIONDIR)/$$name; done
	install -m 644 $(EXAMPLES) $(DESTDIR)$(EXAMPLEDIR)
	chmod 755 $(DESTDIR)$(EXAMPLEDIR)/move

uninstall:
	rm -f $(addprefix $(DESTDIR),$(INSTALLED))

deb: build
	host/debian/make build/deb
