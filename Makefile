# Builds, installs and removes the program with its man page and completions, the library for C, and the pages and
# recipes; and makes a release of them.
#
#   make                              proves and builds the program
#   make install PREFIX=/usr/local    DESTDIR= stands in front of each path, for packages
#   make install-program, make install-library, make install-pages      one of the three
#   make uninstall PREFIX=/usr/local
#   make dist                         a release, by tools/dist, which CI_LOG= and MAINTAINER= are handed to

PREFIX = /usr/local
DESTDIR =
LIBDIR = $(PREFIX)/lib
ZSHDIR = $(PREFIX)/share/zsh/site-functions
DOCDIR = $(PREFIX)/share/doc/wcanon

bindir = $(DESTDIR)$(PREFIX)/bin
mandir = $(DESTDIR)$(PREFIX)/share/man/man1
bashdir = $(DESTDIR)$(PREFIX)/share/bash-completion/completions
zshdir = $(DESTDIR)$(ZSHDIR)
fishdir = $(DESTDIR)$(PREFIX)/share/fish/vendor_completions.d
libdir = $(DESTDIR)$(LIBDIR)
includedir = $(DESTDIR)$(PREFIX)/include
docdir = $(DESTDIR)$(DOCDIR)

PROGRAM = crates/wcanon/out/wcanon
LIBRARIES = libwcanon.a libwcanon.so $$(tools/version soname) pkgconfig/wcanon.pc
PAGES = docs/FORMAT.md docs/THEOREMS.md docs/REVIEW.md
RECIPES = $(wildcard recipes/*)

all: $(PROGRAM)

# The program is built once it is proved; its run on a sample is the last step of that.
$(PROGRAM):
	cd crates/wcanon && rt run -- binary data/padded.wasm > /dev/null

install: install-program install-library install-pages

install-program: $(PROGRAM)
	install -d $(bindir) $(mandir) $(bashdir) $(zshdir) $(fishdir)
	install -m 755 $(PROGRAM) $(bindir)/wcanon
	install -m 644 man/wcanon.1 $(mandir)/wcanon.1
	install -m 644 completions/wcanon.bash $(bashdir)/wcanon
	install -m 644 completions/wcanon.zsh $(zshdir)/_wcanon
	install -m 644 completions/wcanon.fish $(fishdir)/wcanon.fish

# It is proved, built and installed by one script.
install-library:
	DESTDIR='$(DESTDIR)' LIBDIR='$(LIBDIR)' tools/library '$(PREFIX)'

# As in the repository, so that what the pages name by its path lies there.
install-pages:
	install -d $(docdir)/docs $(docdir)/recipes
	install -m 644 README.md $(docdir)/README.md
	install -m 644 docs/COPYRIGHT $(docdir)/copyright
	install -m 644 $(PAGES) $(docdir)/docs
	for file in $(RECIPES); do \
		if test -x $$file; then mode=755; else mode=644; fi; install -m $$mode $$file $(docdir)/recipes || exit; \
	done

uninstall:
	rm -f $(bindir)/wcanon $(mandir)/wcanon.1 $(bashdir)/wcanon $(zshdir)/_wcanon $(fishdir)/wcanon.fish
	for name in $(LIBRARIES); do rm -f $(libdir)/$$name; done
	rm -f $(includedir)/wcanon.h
	for name in README.md copyright $(PAGES) $(RECIPES); do rm -f $(docdir)/$$name; done
	for folder in $(docdir)/docs $(docdir)/recipes $(docdir); do \
		if test -d $$folder; then rmdir --ignore-fail-on-non-empty $$folder; fi; \
	done

dist:
	tools/dist $(if $(CI_LOG),--log '$(CI_LOG)') $(if $(MAINTAINER),--maintainer '$(MAINTAINER)')

.PHONY: all install install-program install-library install-pages uninstall dist
