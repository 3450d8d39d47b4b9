# Builds, runs and checks rdfkeep. It needs make, Python 3.8 and the Rattle toolchain's command `rt`, and no network.
#
#   make           the program, proved and built, at ./rdfkeep
#   make test      every proof and test, every refused allocation and where a refusal may come of, every file test, and within 150 minutes as
#                  many wrong bodies as can be judged: those that changed last first; proofs that aren't done at minute 165 are named, and fail
#   make gate      the same with all wrong bodies, in hours on few processors: before a release
#
# A second call proves nothing again that is proved.

.PHONY: all test gate clean

all: rdfkeep

FIND := find crates -name out -prune -o -type f -print
SOURCES := $(shell $(FIND)) crates.txt HANDLES
# the list of the sources, which is newer than the program where one was deleted
LISTED := $(shell mkdir -p out; $(FIND) | sort > out/sources.new; cmp -s out/sources.new out/sources || cp out/sources.new out/sources; rm out/sources.new)

rdfkeep: $(SOURCES) out/sources
	@tools/prove rdf_keeper
	@cd crates/rdfkeep && $${RT:-rt} run --jobs 1 -- --version > /dev/null
	@cp crates/rdfkeep/out/rdfkeep rdfkeep.new && mv rdfkeep.new rdfkeep

test:
	@tools/test-all --end 165

gate:
	@tools/test-all --all

clean:
	rm -rf out rdfkeep crates/*/out

# ---- what a newcomer runs, and where it is put
#
#   make example     each command that README.md shows, compared with what it shows; the manual page, the completions and the packages checked
#   make install     the program, its manual page and its completions for bash, zsh and fish, under PREFIX and, for a package, DESTDIR
#   make uninstall   takes them away
#   make deb         a Debian package of what `make` built, in out/
#   make dist        an archive of the sources, as the last commit has them, in out/

PROGRAM ?= rdfkeep
PREFIX ?= /usr/local
INSTALL ?= install
bindir = $(PREFIX)/bin
datadir = $(PREFIX)/share
man1dir = $(datadir)/man/man1
bashcompdir = $(datadir)/bash-completion/completions
# (of these folders zsh looks into the one below /usr alone, and into the other below /usr/local alone)
zshcompdir = $(datadir)/zsh/$(if $(filter /usr,$(PREFIX)),vendor-completions,site-functions)
fishcompdir = $(datadir)/fish/vendor_completions.d

.PHONY: example install uninstall deb dist

example: rdfkeep
	tools/readme-examples ./rdfkeep
	tools/check-manual ./rdfkeep
	tools/check-packages ./rdfkeep

install: $(PROGRAM)
	$(INSTALL) -d "$(DESTDIR)$(bindir)" "$(DESTDIR)$(man1dir)" "$(DESTDIR)$(bashcompdir)" "$(DESTDIR)$(zshcompdir)" "$(DESTDIR)$(fishcompdir)"
	$(INSTALL) -m 755 "$(PROGRAM)" "$(DESTDIR)$(bindir)/rdfkeep"
	$(INSTALL) -m 644 man/rdfkeep.1 "$(DESTDIR)$(man1dir)/rdfkeep.1"
	$(INSTALL) -m 644 completions/rdfkeep.bash "$(DESTDIR)$(bashcompdir)/rdfkeep"
	$(INSTALL) -m 644 completions/_rdfkeep "$(DESTDIR)$(zshcompdir)/_rdfkeep"
	$(INSTALL) -m 644 completions/rdfkeep.fish "$(DESTDIR)$(fishcompdir)/rdfkeep.fish"

uninstall:
	rm -f "$(DESTDIR)$(bindir)/rdfkeep" "$(DESTDIR)$(man1dir)/rdfkeep.1" "$(DESTDIR)$(bashcompdir)/rdfkeep"
	rm -f "$(DESTDIR)$(zshcompdir)/_rdfkeep" "$(DESTDIR)$(fishcompdir)/rdfkeep.fish"

deb: $(PROGRAM)
	@tools/make-package deb "$(PROGRAM)"

dist:
	@tools/make-package dist
