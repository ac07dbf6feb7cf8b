# Builds, proves, tests, installs and packs devdry, and devdry-lsp, its language server.
#
#   make            build/unproved/devdry and build/unproved/devdry-lsp, in some four minutes: no proof is looked at
#   make test       all that a user meets, over the proved programs if there are any of these sources, else over the unproved ones
#   make proofs     build/devdry and build/devdry-lsp: every crate is proved, which takes more than an hour from nothing
#   make install    the proved program, or with UNPROVED=1 the other; `make install-editor` the same for devdry-lsp
#   make deb        a Debian package of both programs, for machines that have no kit
#   make check      the gate: every proof and every test from nothing
#   make mutants    the wrong bodies and definitions that the prover has to refuse

PREFIX ?= /usr/local
DESTDIR ?=
BINDIR ?= $(PREFIX)/bin
MANDIR ?= $(PREFIX)/share/man
BASHDIR ?= $(PREFIX)/share/bash-completion/completions
ZSHDIR ?= $(PREFIX)/share/zsh/site-functions
FISHDIR ?= $(PREFIX)/share/fish/vendor_completions.d

# Where devdry-capture looks for its second step, relative to its own folder.
CAPTUREDIR = $(BINDIR)/../share/devdry

# The programs that are installed and packed: the proved ones, with UNPROVED=1 those that `make` builds, or others that exist.
UNPROVED ?=
BUILT = $(if $(UNPROVED),build/unproved,build)
PROGRAM ?= $(BUILT)/devdry
EDITOR_PROGRAM ?= $(BUILT)/devdry-lsp

# The toolchain: `rt` on PATH, or otherwise where it is installed.
RT ?= $(shell command -v rt || echo /opt/rattle/bin/rt)

# How many crates are proved side by side.
JOBS ?= $(shell nproc)

# (as words of the shell they may have blanks)
export DESTDIR BINDIR MANDIR BASHDIR ZSHDIR FISHDIR CAPTUREDIR RT

.PHONY: all unproved proofs test check-uses check mutants install install-editor uninstall deb clean

all: unproved

# `make` is one command, so both programs are built side by side.
unproved:
	@tools/needs.sh 6
	@$(MAKE) --no-print-directory $(if $(filter -j%,$(MAKEFLAGS)),,-j2) build/unproved/devdry build/unproved/devdry-lsp
	@echo 'build/unproved/devdry and build/unproved/devdry-lsp are built. No proof was looked at: `make proofs` makes build/devdry, which is proved.'
	@echo 'Try: build/unproved/devdry verify examples/mistakes.rules    Test: make test'

ifneq ($(filter build/unproved/%,$(MAKECMDGOALS)),)
SOURCES := $(shell find crates/*/src -name '*.rt')
endif

build/unproved/devdry: $(SOURCES) crates.txt tools/unproved.sh
	@tools/unproved.sh devdry $@

build/unproved/devdry-lsp: $(SOURCES) crates.txt tools/unproved.sh
	@tools/unproved.sh devdry_lsp $@

proofs:
	@tools/needs.sh 12
	@tools/proofs.py $(JOBS)

# The proved programs, if no source is newer than one of them.
proved = $(shell [ -x build/devdry ] && [ -x build/devdry-lsp ] && [ -z "$$(find crates.txt crates/*/src crates/*/specs crates/*/proofs -type f \
    '(' -newer build/devdry -o -newer build/devdry-lsp ')' -print -quit)" ] && echo build)

# All that a user meets apart from the proofs. With PROGRAM= it is run over that program.
ifneq ($(filter test check-uses,$(MAKECMDGOALS)),)
TESTED := $(or $(proved),build/unproved)
endif
test check-uses: $(if $(filter command% environment%,$(origin PROGRAM)),,$(if $(filter build/unproved,$(TESTED)),unproved))
ifneq ($(filter command% environment%,$(origin PROGRAM)),)
	@tests/run.sh "$(PROGRAM)" "$(EDITOR_PROGRAM)"
else
	@tests/run.sh $(TESTED)/devdry $(TESTED)/devdry-lsp
endif

# Proves every crate from nothing, tries each edit that has to be refused, and runs the tests and the program; then checks what
# a user meets apart from that, with the program that was built.
check:
	@tools/needs.sh 12
	tests/all.sh $(RT)

# Tries the wrong bodies that the prover has to refuse and that `make check` leaves out, those in crates/*/mutants: to
# be run for each crate that a change touches, such as `make mutants NAME="text_core hwdb_core"`, on what is committed.
# Without NAME it tries those of all crates, which takes an hour if their proofs are kept. Then it tries the wrong
# definitions that laws of these crates have to refuse, those in crates/*/definitions. What became of wrong bodies is written into
# tests/tried.txt.
mutants:
	@tools/needs.sh 12
	tests/mutants.py $(NAME)
	tests/definitions.py $(NAME)

# is_built PROGRAM: ends the recipe if it is not there, with the ways to make it.
define is_built
	@[ -x "$(1)" ] || { echo 'make: there is no $(1): `make proofs` makes the proved programs, in more than an hour; or build those of which' \
	    'no proof was looked at by `make`, and then add UNPROVED=1 here' >&2; exit 1; }
endef

install:
	$(call is_built,$(PROGRAM))
	install -D -m 755 "$(PROGRAM)" "$$DESTDIR$$BINDIR/devdry"
	install -m 755 tools/devdry-capture tools/devdry-test "$$DESTDIR$$BINDIR"
	install -D -m 644 -t "$$DESTDIR$$CAPTUREDIR" tools/*.awk
	install -D -m 644 -t "$$DESTDIR$$MANDIR/man1" man/*.1
	install -D -m 644 completions/devdry.bash "$$DESTDIR$$BASHDIR/devdry"
	install -m 644 completions/devdry-capture.bash "$$DESTDIR$$BASHDIR/devdry-capture"
	install -m 644 completions/devdry-test.bash "$$DESTDIR$$BASHDIR/devdry-test"
	install -D -m 644 -t "$$DESTDIR$$ZSHDIR" completions/_*
	install -D -m 644 -t "$$DESTDIR$$FISHDIR" completions/*.fish

# The language server alone; its page is among those that `install` puts there.
install-editor:
	$(call is_built,$(EDITOR_PROGRAM))
	install -D -m 755 "$(EDITOR_PROGRAM)" "$$DESTDIR$$BINDIR/devdry-lsp"

# Removes just what `install` and `install-editor` put there.
uninstall:
	for it in devdry devdry-capture devdry-test devdry-lsp; do rm -f "$$DESTDIR$$BINDIR/$$it"; done
	for file in tools/*.awk; do rm -f "$$DESTDIR$$CAPTUREDIR/$${file##*/}"; done
	for page in man/*.1; do rm -f "$$DESTDIR$$MANDIR/man1/$${page##*/}"; done
	for it in devdry devdry-capture devdry-test; do rm -f "$$DESTDIR$$BASHDIR/$$it"; done
	for file in completions/_*; do rm -f "$$DESTDIR$$ZSHDIR/$${file##*/}"; done
	for file in completions/*.fish; do rm -f "$$DESTDIR$$FISHDIR/$${file##*/}"; done

# A Debian package with both programs, build/devdry_VERSION_ARCHITECTURE.deb.
deb:
	$(call is_built,$(PROGRAM))
	$(call is_built,$(EDITOR_PROGRAM))
	@mkdir -p build
	packaging/deb.sh "$(PROGRAM)" build "$(EDITOR_PROGRAM)"

clean:
	rm -rf build crates/*/out
