# Builds, installs and packs vcdedit. `make` alone builds, and says what else there is.
PREFIX ?= /usr/local
ZSH_FOLDER ?= share/zsh/site-functions
PROGRAMS = vcdedit vcdedit-amend vcdedit-compare
TOOLS = vcdedit-apply vcdedit-table vcdedit-view
DOCUMENTS = CHANGELOG.md docs/COOKBOOK.md docs/SCRIPT.md docs/FORMATS.md examples
# What install put below PREFIX, a line for each file and each folder that was not there. Uninstall takes it away.
MADE = share/vcdedit/made

# A relative PREFIX is meant from here; a DESTDIR of none is the root.
FOLDERS = prefix="$(PREFIX)"; case $$prefix in /*) ;; *) prefix="$$PWD/$$prefix" ;; esac; root="$(DESTDIR)$$prefix"

all: build
	@echo "The programs are built: ./vcdedit, ./vcdedit-amend and ./vcdedit-compare run them."
	@sed -n 's/^\([a-z]*\):[^#]*## /make \1: /p' Makefile

# Each proves and builds its program where that is missing or old.
build:
	@./vcdedit -i examples/handshake.vcd --script /dev/null
	@./vcdedit-amend -i examples/handshake.vcd --script /dev/null
	@./vcdedit-compare examples/handshake.vcd examples/handshake.vcd > /dev/null

install: build ## to /usr/local, or PREFIX=FOLDER; DESTDIR=FOLDER goes before that, for a package
	@set -e; umask 022; $(FOLDERS); \
	stage=$$(mktemp -d); trap 'rm -rf "$$stage"' EXIT; share="$$stage/share"; documents="$$share/doc/vcdedit"; \
	for name in $(PROGRAMS); do crate=$$(echo $$name | tr - _); \
	install -D -m 755 "crates/$$crate/out/$$crate" "$$stage/libexec/$$name"; done; \
	install -D -m 755 -t "$$stage/bin" $(TOOLS:%=tools/%); \
	install -D -m 644 -t "$$share/vcdedit" tools/*.py docs/messages.txt; \
	install -D -m 644 -t "$$stage/$(ZSH_FOLDER)" completions/_vcdedit; \
	for name in $(PROGRAMS) $(TOOLS); do \
	install -D -m 644 -t "$$share/man/man1" "docs/$$name.1"; \
	install -D -m 644 completions/vcdedit.bash "$$share/bash-completion/completions/$$name"; \
	install -D -m 644 completions/vcdedit.fish "$$share/fish/vendor_completions.d/$$name.fish"; done; \
	for name in $(PROGRAMS); do \
	{ printf '#!/bin/sh\nprogram="%s"\n' "$$prefix/libexec/$$name"; cat launch/running.sh; } > "$$stage/bin/$$name"; \
	chmod 755 "$$stage/bin/$$name"; done; \
	mkdir -p "$$documents"; cp -R $(DOCUMENTS) "$$documents"; chmod -R a+rX "$$documents"; \
	sed 's|(\.\./docs/|(../|g' examples/README.md > "$$documents/examples/README.md"; \
	made=$$(find "$$stage" -printf '%P\n' | while read -r path; do \
	[ -d "$$root/$$path" ] || echo "$$root/$$path"; done); \
	find "$$stage" -type f -printf '%m %P\n' | while read -r mode path; do \
	install -D -m "$$mode" "$$stage/$$path" "$$root/$$path"; done; \
	printf '%s\n' "$$made" >> "$$root/$(MADE)"; \
	echo "vcdedit is in $$root/bin, its documents are in $$root/share/doc/vcdedit"

uninstall: ## takes away what install put there
	@set -e; $(FOLDERS); made=$$(sort -ru "$$root/$(MADE)"); rm "$$root/$(MADE)"; \
	printf '%s\n' "$$made" | while read -r path; do \
	rm -f "$$path" 2> /dev/null || rmdir "$$path" 2> /dev/null || true; done

deb: build ## makes a Debian package, out/vcdedit_VERSION_ARCHITECTURE.deb
	@generate/package

quick: ## every check that needs no proof, on the programs that are built
	@checks/quick

check: ## the gate, .ci/run: every proof and test from nothing, in some two hours on two cores
	@.ci/run

# The captures are made once, in a folder that git passes over.
BENCH_FOLDER ?= out/bench
MEGABYTES ?= 10
bench: build ## reading and writing compared with a floor and with GTKWave's converters
	@GLIBC_TUNABLES=glibc.malloc.hugetlb=1 bench/compare crates/vcdedit/out/vcdedit "$(BENCH_FOLDER)" $(MEGABYTES)
	@bench/edits crates/vcdedit/out/vcdedit

.PHONY: all build install uninstall deb quick check bench
