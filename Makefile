# make            proves and builds the program, where that is not done yet
# make install    puts the program, its tools, their man pages and the completion for bash under PREFIX (/usr/local)
# make uninstall  removes them again
# make check      runs the tests of tools/
# make deb        builds a Debian package of what make install puts there: btreplay_VERSION_amd64.deb, or the file that DEB names
# DESTDIR stands in front of PREFIX, as for packages. PROGRAM names the program, where that is not the one built here.
PREFIX ?= /usr/local
DESTDIR ?=
PROGRAM ?= crates/bt_program/out/bt_program

BIN = $(DESTDIR)$(PREFIX)/bin
LIB = $(DESTDIR)$(PREFIX)/lib/btreplay
MAN = $(DESTDIR)$(PREFIX)/share/man/man1
COMPLETION = $(DESTDIR)$(PREFIX)/share/bash-completion/completions
DOC = $(DESTDIR)$(PREFIX)/share/doc/btreplay
TOOLS = $(notdir $(wildcard tools/btreplay tools/btrecord tools/btreport tools/btfleet))
# What btfleet prints rows by.
LAYOUT = reckoning/__init__.py reckoning/layout.py
PAGES = $(wildcard $(TOOLS:%=docs/%.1))
TERMS = LICENSE-MIT LICENSE-APACHE NOTICE CHANGELOG.md
DEB ?= btreplay_$(shell cat VERSION)_amd64.deb

all:
	./btreplay prove

check:
	python3 tools/check

install:
	@test -x '$(PROGRAM)' || { echo "make install: there is no $(PROGRAM): make without words, as ./btreplay prove, proves and builds it" >&2; exit 1; }
	install -d '$(BIN)' '$(LIB)' '$(MAN)' '$(COMPLETION)' '$(DOC)'
	! test -e '$(LIB)/version' || rm -rf '$(LIB)/tools'
	./btreplay --version >'$(LIB)/version'
	install -m 755 '$(PROGRAM)' '$(LIB)/bt_program'
	install -m 755 btreplay '$(LIB)/btreplay'
	set -e; lib=$$(cd '$(LIB)' && pwd); cd tools; for file in $(LAYOUT) $$(find $(TOOLS) '(' -name '*.py' -o -name '*.service' ')' ! -path '*/tests/*'); do \
	    install -D -m 644 "$$file" "$$lib/tools/$$file"; done
	set -e; for tool in $(TOOLS); do ln -sfn ../lib/btreplay/btreplay '$(BIN)/'"$$tool"; done
	install -m 644 $(PAGES) '$(MAN)'
	install -m 644 $(TERMS) '$(DOC)'
	set -e; for tool in $(TOOLS); do install -m 644 tools/btreplay/completion.bash '$(COMPLETION)/'"$$tool"; done

# What is removed is what was put there: links that lead to the folder of btreplay, and that folder where it has the word of its version.
uninstall:
	set -e; for tool in btreplay btrecord btreport btfleet; do \
	    if test "$$(readlink '$(BIN)/'"$$tool")" = ../lib/btreplay/btreplay; then \
	        rm -f '$(BIN)/'"$$tool" '$(MAN)/'"$$tool.1" '$(COMPLETION)/'"$$tool"; \
	    fi; \
	done
	! test -e '$(LIB)/version' || rm -rf '$(LIB)'
	set -e; for file in $(TERMS); do rm -f '$(DOC)/'"$$file"; done; ! test -d '$(DOC)' || rmdir --ignore-fail-on-non-empty '$(DOC)'

deb:
	@command -v dpkg-deb >/dev/null || { echo "make deb: this needs dpkg-deb, and there is none on the path" >&2; exit 1; }
	set -e; folder=$$(mktemp -d); trap 'rm -rf "$$folder"' EXIT; chmod 755 "$$folder"; \
	    $(MAKE) --no-print-directory install DESTDIR="$$folder" PREFIX=/usr PROGRAM='$(PROGRAM)'; \
	    mkdir "$$folder/DEBIAN"; sed "s/@VERSION@/$$(cat VERSION)/" tools/house/control >"$$folder/DEBIAN/control"; \
	    dpkg-deb --root-owner-group --build "$$folder" '$(DEB)'

.PHONY: all check install uninstall deb
