# Puts the built program and what belongs to it in place, or into an archive for machines without the toolchain.
#
#   make install PREFIX=/usr/local     the program, its man page, completion for bash and the helpers
#   make uninstall PREFIX=/usr/local   takes them away again
#   make dist                          ixds-VERSION-linux-x86_64.tar.gz, a folder that can be run where it is unpacked
#
# ./ixds builds the program where it isn't built yet or has changed. Where it is known to be built, BUILD can be the program.

VERSION = 0.1.0
PREFIX = /usr/local
DESTDIR =
BUILD = ./ixds

NAME = ixds-$(VERSION)-linux-x86_64
HELPERS = lines/ixds-lines view/ixds-view
PARTS = view/ixds_view
BIN = $(DESTDIR)$(PREFIX)/bin
SHARE = $(DESTDIR)$(PREFIX)/share/ixds
MAN = $(DESTDIR)$(PREFIX)/share/man/man1
COMPLETION = $(DESTDIR)$(PREFIX)/share/bash-completion/completions
PROGRAM = crates/ixds_cli/out/ixds_cli

.PHONY: all program install uninstall dist

all: program

# Without words the program prints its usage and ends with status 2.
program:
	@$(BUILD) >/dev/null; [ $$? -eq 2 ]

install: program
	install -d "$(BIN)" "$(MAN)" "$(COMPLETION)"
	install -m 755 $(PROGRAM) "$(BIN)/ixds"
	install -m 755 $(HELPERS) "$(BIN)"
	install -d "$(SHARE)/$(notdir $(PARTS))"
	install -m 644 $(PARTS)/*.py "$(SHARE)/$(notdir $(PARTS))"
	sed 's/@VERSION@/$(VERSION)/' install/ixds.1 >"$(MAN)/ixds.1"
	chmod 644 "$(MAN)/ixds.1"
	install -m 644 install/ixds.bash "$(COMPLETION)/ixds"
	ln -sf ixds "$(COMPLETION)/ixds-lines"
	ln -sf ixds "$(COMPLETION)/ixds-view"

uninstall:
	rm -f "$(BIN)/ixds" $(addprefix "$(BIN)"/,$(notdir $(HELPERS)))
	rm -rf "$(SHARE)"
	rm -f "$(MAN)/ixds.1" "$(COMPLETION)/ixds" "$(COMPLETION)/ixds-lines" "$(COMPLETION)/ixds-view"

# What was proved is said by the commit and by the kit that proved it, which must be there.
dist: program
	rm -rf "out/$(NAME)"
	$(MAKE) -s install DESTDIR= PREFIX="out/$(NAME)"
	changed=$$(git status --porcelain) && commit=$$(git rev-parse HEAD) && kit=$$(rt version) && \
	printf '%s\n' "ixds $(VERSION): proved by $$kit, commit $$commit$${changed:+ with changes}, sha256 of bin/ixds $$(sha256sum <$(PROGRAM) | cut -d' ' -f1)" >"out/$(NAME)/PROVED"
	tar -C out --sort=name --owner=0 --group=0 --numeric-owner --mtime="$$(git log -1 --format=%cI)" -cz -f "out/$(NAME).tar.gz" "$(NAME)"
	@echo "out/$(NAME).tar.gz"
