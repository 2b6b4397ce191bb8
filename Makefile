# What people type. `make` proves what the program needs and leaves bin/tiburon.
.PHONY: build run try test edits bench install install-files dist deb sums clean

build:
	@tools/build

# Every operation on the examples.
run: build
	@tools/show bin/tiburon

# The program without any proof, on an example. tools/try takes the words of any command line.
try:
	@tools/try weigh examples/toy.grammar examples/toy.trees

test:
	@.ci/run

# Tries the edits that must fail and records by what each was refused. `make test` tries a few of them.
edits:
	@tools/edits --all

bench: build
	@python3 bench/bench.py bin/tiburon
	@python3 bench/peers.py bin/tiburon

# The program, its manual page and its completion for bash, below PREFIX; packages set DESTDIR too.
PREFIX ?= /usr/local
PROGRAM ?= bin/tiburon
install: bin/tiburon
	@$(MAKE) --no-print-directory install-files

install-files:
	install -d $(DESTDIR)$(PREFIX)/bin $(DESTDIR)$(PREFIX)/share/man/man1 $(DESTDIR)$(PREFIX)/share/bash-completion/completions
	install -m 755 $(PROGRAM) $(DESTDIR)$(PREFIX)/bin/tiburon
	install -m 644 docs/tiburon.1 $(DESTDIR)$(PREFIX)/share/man/man1/tiburon.1
	install -m 644 tools/tiburon.bash $(DESTDIR)$(PREFIX)/share/bash-completion/completions/tiburon

# The same three files in bin/tiburon.tar, to be unpacked below a prefix.
dist: bin/tiburon
	@rm -rf bin/packed
	@$(MAKE) --no-print-directory -s install DESTDIR=bin/packed PREFIX=
	tar -C bin/packed --sort=name --owner=0 --group=0 --numeric-owner -cf bin/tiburon.tar bin share
	@rm -rf bin/packed
	@$(MAKE) --no-print-directory -s sums

# A Debian package with the examples, the tutorial and the converters too. tools/test-package tests it.
deb: bin/tiburon
	@rm -f bin/tiburon_*.deb
	@tools/package bin/tiburon bin
	@$(MAKE) --no-print-directory -s sums

# The checksums of what is to be given away, for `sha256sum -c`.
sums:
	cd bin && sha256sum tiburon $(notdir $(wildcard bin/tiburon.tar bin/tiburon_*.deb)) >SHA256SUMS

# Where there is no program yet, it is proved and built.
bin/tiburon:
	@tools/build

clean:
	rm -rf bin crates/*/out bench/work
