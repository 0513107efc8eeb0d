# Everything goes through the kit's command `rt`, which has to be in the PATH.
PREFIX ?= /usr/local
# Not every shell turns a `~` behind a `=` into the home folder.
override PREFIX := $(patsubst ~/%,$(HOME)/%,$(PREFIX))

POWERSET_LIST := crates/powerset_list/out/powerset_list
CARGO_HACK := crates/cargo_hack_program/out/cargo_hack_program
SHARE = $(DESTDIR)$(PREFIX)/share
BASH_FILES = $(SHARE)/bash-completion/completions

.DEFAULT_GOAL := help
.PHONY: help kit prefix run program programs install install-completions uninstall dist manual test quick layout planted bench faults stand-ins

help:
	@echo 'make run      calls cargo hack on the workspace in examples/, over a cargo in memory, by a trial build without proofs'
	@echo 'make manual   writes the man pages and completions from the table of options of the built cargo-hack'
	@echo 'make test     proves and tests everything from nothing: the gate'
	@echo 'make quick    lays out and checks CRATE=NAME and all that use it, and the rows, over what is kept'
	@echo 'make layout   lays out all crates, without which the gate refuses them'
	@echo 'make planted  tries the edits that the gate leaves out, of all crates or of CRATE=NAME'
	@echo 'make install  proves and builds cargo-hack and powerset-list, and installs them in PREFIX/bin (PREFIX=$(PREFIX))'
	@echo 'make install-completions  installs just the completions of bash, zsh and fish'
	@echo 'make uninstall  removes what make install put there'
	@echo 'make dist     proves and builds both, and packs them with a sum of each file for machines without the kit'
	@echo 'make bench    proves and builds the programs, and prints times and memory, beside those of OTHER=PATH, another cargo-hack'
	@echo 'make faults   proves and builds powerset-list, and tries calls that it refuses'
	@echo 'make stand-ins proves and builds the programs that answer as cargo and rustup in tests, and tries them'

kit:
	@command -v rt > /dev/null || { echo "make: the command rt isn't in the PATH; README.md says what it is" >&2; exit 1; }

# A trial build proves nothing, and so is ready in less than two minutes.
run: kit
	@cd crates/sample_calls && rt try < stdin

test: kit
	@tests/gate.py

quick: kit
	@tests/quick_check '$(CRATE)'

layout: kit
	@for crate in crates/*/; do (cd "$$crate" && rt fmt) || exit 1; done

# Each edit is a wrong body that the prover has to refuse.
planted: kit
	@tests/planted_edits.py $(CRATE)

# Proves powerset-list and what it uses, as far as that is not done yet, and leaves it at POWERSET_LIST.
program: kit
	@tools/build_programs.py powerset_list

# Both programs, side by side.
programs: kit
	@tools/build_programs.py cargo_hack_program powerset_list

# Whether programs may be put there is known before they are proved.
prefix:
	@mkdir -p '$(DESTDIR)$(PREFIX)/bin' && test -w '$(DESTDIR)$(PREFIX)/bin'

install: prefix programs install-completions
	install -D -m 755 $(CARGO_HACK) '$(DESTDIR)$(PREFIX)/bin/cargo-hack'
	install -D -m 755 $(POWERSET_LIST) '$(DESTDIR)$(PREFIX)/bin/powerset-list'
	install -D -m 644 man/cargo-hack.1 '$(SHARE)/man/man1/cargo-hack.1'
	install -D -m 644 man/powerset-list.1 '$(SHARE)/man/man1/powerset-list.1'

# bash-completion loads the file that has the name of the command, so `cargo` gets a link, unless a file of cargo's own is there.
# fish would load one for `cargo` instead of its own, so ours goes where fish reads all files when it starts.
install-completions:
	install -D -m 644 completions/cargo-hack.bash '$(BASH_FILES)/cargo-hack'
	test -e '$(BASH_FILES)/cargo' || ln -s cargo-hack '$(BASH_FILES)/cargo'
	install -D -m 644 completions/_cargo-hack '$(SHARE)/zsh/site-functions/_cargo-hack'
	install -D -m 644 completions/cargo-hack.fish '$(SHARE)/fish/vendor_conf.d/cargo-hack.fish'

uninstall:
	rm -f '$(DESTDIR)$(PREFIX)/bin/cargo-hack' '$(DESTDIR)$(PREFIX)/bin/powerset-list'
	rm -f '$(SHARE)/man/man1/cargo-hack.1' '$(SHARE)/man/man1/powerset-list.1'
	test "$$(readlink '$(BASH_FILES)/cargo')" != cargo-hack || rm '$(BASH_FILES)/cargo'
	rm -f '$(BASH_FILES)/cargo-hack' '$(SHARE)/zsh/site-functions/_cargo-hack'
	rm -f '$(SHARE)/fish/vendor_conf.d/cargo-hack.fish'

dist: programs
	@tools/dist.py $(CARGO_HACK) $(POWERSET_LIST)

# The man pages and the completions, from the table of options.
manual: programs
	@tools/manual.py $(CARGO_HACK)

# OTHER: the path of another cargo-hack to compare with.
bench: programs
	@cd crates/hack_rows && rt run < stdin > /dev/null
	@cd crates/sample_calls && rt run < stdin > /dev/null
	@tests/stand_ins.py > /dev/null
	@tests/bench.py $(POWERSET_LIST) crates/hack_rows/out/hack_rows crates/sample_calls/out/sample_calls \
		$(CARGO_HACK) crates/stand_cargo/out/stand_cargo $(OTHER)

faults: program
	@tests/powerset_list_refusals.py $(POWERSET_LIST)

stand-ins: kit
	@tests/stand_ins.py
