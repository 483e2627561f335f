# `rt` proves, builds and tests; `rt help` lists its commands. What follows only calls it.

PROGRAM := crates/columns/out/columns
BASINMUG := crates/basinmug/out/basinmug
LIBRARY := lib/libbasinmug.so.0
INPUT ?= examples/nightly.tsv
PREFIX ?= /usr/local
VERSION := $(shell cat VERSION)

# A run looks only whether anything is newer than the program; what else is made of them names all source files, and the
# tests that are refused memory, as programs.
ifneq ($(filter-out run show help,$(or $(MAKECMDGOALS),run)),)
SOURCES := $(shell tools/sources)
TESTS := $(foreach crate,$(shell sed 's/[ \#].*//' tests/memory/tests | sort -u),crates/$(crate)/out/$(crate)_tests)
endif
# The arguments of the program: `make run ARGS='--width 60'`.
ARGS ?=
# Standard input is taken as it comes and not opened again.
FROM = $(if $(filter /dev/stdin -,$(INPUT)),,< '$(INPUT)')

# No rule of make's own makes a source file; so it looks for none.
MAKEFLAGS += --no-builtin-rules
.NOTPARALLEL:
.PHONY: run show build built lib test quick long api check fmt bench soak attack trusted install install-program install-library wheel release clean help

# Where the program is not built, this is a run of some minutes that is checked, and not proved.
run:                ## print the table of INPUT (INPUT=/dev/stdin reads standard input) with the arguments ARGS
	@tools/try $(ARGS) $(FROM)

show:               ## print INPUT, a CSV or TSV file, by basinmug with the arguments ARGS
	@PROGRAM=basinmug tools/try $(if $(findstring --delimiter,$(ARGS)),,$(if $(filter %.tsv %.TSV %.tab %.TAB,$(INPUT)),--delimiter tab)) $(ARGS) $(FROM)

build: $(PROGRAM) $(BASINMUG) ## prove and build both programs, which takes an hour at first

lib: $(LIBRARY)     ## prove and build the library for C, Python and Rust, into lib/

test:               ## the gate: every proof, every test, then the built program from outside
	@tests/run

quick:              ## what shows most mistakes in some minutes: layout, surface, arguments, calls, a run of each program; no proof
	@tests/run --quick

long:               ## tests that take hours and a gigabyte, of the built programs, the library and the commands of pages
	@tests/run --long

# What the tests run from outside; `make -q built` reports whether it is there.
built: $(PROGRAM) $(BASINMUG) $(TESTS)

api:                ## write again what tests/api keeps of the public surface
	@tests/api/surface.py

check:              ## prove what has changed
	@rt all check

fmt:                ## lay out the source files
	@for crate in crates/*/; do (cd "$$crate" && rt fmt) || exit 1; done

bench: $(PROGRAM)   ## instructions and memory per input byte (BENCH='--kinds wide' and the like)
	@bench/costs/run $(BENCH)

# CASES and SEED, and a folder MODEL with the reference model, which is no part of this repository.
CASES ?= 100000
SEED ?= 1
soak: $(PROGRAM)    ## compare CASES random runs with the reference model of the folder MODEL
	@bench/compared/soak.py '$(MODEL)' --cases $(CASES) --seed $(SEED)

trusted:            ## what the proofs rest on, by what the tools say (over libraries that are built)
	@tools/trusted

attack:             ## try the mutants of attacks/ (ATTACK='CRATE' or 'CRATE/NAME' for some)
	@attacks/run $(ATTACK)

install: install-program install-library ## put the programs and the library, with what belongs to them, into PREFIX

# The programs, their manual pages and completions. What is called `basinmug` is a launcher, which calls the program.
install-program: $(PROGRAM) $(BASINMUG)
	install -d '$(DESTDIR)$(PREFIX)/bin' '$(DESTDIR)$(PREFIX)/libexec' '$(DESTDIR)$(PREFIX)/share/man/man1'
	install -d '$(DESTDIR)$(PREFIX)/share/bash-completion/completions' '$(DESTDIR)$(PREFIX)/share/zsh/site-functions' '$(DESTDIR)$(PREFIX)/share/fish/vendor_completions.d'
	install -m 755 $(PROGRAM) '$(DESTDIR)$(PREFIX)/bin/columns'
	install -m 755 $(BASINMUG) '$(DESTDIR)$(PREFIX)/libexec/basinmug'
	install -m 755 tools/launcher '$(DESTDIR)$(PREFIX)/bin/basinmug'
	for name in columns basinmug; do \
		install -m 644 "docs/$$name.1" "$(DESTDIR)$(PREFIX)/share/man/man1/$$name.1" && \
		install -m 644 "completions/$$name.bash" "$(DESTDIR)$(PREFIX)/share/bash-completion/completions/$$name" && \
		install -m 644 "completions/_$$name" "$(DESTDIR)$(PREFIX)/share/zsh/site-functions/_$$name" && \
		install -m 644 "completions/$$name.fish" "$(DESTDIR)$(PREFIX)/share/fish/vendor_completions.d/$$name.fish" || exit 1; \
	done

# The library, its header, and what pkg-config says of them.
install-library: $(LIBRARY)
	install -d '$(DESTDIR)$(PREFIX)/lib/pkgconfig' '$(DESTDIR)$(PREFIX)/include'
	install -m 644 lib/libbasinmug.a '$(DESTDIR)$(PREFIX)/lib/libbasinmug.a'
	install -m 755 lib/libbasinmug.so.0 '$(DESTDIR)$(PREFIX)/lib/libbasinmug.so.0'
	ln -sf libbasinmug.so.0 '$(DESTDIR)$(PREFIX)/lib/libbasinmug.so'
	install -m 644 include/basinmug.h '$(DESTDIR)$(PREFIX)/include/basinmug.h'
	sed 's|@PREFIX@|$(PREFIX)|; s|@VERSION@|$(VERSION)|' include/basinmug.pc.in > '$(DESTDIR)$(PREFIX)/lib/pkgconfig/basinmug.pc'
	chmod 644 '$(DESTDIR)$(PREFIX)/lib/pkgconfig/basinmug.pc'

wheel: $(LIBRARY)   ## pack the package for Python, with the library inside, into dist/
	@tools/wheel

release: $(PROGRAM) $(BASINMUG) $(LIBRARY) ## pack the programs, the library and the packages into dist/, for Linux on x86-64
	@tools/release

clean:              ## remove everything that was built or generated
	rm -rf crates/*/out bench/costs/data dist lib
	find . -name __pycache__ -prune -exec rm -rf {} +

help:               ## this list
	@sed -n 's/^\([a-z]*\):.*## /\1|/p' Makefile | while IFS='|' read -r name what; do \
		printf '  make %-9s %s\n' "$$name" "$$what"; done

# It goes by contents, so a file that was only touched costs no proof, and writes to standard error alone.
$(PROGRAM) $(BASINMUG): $(SOURCES)
	@tools/build $(@F)
	@touch $@

$(LIBRARY): $(SOURCES) tools/library
	@tools/build columns_c
	@tools/library

# `rt test` proves and builds the tests, and runs them.
$(TESTS): $(SOURCES)
	@cd $(@D)/.. && rt test < /dev/null > /dev/null
	@touch $@
