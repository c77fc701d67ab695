# make             builds ./timers (for Linux alone) and the libraries in build/lib from generated/, with a C compiler alone
# make run         the same, and plays a script of examples/ (SCRIPT=)
# make test        (or check) tests program and libraries with what any machine has: a C compiler, make, bash, python3. Its
#                  last line is 'N passed, 0 failed', or 'N passed, 0 failed, N skipped'
# make gate        that and all other tests and proofs. Without the toolchain it runs what needs no proof
# make lib         builds the libraries alone, and the man pages
# make install     installs what make built, under PREFIX (tools/install/install has all variables)
# make uninstall   removes what it installed
# make dist        a tarball of program and libraries, for machines without a compiler: build/timers-*.tar.gz (for another
#                  processor give it CC, too)
# make fuzz        an hour of scripts, against a model of docs/formats.md (MINUTES=N)
# make fuzz-loop   ten million random operations of timers_loop.h, against a model, under the sanitizers
# make docs        counts lines for docs/proof/proofs.md
# make clean       removes what make built
#
# CC is the C compiler, by default cc: CC=aarch64-linux-gnu-gcc builds for another processor. CPPFLAGS, CFLAGS and LDFLAGS are
# its flags. With CFLAGS=-flto programs that do so too inline calls of the library.
#
# With the toolchain (rt):
#
# make prove       proves program and libraries, writes what they compile to into generated/, and builds from that
# make try         plays a script with an unproved build that has checks at run time (SCRIPT=, ARGUMENTS=)
# make generate    as make prove, and builds nothing

SCRIPT = examples/retransmission
ARGUMENTS = play
MINUTES = 60

all: $(if $(filter Linux,$(shell uname)),timers) lib

.DELETE_ON_ERROR:

timers: tools/program tools/hardening build/flags generated/program.c | tools/install/timers.1
	tools/program timers

lib: build/lib/libtimers.a pages

build/lib/libtimers.a: tools/lib tools/hardening build/flags tools/install/version tools/install/timers.map generated/timers.c \
    include/timers.h include/timers_desk.h
	tools/lib build/lib

# Another compiler or other flags build all anew.
build/flags: export FLAGS = $(CC) $(CPPFLAGS) $(CFLAGS) $(LDFLAGS)
build/flags: FORCE
	@mkdir -p build; echo "$$FLAGS" | cmp -s - $@ || echo "$$FLAGS" > $@
FORCE:

# The man pages, from docs/formats.md and the headers.
pages: tools/install/timers.1 $(patsubst include/%.h,tools/install/%.3,$(wildcard include/*.h))

tools/install/timers.1: docs/formats.md tools/install/man1 tools/install/version CHANGELOG.md
	tools/install/man1 > $@

tools/install/%.3: include/%.h tools/install/man3 tools/install/version CHANGELOG.md
	tools/install/man3 $* > $@

run: timers
	./timers < $(SCRIPT)

test check:
	@python3 -c 'import sys; sys.exit(sys.version_info < (3, 9))' || { echo 'make test needs python3, of version 3.9 or later' >&2; exit 1; }
	@CALLER=$$PPID exec tools/alone tests/quick

gate:
	@CALLER=$$PPID exec tools/gate

prove: generate
	$(MAKE) all

try:
	cd crates/timer_program && rt try -- $(ARGUMENTS) < $(abspath $(SCRIPT))
	@echo "Nothing was proved: this build has checks at run time in place of proofs. 'make prove' proves the program."

generate:
	tools/generate

# The variables of tools/install/install come from the environment, into which make puts those that it is given.
install:
	@tools/install/install

uninstall:
	@tools/install/install --remove

dist: all
	tools/dist

fuzz: all
	tools/fuzz/run ./timers $(MINUTES)

fuzz-loop: lib
	$(CC) -std=c11 -O1 -g -fsanitize=address,undefined -fno-sanitize-recover=all -Iinclude -o build/loop_model tests/c/loop_model.c build/lib/libtimers.a
	for seed in 1 2 3 4 5 6 7 8 9 10; do build/loop_model 1000000 $$seed || exit 1; done

docs:
	tools/line_counts docs/proof/proofs.md

clean:
	rm -rf crates/*/out build timers tools/install/*.[13]
	@for folder in $$(grep -v '^#' neighbours); do ! grep -qs '^clean:' $$folder/Makefile || $(MAKE) -C $$folder clean; done

.PHONY: FORCE all lib pages run test check gate prove try generate install uninstall dist fuzz fuzz-loop docs clean
