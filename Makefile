# Tasks of the repository. The proofs are `rt ci`; all else here is outside them and is built under
# target/host and target/lib. What `rt` makes of a crate is in the crate's own folder out/.

SHELL := /bin/bash
.DEFAULT_GOAL := help
.DELETE_ON_ERROR:
.PHONY: help test host-test demo bench lib program install uninstall clean FORCE

# make has a CC and a CXX of its own where nobody gave one.
ifeq ($(origin CC),default)
CC = gcc
endif
ifeq ($(origin CXX),default)
CXX = g++
endif
RUSTC = rustc
WARNINGS = -Wall -Wextra -Wpedantic -Werror -Wconversion
# A packager's CPPFLAGS, CFLAGS and LDFLAGS add to what the build needs.
CFLAGS ?= -O2
COMPILE = $(CC) -std=c11 $(WARNINGS) -Iinclude $(CPPFLAGS) $(CFLAGS)
# What the reference is compiled with, so that the benches measure against the best of its kind.
FAST = -O3 -march=native
SANITIZED = -O1 -g -fsanitize=address,undefined -fno-sanitize-recover=all
RUSTFLAGS = --edition 2021 -O -D warnings

# One place has the version: the C header.
VERSION := $(shell sed -n 's/^\#define MAHYREI_VERSION "\(.*\)"$$/\1/p' include/mahyrei.h)

# The static library: all calls. Another archive can stand in for it, such as the reference in plain
# C, which shows that the tests outside the proofs hold without the library:
#   make host-test LIBS=target/host/standin/libmahyrei.a RUNSHEET=
# Several archives are linked in the order given.
LIBRARY = target/lib/libmahyrei.a
# The archive of all calls, as `rt` makes it.
CALLS = crates/c_calls/out/libc_calls.a
LIBS = $(LIBRARY)
# The shared library, from the same objects. Programs look for it by its ABI, which changes when one
# that was linked with an older one could no longer run with it, or would get other words from it.
ABI = 4
SHARED = $(dir $(firstword $(LIBS)))libmahyrei.so.$(VERSION)
HOST = target/host
HEADER = include/mahyrei.h include/mahyrei_plain.h
PROGRAM = $(HOST)/mahyrei

# Where `make install` puts things. DESTDIR goes before each of them, for packages.
PREFIX ?= /usr/local
BINDIR ?= $(PREFIX)/bin
LIBDIR ?= $(PREFIX)/lib
INCLUDEDIR ?= $(PREFIX)/include
MANDIR ?= $(PREFIX)/share/man
# Empty: below PREFIX where a Python of this system looks, or else share/mahyrei/python.
PYTHONDIR ?=
COMPLETIONDIR ?= $(PREFIX)/share/bash-completion/completions
DESTDIR ?=

# The tests run on a small stack, in KiB, as the library promises to.
STACK = ulimit -s 1024

# What the tests of the command use; RUNSHEET= leaves out the comparison with the proved program.
RUNSHEET = crates/runsheet/out/runsheet
COMMAND_TESTS = $(PROGRAM) $(HOST)/mahyrei_sanitized $(HOST)/slots $(HOST)/faults.so $(RUNSHEET)

# For the comparisons with the second implementation; empty means their own defaults.
SEED ?=
WORDS ?=
PASSES ?=
RUNS ?=
CAPTURES ?=
HEADERS ?=
FADES ?=
DELAYS ?=
TRACES ?=
UPLINKS ?=
# A folder with 12 GB of room, where `make python-test` is to try the largest run.
LARGE ?=

help:
	@echo 'make test       lint, prove every crate (rt ci), then host-test; last line: N passed, 0 failed'
	@echo 'make host-test  the tests outside the proofs alone; SEED=n, WORDS=n, PASSES=n, RUNS=n,'
	@echo '                CAPTURES=n, HEADERS=n, FADES=n, DELAYS=n, TRACES=n and UPLINKS=n choose'
	@echo '                what is compared'
	@echo 'make demo       the command at work: runs, recordings, damage, racks, uplinks; proves quietly,'
	@echo '                and keeps its picture under target/demo'
	@echo 'make bench      times of the library beside plain C and beside memory'
	@echo 'make bench-builds OTHER=FILE.so  this build beside another over random headers'
	@echo 'make lib        the static library and the shared one: $(LIBS)'
	@echo '                $(SHARED)'
	@echo 'make program    the command: $(PROGRAM)'
	@echo 'make install    libraries, headers, pkg-config file, command, man pages and Python module,'
	@echo '                under PREFIX=$(PREFIX) and DESTDIR; make uninstall removes them'
	@echo 'make book       the promises as pages for the browser: target/book/index.html; needs Sphinx,'
	@echo '                which is installed if you are root; tests/book tests them'
	@echo 'make deb        Debian packages, in target/deb; make deb-test installs them into a fresh root'
	@echo 'make clean      remove what was built outside the proofs'
	@echo 'make soak       all calls against the second implementation, on all cores for'
	@echo '                SECONDS=n, with a fresh seed or SEED=n'
	@echo 'make fuzz       all calls under libFuzzer and the sanitizers, likewise'
	@echo 'make peers      all calls that code against a chain made of parts by others'
	@echo 'make crash      a power cut at every step of every command that writes, simulated'
	@echo 'make wheel      a Python wheel with the shared library in it, in target/wheel'
	@echo 'make python-test  the Python module beside numpy and mypy, and the wheel'
	@echo 'make gnuradio-test  the GNU Radio blocks of integrations/gnuradio, with GNU Radio itself'
	@echo 'make lint       compilers, linters and formatters, none of which may complain'
	@echo 'make stack      the most stack that each call takes, read from the machine code'
	@echo 'make controls   a harmless change beside each must-fail edit that has one, which the prover has'
	@echo '                to accept; CONTROLS="crate crate/edit" for some of them'
	@echo 'make mutants    COUNT=n small changes of the code of each crate, which the prover has to'
	@echo '                refuse; CRATES=name for one crate'

test:
	@tests/run

PYTHON_TEST = if ! command -v python3 >/dev/null; then \
    echo 'python: no python3 here; the module is not tried'; \
    else MAHYREI_LIBRARY=$(abspath $(SHARED)) tests/python/module $(PROGRAM) $(HOST)/slots && \
    MAHYREI_LIBRARY=$(abspath $(SHARED)) tests/python/ground $(PROGRAM); fi
# The module beside numpy, its types, and the wheel: what needs more than python3 and the library.
.PHONY: wheel python-test
wheel: $(SHARED)
	@host/package/wheel $< target/wheel
python-test: $(SHARED) $(PROGRAM) $(HOST)/slots
	@LARGE='$(LARGE)' tests/python/more $(PROGRAM) $(HOST)/slots $(abspath $<)
.PHONY: gnuradio-test
gnuradio-test: $(SHARED)
	@tests/gnuradio/run $(abspath $<)
# The stack of each call by the machine code, where it is the library's own and can be read.
STACK_TEST = if [ '$(LIBS)' != '$(LIBRARY)' ]; then true; \
    elif ! command -v python3 >/dev/null || ! command -v objdump >/dev/null; then \
    echo 'stack: no python3 or no objdump here; the frames are not read'; \
    else tests/stack $(SHARED) >/dev/null && echo 'stack: no call takes more than 1 MiB'; fi
# What else the archive needs, where it is the library's own.
NEEDS_TEST = [ '$(LIBS)' != '$(LIBRARY)' ] || tests/needs $(LIBRARY)
CRASH_TEST = if ! command -v python3 >/dev/null; then \
    echo 'crash: no python3 here; no power cut is simulated'; \
    else tests/crash/run $(PROGRAM) $(HOST)/record.so --short; fi
LINT = HOST_FLAGS='$(HOST_FLAGS)' WARNINGS='$(filter-out -Werror,$(WARNINGS))' tests/lint
HOST_TESTS = $(SHARED) $(addprefix $(HOST)/,mahyrei_lying record.so word_calls pass_calls \
    spread_calls run_calls long_calls find_calls header_calls fades_calls delay_calls rack_calls \
    uplink_calls plain_calls limits sha256_vectors sha512_vectors second_test compare_words compare_passes \
    compare_spreads compare_runs compare_captures compare_headers compare_fades compare_delays compare_racks \
    compare_uplinks) $(COMMAND_TESTS)
# The programs of the tests alone, which `make -j` builds side by side.
.PHONY: test-programs
test-programs: $(HOST_TESTS) $(HOST)/soak $(HOST)/fuzz_drive
host-test: $(HOST_TESTS)
	@echo '#include "mahyrei_plain.h"' | $(CXX) -x c++ $(WARNINGS) -Iinclude -fsyntax-only -
	@$(STACK) && ASAN_OPTIONS=detect_leaks=0 $(HOST)/word_calls
	@$(STACK) && ASAN_OPTIONS=detect_leaks=0 $(HOST)/pass_calls
	@$(STACK) && ASAN_OPTIONS=detect_leaks=0 $(HOST)/spread_calls
	@$(STACK) && ASAN_OPTIONS=detect_leaks=0 $(HOST)/run_calls
	@$(STACK) && ASAN_OPTIONS=detect_leaks=0 $(HOST)/long_calls
	@$(STACK) && ASAN_OPTIONS=detect_leaks=0 $(HOST)/find_calls
	@$(STACK) && ASAN_OPTIONS=detect_leaks=0 $(HOST)/header_calls
	@$(STACK) && ASAN_OPTIONS=detect_leaks=0 $(HOST)/fades_calls
	@$(STACK) && ASAN_OPTIONS=detect_leaks=0 $(HOST)/delay_calls
	@$(STACK) && ASAN_OPTIONS=detect_leaks=0 $(HOST)/rack_calls
	@$(STACK) && ASAN_OPTIONS=detect_leaks=0 $(HOST)/uplink_calls
	@$(STACK) && ASAN_OPTIONS=detect_leaks=0 $(HOST)/plain_calls
	@$(HOST)/limits
	@ASAN_OPTIONS=detect_leaks=0 $(HOST)/sha256_vectors
	@ASAN_OPTIONS=detect_leaks=0 $(HOST)/sha512_vectors
	@$(STACK) && $(HOST)/second_test --quiet
	@$(STACK) && SEED=$(SEED) WORDS=$(WORDS) $(HOST)/compare_words
	@$(STACK) && SEED=$(SEED) PASSES=$(PASSES) $(HOST)/compare_passes
	@$(STACK) && SEED=$(SEED) $(HOST)/compare_spreads
	@$(STACK) && SEED=$(SEED) RUNS=$(RUNS) $(HOST)/compare_runs
	@$(STACK) && SEED=$(SEED) CAPTURES=$(CAPTURES) $(HOST)/compare_captures
	@$(STACK) && SEED=$(SEED) HEADERS=$(HEADERS) $(HOST)/compare_headers
	@$(STACK) && SEED=$(SEED) FADES=$(FADES) $(HOST)/compare_fades
	@$(STACK) && SEED=$(SEED) DELAYS=$(DELAYS) $(HOST)/compare_delays
	@$(STACK) && SEED=$(SEED) TRACES=$(TRACES) $(HOST)/compare_racks
	@$(STACK) && SEED=$(SEED) UPLINKS=$(UPLINKS) $(HOST)/compare_uplinks
	@$(STACK) && COMMAND=$(PROGRAM) RUNSHEET=$(RUNSHEET) tests/command/run -q
	@$(CRASH_TEST)
	@$(PYTHON_TEST)
	@$(STACK_TEST)
	@$(NEEDS_TEST)
	@echo 'tests outside the proofs: passed'

# The proofs first, lowest crate first and quietly, where make sees that they are to be done.
PICTURE = target/demo/damage.svg
demo:
	@[ '$(LIBS)' != '$(LIBRARY)' ] || $(MAKE) -q $(CALLS) >/dev/null 2>&1 || \
	    { demo/prove && touch $(CALLS); }
	@$(MAKE) -s --no-print-directory $(PROGRAM) $(HOST)/slots
	@mkdir -p $(dir $(PICTURE))
	@demo/run $(PROGRAM) $(HOST)/slots $(PICTURE)

# The manual's picture of damaged slots, which are the demo's.
.PHONY: picture
picture: $(PROGRAM) $(HOST)/slots
	@demo/run $^ docs/damage.svg >/dev/null

bench: $(addprefix $(HOST)/bench_,words passes uplinks runs orders captures fades delays) $(PROGRAM)
	@$(HOST)/bench_words
	@echo
	@$(HOST)/bench_passes
	@echo
	@$(HOST)/bench_uplinks
	@echo
	@$(HOST)/bench_runs
	@echo
	@$(HOST)/bench_orders
	@echo
	@$(HOST)/bench_captures
	@echo
	@$(HOST)/bench_fades
	@echo
	@$(HOST)/bench_delays
	@echo
	@bench/scan $(PROGRAM) $(HOST)

# What may be relied on, as pages made from the sources. No part of the tests: it needs packages.
.PHONY: book
book:
	@docs/book/build target/book

lib: $(LIBS) $(SHARED)

program: $(PROGRAM)

# A shell does it, which can take blanks in the names of folders.
install uninstall: export DESTDIR := $(DESTDIR)
install uninstall: export PREFIX := $(PREFIX)
install uninstall: export BINDIR := $(BINDIR)
install uninstall: export LIBDIR := $(LIBDIR)
install uninstall: export INCLUDEDIR := $(INCLUDEDIR)
install uninstall: export MANDIR := $(MANDIR)
install uninstall: export PYTHONDIR := $(PYTHONDIR)
install uninstall: export COMPLETIONDIR := $(COMPLETIONDIR)
BUILT = VERSION='$(VERSION)' ABI='$(ABI)' PROGRAM='$(PROGRAM)' ARCHIVE='$(LIBS)' SHARED='$(SHARED)'
install: $(LIBS) $(SHARED) $(PROGRAM)
	@$(BUILT) host/package/install put

uninstall:
	@$(BUILT) host/package/install take

# Debian's packages, from the proved archive, and a test that installs them into a fresh root.
DEB = target/deb
.PHONY: deb deb-test
deb: $(CALLS)
	@host/package/deb $< $(ABI) $(VERSION) $(DEB)
deb-test: deb $(LIBS) $(SHARED) $(PROGRAM)
	@tests/packages $(DEB)

clean:
	rm -rf $(HOST) target/lib target/book target/book-source $(DEB)

# `rt` proves what these rest on, where that is not done yet. It leaves a file alone that nothing has
# changed for, so the file gets the time at which `rt` began: what changed meanwhile is newer.
PROVED := crates.txt $(shell find $(wildcard crates/*/src crates/*/specs crates/*/proofs) \
    -name '*.rt' -o -name '*.antt')
$(CALLS): $(PROVED)
	@mkdir -p $(@D) && touch $@.begun
	cd crates/c_calls && rt lib
	@touch -r $@.begun $@ && rm -f $@.begun

# `rt` builds a program by running it; for no input this one has a line too, and the status 0.
crates/runsheet/out/runsheet: $(PROVED)
	@mkdir -p $(@D) && touch $@.begun
	cd crates/runsheet && rt run </dev/null
	@touch -r $@.begun $@ && rm -f $@.begun

# Plain C for C programs (mahyrei_plain.h), which is in every archive beside the calls.
PARTS = $(patsubst plain/%.c,target/lib/plain/%.o,$(wildcard plain/*.c))
target/lib/plain/%.o: plain/%.c $(HEADER)
	@mkdir -p $(@D)
	@$(COMPILE) -fPIC -c $< -o $@

# The crate `c_calls` has every call that C sees. The library is its archive, and the plain C beside it.
$(LIBRARY): $(CALLS) $(PARTS)
	@mkdir -p $(@D)
	@cp $< $@
	@ar rs $@ $(PARTS)

# The objects of the archives are position independent: -z text is an error where they are not. The other two
# names are copies, since `rt ci` refuses a checkout with links in it.
$(SHARED): $(LIBS) $(HOST)/archives plain/libmahyrei.map
	@$(CC) $(CFLAGS) -shared -Wl,-soname,libmahyrei.so.$(ABI) \
	    -Wl,--version-script,plain/libmahyrei.map -Wl,-z,text,-z,defs,-z,relro,-z,now \
	    -Wl,--whole-archive $(LIBS) -Wl,--no-whole-archive $(LDFLAGS) -o $@
	@cp --remove-destination $@ $(@D)/libmahyrei.so.$(ABI)
	@cp --remove-destination $@ $(@D)/libmahyrei.so

# Names the archives in use, and the digest: a program linked with others is linked again.
LINKED = $(LIBS) $(HOST)/archives
LINK_RUST = --extern second=$(HOST)/libsecond.rlib $(foreach lib,$(LIBS),-C link-arg=$(lib))
$(HOST)/archives: FORCE
	@mkdir -p $(@D)
	@echo '$(LIBS) $(SHA256)' | cmp -s - $@ || echo '$(LIBS) $(SHA256)' >$@

# The reference: all calls in plain C, for the benches, the fuzz target and the stand-in.
REFERENCE_HEADERS = reference/reference.h reference/parts.h
REFERENCE = $(addprefix $(HOST)/reference/,word.o pass.o run.o capture.o header.o fades.o delay.o \
    rack.o uplink.o)
$(HOST)/reference/%.o: reference/%.c $(REFERENCE_HEADERS) $(HEADER)
	@mkdir -p $(@D)
	@$(COMPILE) $(FAST) -fPIC -c $< -o $@

# An archive of it under the library's names, which standin.c exports.
$(HOST)/standin/libmahyrei.a: $(HOST)/reference/standin.o $(REFERENCE) $(PARTS)
	@mkdir -p $(@D)
	@rm -f $@
	@ar rcs $@ $^

# Digests are nettle's, or where pkg-config finds none, those of plain C; SHA256=nettle and
# SHA256=plain insist on one of them.
ifeq ($(origin SHA256),undefined)
SHA256 := $(if $(shell pkg-config --libs nettle 2>/dev/null),nettle,plain)
endif
ifeq ($(SHA256),nettle)
NO_SOURCES = host/formats/sha256_plain.c host/formats/sha512_plain.c
NETTLE_FLAGS := -DWITH_NETTLE $(shell pkg-config --cflags nettle)
NETTLE_LIBS := $(shell pkg-config --libs nettle)
endif

HOST_SOURCES = host/main.c $(filter-out $(NO_SOURCES),$(wildcard host/*/*.c))
HOST_HEADERS = $(wildcard host/*/*.h)
HOST_LIBS = $(LIBS) $(NETTLE_LIBS)
HOST_FLAGS = -Ihost $(NETTLE_FLAGS) -D_XOPEN_SOURCE=700 -pthread
$(PROGRAM): $(HOST_SOURCES) $(HOST_HEADERS) $(HEADER) $(LINKED)
	@$(COMPILE) $(HOST_FLAGS) $(HOST_SOURCES) $(HOST_LIBS) $(LDFLAGS) -o $@

$(HOST)/mahyrei_sanitized: $(HOST_SOURCES) $(HOST_HEADERS) $(HEADER) $(LINKED)
	@$(COMPILE) $(SANITIZED) $(HOST_FLAGS) $(HOST_SOURCES) $(HOST_LIBS) $(LDFLAGS) -o $@

# The command with a library whose answers are wrong.
$(HOST)/mahyrei_lying: tests/c/lying.c $(HOST_SOURCES) $(HOST_HEADERS) $(HEADER) $(LINKED)
	@$(COMPILE) $(HOST_FLAGS) -Wl,--wrap,mahyrei_run_read $< $(HOST_SOURCES) $(HOST_LIBS) $(LDFLAGS) -o $@

$(HOST)/faults.so: tests/c/faults.c
	@mkdir -p $(@D)
	@$(COMPILE) -shared -fPIC $< -o $@

$(HOST)/%_calls: tests/c/%_calls.c tests/c/check.h tests/c/runs.h $(HEADER) $(LINKED)
	@$(COMPILE) $(SANITIZED) $< $(LIBS) -o $@

# What no proof speaks of, computed; with optimization, since it goes through 700 million sums.
$(HOST)/limits: tests/c/limits.c tests/c/check.h $(HEADER) $(LINKED)
	@$(COMPILE) $(FAST) $< $(LIBS) -o $@

$(HOST)/sha%_vectors: tests/c/sha%_vectors.c host/formats/sha%.c host/formats/sha%_plain.c \
    host/formats/sha%.h
	@mkdir -p $(@D)
	@$(COMPILE) $(SANITIZED) -Ihost $(NETTLE_FLAGS) -DSHA$*_BY='"$(SHA256)"' $(filter %.c,$^) \
	    $(NETTLE_LIBS) -o $@

SECOND = $(addprefix tests/second/,lib.rs compare.rs convert.rs delay.rs fades.rs find.rs \
    library.rs pass.rs rack.rs run.rs spread.rs uplink.rs word.rs run_cases.rs \
    $(addprefix run_cases/,calls.rs captures.rs convert.rs copies.rs damages.rs delays.rs edges.rs \
    fades.rs headers.rs kinds.rs racks.rs refusals.rs sample.rs) pass_cases.rs spread_cases.rs \
    uplink_cases.rs word_cases.rs)
$(HOST)/second_test: $(SECOND)
	@mkdir -p $(@D)
	@$(RUSTC) $(RUSTFLAGS) --test $< -o $@

$(HOST)/libsecond.rlib: $(SECOND)
	@mkdir -p $(@D)
	@$(RUSTC) $(RUSTFLAGS) --crate-type lib --crate-name second $< -o $@

$(HOST)/compare_%: tests/second/compare_%.rs $(HOST)/libsecond.rlib $(LINKED)
	@$(RUSTC) $(RUSTFLAGS) $< $(LINK_RUST) -o $@

# The demo's tool is built on the command's parts.
HOST_PARTS = $(filter-out host/main.c,$(HOST_SOURCES))
$(HOST)/slots: demo/slots.c $(HOST_PARTS) $(HOST_HEADERS) $(HEADER) $(LINKED)
	@$(COMPILE) $(HOST_FLAGS) $< $(HOST_PARTS) $(HOST_LIBS) $(LDFLAGS) -o $@

BENCHES = $(addprefix $(HOST)/bench_,words passes uplinks runs orders captures fades delays)
$(BENCHES): $(HOST)/bench_%: bench/bench_%.c bench/timing.h tests/c/runs.h $(REFERENCE) \
    $(REFERENCE_HEADERS) $(HEADER) $(LINKED)
	@$(COMPILE) -Itests/c -Ireference $< $(REFERENCE) $(LIBS) -o $@

# Another build of the shared library beside this one, over random headers: is any of them slower?
OTHER ?=
HEADERS_TRIED ?= 200
.PHONY: bench-builds
bench-builds: $(HOST)/bench_builds $(SHARED)
	@[ -n '$(OTHER)' ] || { echo 'make bench-builds OTHER=FILE.so: the build to compare with' >&2; exit 2; }
	@$(HOST)/bench_builds $(OTHER) $(SHARED) $(HEADERS_TRIED) $(SEED)
$(HOST)/bench_builds: bench/bench_builds.c bench/timing.h tests/c/runs.h $(HEADER) $(LINKED)
	@$(COMPILE) -Itests/c $< $(LIBS) -ldl -o $@

# Evidence beyond the tests (docs/EVIDENCE.md): for as long as one likes, on all cores.
SECONDS ?= 60
CASE ?=
.PHONY: soak fuzz evidence-test
soak: $(HOST)/soak
	@SEED=$(SEED) CASE=$(CASE) $< $(SECONDS)

fuzz: $(HOST)/fuzz_drive
	@tests/fuzz/run $(SECONDS) $< $(LIBS)

# Against a chain of other people's parts, which are Debian's packages.
.PHONY: peers
peers: $(LIBS)
	@CXX='$(CXX)' tests/peers/run '$(LIBS)' $(if $(SEED),--seed $(SEED))

# The crates of the product that have code.
CRATES ?= bits answers sizes crc_steps crc_check convolution encoder_turns encoder transpose \
    word_columns decoder_columns decoder_bytes decoder_fast decoder_bits decoder interleaver_line \
    interleaver_columns interleaver_writer interleaver_reader accumulator randomizer word_writer \
    word_judge word_reader pass pass_writer pass_words pass_reader spread header header_sizes \
    header_tests header_marks header_answers header_convert parameters plan stream_bits \
    stream_blocks stream_joined stream_questions stream_frames pulses pool pulses_rows pool_rows \
    channel fades_list fades_walk fades_count delay_rows delay_step slots_moves slots_lines \
    slots_gather slots_units slots_rows slots_writer slots_symbols slots_residues slots_flat \
    slots_places slots_reader pattern_empty pattern_look pattern_search capture_marker capture_find \
    capture_cut run_writer run_reader rack_entries rack_asked rack_calls ldpc uplink uplink_writer \
    uplink_heard uplink_reader c_calls sheet runsheet
COUNT ?= 60
.PHONY: mutants
mutants:
	@for crate in $(CRATES); do tests/mutate $$crate $(COUNT) $(SEED) || exit; done

CONTROLS ?=
.PHONY: controls
controls:
	@tests/controls $(CONTROLS)

.PHONY: stack
stack: $(SHARED)
	@tests/stack $<

# What programs that read sources have to say of ours. `make test` asks them first.
.PHONY: lint
lint:
	@$(LINT)

# The power is cut at every step of every command that writes. A shorter form is part of the tests.
.PHONY: crash
crash: $(PROGRAM) $(HOST)/record.so
	@tests/crash/run $^

$(HOST)/record.so: tests/crash/record.c
	@mkdir -p $(@D)
	@$(COMPILE) -shared -fPIC $< -o $@

# A moment of soak and fuzz, within the tests, so that both stay fit to be run.
host-test: evidence-test
evidence-test: $(HOST)/soak $(HOST)/fuzz_drive
	@SEED=$(SEED) $(HOST)/soak 2
	@$(STACK) && ASAN_OPTIONS=detect_leaks=0 $(HOST)/fuzz_drive

$(HOST)/soak: tests/second/soak.rs $(HOST)/libsecond.rlib $(LINKED)
	@$(RUSTC) $(RUSTFLAGS) $< $(LINK_RUST) -o $@

# The fuzz target with a driver in place of libFuzzer.
$(HOST)/fuzz_drive: tests/fuzz/drive.c tests/fuzz/calls.c $(REFERENCE) $(REFERENCE_HEADERS) \
    tests/fuzz/calls.h tests/c/check.h tests/c/runs.h $(HEADER) $(LINKED)
	@$(COMPILE) $(SANITIZED) -Ireference $(filter %.c %.o,$^) $(LIBS) -o $@
