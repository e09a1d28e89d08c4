# Builds, tries, tests and installs yds_cli. `make help` writes these lines.
#
#   make                proves every crate and builds build/yds_cli and build/yds_trace
#   make trace          proves what the reader of kernel traces is made of, and builds
#                       build/yds_trace
#   make try            runs the program on DOCUMENT with the words of COMMAND, unproved, after a
#                       minute or two
#   make run            plans the document EXAMPLE with the program unproved, says so, proves what
#                       it is made of, builds it, and plans it again; 16 minutes on four processors,
#                       with 6 GB of disk
#   make test           the tests, without any proof: both programs on each stored row and trace, the
#                       tests of the crates, of the commands, of the pages and of the checks; 3
#                       minutes on four idle processors, with 2 GB of memory for each
#   make gate           the merge gate: every proof, test and stored run, the edits that a proof has
#                       to refuse, and the checks that checks/gate.py lists; 37 minutes on four
#                       processors where nothing was proved there before, and 4 where all was, with
#                       2 GB of memory for each; it leaves 3 GB of disk. KEPT=FILE begins with what
#                       a gate elsewhere kept
#   make kept           packs what the toolchain kept of this tree's gate, as build/kept.tar.gz
#   make edits          tries all edits anew that a proof has to refuse, before a release, over what
#                       the gate has proved here
#   make crate-seconds  writes packaging/crate-seconds, by which a first run tells how long it takes,
#                       of what each crate took here
#   make built          fills build with the programs and the library, over what `rt ci` has proved
#                       here, within some minutes
#   make tools-check    the tests of the commands that need Python's own library alone; `make test`
#                       has them, too
#   make tools-test     their other tests, which need matplotlib, mypy, pytest and others: what
#                       isn't there is left out, and named
#   make check          the built programs answer every example and stored row byte for byte, within
#                       seconds
#   make recipes        every recipe on its sample, with the built program
#   make faults         refuses the built programs memory, reads and writes in turn, and random
#                       bytes, and breaks their streams
#   make fuzz           draws DOCUMENTS documents near the grammar from SEED, and holds the built
#                       program's answers against what they promise; and breaks TRACES drawn traces:
#                       of none yds_trace may say a yes that it doesn't say of the unbroken one
#   make traces         draws TRACES traces from SEED, and LONG long ones in parts, and holds the
#                       whole text of the built yds_trace against a second reading of each
#   make answers        draws ANSWERS documents (2,000) for each form of command from SEED, and holds
#                       the built program's answers against those of a second program, in Python,
#                       which is made from the definitions alone; two minutes for each 2,000
#   make planted        plants mistakes in yds_trace, one at a time, unproved, and says which the
#                       drawn traces find; some twenty minutes of a processor. Then it plants
#                       mistakes in the second program of make answers, within a minute
#   make record         records some seconds of this machine's kernel, and holds yds_trace against
#                       the second reading; needs root and a tracefs, and ends with status 77 where
#                       the machine doesn't allow it
#   make costly         times the built program on the documents that cost most
#   make bench          times it as documents grow, and beside a plain program of the textbook's
#                       method
#   make bench-trace    times yds_trace as traces grow, beside grep, from files and from pipes
#   make bench-library  how often a second the library answers from C and from Python, beside
#                       processes of the program
#   make library        builds the C library, build/libyds.a and build/libyds.so
#   make library-test   the library answers every stored row, and DOCUMENTS drawn documents
#                       (20,000), as the program does; refused memory, threads, examples; the Python
#                       package does so too, and as a wheel; and the commands of docs/library.md
#                       write what stands there
#   make wheel          a wheel with the Python package, the shared object, the programs and the
#                       commands, in build/dist
#   make sdist          the sources of the Python package alone, in build/dist
#   make install        copies to PREFIX (/usr/local): the programs and the commands yds-.. to bin,
#                       manual pages, completion, recipes, examples and pages to share, the Python
#                       package to lib/python3/dist-packages, and the library, where it was built
#   make install-program, install-tools, install-pages, install-library
#                       one of them alone
#   make uninstall      removes just these; so do uninstall-program, uninstall-tools,
#                       uninstall-pages and uninstall-library
#   make map            draws docs/pictures/crates.svg from crates.txt
#   make deb            Debian packages of what is built, in build/dist: by debhelper where it is
#                       there (Debian: debhelper, dh-python)
#   make dist           the sources and the static programs as archives, the wheel where the library
#                       was built, and the sums of all, in build/dist
#   make check-build    whether the programs that were built here are the released ones, by their
#                       sums
#   make record-build   writes these sums into packaging/released, before a release
#   make packages-test  tries the packages in Debian 12 and 13, from the first page to a page to
#                       send on, and the static program in an empty root; needs root and debootstrap
#   make clean          removes what was built
#
# gate, faults, fuzz, costly, library and bench-library need a C compiler (Debian: gcc and libc6-dev);
# gate, bench and library-test also one for C++ (g++); library-test pkg-config and python3-venv, too.
#
# JOBS crates are proved side by side, each in up to 2 GB of memory. With LINK=dynamic the program
# is the toolchain's own, which needs glibc. EXAMPLE, DOCUMENT and COMMAND are what `make run` and
# `make try` take, as in: make try DOCUMENT=jobs.txt COMMAND=report

SHELL := /bin/bash
PROGRAM := yds_cli
BINARY := build/$(PROGRAM)
TRACER := build/yds_trace
SOURCES := crates.txt $(shell find crates -path '*/out' -prune -o \( -name '*.rt' -o -name '*.antt' \) -print)
# Some wait for those that they stand on: so there are twice as many as processors, where memory holds them.
JOBS ?= $(shell awk -v n=$$(nproc) '/^MemTotal/ { m = int($$2 / 2097152); print m < 1 ? 1 : m < 2 * n ? m : 2 * n }' /proc/meminfo)
PREFIX ?= /usr/local
INSTALLED ?= $(BINARY)
EXAMPLE ?= examples/three-jobs.txt
DOCUMENT ?= examples/three-jobs.txt
COMMAND ?= plan
SEED ?= 1
DOCUMENTS ?= 100000
TRACES ?= 1000
LONG ?= 50
ANSWERS ?= 2000
# A variable that is exported before it is given a value is empty.
export PREFIX DESTDIR LIBDIR INSTALLED DOCUMENT EXAMPLE KEPT

LIBRARY := build/libyds.so
LINKER_CACHE = test -n "$$DESTDIR" || ldconfig 2>/dev/null || echo "ldconfig, run by root, lets programs find libyds.so.1 there"

.PHONY: all help run try trace test gate edits kept crate-seconds built tools-check tools-test check recipes faults fuzz traces answers planted record costly bench bench-trace bench-library library library-test wheel sdist install install-program install-tools install-pages install-library uninstall uninstall-program uninstall-tools uninstall-pages uninstall-library map deb dist check-build record-build packages-test clean tool

all: $(BINARY) $(TRACER) build/proved

help:
	@sed -n '/^#/!q; s/^# \{0,1\}//p' $(firstword $(MAKEFILE_LIST))

HAS_TOOL = command -v rt >/dev/null 2>&1 || { echo "make: the command 'rt' of the Rattle toolchain is not on the PATH; install the kit that README.md names, or take the packages of a release, which need none." >&2; exit 1; }

tool:
	@$(HAS_TOOL)

# What the program is made of: the crate on which all others stand comes first, on all processors; then the others side by side; then the program
# itself. How long each took is kept for the next time. Where the program is built, the toolchain isn't needed.
$(BINARY): $(SOURCES)
	@$(HAS_TOOL)
	@python3 packaging/prove.py program --jobs $(JOBS) $(SHOWN)
	@cp crates/$(PROGRAM)/out/$(PROGRAM).o build/
	@cp crates/$(PROGRAM)/out/$(PROGRAM) build/$(PROGRAM)-dynamic
	@CC=$(CC) LINK=$(LINK) sh packaging/link.sh $(PROGRAM)

# The second program, which reads kernel traces. Nothing of the first one stands on it.
$(TRACER): $(SOURCES)
	@$(HAS_TOOL)
	@python3 packaging/prove.py trace --jobs $(JOBS)
	@cp crates/yds_trace_cli/out/yds_trace_cli.o build/yds_trace.o
	@cp crates/yds_trace_cli/out/yds_trace_cli build/yds_trace-dynamic
	@CC=$(CC) LINK=$(LINK) sh packaging/link.sh yds_trace

trace: $(TRACER)

# All crates: what the program is made of is kept, so the library's, the textbook's, the law of parts and the examples are left.
build/proved: $(SOURCES) | $(BINARY)
	@$(HAS_TOOL)
	@python3 packaging/prove.py others --jobs $(JOBS)
	@touch $@

# Where the program has to be built first, its sources answer before that, unproved.
run:
	@$(MAKE) --no-print-directory $(BINARY) SHOWN='--example "$$$$EXAMPLE"'
	@echo "$(BINARY) plan < $$EXAMPLE"
	@$(BINARY) plan <"$$EXAMPLE"

try: tool
	@(cd crates/$(PROGRAM) && rt try $(PROGRAM) -- $(COMMAND)) <"$$DOCUMENT"

test: tool
	@python3 checks/tests.py

gate:
	@python3 checks/gate.py $(if $(KEPT),--kept "$$KEPT")

edits: tool
	@python3 checks/edits/edits.py --all

kept: tool
	@python3 packaging/kept.py pack build/kept.tar.gz

crate-seconds:
	@python3 packaging/prove.py record

built: tool
	@python3 packaging/over.py programs build
	@for name in $(PROGRAM) yds_trace; do CC=$(CC) LINK=$(LINK) sh packaging/link.sh $$name || exit 1; done
	@CC=$(CC) python3 packaging/over.py library build

tools-check:
	@python3 checks/tools.py

tools-test:
	@python3 checks/second.py

check: $(BINARY) $(TRACER)
	@sh examples/check.sh ../$(BINARY)
	@sh examples/check-traces.sh ../$(TRACER)

recipes: $(BINARY) $(TRACER)
	@sh recipes/test.sh

faults: $(BINARY) $(TRACER)
	@CC=$(CC) sh robustness/faults.sh

build/fuzz: robustness/fuzz.c
	@mkdir -p build
	@$(CC) -std=gnu11 -O2 -Wall -o $@ $<

fuzz: $(BINARY) $(TRACER) build/fuzz
	@cd build && ./fuzz ./$(PROGRAM) ../examples/rows $(SEED) $(DOCUMENTS)
	@python3 robustness/broken.py $(SEED) $(TRACES) $(TRACER) $(BINARY)

traces: $(TRACER) $(BINARY)
	@python3 robustness/trace.py $(SEED) $(TRACES) $(TRACER)
	@python3 robustness/long.py $(SEED) $(LONG) $(TRACER) $(BINARY)
	@python3 robustness/everywhere.py $(SEED) $(LONG) $(TRACER) $(BINARY)
	@python3 robustness/table.py $(SEED) $(TRACES) $(TRACER)

answers: $(BINARY)
	@python3 robustness/answers.py $(SEED) $(ANSWERS) $(BINARY)

planted: tool
	@python3 robustness/planted.py
	@python3 robustness/planted_answers.py

record: $(TRACER)
	@python3 robustness/record.py $(TRACER)

costly: $(BINARY)
	@CC=$(CC) sh robustness/costly.sh

bench: $(BINARY)
	@CC=$(CC) CXX=$(CXX) sh bench/bench.sh

bench-trace: $(TRACER)
	@sh bench/trace.sh

# The archive is made with the shared object. What they stand on is proved with the program, and their own crate as they are built.
$(LIBRARY): $(SOURCES) library/build.sh library/yds.map | $(BINARY)
	@CC=$(CC) sh library/build.sh

library: $(LIBRARY)

library-test: $(BINARY) $(TRACER) $(LIBRARY)
	@CC=$(CC) CXX=$(CXX) sh library/test/test.sh
	@sh python/test.sh
	@sh recipes/test.sh library

# Packages have what is built: only where it isn't there, the library is built first.
wheel: $(BINARY) $(TRACER) $(if $(wildcard $(LIBRARY)),,$(LIBRARY))
	@sh packaging/wheel.sh

# Sources alone: neither the toolchain nor the library is needed.
sdist:
	@sh packaging/sdist.sh

bench-library: $(BINARY) $(LIBRARY)
	@CC=$(CC) sh bench/library.sh

# What is put where stands in packaging/install.sh. PREFIX and DESTDIR reach it by the environment, so they may have blanks.
install: $(BINARY) $(TRACER)
	@sh packaging/install.sh put programs tools pages $(if $(wildcard $(LIBRARY)),library headers)
	@$(if $(wildcard $(LIBRARY)),$(LINKER_CACHE),true)

install-program: $(BINARY) $(TRACER)
	@sh packaging/install.sh put programs

install-tools:
	@sh packaging/install.sh put tools

install-pages:
	@sh packaging/install.sh put pages

install-library: $(LIBRARY)
	@sh packaging/install.sh put library headers
	@$(LINKER_CACHE)

uninstall:
	@sh packaging/install.sh remove programs tools pages library headers

uninstall-program:
	@sh packaging/install.sh remove programs

uninstall-tools:
	@sh packaging/install.sh remove tools

uninstall-pages:
	@sh packaging/install.sh remove pages

uninstall-library:
	@sh packaging/install.sh remove library headers

map:
	@python3 docs/pictures/crates.py crates.txt >docs/pictures/crates.svg

deb: $(BINARY) $(TRACER)
	@sh packaging/deb.sh

dist: $(BINARY) $(TRACER)
	@CC=$(CC) sh packaging/dist.sh

check-build: $(BINARY) $(TRACER)
	@CC=$(CC) sh packaging/check-build.sh

record-build: $(BINARY) $(TRACER)
	@CC=$(CC) sh packaging/check-build.sh --record

packages-test: $(BINARY) $(TRACER)
	@CC=$(CC) sh packaging/test.sh

clean:
	rm -rf build crates/*/out
