# make          builds the program and the libraries into build/ of dist/, by a C compiler alone: seconds
# make demo     the same, and shows a sample
# make test     all tests over build/; needs no kit
# make install  puts what was built under $(PREFIX): program, library, headers, Python package, manual pages
# make uninstall  removes these again
# make deb      makes packages of Debian of them, for amd64 and arm64 if both compilers are there
# make release  makes what is released in build/release: archive, packages, wheels, sums, parts, notes
# make debug    builds the library once more with a mark in front of each block, which names one that is used wrongly
# make docs     makes the references of all languages and the crates, and sizes, in build/docs (doxygen, cargo, sphinx)
#
# CC, CFLAGS and LDFLAGS as ever: make CC=aarch64-linux-gnu-gcc BUILD=build/arm64. OLD=1 builds also if dist/ is older
# than crates/.
#
# With the Rattle kit:
# make prove    the gate: proves everything, tries the mutants of must-fail/, makes dist/ anew and compares it
# make dist     makes dist/ anew of the crates as they are, in a few minutes where their proofs are kept
# make check CRATE=lis_frame   proves one crate, tries its mutants of must-fail/, and runs the tests that use it
#
# Long runs, outside the gate:
# make mutants  [CRATES="lis_link .."]   all mutants: the prover must reject each, and a test must notice it
# make harmless [CRATES="lis_link .."]   rewrites that change nothing: each must still be proved
# make fuzz     [EACH=600]               harnesses of libFuzzer over the library for C, so many seconds each
# make both     [LISTS=100000]           random lists of events on a line between two stations, as the model answers
# make arm64                             all rows, programs and calls on ARM64, by qemu
# make roots                             what `make release` makes, and a clone, in bare roots (root, debootstrap)
# make soak     [PARTS="kills=1000 .."]  the host by fire, for hours (tests/host/more soak)
# make noise    [SESSIONS=910]   so many sessions to each sample, over a wire that changes one byte of each frame
# make plant CRATE=lis_link              wrong bodies that the kit makes up: what a crate's contracts let through
# make bench                             speed, memory and instructions; writes build/docs/speed.md, in ten minutes
#
# make bench-check                       fails if a command makes over 3 % more instructions a byte; in make prove

PREFIX ?= /usr/local
LIBDIR ?= $(PREFIX)/lib
PYTHONDIR ?= $(PREFIX)/share/lislink/python
CC ?= cc
CFLAGS ?= -O2
BUILD = build
DIST = dist
PROGRAM = $(BUILD)/lislink
VERSION = $(shell cat VERSION)

.PHONY: build prove dist check debug demo test mutants harmless both soak noise plant bench bench-check install \
  uninstall deb release roots arm64 docs fuzz FORCE

build: $(PROGRAM) $(BUILD)/liblis_c.a $(BUILD)/liblislink.a $(BUILD)/liblislink.so

# Which folder of dist/ the compiler is for, and what all is built by: if that changes, all is built anew.
HOW = $(BUILD)/how
$(HOW): FORCE
	@OLD=$(OLD) tools/code $(DIST) $@ $(CC) $(CPPFLAGS) $(CFLAGS) $(LDFLAGS)

COMPILE = $(CC) $(CPPFLAGS) $(CFLAGS) -c -o $@
$(BUILD)/lis_c.o $(BUILD)/lislink.o: $(BUILD)/%.o: $(HOW)
	$(COMPILE) $$(head -n 1 $(HOW))/$*.s

# The files of src/c are part of both libraries, so that a program links with nothing else.
PLAIN = $(patsubst src/c/%.c,$(BUILD)/%.o,$(wildcard src/c/*.c))
$(PLAIN) $(BUILD)/system.o: include/lislink.h $(HOW)
$(PLAIN): $(BUILD)/%.o: src/c/%.c
	$(COMPILE) -fPIC -Iinclude $<
$(BUILD)/system.o: src/c/program/system.c
	$(COMPILE) -fPIC $<

$(PROGRAM): $(BUILD)/lislink.o $(BUILD)/system.o $(BUILD)/heap.o
	$(CC) $(CFLAGS) $(LDFLAGS) -pie -Wl,--gc-sections -Wl,-z,now -o $@ $^

AR = $(shell $(CC) -print-prog-name=ar)
# The proved crate alone: its heap is the program's.
$(BUILD)/liblis_c.a: $(BUILD)/lis_c.o
$(BUILD)/liblislink.a: $(BUILD)/lis_c.o $(PLAIN)
$(BUILD)/liblis_c.a $(BUILD)/liblislink.a:
	rm -f $@
	$(AR) rcD $@ $^

$(BUILD)/liblislink.so.1: $(BUILD)/lis_c.o $(PLAIN) src/c/lislink.map
	$(CC) $(CFLAGS) $(LDFLAGS) -shared -o $@ -Wl,-soname,liblislink.so.1 -Wl,-z,now \
	  -Wl,--version-script=src/c/lislink.map $(filter %.o,$^)

$(BUILD)/liblislink.so: $(BUILD)/liblislink.so.1
	ln -sf liblislink.so.1 $@

demo: build
	@echo 'What is on a line, one unit a line:'
	@$(PROGRAM) show < samples/session.link
	@echo
	@echo 'Next:'
	@echo '  tools/lislab capture samples/tour.socat -o session.capture'
	@echo '  build/lislink replay < session.capture'
	@echo '  build/lislink texts < session.capture | build/lislink results'
	@echo 'README.md explains them, docs/first-program.md and docs/library.md the library.'

test: build
	@tools/needed python
	@tests/all $(BUILD)

prove:
	@tools/needed python rt gcc room
	@tests/prove $(BUILD)

dist:
	@tools/needed python rt room
	@tools/dist

check:
	@test -n '$(CRATE)' || { echo 'make check CRATE=name, a folder of crates/'; exit 2; }
	@tools/needed rt room
	cd crates/$(CRATE) && rt check --test
	rt must-fail $(CRATE)
	for it in $$(tools/tests-of $(CRATE)); do (cd crates/$$it && rt try --test) || exit 1; done

mutants:
	tests/proofs/mutants $(CRATES)
	tests/proofs/planted $(CRATES)

harmless:
	tests/proofs/harmless $(CRATES)

bench:
	bench/run

bench-check:
	@bench/check

# The answering program, proved and built for it alone.
LISTS = 100000
both:
	@tools/needed python rt room
	@tools/prove vectors $(BUILD)/proved/vectors
	conformance/both $(BUILD)/proved/vectors $(LISTS)

arm64: build
	tests/arm64/more $(BUILD)

roots: build release
	tests/run roots build=$(BUILD)

soak: build
	tests/host/more build=$(BUILD) soak $(PARTS)

SESSIONS = 910
noise: build
	NOISY_SESSIONS=$(SESSIONS) tests/run ffi/keeps build=$(BUILD)

plant:
	@test -n '$(CRATE)' || { echo 'make plant CRATE=name, a folder of crates/'; exit 2; }
	cd crates/$(CRATE) && rt plant

debug: build
	@tools/debug $(BUILD)
	@echo 'The debug build is $(BUILD)/liblislink_debug.a and $(BUILD)/liblislink_debug.so.'

PLACES = '$(DESTDIR)' '$(PREFIX)' '$(LIBDIR)' '$(PYTHONDIR)'

install: build
	@BUILD=$(BUILD) packaging/place put $(PLACES)
	@packaging/advice '$(PREFIX)' '$(LIBDIR)' '$(PYTHONDIR)'

uninstall:
	@packaging/place remove $(PLACES)

# lislink_VERSION_amd64.deb or .._arm64.deb in $(BUILD), for dpkg -i; that of the other processor in a folder there, if
# its compiler is on the path.
OTHER = $(if $(filter aarch64%,$(shell $(CC) -dumpmachine)),x86_64,aarch64)-linux-gnu-gcc
deb: build
	@BUILD=$(BUILD) CC='$(CC)' packaging/deb
	@if [ -z '$(ALONE)' ] && command -v $(OTHER) > /dev/null; then \
	  $(MAKE) --no-print-directory deb CC=$(OTHER) BUILD=$(BUILD)/$(OTHER) ALONE=1; fi

# All that is released, in $(BUILD)/release; the same files each time.
release:
	@tools/release $(BUILD)/release

docs: build
	@BUILD=$(BUILD) tools/docs $(BUILD)/docs
	@echo 'The references are in $(BUILD)/docs/index.html'

# Harnesses of libFuzzer over the library, so many seconds each.
EACH = 600
fuzz: build
	tests/fuzz/run $(BUILD)/liblislink.a $(EACH)
