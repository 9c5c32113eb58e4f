# The C side. README.md says what each command is for, what it needs and how long it takes. A program of your own:
#     cc -std=c99 -Iinclude my_loader.c build/libmf4.a -o my_loader
# Nothing else is needed: the library allocates nothing and calls nothing outside itself.

# The kit that the proofs were last run with; `rt version` prints the kit at hand.
KIT := rattle-kit-13f logic dac8208d650f15bf

# The library is x86-64 code. On another processor a cross-compiler links it, and Debian's emulator runs what was linked.
ifneq ($(shell uname -m),x86_64)
CROSS := x86_64-linux-gnu-
RUN := qemu-x86_64 -L /usr/x86_64-linux-gnu
endif
export CROSS RUN

CC := $(CROSS)gcc
C_FLAGS := -std=c99 -Wall -Wextra -Wconversion -pedantic -O1 -Iinclude
# Where `make install` puts everything, behind DESTDIR. A relative folder counts from here, and mf4.pc names it from the root.
PREFIX := /usr/local
FINAL := $(abspath $(PREFIX))
TO := $(DESTDIR)$(FINAL)
# How long `make fuzz` tries inputs, and how many `make compare` and `make check` compare.
SECONDS := 60
COUNT := 10000000
CASES := 20000

# mf4.h tells the version. Before 1.0 a new minor version may break what is linked, so the shared object's name has it.
VERSION := $(shell sed -n 's/^#define MF4_VERSION "\(.*\)"$$/\1/p' include/mf4.h)
SONAME := libmf4.so.$(basename $(VERSION))
SHARED := build/libmf4.so.$(VERSION)
SOURCES := crates.txt $(shell find crates -name out -prune -o \( -name '*.rt' -o -name '*.antt' \) -print)

.PHONY: demo test quick archive shared install clean demotest ctest installed check compare fuzz bench fmt kit tools

# Writes a small pump log, reads it with the library, and shows what the library says of it damaged.
demo: build/make_log build/loader build/refusals
	@$(RUN) build/make_log build/pump.mf4
	@$(RUN) build/loader build/pump.mf4
	@$(RUN) build/refusals build/pump.mf4

# The gate: everything is proved from nothing, or was so on this machine before, each wrong program is tried, each program is
# run; then the C side.
test: kit
	@tests/run

# The C side alone: all that can be tried without the proofs of everything.
quick: CASES := 2000
quick: demo demotest ctest check installed

# The library, whose crate is mf4_c. Only what has changed is proved again; the gate builds it by tests/archive.
archive: build/libmf4.a

build/libmf4.a: $(SOURCES)
	@$(MAKE) --no-print-directory kit
	@mkdir -p build
	@echo "proving the library and building it; build/archive.log has all that is said"
	@{ (cd crates/mf4_c && rt lib) 2>&1; echo $$? >build/archive.status; } | tee build/archive.log \
	    | sed -un '/^crate /h; /^logic=proved/ { x; s/^crate \([a-z0-9_]*\): .*/  \1 proved/p }'
	@[ "$$(cat build/archive.status)" = 0 ] \
	    || { grep -m 1 -E ': error|: no proof|: not proved' build/archive.log >&2; echo "not built" >&2; exit 1; }
	@cp crates/mf4_c/out/libmf4_c.a $@

# The archive as a shared object: it imports nothing, not even the C library, and exports the calls of mf4.h alone.
shared: $(SHARED)

$(SHARED): build/libmf4.a | tools
	@echo '{ global: mf4_*; local: *; };' >build/exports
	@$(CC) -shared -nostdlib -Wl,-z,defs -Wl,-soname,$(SONAME) -Wl,--version-script,build/exports \
	    -Wl,--whole-archive build/libmf4.a -o $@

# What reads a log, from its first byte to the values in its records, and lists its channels; tests/demo compiles it too.
READER := $(wildcard examples/mdf_*.c) examples/cells.c examples/listing.c
PROGRAMS := build/make_log build/loader build/refusals

build/make_log: examples/make_log.c examples/pump_records.c examples/new_file.c
build/loader: examples/loader.c examples/service.c examples/summary.c examples/table.c $(READER)
build/refusals: examples/refusals.c $(READER)
$(PROGRAMS): $(wildcard examples/*.h) include/mf4.h build/libmf4.a | tools
	@$(CC) $(C_FLAGS) -o $@ $(filter %.c,$^) build/libmf4.a

# Header, archive, shared object, pkg-config file, licences and the list of changes.
install: build/libmf4.a $(SHARED)
	@install -d $(TO)/include $(TO)/lib/pkgconfig $(TO)/share/doc/mf4
	@install -m 644 include/mf4.h $(TO)/include/
	@install -m 644 build/libmf4.a $(TO)/lib/
	@install -m 755 $(SHARED) $(TO)/lib/
	@ln -sf $(notdir $(SHARED)) $(TO)/lib/$(SONAME)
	@ln -sf $(SONAME) $(TO)/lib/libmf4.so
	@sed 's|@PREFIX@|$(FINAL)|; s|@VERSION@|$(VERSION)|' mf4.pc.in >$(TO)/lib/pkgconfig/mf4.pc
	@install -m 644 LICENSE NOTICE CHANGELOG.md $(TO)/share/doc/mf4/

# Everything that was made here, the proofs in each out/ too: the next archive is proved from nothing. What the gate passed is
# kept beside the kit, and stays.
clean:
	@rm -rf build crates/*/out
	@find tests -name __pycache__ -prune -exec rm -r {} +

# The example programs: the log is legal, they print what they should, and the loader ends in order on that log damaged anywhere.
demotest: $(PROGRAMS)
	@CC=$(CC) READER="$(READER)" tests/demo/run build/libmf4.a build/demo

# The header, and every call at its limits, between unreadable pages and under the address and undefined-behaviour checkers.
ctest: archive | tools
	@CC=$(CC) tests/c/run build/libmf4.a build/c

# The library installed into a folder of its own, and README's first use compiled and run against it.
installed: build/make_log build/libmf4.a $(SHARED)
	@tests/installed

# An independent program, written from the rules alone, gives the same answers.
check: archive | tools
	@python3 tests/independent/test_reference.py
	@python3 tests/independent/stored.py crates/replay/data/vectors.txt crates/replay/data/sample.txt
	@$(CC) $(C_FLAGS) -o build/driver tests/independent/driver.c build/libmf4.a
	@python3 tests/independent/check.py --driver build/driver --count $(CASES)

# mf4-rs itself gives the same answers inside the domain, and outside it the listed differences.
compare: archive
	@compare/run $(COUNT)

# Tries made-up inputs for SECONDS seconds.
fuzz: archive
	@tests/fuzz/run $(SECONDS)

# Times and instructions of the calls beside those of mf4-rs, as the table of docs/BENCH.md.
bench: archive
	@bench/run

fmt:
	@for crate in crates/*/; do (cd "$$crate" && rt fmt) || exit 1; done

# What links and looks at x86-64 code on another processor
tools:
ifdef CROSS
	@tests/install "to link and run x86-64 code on this processor" gcc-x86-64-linux-gnu g++-x86-64-linux-gnu qemu-user
endif

kit:
	@command -v rt >/dev/null || { echo "the Rattle kit is needed: there is no rt on the path" >&2; exit 2; }
	@[ "$$(rt version)" = "$(KIT)" ] || echo "note: this is $$(rt version); the proofs were last run with $(KIT)"
