# make alone lists the targets. They need rt (the Rattle kit), gcc and make, bench-count valgrind too; no network.
CFLAGS := -std=c11 -O2 -g -Wall -Wextra -Werror
CHECKED := -fsanitize=address,undefined -fno-sanitize-recover=undefined
BUILT := target/host
ARCHIVE := target/staticlib/libhost.a
LIBRARY := target/lib/libtacho.a
SOURCES := crates.txt $(shell find crates -name out -prune -o \( -name '*.rt' -o -name '*.antt' \) -print)
REFERENCE := $(patsubst host/%.c,%,$(wildcard host/tests/reference/*.c))
HEADERS := $(wildcard host/*/*.h host/tests/reference/*.h)
INCLUDES := -Ihost/include -Ihost/tests/reference -Ihost/demo
VERSION := $(shell sed -n 's/^#define TACHO_VERSION "\(.*\)"$$/\1/p' host/include/tacho.h)
PREFIX ?= /usr/local
PROGRAMS := bench_unit download sample_store
TESTS := addresses days differential download_test faults line_test slow_peer

.PHONY: help test run prove bench bench-count library programs tests install clean
help:
	@echo "make run            a whole download between both ends over a bad line, from C"
	@echo "make test           the gate: every proof, the must-fail edits, the programs and the C tests"
	@echo "make prove CRATE=x  proves one crate and those below it (without CRATE: all), and runs no edit"
	@echo "make library        $(LIBRARY), proved where a crate changed"
	@echo "make install        header, library and pkg-config file to PREFIX ($(PREFIX)); DESTDIR is put in front"
	@echo "make programs       the demo programs, in $(BUILT)"
	@echo "make bench          the proved calls against plain C; make bench-count: instructions by callgrind"
	@echo "make clean          removes target/ and each crate's out/, all that was proved and built here"
	@echo "scripts/try         a wrong program, and why the prover refuses it"

test:
	@scripts/test

run: programs
	@host/demo/run $(BUILT)

prove:
	@scripts/need rt
	@if [ -z "$(CRATE)" ]; then rt all check; \
	elif [ -d "crates/$(CRATE)" ]; then cd "crates/$(CRATE)" && rt check; \
	else echo "there is no crate $(CRATE): crates.txt lists them" >&2; exit 2; fi

bench: $(BUILT)/bench
	@$(BUILT)/bench

bench-count: $(BUILT)/bench
	@scripts/need valgrind
	@host/bench/count $(BUILT)/bench

library: $(LIBRARY)
programs: $(PROGRAMS:%=$(BUILT)/%)
tests: $(TESTS:%=$(BUILT)/%)

# proved and built anew where a file of a crate changed
$(ARCHIVE): $(SOURCES)
	@scripts/archive $@

# the proved calls, and the texts beside them
$(LIBRARY): $(ARCHIVE) host/lib/text.c host/include/tacho.h
	@mkdir -p $(@D)
	@gcc $(CFLAGS) -Ihost/include -c host/lib/text.c -o $(@D)/text.o
	@cp $(ARCHIVE) $@.part && ar r $@.part $(@D)/text.o && mv $@.part $@

install: $(LIBRARY)
	@install -d $(DESTDIR)$(PREFIX)/include $(DESTDIR)$(PREFIX)/lib/pkgconfig
	@install -m 644 host/include/tacho.h $(DESTDIR)$(PREFIX)/include/tacho.h
	@install -m 644 $(LIBRARY) $(DESTDIR)$(PREFIX)/lib/libtacho.a
	@sed 's|@PREFIX@|$(abspath $(PREFIX))|; s|@VERSION@|$(VERSION)|' host/lib/tacho.pc.in >$(DESTDIR)$(PREFIX)/lib/pkgconfig/tacho.pc
	@echo "installed to $(DESTDIR)$(PREFIX): include/tacho.h, lib/libtacho.a, lib/pkgconfig/tacho.pc"

# objects as they are, and with the sanitizers; none needs the library, so make -j compiles them while it is proved
$(BUILT)/plain/%.o: host/%.c $(HEADERS)
	@mkdir -p $(@D) && gcc $(CFLAGS) $(INCLUDES) -c $< -o $@

$(BUILT)/checked/%.o: host/%.c $(HEADERS)
	@mkdir -p $(@D) && gcc $(CFLAGS) $(CHECKED) $(INCLUDES) -c $< -o $@

plain = $(1:%=$(BUILT)/plain/%.o)
checked = $(1:%=$(BUILT)/checked/%.o)

$(BUILT)/bench_unit: $(call plain,demo/bench_unit demo/line demo/clock demo/options) $(LIBRARY)
$(BUILT)/download: $(call plain,demo/download demo/line demo/clock demo/options) $(LIBRARY)
$(BUILT)/sample_store: $(call plain,demo/sample_store demo/options) $(LIBRARY)
$(BUILT)/bench: $(call plain,bench/bench $(REFERENCE)) $(LIBRARY)
$(PROGRAMS:%=$(BUILT)/%) $(BUILT)/bench:
	@gcc $(CFLAGS) $^ -o $@

# the slow peer is written without the library
$(BUILT)/addresses: $(call checked,tests/addresses tests/readdressed tests/support $(REFERENCE)) $(LIBRARY)
$(BUILT)/days: $(call checked,tests/days tests/spoilt tests/support $(REFERENCE)) $(LIBRARY)
$(BUILT)/differential: $(call checked,tests/differential tests/inputs tests/readdressed tests/spoilt tests/support $(REFERENCE)) $(LIBRARY)
$(BUILT)/download_test: $(call checked,tests/download tests/readdressed tests/support $(REFERENCE)) $(LIBRARY)
$(BUILT)/faults: $(call checked,tests/faults tests/spoilt tests/support $(REFERENCE)) $(LIBRARY)
$(BUILT)/line_test: $(call checked,tests/line demo/line demo/clock) $(LIBRARY)
$(BUILT)/slow_peer: $(call checked,tests/slow_peer demo/options demo/clock $(REFERENCE))
$(TESTS:%=$(BUILT)/%):
	@gcc $(CFLAGS) $(CHECKED) $^ -o $@

clean:
	@rm -rf target crates/*/out
