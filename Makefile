# make test: the whole gate. make run: the bench program and the desk on the valve pack. make speed: the measurements.

SHELL = bash
ARCHIVES = build/lib/libsheets.a build/lib/libdesk.a
BENCH = crates/bench/out/bench
SOURCES = crates.txt $(shell find $(wildcard crates/*/src crates/*/specs crates/*/proofs) -type f)
# Sets CC, CARGO, RUN and EMULATED for the rest of a recipe's line; after it come the programs that the line needs.
PLATFORM = . tools/platform

.PHONY: test run speed clean
# Two provers would get in each other's way.
.NOTPARALLEL:

test:
	@tools/gate

run: $(BENCH) build/desk
	@$(PLATFORM) && echo "the bench program on the valve pack:" && $$RUN $(BENCH) <crates/bench/stdin && \
		echo "the editors' desk on the valve pack:" && $$RUN build/desk

speed: $(ARCHIVES)
	@mkdir -p build
	@$(PLATFORM) gcc cargo && echo "building the measurements .." >&2 && \
		"$$CARGO" run --quiet --offline --release --manifest-path speed/Cargo.toml -- "$${EMULATED:-native}" build

build/desk: examples/desk.c examples/guarded.h include/noolukask.h $(ARCHIVES)
	@mkdir -p build
	@$(PLATFORM) gcc && set -x && "$$CC" -O2 -Wall -Wextra -Werror -Iinclude -Iexamples examples/desk.c $(ARCHIVES) -o $@

# The archive of the two sheet checks is built from sheets_c, whose calls stand on the library sheets.
build/lib/libsheets.a: $(SOURCES)
	cd crates/sheets_c && rt lib
	@mkdir -p build/lib && cp crates/sheets_c/out/libsheets_c.a $@

build/lib/libdesk.a: $(SOURCES)
	cd crates/desk && rt lib
	@mkdir -p build/lib && cp crates/desk/out/libdesk.a $@

# `rt run` proves and builds the program, and runs it once.
$(BENCH): $(SOURCES)
	cd crates/bench && rt run <stdin >/dev/null
	@touch $@

clean:
	rm -rf build crates/*/out tests/target speed/target
