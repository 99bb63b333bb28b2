# run: agreements of two and of three parties, and a sheet; test: everything the gate runs; bench: speed beside Rust, as a ratio;
# lib: the library for C and Rust in dist/; stack: the stack that each call needs
CC ?= cc
CFLAGS ?= -O2 -std=c99 -Wall -Wextra -Wpedantic -Werror
LIB = target/staticlib/libhost.a

.PHONY: run test test-long test-huge bench lib stack clean

# party 2 takes two steps, then party 1 seven: party 1 decides what party 2 proposed
run: target/bin/lister target/examples/sheet target/examples/agree
	@printf '\2\2\1\1\1\1\1\1\1' | target/bin/lister
	@target/examples/sheet
	@target/examples/agree

target/examples/%: examples/%.c include/sepalsail.h $(LIB)
	@mkdir -p target/examples
	@$(CC) $(CFLAGS) -Iinclude $< $(LIB) -o $@

test:
	@bash .ci/run

# FOR=seconds and SEED=number choose how long and with which inputs the comparison runs
test-long: $(LIB) target/bin/lister
	@echo "compiling the comparison, then $${FOR:-600} seconds of it"
	@bash tests/compare.sh --seconds $${FOR:-600} --seed $${SEED:-1} --lister target/bin/lister

# runs with schedules of 2^32 bytes, one less and some more (some minutes)
test-huge: $(LIB)
	@echo "compiling the comparison, then runs of 2^32 bytes"
	@bash tests/compare.sh --only huge --seconds 0 --seed $${SEED:-1}

bench: $(LIB)
	@echo "compiling the bench, then each call beside plain Rust"
	@bash tests/bench.sh

lib: $(LIB)
	@mkdir -p dist/include dist/lib/pkgconfig
	@cp $(LIB) dist/lib/libsepalsail.a
	@cp include/sepalsail.h dist/include/sepalsail.h
	@cp tools/sepalsail.pc dist/lib/pkgconfig/sepalsail.pc
	@echo "dist/lib/libsepalsail.a dist/include/sepalsail.h dist/lib/pkgconfig/sepalsail.pc"

# every symbol is bound before main, so that no call pays for the linker's stack
stack: $(LIB)
	@mkdir -p target/tests
	@$(CC) -O2 -Wall -Wextra -Werror -Iinclude tests/stack.c $(LIB) -pthread -Wl,-z,now -o target/tests/stack
	@target/tests/stack

# the archive and the lister come from one check, also with -j2: two at once in one folder are in each other's way
target/bin/lister $(LIB) &: $(shell find crates -path 'crates/*/out' -prune -o \( -name '*.rt' -o -name '*.antt' \) -print) crates.txt
	@bash tools/prove

clean:
	@rm -rf target dist
