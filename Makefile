# Deskheron.
#   make         proves and builds everything that there is, and shows a report
#   make test    the whole gate: rt ci, then the tests; its last line counts what rt ci passed
#   make long    over ten million calls of the library compared with the second implementation
#   make speed   times the library against plain Rust
#   make samples writes the tables of the texts in samples/
# All that is built stands under target/.

SHELL := /bin/bash -o pipefail
MAKEFLAGS += --no-print-directory
.NOTPARALLEL:
.PHONY: all test long speed samples tools valgrind library report second bench proved compared memory stack steady shipped

BEGUN := $(shell date +%s)
CARGO := CARGO_TARGET_DIR=target/second cargo build --quiet --offline --locked --manifest-path second/Cargo.toml
GCC := gcc -std=c11 -O2 -Wall -Wextra -Werror -Iinclude
SECOND := target/second/release/second
BENCH := target/bench/bench
# KiB of stack that an entry takes at most, as docs/c-interface.md says.
STACK := 100

all: tools report library second bench
	target/bin/report < samples/lamp.table

# The tests come after rt ci, whose last line counts what passed and comes last; where something did not pass, or an edit that must
# be refused cannot be tried, nothing follows it.
test: tools valgrind proved compared memory stack steady shipped
	@echo "all of it took $$(($$(date +%s) - $(BEGUN))) s"
	@cat target/passed

proved:
	@mkdir -p target
	@rt ci | awk '/^rt: ok.*, [1-9][0-9]* bad/ { bad = 1 } { if (NR > 1) print last; last = $$0; fflush() } \
		END { print last > "target/passed"; if (bad) last = "an edit that must be refused is bad"; \
		if (last !~ /, 0 failed$$/) print last; exit bad }'

# The library against the second implementation.
compared: tools report library second
	@begun=$$(date +%s); $(SECOND) && echo "compared in $$(($$(date +%s) - begun)) s"

# The library's entries under a memory checker, with twice the stack that they are said to take.
memory: tools valgrind library second
	@ulimit -s $$((2 * $(STACK))) && valgrind --quiet --error-exitcode=1 $(SECOND) --memory

# The stack that they take.
stack: tools library bench
	@target/bench/stack $(STACK)

# Each instruction is executed as often, whichever codes go through tries. It is built here, since the tests alone need valgrind.
steady: tools valgrind library
	@mkdir -p target/bench && rm -f target/bench/counts*
	@$(GCC) bench/steady.c target/staticlib/libdeskheron.a -o target/bench/steady
	@valgrind --quiet --tool=callgrind --dump-instr=yes --compress-strings=no --compress-pos=no \
		--callgrind-out-file=target/bench/counts target/bench/steady
	@awk -f bench/steady.awk target/bench/counts.*

# The bench program on its own texts, its status for what is refused, and the tables that it makes of the samples.
shipped: tools library bench
	@$(BENCH) | diff bench/shipped.out - && echo "bench prints bench/shipped.out"
	@! $(BENCH) samples/cut.table > target/bench/cut && grep -q 'refused 4' target/bench/cut
	@echo 'nothing ;' > target/bench/cut.txt && ! $(BENCH) target/bench/cut.txt > target/bench/cut && grep -q 'refused 18' target/bench/cut
	@for text in samples/*.txt; do \
		$(BENCH) -t $$text target/bench/made.table && cmp target/bench/made.table $${text%.txt}.table || exit 1; \
	done; echo "the tables in samples/ are those of the texts"

samples: tools library bench
	@for text in samples/*.txt; do $(BENCH) -t $$text $${text%.txt}.table || exit 1; done

long: tools report library second
	@$(SECOND) --long

speed: tools library
	@$(CARGO) --profile speed --bin benchmark
	@target/second/speed/benchmark

tools:
	@for tool in rt cargo gcc awk; do \
		command -v $$tool > /dev/null || { echo "$$tool is missing; README.md says what is needed"; exit 1; }; \
	done

valgrind:
	@command -v valgrind > /dev/null || { echo "valgrind is missing; README.md says what is needed"; exit 1; }

# What rt builds stands in the out/ of a crate.
library:
	@cd crates/deskheron && rt lib
	@mkdir -p target/staticlib && cp crates/deskheron/out/libdeskheron.a target/staticlib

report:
	@cd crates/report && rt run < ../../samples/lamp.table > /dev/null
	@mkdir -p target/bin && cp crates/report/out/report target/bin

second:
	@$(CARGO) --release

bench:
	@mkdir -p target/bench
	@for program in bench stack; do \
		$(GCC) bench/$$program.c target/staticlib/libdeskheron.a -o target/bench/$$program || exit 1; \
	done
