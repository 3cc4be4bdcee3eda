# The commands of the project. `make` builds the program bin/check; `make test` is the one test command.
.PHONY: program run press kept test proofs layout test-pages test-exports pictures test-pictures kit door archives test-check test-c test-c-linked test-c-memory test-stack test-rust soak fuzz bench bench-instructions
SHELL := /bin/bash
.SHELLFLAGS := -euo pipefail -c

# The kit compiles for x86-64. On another machine an emulator runs what comes out, C beside it takes a compiler for x86-64, and the tests that look
# at memory are left out. `make test EMULATED=yes` goes the same way on x86-64, where qemu-x86_64 is on the path.
export EMULATED := $(filter-out x86_64,$(shell uname -m))
C_COMPILER := $(if $(EMULATED),x86_64-linux-gnu-gcc,$(CC))
C := $(C_COMPILER) -std=c11 -Wall -Wextra -Wpedantic -Werror -O2
C_MISSING := $(if $(shell command -v $(C_COMPILER)),,yes)
# How the tests from C are linked, on every machine: what they take from the C library is bound before they start, or stands in them. Bound at its
# first call, the loader's work would count as the caller's stack.
BOUND_AT_START := -Wl,-z,now
STATIC := $(if $(filter /%,$(shell $(C_COMPILER) -print-file-name=libc.a 2> /dev/null)),-static)

# The archives for C. What C calls is exported by a static library of its own, which nothing else uses: door_c has the exports of door and from_c_c
# those of from_c; kept is one itself. C's programs find each under the name of what it offers, as libdoor.a.
SHIPPED := target/staticlib
DOOR := $(SHIPPED)/libdoor.a
exporter = $(if $(wildcard crates/$(1)_c),$(1)_c,$(1))
CODE := crates.txt $(shell find crates -name out -prune -o -type f \( -name '*.rt' -o -name '*.antt' \) -print)

# Programs of this machine link these: the door, the crate from_c, which has every call on numbers and byte slices, and the crate kept, the demands as calls.
NATIVE := target/native
CARGO := CARGO_TARGET_DIR=$(CURDIR)/target/rust RATTLE_ARCHIVES=$(CURDIR)/$(NATIVE) cargo
CARGO_MISSING := $(if $(shell command -v cargo),,yes)
COMPARE := target/rust/release/compare
BENCH := target/rust/release/bench
# The deepest proofs that the limits allow.
DEEPEST := examples/thirty_assumptions examples/thirty_implications examples/thirty_cases examples/sixteen_facts
# How many cases `make test` compares, and from which seed; how long `make fuzz` runs.
CASES ?= 100000
SEED ?= 1
FUZZ_SECONDS ?= 60

# The program `check`: every crate below it is proved, then it is compiled, run on case P, and put at bin/check.
program: kit
	@mkdir -p bin
	@[ -f crates/check_case/out/check_case ] || echo "proving and building bin/check: from nothing this takes many minutes" >&2
	@(cd crates/check_case && rt run < stdin) 2> bin/check.log > bin/printed || { cat bin/check.log >&2; exit 1; }
	@cmp bin/printed crates/check_case/stdout
	@cp crates/check_case/out/check_case bin/check
	@tests/run_here.sh bin/check

# The main job on an example: the proof of case P is checked, and its procap is printed.
run: program
	@bin/check < examples/p.case

# A press at the desk: Start is pressed with case P's procap, in a state where its fact holds.
press: bin/press
	@echo "who 2 presses Start for what 7 by right 9 at moment 1500:"
	@bin/press examples/p.procap 2 7 9 1500 examples/loaded.state

bin/press: door examples/press.c include/procap.h
	@$(call linked,,press,examples/press.c $(DOOR))

# The demands, put to every example: calls that are proved to answer yes.
kept: bin/kept
	@bin/kept examples/loaded.state examples/*.case examples/*.procap

bin/kept: $(SHIPPED)/libkept.a tests/c/kept.c tests/c/case_bytes.c tests/c/calls.h
	@$(call linked,,kept,tests/c/kept.c tests/c/case_bytes.c $(SHIPPED)/libkept.a)

# Everything that a landing must pass: the pages, the exports and the pictures, every proof and the layout of the files, then the tests that run. The last line is the count
# that decides.
test: test-pages test-exports test-pictures proofs
	@$(MAKE) --no-print-directory test-check
	@$(MAKE) --no-print-directory test-stack
	@$(MAKE) --no-print-directory test-c
	@$(MAKE) --no-print-directory test-rust
	@tail -n 1 bin/proofs.log

# Every proof, every edit that must be refused and the layout of every file, by the kit's own gate, which passes an edit that says nothing; and what the
# proofs assume.
proofs: kit
	@mkdir -p bin
	@rt ci | tee bin/proofs.log
	@! grep -E '^rt: ok.*, [0-9]+ bad' bin/proofs.log || { echo "an edit in must-fail/ could not be tried" >&2; exit 1; }
	@tests/axioms.sh bin/proofs.log

# Lays out every source and proof file, and names those that were not laid out.
layout: kit
	@for crate in crates/*/; do (cd "$$crate" && rt fmt | sed -n "s|^rt: formatted |$$crate|p"); done

# What the pages and the comments name is there.
test-pages:
	@tests/pages.sh

# What C calls promises what the library promises.
test-exports:
	@tests/exports.sh

# The pictures of docs/pictures, drawn anew from their sources by graphviz, which nothing else needs.
pictures:
	@command -v dot > /dev/null || { echo "graphviz is missing: no command dot on the path (on Debian the package graphviz)" >&2; exit 1; }
	@crates=$$(docs/pictures/crates.sh crates.txt); tred <<< "$$crates" | dot -Tsvg -o docs/pictures/crates.svg
	@for source in docs/pictures/*.dot; do dot -Tsvg -o "$${source%.dot}.svg" "$$source"; done

# The pictures show what the files have: every crate with what it uses, every number, every definition. Nothing is drawn.
test-pictures:
	@tests/pictures.sh

# The door for C, proved and compiled, as an archive.
door: $(DOOR)

.PRECIOUS: $(SHIPPED)/lib%.a
$(SHIPPED)/lib%.a: $(CODE) | kit
	@mkdir -p bin $(SHIPPED)
	@(cd crates/$(call exporter,$*) && rt lib) > bin/lib$*.log 2>&1 || { cat bin/lib$*.log; exit 1; }
	@cp crates/$(call exporter,$*)/out/lib$(call exporter,$*).a $@

# The program on every example and at the edges of its input and output, and what it prints shown at the door.
test-check: program $(if $(C_MISSING),,bin/press)
	@tests/check.sh bin/check $(if $(C_MISSING),,bin/press)

# The door as the desk firmware calls it, and the stack of every call, in each way of linking; then what looks at memory. First what the door's
# archive takes from outside: as the compiler copies, that is memcpy or nothing at all, and no third thing.
ifdef C_MISSING
test-c:
	@echo "no $(C_COMPILER) on this machine: the door was not called from C here"
else
test-c: archives
	@from_outside=$$(nm -u $(DOOR) | awk '$$1 == "U" { print $$2 }'); [ -z "$$from_outside" ] || [ "$$from_outside" = memcpy ] || \
	{ echo "from outside the door may take nothing, or the memcpy that include/procap.h names, and takes:" $$from_outside; exit 1; }
	@for link in $(BOUND_AT_START) $(STATIC); do $(MAKE) --no-print-directory test-c-linked LINK=$$link; done
	@$(if $(STATIC),,echo "no static C library on this machine: what is linked statically was left out")
	@$(if $(EMULATED),echo "under an emulator the sanitizers and valgrind are left out",$(MAKE) --no-print-directory test-c-memory)
endif

# Presses and damaged inputs at the door, its stack, the stack of the office's calls, a case with pairs, and the demands put to every example,
# linked with LINK.
test-c-linked: archives
	@echo "linked with $(LINK):"
	@$(call linked,$(LINK),door_test,tests/c/door_test.c tests/c/model.c $(DOOR))
	@bin/door_test
	@$(call linked,$(LINK),stack,tests/c/stack.c tests/c/own_stack.c $(DOOR))
	@bin/stack
	@$(call linked,$(LINK),office_stack,tests/c/office_stack.c tests/c/own_stack.c tests/c/case_bytes.c $(SHIPPED)/libfrom_c.a)
	@bin/office_stack $(DEEPEST:%=%.case)
	@$(call linked,$(LINK),with_pairs,examples/with_pairs.c tests/c/case_bytes.c $(SHIPPED)/libfrom_c.a)
	@tests/with_pairs.sh bin/with_pairs
	@$(call linked,$(LINK),kept,tests/c/kept.c tests/c/case_bytes.c $(SHIPPED)/libkept.a)
	@bin/kept examples/loaded.state examples/*.case examples/*.procap

# A program from C that this machine can start: how it is linked, its name in bin/, and what it is made of.
linked = $(C) $(1) -o bin/$(2) $(3) && tests/run_here.sh bin/$(2)

# Presses under the sanitizers and under valgrind, which look at memory. Valgrind does not see the blocks of a program that is linked statically.
test-c-memory: archives
	@$(C) -g -fsanitize=address,undefined -o bin/door_test_sanitized tests/c/door_test.c tests/c/model.c $(DOOR)
	@echo "with the address and undefined-behaviour sanitizers:"
	@bin/door_test_sanitized 50000
	@$(C) -g -o bin/door_test_watched tests/c/door_test.c tests/c/model.c $(DOOR)
	@if command -v valgrind > /dev/null; then echo "under valgrind, for reads and writes outside of a buffer:"; \
	valgrind -q --undef-value-errors=no --error-exitcode=9 bin/door_test_watched 2000; \
	else echo "no valgrind on this machine: the reads past a buffer's end that it would see were not looked for"; fi

# The archives of the proved code that programs of this machine can link; and the same with counters, for a fuzzer.
archives: $(NATIVE)/libfrom_c.a $(NATIVE)/libdoor.a $(NATIVE)/libkept.a

$(NATIVE)/lib%.a: $(SHIPPED)/lib%.a
	@mkdir -p $(NATIVE)
	@$(if $(EMULATED),$(call compiled_again,$*),cp $< $@)

$(NATIVE)/lib%_covered.a: $(SHIPPED)/lib%.a
	@$(call compiled_again,$*,covered)

compiled_again = tests/archive_here.sh $(1) $(call exporter,$(1)) $(2) > bin/archive_$(1).log 2>&1 || { cat bin/archive_$(1).log; exit 1; }

# The second implementation: its own tests, and both implementations on the same cases, with the program on some of them.
ifdef CARGO_MISSING
test-rust soak bench bench-instructions:
	@echo "no cargo on this machine: the second implementation was not built, and nothing was compared with it"
else
test-rust: program $(COMPARE)
	@$(CARGO) test --quiet --release --offline --manifest-path tests/rust/Cargo.toml 2>&1 | grep -E "^test result|FAILED|panicked|error"
	@$(COMPARE) --cases $(CASES) --seed $(SEED) --all-presses --program bin/check

# The same until it is stopped, with new seeds, which are printed.
soak: $(COMPARE)
	@$(COMPARE) --forever

# The proved checker and the second implementation on the same inputs: a table of times and ratios.
bench: $(BENCH)
	@$(BENCH)

# The same as instructions for each call, which do not depend on what else the machine does.
bench-instructions: $(BENCH)
	@bench/instructions.sh $(BENCH)

$(COMPARE): archives $(shell find tests/rust/src tests/rust/Cargo.toml -type f)
	@$(CARGO) build --quiet --release --offline --manifest-path tests/rust/Cargo.toml --features archive --bin compare

$(BENCH): archives $(shell find bench tests/rust/src -type f)
	@$(CARGO) build --quiet --release --offline --manifest-path bench/Cargo.toml
endif

# A fuzzer on the calls as C makes them, started from the examples: clang's libFuzzer, for a bounded time. What it finds stays in target/fuzz.
fuzz: $(NATIVE)/libfrom_c_covered.a $(NATIVE)/libdoor_covered.a $(NATIVE)/libkept_covered.a
	@mkdir -p target/fuzz/seeds target/fuzz/corpus
	@$(CC) -O1 -Wall -Wextra -Werror -o target/fuzz/make_seeds tests/fuzz/seeds.c tests/c/case_bytes.c
	@target/fuzz/make_seeds target/fuzz/seeds examples/*.case examples/*.procap
	@clang -g -O1 -Wall -Wextra -Werror -fsanitize=fuzzer -o target/fuzz/fuzz tests/fuzz/fuzz.c $(NATIVE)/libfrom_c_covered.a $(NATIVE)/libdoor_covered.a $(NATIVE)/libkept_covered.a
	@cd target/fuzz && ./fuzz -max_total_time=$(FUZZ_SECONDS) -max_len=20000 -print_final_stats=1 corpus seeds 2>&1 | grep -E "broken|ERROR|SUMMARY|stat::|^Done|INITED|Test unit written"

# The program on the deepest proofs that the limits allow, with a stack of 2 MiB and less.
test-stack: program
	@tests/stack.sh bin/check 2048 $(DEEPEST)

# Says what is missing where the Rattle kit is not on the machine.
kit:
	@command -v rt > /dev/null || { echo "the Rattle kit is missing: no command rt on the path (README.md, Two commands)" >&2; exit 1; }
