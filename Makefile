# demo: a first look, in minutes: compiles the program without any proof, and plays a scenario: what was decided and run.
# prove: proves the crates below the program, and the program, and builds it: crates/abft/out/abft. Each crate after those below it,
#       several at a time (tests/prove.py). A line for each as it is proved, and what all of them took. It is built for the processor that it
#       runs on, with AVX2 where that has it (x86-64-v3; on a processor without it such a program ends at once with status 127);
#       CPU=x86-64-v2 builds one to hand on. Then it plays a few runs (tests/first_runs.sh).
# test: the merge gate (every proof from nothing, the edits in must-fail, the tests), then the built program in real pipes, whether
#       the other edits apply, and the file lines that the documents name.
# notary: the same for the program `notary`, an application of one's own: crates/notary/out/notary.
# bench: proves and builds the benchmark, and prints what keys and signatures cost on this machine.
# bench-v3: the same, of a program for processors with AVX2 (x86-64-v3), which the gate doesn't build; on any other the program
#       ends at once with status 127.
# soak: proves and builds the program, and runs live clusters, many sessions and hostile use on this machine for two hours and a half; no part
#       of the gate, since what a clock brings differs from machine to machine.
# mutants: has the checker try the mutants that the gate leaves out, those of crates/*/also-must-fail.
# browser: proves and builds the program, and uses the page of `abft serve --http` in CHROMIUM (Debian's chromium); no part of the gate.
# prove-NAME: proves a library and what it depends on; the output is in crates/NAME/out/said.
# One of them at a time in one tree: the gate sets crates/*/out aside while it runs.
# What the checker said in the gate is in gate.log; a line for each crate and each edit appears.
SHELL := bash
.SHELLFLAGS := -o pipefail -c
CHROMIUM ?= chromium
CPU ?= $(shell tests/cpu.sh)
.PHONY: demo prove notary bench bench-v3 browser mutants soak test

demo:
	@echo "compiling the program, of which nothing is proved by this (make prove does that): abft simulate <examples/plain-run.txt"
	@cd crates/abft && mkdir -p out && { rt try --seconds 600 -- simulate <../../examples/plain-run.txt >out/played 2>out/said || { tail -n 20 out/said; exit 1; }; } \
	    && grep -E '^(decided|execute) ' out/played && cmp out/played ../../examples/plain-run.out

prove:
	@echo "proving the crates below the program, and the program, on $$(nproc) processors:"
	@tests/prove.py abft
	@cd crates/abft && mkdir -p out && { rt run --cpu $(CPU) --jobs $$(nproc) -- --version >out/said 2>&1 || { tail -n 20 out/said; exit 1; }; }
	@ABFT=crates/abft/out/abft tests/first_runs.sh

notary:
	@echo "proving the crates below the program notary, and the program, on $$(nproc) processors:"
	@tests/prove.py notary
	@cd crates/notary && mkdir -p out && { rt run --cpu $(CPU) --jobs $$(nproc) -- --version >out/said 2>&1 || { tail -n 20 out/said; exit 1; }; }

prove-%:
	@tests/prove.py --also $*

bench:
	@cd crates/lms_speed && rt run </dev/null >/dev/null
	@crates/lms_speed/out/lms_speed table

bench-v3:
	@echo "a program for processors with AVX2 (x86-64-v3); on any other it ends at once with status 127"
	@cd crates/lms_speed && rt run --cpu x86-64-v3 </dev/null >/dev/null
	@crates/lms_speed/out/lms_speed table

soak:
	@cd crates/abft && rt run -- --version </dev/null >/dev/null
	@tests/soak.sh

mutants:
	@tests/mutants.sh try

browser:
	@cd crates/abft && rt run -- --version </dev/null >/dev/null
	@tests/browser.py crates/abft/out/abft $(CHROMIUM)

# The scripts take the programs that `rt ci` has just made.
test:
	@rt ci 2>&1 | tee gate.log | grep -E --line-buffered '^rt: |^[0-9]+ passed, ' || { tail -n 300 gate.log | grep -Ev '^[0-9]+ passed, '; exit 1; }
	@tests/built.sh
