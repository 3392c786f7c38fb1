# `make help` lists what can be asked for. All that is built goes below target/.

SHELL = /bin/bash
.SHELLFLAGS = -eu -o pipefail -c
.DEFAULT_GOAL = help
.SECONDEXPANSION:
# A second rt would only wait for the first.
.NOTPARALLEL:

CFLAGS = -std=c99 -O2 -Wall -Wextra -Wpedantic -Werror -Iinclude
MINUTES = 10
SEED =
FILE =
NUMBERS =
panel = target/staticlib/libpanel.a
script = target/staticlib/libscript.a
search = target/staticlib/libsearch.a
rounds = target/staticlib/librounds.a
compared = target/second/release/second
shown = layout ring unit sheets
examples = $(shown) hello script

.PHONY: help demo starter ladder gauge panel library script_main script region need-file test examples-test packets second soak faults bench \
  measure instructions clean

help: ## this list
	@sed -n 's/^\([a-z_-]*\):.*## \(.*\)/  make \1\t\2/p' Makefile | expand -t 24

# ---- to see it

demo: $(shown:%=target/examples/%) target/bin/demo ## layout, ring, units and sheets from C, then two ends that bind an endpoint and talk
	@for name in $(shown); do target/examples/$$name; echo; done
	@target/bin/demo

starter: target/bin/starter ## run the program to begin one's own from, in Rattle
	@target/bin/starter

ladder: target/bin/ladder ## the same for plain units: a panel and the unit of a ladder truck in one process
	@target/bin/ladder

gauge: target/bin/gauge ## the same for sheets: a pump's calibration, set by hand or incoming
	@target/bin/gauge

# ---- to use it

panel: $(panel) ## the library for C, layout, ring, plain units and sheets: target/staticlib/libpanel.a
library: $(panel) $(script) ## that, and the library that runs call scripts: target/staticlib/libscript.a
script_main: target/bin/script_main ## the program that runs a call script from standard input: target/bin/script_main < FILE

script: need-file second ## a call script, FILE=path, on the proved code and on the second program, in words
	@$(compared) script $(FILE)

region: need-file second ## a dump of a region, FILE=path, in words; NUMBERS="--begin N .." where it is not the example's (second --help)
	@$(compared) region $(FILE) $(NUMBERS)

need-file:
	@test -n "$(FILE)" || { echo "say which file: FILE=path"; exit 2; }

# ---- to test it

test: ## the gate: every proof, every must-fail edit, every comparison
	.ci/run

# What each example prints is held to the file beside it. Where there is a C++ compiler, the headers are tried with it.
examples-test: $(examples:%=target/examples/%) ## the examples for C, and what they print
	for name in $(examples); do target/examples/$$name | diff examples/$$name.expected -; done
	if command -v g++ >/dev/null; then g++ -x c++ -std=c++11 $(filter -W%,$(CFLAGS)) -fsyntax-only include/*.h; fi

packets: target/bench/packets ## four million packets from process to process, each compared
	@target/bench/packets

second: $(panel) $(script) $(search) ## the second program, linked with the proved libraries: target/second/release/second
	@cargo build --release --offline --quiet --manifest-path second/Cargo.toml --target-dir target/second

soak: second ## random traffic against the second program for MINUTES=n (10), from SEED=n on (the clock)
	$(compared) soak --minutes $(MINUTES) $(if $(SEED),--seed $(SEED))

faults: second ## faults planted in the second program, and how soon the comparison finds each
	$(compared) faults

# ---- to measure it

bench: $(addprefix target/bench/,ring sheets calls) ## nanoseconds of the proved ring, pick and calls and of plain C, side by side
	@target/bench/ring
	@target/bench/sheets
	@target/bench/calls

measure: $(panel) $(rounds) target/bench/calls ## stack and copies of the compiled calls, and the size of an end
	@for library in $(panel) $(rounds); do objdump -dr --no-show-raw-insn $$library | awk -f bench/frames.awk; echo; done
	@target/bench/calls | tail -n 1

instructions: target/bench/calls ## instructions of the proved calls and of plain C, as valgrind counts them
	@bench/instructions.sh

clean: ## remove target/
	rm -rf target

# ---- how it is made

# A crate with all that it depends on, and their files. In crates.txt a crate stands behind those that it depends on.
crates_of = $(sort $(shell awk -F: -v crate=$(1) '{ name = $$1; sub(/ .*/, "", name); all = name; n = split($$2, needs, " "); \
  for (i = 1; i <= n; i++) all = all " " reach[needs[i]]; reach[name] = all } END { print reach[crate] }' crates.txt))
files_of = crates.txt $(shell find $(addprefix crates/,$(call crates_of,$(1))) -name out -prune -o \( -name '*.rt' -o -name '*.antt' \) -print)

# Runs a command of rt in the folder of a crate, and keeps all that the checker says.
log = target/log/make-$*.log
define proved
@mkdir -p target/log $(@D)
@echo "proving $* and what it is made of (all that the checker says: $(log))"
@began=$$SECONDS; (cd crates/$(1) && $(2)) >$(log) 2>&1 || { echo "rt failed. $(log) ends with:"; tail -n 15 $(log); exit 1; }; \
  cp crates/$(1)/out/$(3) $@ && echo "  $* proved ($$((SECONDS - began)) s): $@"
endef

# `script` is a library for programs in Rattle, and `script_c` what C links of it.
exports = $(if $(filter script,$(1)),script_c,$(1))
target/staticlib/lib%.a: $$(call files_of,$$(call exports,$$*))
	$(call proved,$(call exports,$*),rt lib,lib$(call exports,$*).a)

target/bin/%: $$(call files_of,$$*)
	$(call proved,$*,rt run,$*)

# Each example is linked with the library whose functions it calls.
$(addprefix target/examples/,$(shown) hello): $(panel)
target/examples/script: $(script)
target/examples/%: examples/%.c $(wildcard examples/*.h include/*.h)
	@mkdir -p $(@D)
	@gcc $(CFLAGS) -o $@ $< $(filter %.a,$^)

target/bench/%.o: bench/%.c $(wildcard bench/*.h include/*.h)
	@mkdir -p $(@D)
	@gcc $(CFLAGS) -Ibench -c -o $@ $<

# Else where its loops lie in lines of the cache would depend on all that is linked before it, and a search take up to twice the time.
target/bench/plain_end.o: CFLAGS += -falign-functions=64 -falign-loops=16 -falign-jumps=16

# Rattle's back end compiles at -O3, so the plain ring and the plain pick are measured at both.
plain_calls = start push pull unit_start unit_push unit_receive pick
target/bench/%_O3.o: bench/%.c $(wildcard bench/*.h)
	@mkdir -p $(@D)
	@gcc $(CFLAGS) -O3 $(foreach call,$(plain_calls),-Dplain_$(call)=plain_$(call)_O3) -Ibench -c -o $@ $<

target/bench/ring: target/bench/ring.o target/bench/plain_ring.o target/bench/plain_ring_O3.o $(panel)
target/bench/sheets: target/bench/sheets.o target/bench/plain_sheet.o target/bench/plain_sheet_O3.o $(panel)
target/bench/packets: target/bench/packets.o $(panel)
target/bench/calls: target/bench/calls.o target/bench/plain_end.o target/bench/plain_open.o $(rounds)
target/bench/ring target/bench/sheets target/bench/packets target/bench/calls:
	@gcc $(CFLAGS) -o $@ $^
