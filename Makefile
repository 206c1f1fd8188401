# Kochipurn. `make test` checks everything, `make run` runs the main job.

RUSTC   = rustc --edition 2024 -C opt-level=3 -D warnings
WARN    = -Wall -Wextra -Wpedantic -Wconversion -Werror
CC11    = gcc -std=c11 $(WARN) -O2 -Iinclude
CC99    = gcc -std=c99 $(WARN) -O2 -Iinclude
OUT     = target/tests
LIB     = target/staticlib/libmop.a
SOURCES = $(shell find crates -name out -prune -o -name '*.rt' -print -o -name '*.antt' -print) crates.txt

.PHONY: test run explain frames lib compare compare-rehearsal bench needs trusted trusted-list header layout examples guards sanitize lint driver driver-sanitized fuzz driver-test line-bench simh dist

# rt ci comes first, and target/ is removed behind it; its last line is repeated at the end where all else passed.
test: needs
	@bash tests/run

needs:
	@for tool in rt gcc rustc; do command -v $$tool >/dev/null || { echo "make: '$$tool' is needed and is not installed"; exit 1; }; done

# The rehearsal, the same with words beside it, and captured frames decoded; FILE=.. gives another input.
run: target/bin/rehearsal
explain: target/bin/explain
frames: target/bin/frames
run explain: FILE ?= examples/first.txt
frames: FILE ?= examples/frames.txt
run explain frames:
	@$< < $(FILE)

target/bin/%: $(SOURCES)
	@tests/prove $*
	@touch $@

lib: $(LIB)

KIT_NEEDED = make: the Rattle kit (rt) is needed to prove and compile the library; a release (make dist) needs none
NEEDS_KIT  = command -v rt >/dev/null || { echo "$(KIT_NEEDED)" >&2; exit 1; }

# The calls for C stand in three crates, so that each is proved in seconds; one archive has them all. Which kit compiled
# them is kept for `make dist`.
EXPORTS = mop_frames mop_steps mop_update

$(LIB): $(SOURCES)
	@$(NEEDS_KIT)
	@mkdir -p target/staticlib
	@for crate in $(EXPORTS); do \
	    { (cd crates/$$crate && rt lib) && cp crates/$$crate/out/lib$$crate.a target/staticlib; } >target/lib.log 2>&1 \
	        || { cat target/lib.log; exit 1; }; \
	done
	@rt version >target/staticlib/kit
	@(echo create $@; for crate in $(EXPORTS); do echo addlib target/staticlib/lib$$crate.a; done; echo save) | ar -M

# When all crates were last checked, those of theorems alone too, and by which kit: what a release tells.
target/checked: $(SOURCES)
	@$(NEEDS_KIT)
	@mkdir -p target
	@rm -f $@
	@rt ci >target/check.log 2>&1 || { cat target/check.log; exit 1; }
	@printf 'kit: %s\nchecked: %s\n' "$$(rt version)" "$$(date -u +%Y-%m-%dT%H:%M:%SZ)" >$@.new
	@mv -f $@.new $@

$(OUT)/libmop_plain.rlib: $(wildcard tests/independent/*.rs)
	@mkdir -p $(OUT)
	$(RUSTC) --crate-type rlib --crate-name mop_plain -o $@ tests/independent/lib.rs

# The declarations on the Rust side; `make layout` compares their layout with the header's.
$(OUT)/libmop_proved.rlib: $(LIB) $(wildcard tests/proved/*.rs)
	@mkdir -p $(OUT)
	$(RUSTC) --crate-type rlib --crate-name mop_proved -L native=target/staticlib -o $@ tests/proved/lib.rs

BOTH = --extern mop_plain=$(OUT)/libmop_plain.rlib --extern mop_proved=$(OUT)/libmop_proved.rlib

$(OUT)/compare: $(OUT)/libmop_plain.rlib $(OUT)/libmop_proved.rlib $(shell find tests/compare -name '*.rs')
	$(RUSTC) --crate-name compare $(BOTH) -o $@ tests/compare/main.rs

SHARED = $(addprefix tests/compare/, file.rs random.rs text.rs)

$(OUT)/rehearse: $(OUT)/libmop_plain.rlib $(wildcard tests/rehearse/*.rs) $(SHARED)
	$(RUSTC) --crate-name rehearse --extern mop_plain=$(OUT)/libmop_plain.rlib -o $@ tests/rehearse/main.rs

$(OUT)/bench: $(OUT)/libmop_plain.rlib $(OUT)/libmop_proved.rlib $(wildcard bench/*.rs)
	$(RUSTC) --crate-name bench $(BOTH) -o $@ bench/main.rs

# The proved library against the independent implementation.
compare: layout $(OUT)/compare
	$(OUT)/compare

# The rehearsal program against the independent implementation: set inputs, the examples, random inputs.
compare-rehearsal: $(OUT)/rehearse target/bin/rehearsal
	$(OUT)/rehearse target/bin/rehearsal

# Both implementations' speed, in one run.
bench: $(OUT)/bench
	$(OUT)/bench

# What must be believed: `make trusted` writes the list into docs/TRUSTED.md, and trusted-list compares it.
$(OUT)/trusted: $(wildcard tests/trusted/*.rs)
	@mkdir -p $(OUT)
	$(RUSTC) --crate-name trusted -o $@ tests/trusted/main.rs

trusted: $(OUT)/trusted
	@$< --write

trusted-list: $(OUT)/trusted
	@$<

# ---- C.

# The header alone: as C and, where there is a g++, as C++; and its text against the Rattle source.
$(OUT)/header: tests/header/main.rs
	@mkdir -p $(OUT)
	$(RUSTC) --crate-name header -o $@ $<

header: $(OUT)/header
	@$(OUT)/header
	@for std in c99 c11 c17; do gcc -std=$$std $(WARN) -fsyntax-only -x c include/mop.h || exit 1; done
	@command -v g++ >/dev/null || { echo "header: good C; there is no g++ to try it as C++"; exit 0; }; \
	for std in c++11 c++14 c++17 c++20; do g++ -std=$$std $(WARN) -fsyntax-only -x c++ include/mop.h || exit 1; done; \
	echo "header: good C and C++"

# The layout of every struct, printed by C and by Rust, is the one that is stored; and a wrong header is found.
$(OUT)/fields.inc: $(OUT)/header include/mop.h
	@$(OUT)/header --fields >$@

$(OUT)/layout_c: tests/layout/layout.c $(OUT)/fields.inc include/mop.h
	$(CC11) -I$(OUT) -o $@ $<

$(OUT)/layout_rust: tests/layout/main.rs $(OUT)/libmop_proved.rlib
	$(RUSTC) --crate-name layout_rust --extern mop_proved=$(OUT)/libmop_proved.rlib -o $@ $<

layout: $(OUT)/layout_c $(OUT)/layout_rust
	@$(OUT)/layout_c | diff tests/layout/expected -
	@$(OUT)/layout_rust | diff tests/layout/expected -
	@echo "layout: $$(wc -l <tests/layout/expected) lines, the same in C and in Rust"
	@tests/layout/wrong $(OUT)

# The code on the header's first page.
$(OUT)/page.inc: include/mop.h
	@mkdir -p $(OUT)
	sed -n '1,/^ \* What holds for every call/ s/^ \*     //p' $< >$@

$(OUT)/page: tests/c/page.c $(OUT)/page.inc $(LIB)
	$(CC99) -I$(OUT) -o $@ $< $(LIB)

$(OUT)/load_and_dump: examples/c/load_and_dump.c include/mop.h $(LIB)
	@mkdir -p $(OUT)
	$(CC99) -o $@ $< $(LIB)

# The example prints what is stored, and ends well.
PRINTS = $(1) >$(OUT)/printed && diff examples/c/load_and_dump.expected $(OUT)/printed

examples: $(OUT)/load_and_dump $(OUT)/page
	$(call PRINTS,$(OUT)/load_and_dump)
	$(OUT)/page

# Every call between guard pages, and wrong calls that the test must find; every number of the header, and wrong ones.
GUARDS = main check lent make steps reading writing images machine windows blocks load strings restarts many dump looping

$(OUT)/guards_%.o: tests/c/%.c $(wildcard tests/c/*.h) include/mop.h
	@mkdir -p $(OUT)
	$(CC11) -c -o $@ $<

$(OUT)/guards: $(GUARDS:%=$(OUT)/guards_%.o) $(LIB)
	gcc -o $@ $^

guards: header layout $(OUT)/guards
	$(OUT)/guards
	@tests/c/wrong.sh $(OUT) $(LIB)
	@tests/c/numbers.sh $(OUT) $(LIB)

# The C programs with the address and undefined behaviour sanitizers, then plain under valgrind, where there is one,
# with a smaller count.
SANITIZE = -O1 -g -fsanitize=address,undefined -fno-sanitize-recover=all
VALGRIND = valgrind --quiet --error-exitcode=1 --leak-check=full --child-silent-after-fork=yes

sanitize: $(OUT)/guards $(OUT)/load_and_dump $(OUT)/page driver-sanitized
	$(CC11) $(SANITIZE) -o $(OUT)/guards_sanitized $(GUARDS:%=tests/c/%.c) $(LIB)
	$(CC99) $(SANITIZE) -o $(OUT)/load_and_dump_sanitized examples/c/load_and_dump.c $(LIB)
	$(CC99) $(SANITIZE) -I$(OUT) -o $(OUT)/page_sanitized tests/c/page.c $(LIB)
	$(OUT)/guards_sanitized
	$(call PRINTS,$(OUT)/load_and_dump_sanitized)
	$(OUT)/page_sanitized
	for test in $(SANITIZED_TESTS); do DRIVER_PROGRAMS=$(CURDIR)/$(SANITIZED) bash tests/driver/$$test || [ $$? = 77 ] || exit 1; done
	@command -v valgrind >/dev/null || { echo "sanitize: there is no valgrind"; exit 0; }; set -ex; \
	$(VALGRIND) $(OUT)/guards 4; \
	$(call PRINTS,$(VALGRIND) $(OUT)/load_and_dump); \
	$(VALGRIND) $(OUT)/page

# For those who edit the C sources: style and two more readers of the code.
CSOURCES = include/mop.h examples/c/load_and_dump.c $(wildcard tests/c/*.c tests/c/*.h) tests/layout/layout.c
DRIVERSOURCES = $(wildcard driver/*.[ch] tests/driver/*.[ch] tests/fuzz/*.[ch])
CPPCHECK = cppcheck --quiet --std=c11 --error-exitcode=1 --enable=warning,style,performance,portability -Iinclude
TIDY     = clang-tidy --quiet --warnings-as-errors='*'
# Of the driver's files one at a time: the analyzer of clang 14 takes what it knows of a va_list from file to file.
lint: $(OUT)/page.inc $(OUT)/fields.inc target/version.inc
	clang-format --dry-run -Werror $(CSOURCES) $(DRIVERSOURCES)
	$(CPPCHECK) -I$(OUT) -DWRONG=1 $(filter %.c,$(CSOURCES))
	$(CPPCHECK) -Idriver -Itarget -D_GNU_SOURCE $(filter %.c,$(DRIVERSOURCES))
	$(TIDY) $(filter %.c,$(CSOURCES)) -- -std=c11 -Iinclude -I$(OUT) -DWRONG=1
	printf '%s\n' $(filter %.c,$(DRIVERSOURCES)) | xargs -P 2 -I FILE $(TIDY) FILE -- -std=c11 -Iinclude -Idriver -Itarget -D_GNU_SOURCE

# The line driver: C programs over the library (driver/).
include driver/rules.mk

# A release for a computer that has gcc and no kit, of what is in a commit; DIRTY=1 for a trial with changes.
dist:
	@MAKE="$(MAKE)" DIRTY="$(DIRTY)" tools/dist

# What only the tests need.
$(DRIVER)/probe $(DRIVER)/say $(DRIVER)/digest $(DRIVER)/storm: $(DRIVER)/%: tests/driver/%.c $(PARTS:%=$(DRIVER)/%.o) $(LIB)
	@$(DRIVER_CC) -o $@ $^

# The same programs with the address and undefined behaviour sanitizers, which most tests take.
SANITIZED       = target/sanitized
SANITIZED_TESTS = images records lda lda-simh sums veth storm ends verdicts kept handover rights watch loop trace interfaces chart progress bar manuals
PLAIN_TESTS     = sums readme rom dist

driver-sanitized: $(PROGRAMS:%=$(SANITIZED)/%) $(SANITIZED)/say $(SANITIZED)/digest $(SANITIZED)/storm

$(SANITIZED)/manual.o: target/version.inc

$(SANITIZED)/%.o: driver/%.c $(wildcard driver/*.h) include/mop.h
	@mkdir -p $(SANITIZED)
	@$(DRIVER_CC) $(SANITIZE) -c -o $@ $<

$(PROGRAMS:%=$(SANITIZED)/%): %: %.o $(PARTS:%=$(SANITIZED)/%.o) $(LIB)
	@gcc $(SANITIZE) -o $@ $^

$(SANITIZED)/probe $(SANITIZED)/say $(SANITIZED)/digest $(SANITIZED)/storm: $(SANITIZED)/%: tests/driver/%.c $(PARTS:%=$(SANITIZED)/%.o) $(LIB)
	@$(DRIVER_CC) $(SANITIZE) -o $@ $^

# Mutated files and frames, always the same ones for a SEED. tests/fuzz/wrong tries whether the fuzzer finds faults.
FUZZ  = $(sort $(basename $(notdir $(wildcard tests/fuzz/*.c))))
COUNT = 1000000
SEED  = 1

$(SANITIZED)/fuzz_line.o: driver/line.c
$(SANITIZED)/fuzz_host.o: driver/host.c
$(SANITIZED)/fuzz_machine.o: driver/mopmachine.c
$(SANITIZED)/fuzz_%.o: tests/fuzz/%.c $(wildcard tests/fuzz/*.h driver/*.h) include/mop.h
	@mkdir -p $(SANITIZED)
	@$(DRIVER_CC) $(SANITIZE) -c -o $@ $<

$(SANITIZED)/fuzz: $(FUZZ:%=$(SANITIZED)/fuzz_%.o) $(filter-out $(SANITIZED)/line.o $(SANITIZED)/host.o,$(PARTS:%=$(SANITIZED)/%.o)) $(LIB)
	@gcc $(SANITIZE) -Wl,--wrap=complain -o $@ $^

fuzz: $(SANITIZED)/fuzz
	$< $(COUNT) $(SEED)

# The simulator whose boot ROM the driver is tested with; without it that test is skipped.
simh:
	@command -v pdp11 >/dev/null || DEBIAN_FRONTEND=noninteractive timeout 120 sh -c 'apt-get install -y simh || { apt-get update && apt-get install -y simh; }' </dev/null >/dev/null 2>&1 || echo "make: the package simh cannot be had"

# The speed of a load over a line in memory.
line-bench: driver
	@bash bench/line

# The driver on a line of its own; tests/run does the same.
driver-test: driver driver-sanitized $(DRIVER)/probe $(DRIVER)/say $(DRIVER)/digest simh target/bin/frames target/bin/explain
	@for test in $(SANITIZED_TESTS); do DRIVER_PROGRAMS=$(CURDIR)/$(SANITIZED) bash tests/driver/$$test || [ $$? = 77 ] || exit 1; done
	@for test in $(PLAIN_TESTS); do bash tests/driver/$$test || [ $$? = 77 ] || exit 1; done
