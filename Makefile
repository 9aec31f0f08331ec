# The two commands are `make demo` and `make test`; `make help` lists the others. Before either installs a Debian package
# that is missing, it says which and why; with all there, neither uses the network. The Rattle kit's command `rt` must
# be on PATH, and is asked for first.

LIB := target/staticlib/libdsss.a
LEAVES := target/staticlib/libbench_leaves.a
PLAIN := bench/plain_write.c bench/plain_choose.c bench/plain_read.c bench/plain_find.c bench/plain_compare.c \
	bench/plain_report.c bench/plain_store.c
HOST := examples/host/host.c examples/host/compare.c examples/host/guides.c examples/host/settings.c
OUT := target/c
STRICT := -std=c99 -Wall -Wextra -Wpedantic -Werror -Iinclude
PREFIX ?= /usr/local
INCLUDEDIR ?= $(PREFIX)/include
LIBDIR ?= $(PREFIX)/lib
BINDIR ?= $(PREFIX)/bin
DOCDIR ?= $(PREFIX)/share/doc/dsss
export PREFIX INCLUDEDIR LIBDIR BINDIR DOCDIR DESTDIR

# All that is proved: a touched proof is proved again.
PROVED := crates.txt $(shell find crates -name out -prune -o \( -name '*.rt' -o -name '*.antt' \) -print)

.PHONY: demo test edits-alone help clean month compare wrong bench instructions archives crc third-party faults install
.PHONY: uninstall packages demo-packages install-look
.SILENT:

# The host: captions written at every kind and rate, one spoilt, one cut short; two receivers compared; what guides of
# 1997 make of captions; settings kept in a store.
demo: $(OUT)/host ## builds the library and the host program, runs it and compares its output with the stored copy
	scripts/x86run $(OUT)/host > $(OUT)/host.stdout
	cat $(OUT)/host.stdout
	diff -u examples/host/stdout $(OUT)/host.stdout
	echo 'demo: as stored'

# The gate: proofs, edits, programs, header, host, month, faults, second program.
test: ## everything that must pass; its last line is 'N passed, 0 failed'
	scripts/gate.sh

# Every edit alone and from nothing; the gate tries them together.
edits-alone: ## tries every edit alone and from nothing, 20 minutes of processor time
	scripts/proved.sh
	python3 scripts/refused.py --alone

help: ## this list
	awk -F ':.*## ' '/^[a-z-]+:.*## / { printf "make %-14s %s\n", $$1, $$2 }' Makefile

clean: ## removes all that was proved and built
	rm -rf target crates/*/out

# The program month over recordings of every sort, held to what is stored.
month: $(OUT)/month $(OUT)/month_half ## runs the program month over files, and compares what it says with what is stored
	tests/month/run
	tests/month/wrong

# The second program's longer run.
compare: $(OUT)/bridge target/peer/peer ## compares the library with the second program, longer than the test does
	target/peer/peer --long -- scripts/x86run $(OUT)/bridge

# Wrong versions of plain C, each of which the second program must refuse.
wrong: target/peer/peer ## tries wrong versions of plain C, each of which the second program must refuse
	tests/wrong/run

# Our library beside plain C, in one run; BENCH_MS is the milliseconds of one measurement.
bench: $(OUT)/bench ## times the library beside plain C, then counts instructions; BENCH_MS=.. for shorter measurements
	scripts/x86run $(OUT)/bench $(BENCH_MS)
	scripts/instructions.sh

# Instructions a chip alone; scripts/instructions.sh takes one library, call, rate or length.
instructions: archives | packages ## counts instructions a chip, of the library and of plain C
	scripts/instructions.sh

# What is timed and counted beside plain C.
archives: $(LIB) $(LEAVES) ## builds the library, and the leaves that are timed

# The CRC's published figures, by the CRC of Python's library.
crc: packages ## works out the CRC's published figures by Python's library
	python3 tests/peer/check_crc.py

# Rows of bits scrambled by GNU Radio, whose header is downloaded and not installed, held to those in tests/vectors.
third-party: packages ## scrambles by GNU Radio, and compares with tests/vectors; it uses the network
	tests/third/run

# Host, month and bridge under valgrind and the sanitizers where the processor allows; elsewhere over plain C.
faults: $(OUT)/host target/peer/peer ## runs host, month and bridge under valgrind and the sanitizers
	scripts/faults.sh

# Header, archive, pkg-config file, licence and the program month, to PREFIX, or INCLUDEDIR, LIBDIR, BINDIR and DOCDIR,
# under DESTDIR. Whether they can go there is asked before anything is proved.
install: $(LIB) $(OUT)/month ## installs header, archive, pkg-config file, licence and month to PREFIX (/usr/local)
	scripts/install.sh install

ifneq ($(filter install,$(MAKECMDGOALS)),)
$(LIB) demo-packages: | install-look
endif

install-look:
	scripts/install.sh look

uninstall: ## removes what was installed there
	scripts/install.sh uninstall

packages: ## installs the Debian packages that are missing for the test, saying which and why
	scripts/packages.sh test

demo-packages:
	scripts/packages.sh demo

$(LIB): $(PROVED) | demo-packages
	scripts/staticlib.sh dsss
	touch $@

$(LEAVES): $(PROVED) | demo-packages
	scripts/staticlib.sh bench_leaves
	touch $@

$(OUT)/host: $(HOST) $(wildcard examples/host/*.h) include/dsss.h $(LIB) | demo-packages
	mkdir -p $(OUT)
	scripts/x86cc $@ $(HOST) $(LIB) -- $(STRICT)

$(OUT)/month: programs/month.c include/dsss.h $(LIB) | demo-packages
	mkdir -p $(OUT)
	scripts/x86cc $@ programs/month.c $(LIB) -- $(STRICT)

# The same with files that fail halfway, for its test.
$(OUT)/month_half: programs/month.c tests/month/half.c include/dsss.h $(LIB) | packages
	mkdir -p $(OUT)
	scripts/x86cc $@ programs/month.c tests/month/half.c $(LIB) -- $(STRICT) -Dfopen=half_open

$(OUT)/bridge: tests/bridge/bridge.c include/dsss.h $(LIB) | packages
	mkdir -p $(OUT)
	scripts/x86cc $@ tests/bridge/bridge.c $(LIB) -- $(STRICT)

$(OUT)/bench: bench/bench.c $(PLAIN) $(wildcard bench/*.h) include/dsss.h $(LIB) $(LEAVES) | packages
	mkdir -p $(OUT)
	scripts/x86cc $@ bench/bench.c $(PLAIN) $(LIB) $(LEAVES) -- $(STRICT) -O3 -fno-trapping-math

target/peer/peer: $(wildcard tests/peer/src/*.rs tests/peer/src/families/*.rs) | packages
	mkdir -p target/peer
	rustc -O --edition 2021 tests/peer/src/main.rs -o $@
