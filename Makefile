# make run: what there is to see. make test: the gate. make sj: the command, host/target/release/sj. make tour: a disk to try it on, in target/tour.
# make library: target/lib/libskilletjay.a. make install PREFIX=/usr/local DESTDIR=: command, library, man pages, completions; make uninstall.
# make fuzz SECONDS=n: the library against the model on fresh seeds. make bench: its times beside those of plain C, plain Rust and public tools.
.PHONY: run test library sj tour install uninstall fuzz bench
.DELETE_ON_ERROR:

SHELL := bash
.SHELLFLAGS := -euo pipefail -c
PREFIX ?= /usr/local
SECONDS ?= 60

PROVED := target/staticlib/libskilletjay.a
LIBRARY := target/lib/libskilletjay.a
SJ := host/target/release/sj
# Folders too, so that a file that is added or removed counts as a change; but not out, where rt keeps its work, nor the folders that it stands in.
CRATES := crates.txt $(shell find crates -mindepth 2 -regex 'crates/[^/]*/out' -prune -o -print)
HOST := $(shell find host -path host/target -prune -o -print)

# Runs rt on a crate, in its folder; each crate below it that rt turns to is told, and the whole log where one is not proved.
prove = mkdir -p target; (cd crates/$(1) && rt $(2)) 2>&1 | tee target/rt.log | { grep --line-buffered '^rt:' || true; } || { cat target/rt.log >&2; exit 1; }

run: target/bin/list
	@echo 'Proving the worked disks: some minutes, unless they are proved already'
	@$(call prove,table,check)
	@echo 'The worked disks and words P1 to P13 hold: crates/table/specs/Table.antt, proved in crates/table/proofs/Table.antt'
	@echo 'The disk crates/list/stdin holds:'
	@target/bin/list < crates/list/stdin

test:
	@.ci/run

$(PROVED): $(CRATES)
	@echo 'Proving the library: some minutes, unless it is proved already'
	@$(call prove,skilletjay_c,lib)
	@mkdir -p $(@D)
	@cp crates/skilletjay_c/out/libskilletjay_c.a $@

$(LIBRARY): $(PROVED) c/sj_words.c include/skilletjay.h
	@mkdir -p $(@D)
	@$(CC) -std=c11 -O2 -fPIC -Wall -Wextra -Iinclude -c c/sj_words.c -o target/lib/sj_words.o
	@cp $(PROVED) $@
	@$(AR) rs $@ target/lib/sj_words.o

$(SJ): $(PROVED) $(HOST)
	@echo 'Building sj: a minute'
	@cd host && cargo build --offline --quiet --release -p sj
	@touch $@

# A program: rt proves and builds it, and runs it on nothing.
target/bin/%: $(CRATES)
	@echo 'Proving the program $*: some minutes, unless it is proved already'
	@$(call prove,$*,run < /dev/null)
	@mkdir -p $(@D)
	@cp crates/$*/out/$* $@

library: $(LIBRARY)
	@echo '$(LIBRARY) is up to date'

sj: $(SJ)
	@echo '$(SJ) is up to date'

tour: sj
	@rm -rf target/tour && mkdir -p target/tour
	@cd host && cargo run --offline --quiet -p model --example tour ../target/tour/disk.img
	@echo 'target/tour/disk.img is made'

install: library sj
	@PREFIX='$(PREFIX)' DESTDIR='$(DESTDIR)' tools/install

uninstall:
	@PREFIX='$(PREFIX)' DESTDIR='$(DESTDIR)' tools/install --remove

fuzz: $(PROVED)
	@host/run $(SECONDS)

bench:
	@host/bench/run
