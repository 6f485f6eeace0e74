.PHONY: build run test library install uninstall deb clean help always
.DELETE_ON_ERROR:

PREFIX = /usr/local
DESTDIR =
export RSMP_VERSION := $(shell cat VERSION)
export RSMP_SYMBOL := $(subst .,_,$(RSMP_VERSION))

## build      the library and the programs, into build/ (the default; the first time it proves the library, see README)
build: build/rsmp-site build/rsmp-replay build/rsmp-table build/rsmp-week build/rsmp-csv library build/site-tests build/frame-tests

## run        builds, then shows the main job: a site talks to two supervisors over TCP on this machine
run: build
	python3 tests/demo.py

## test       the gate: everything is proved from nothing, every must-fail edit is refused, every program's output is compared
test:
	bash .ci/run

## library    proves and compiles the libraries alone: build/librsmp_site.a, librsmp_week.a and librsmp_csv.a with their headers
library: build/librsmp_site.a build/rsmp_site.h build/librsmp_week.a build/rsmp_week.h build/librsmp_csv.a build/rsmp_csv.h

## install    programs, library, header, manual pages and a systemd unit below PREFIX (/usr/local), all of it below DESTDIR where given
## uninstall  takes away what install put there
## deb        a Debian package of what install installs: build/deb/rsmp-site_VERSION_amd64.deb
## clean      removes build/; what is proved and compiled stays in crates/*/out (rm -r crates/*/out: prove everything again)
clean:
	rm -rf build

help:
	@sed -n 's/^## /  make /p' Makefile

PROVED = crates/sitec_c/out/libsitec_c.a
WEEK_PROVED = crates/weekc_c/out/libweekc_c.a
CSV_PROVED = crates/csvc_c/out/libcsvc_c.a
LIBRARY = build/librsmp_site.a
WEEK_LIBRARY = build/librsmp_week.a
CSV_LIBRARY = build/librsmp_csv.a
RUSTC = build/tools/rustc --edition 2021 -O -C strip=symbols
OUT = build/x86-64
SITE = $(OUT)/librsmp_site.rlib
TABLE = $(OUT)/librsmp_table.rlib
CSV = $(OUT)/librsmp_csv.rlib

# The compilers for x86-64, and how its programs are run; host/tools says which.
build/tools/ready: host/tools
	sh host/tools build/tools

# Asked each time, and only remade where a crate's files or the toolchain have changed.
$(PROVED): always
	@host/prove-library sitec_c

$(WEEK_PROVED): always | $(PROVED)
	@host/prove-library weekc_c

$(CSV_PROVED): always | $(WEEK_PROVED)
	@host/prove-library csvc_c

always: ;

# The proved archive, and what ties it to the header's version.
$(LIBRARY): $(PROVED) host/include/version.S VERSION build/tools/ready
	mkdir -p $(OUT)
	build/tools/cc -c '-DVERSION="$(RSMP_VERSION)"' -DVERSIONED_START=rsmp_lent_start_$(RSMP_SYMBOL) -o $(OUT)/version.o host/include/version.S
	cp $(PROVED) $@
	build/tools/ar rs $@ $(OUT)/version.o

$(WEEK_LIBRARY): $(WEEK_PROVED)
	mkdir -p build
	cp $< $@

$(CSV_LIBRARY): $(CSV_PROVED)
	mkdir -p build
	cp $< $@

$(SITE): $(wildcard host/rsmp_site/*.rs) $(LIBRARY) VERSION build/tools/ready
	mkdir -p $(OUT)
	$(RUSTC) --crate-type rlib --crate-name rsmp_site --cfg 'feature="std"' -L $(dir $(LIBRARY)) -o $@ host/rsmp_site/lib.rs

$(OUT)/site-tests: host/rsmp_site/tests.rs $(SITE) examples/barrier.bits
	$(RUSTC) --test --crate-name site_tests --extern rsmp_site=$(SITE) -o $@ $<

$(TABLE): host/rsmp_table/lib.rs $(wildcard host/rsmp_table/*.rs) build/tools/ready
	mkdir -p $(OUT)
	$(RUSTC) --crate-type rlib --crate-name rsmp_table -o $@ $<

$(CSV): host/rsmp_csv/lib.rs $(CSV_LIBRARY) build/tools/ready
	mkdir -p $(OUT)
	$(RUSTC) --crate-type rlib --crate-name rsmp_csv -L $(dir $(CSV_LIBRARY)) -o $@ $<

$(OUT)/rsmp-replay: host/replay/main.rs $(wildcard host/replay/*.rs) $(SITE) $(TABLE) $(CSV)
	$(RUSTC) --crate-name rsmp_replay --extern rsmp_csv=$(CSV) --extern rsmp_site=$(SITE) --extern rsmp_table=$(TABLE) -o $@ $<

$(OUT)/rsmp-site: host/site/main.rs $(wildcard host/site/*.rs) $(SITE) $(TABLE) $(CSV)
	$(RUSTC) --crate-name rsmp_site_program --extern rsmp_csv=$(CSV) --extern rsmp_site=$(SITE) --extern rsmp_table=$(TABLE) -o $@ $<

$(OUT)/frame-tests: host/site/main.rs $(wildcard host/site/*.rs) $(SITE) $(TABLE) $(CSV)
	$(RUSTC) --test --crate-name frame_tests --extern rsmp_csv=$(CSV) --extern rsmp_site=$(SITE) --extern rsmp_table=$(TABLE) -o $@ $<

$(OUT)/rsmp-table: host/table/main.rs $(TABLE) VERSION
	$(RUSTC) --crate-name rsmp_table_program --extern rsmp_table=$(TABLE) -o $@ $<

$(OUT)/rsmp-week: host/week/main.rs $(WEEK_LIBRARY) VERSION build/tools/ready
	mkdir -p $(OUT)
	$(RUSTC) --crate-name rsmp_week_program -L $(dir $(WEEK_LIBRARY)) -o $@ $<

$(OUT)/rsmp-csv: host/csv/main.rs host/site/image.rs $(SITE) $(CSV) VERSION
	$(RUSTC) --crate-name rsmp_csv_program --extern rsmp_csv=$(CSV) --extern rsmp_site=$(SITE) -o $@ $<

build/%.h: host/include/%.h
	mkdir -p build
	cp $< $@

build/%: $(OUT)/%
	build/tools/place $< $@

include host/install.mk
