# What is done with this repository. `make` lists it.
PREFIX = /usr/local
DESTDIR =
JOBS = # how many tasks of rt run at once; as many as there are processors and fit into memory if it is empty
PROGRAM = crates/tracebench/out/tracebench
LIBRARY = crates/tracebench_c/out/libtracebench_c.a
UNPROVED = out/unproved/tracebench
SOURCES = crates.txt $(wildcard crates/*/src/*.rt crates/*/src/*/*.rt)
INTO = $(DESTDIR)$(PREFIX)
INSTALLED = share/tracebench/installed
ifneq ($(strip $(JOBS)),)
export RT_JOBS = $(strip $(JOBS))
endif
.PHONY: help demo quick gate program library deb install uninstall check-docs bench

help: # lists these commands
	@sed -n 's/^\([a-z-]*\):[^#]*# /make \1: /p' Makefile

demo: $(UNPROVED) # builds the program without proofs, and shows what a path did to the messages of two harts
	$(UNPROVED) audit examples/audit/sent.capture examples/audit/received.capture || test $$? = 1

quick: # plays all cases of the tests, unproved, program by program, some minutes each
	tools/quick

gate: # proves each function, tries wrong bodies, and runs tests and programs, in one to three hours
	tools/gate

program: # proves and builds the program: crates/tracebench/out/tracebench
	cd crates/tracebench && rt run

library: # proves and builds the library for C: crates/tracebench_c/out/libtracebench_c.a
	cd crates/tracebench_c && rt lib

deb: $(PROGRAM) $(LIBRARY) # packs program, libraries, headers and manual into out/release
	rm -rf out/release
	tools/release --program $(PROGRAM) --library $(LIBRARY) out/release

install: deb # puts them below PREFIX, which is /usr/local, in DESTDIR
	mkdir -p $(INTO)/share/tracebench
	tar -xf out/release/*.tar.xz -C $(INTO) --strip-components=1 --no-same-owner
	tar -tf out/release/*.tar.xz | sed 's,^[^/]*/,,' >$(INTO)/$(INSTALLED)

uninstall: # removes what install put below PREFIX
	cd $(INTO) && files=$$(grep '[^/]$$' $(INSTALLED)) folders=$$(grep 'tracebench.*/$$' $(INSTALLED) | sort -r) && \
	    rm -f $$files $(INSTALLED) && rmdir $$folders

check-docs: # compares the documents with the crates that they are about
	checks/check-docs

bench: $(PROGRAM) # measures phases and commands beside the same in plain Rust (docs/PERFORMANCE.md)
	mkdir -p out/bench
	cd crates/timing && rt run -- 80000000 data/image.bin data/log.csv
	rustc --edition 2021 -O -C codegen-units=1 checks/yardstick/main.rs -o out/bench/yardstick
	$(PROGRAM) generate image >out/bench/mixed.bin
	$(PROGRAM) generate log --events 4000000 >out/bench/mixed.csv
	crates/timing/out/timing 80000000 out/bench/mixed.bin out/bench/mixed.csv
	out/bench/yardstick timing 80000000 out/bench/mixed.bin out/bench/mixed.csv

$(UNPROVED): $(SOURCES)
	checks/unproved

$(PROGRAM):
	$(MAKE) program

$(LIBRARY):
	$(MAKE) library
