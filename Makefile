.PHONY: test run soak bench programs install

# The gate.
test:
	@tests/run

# Proves and builds what there is, crate by crate, and shows it on an example.
run:
	@tests/prove
	@tests/build showwatch judgeplan
	@tests/example

# The C functions against the second translator for as long as is asked: make soak SECONDS=600 SEED=7
SECONDS ?= 60
SEED ?= 1
soak:
	@tests/host/run 1
	@tests/soak $(SECONDS) $(SEED)

# Against a peer in Rust, and Spin where it is installed; prints ratios and draws docs/performance.svg.
bench:
	@bench/run

# The library for C and the two programs, built first where they are not: make install PREFIX=DIR. What is written is in
# DIR alone, or in DESTDIR with DIR below it.
PREFIX ?= /usr/local
into = $(DESTDIR)$(PREFIX)
library = target/staticlib/liboffice.a

$(library): crates.txt $(shell find crates -path '*/out' -prune -o \( -name '*.rt' -o -name '*.antt' \) -print)
	@tests/build library

programs:
	@tests/build showwatch judgeplan

install: $(library) programs
	@install -d "$(into)/include" "$(into)/lib/pkgconfig" "$(into)/bin" "$(into)/share/doc/zimboralo"
	@install -m 644 include/zimboralo.h include/zimboralo_text.h "$(into)/include"
	@install -m 644 $(library) "$(into)/lib/libzimboralo.a"
	@install -m 644 include/zimboralo.pc "$(into)/lib/pkgconfig"
	@install -m 755 target/bin/showwatch target/bin/judgeplan "$(into)/bin"
	@install -m 644 docs/FORMAT.md tests/host/office.c tests/host/unit.c "$(into)/share/doc/zimboralo"
	@echo "zimboralo is in $(into)"
