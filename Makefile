# Two commands: `make test` is the gate, `make run` shows the product at work. Then the library for C and Rust: `make lib`, `make install`, `make bench`,
# `make fuzz`. All that is built goes under target/, and under the crates' out/.
SHELL := /bin/sh
.SHELLFLAGS := -euc
RT ?= rt
CARGO ?= cargo
CFLAGS ?= -O2 -g

# Where the library is installed, where its archive is, and how long `make fuzz` runs.
PREFIX ?= /usr/local
LIB_DIR ?= target/staticlib
FUZZ_SECONDS ?= 60

ARCHIVE = $(LIB_DIR)/libpitbook.a
VERSION = $(shell sed -n 's/^version = "\(.*\)"/\1/p' bindings/rust/Cargo.toml)
# Cargo over the archive, with nothing written beside the sources and nothing fetched.
RUST = PITBOOK_LIB_DIR=$(abspath $(LIB_DIR)) CARGO_TARGET_DIR=$(CURDIR)/target/cargo $(CARGO)
RUST_FLAGS = --offline --locked --manifest-path bindings/rust/Cargo.toml

.PHONY: test run contracts listings lib test-c test-rust install bench fuzz

# Every crate is proved, every must-fail edit is tried, every program is run; then what is compiled of these sources is tested from outside. An edit
# that could not be tried fails too. The last line is the verdict: N passed, 0 failed, told again where the tests have passed too.
test:
	told=$$(mktemp -d); trap 'rm -rf "$$told"' EXIT; \
	{ $(RT) ci && touch "$$told/passed"; } | tee "$$told/lines"; \
	test -e "$$told/passed"; \
	if grep -Eq '^rt: ok.*, [1-9][0-9]* bad' "$$told/lines"; then exit 1; fi; \
	$(MAKE) --no-print-directory contracts listings test-c test-rust; \
	tail -n 1 "$$told/lines"

# Proves the rules, the relays, the tickets and their lists, and the lister, shows the cases that a theorem each says hold, and lists the worked book G.
CASES = crates/rules/proofs/Cases/Letters.antt crates/rules/proofs/Cases/Places.antt crates/ticket/proofs/Cases.antt crates/reconcile/proofs/Cases.antt \
	crates/relays/proofs/Cases.antt
run:
	@for crate in rules relays ticket reconcile lister; do (cd crates/$$crate && $(RT) check); done
	@sed -n 's/^.*case "\(.*\)".*$$/holds: \1/p' $(CASES)
	@cd crates/lister && $(RT) run <stdin

# Each public function of a library promises something of all that it hands back, and requires nothing; and that each promise would be missed.
contracts:
	sh tests/contracts/run
	sh tests/contracts/selftest

# The lister on every stored book.
listings:
	cd crates/lister && $(RT) run <stdin >/dev/null
	sh tests/listings/run

lib: $(ARCHIVE)

# The prover is asked only where a source is newer.
target/staticlib/libpitbook.a: crates.txt $(shell find crates -name out -prune -o -name '*.rt' -print -o -name '*.antt' -print)
	cd crates/pitbook_c && $(RT) lib
	install -d target/staticlib
	install -m 644 crates/pitbook_c/out/libpitbook_c.a $@

# A C program runs the worked book and the refusals; a C++ compiler, where there is one, reads the header too.
test-c: $(ARCHIVE)
	mkdir -p target/c
	$(CC) -std=c11 -Wall -Wextra -Werror $(CFLAGS) -Iinclude tests/c/*.c $(ARCHIVE) -o target/c/worked
	target/c/worked
	! command -v $(CXX) >/dev/null || $(CXX) -Wall -Wextra -Werror -fsyntax-only -x c++ include/pitbook.h

# The Rust crate: its tests, the examples of its documentation, the independent model, histories, and lent buffers between guard pages.
test-rust: $(ARCHIVE)
	$(RUST) test --release $(RUST_FLAGS)

# Header, archive and pkg-config file; DESTDIR goes before PREFIX, as packagers want it.
install: $(ARCHIVE)
	install -d $(DESTDIR)$(PREFIX)/include $(DESTDIR)$(PREFIX)/lib/pkgconfig
	install -m 644 include/pitbook.h $(DESTDIR)$(PREFIX)/include/
	install -m 644 $(ARCHIVE) $(DESTDIR)$(PREFIX)/lib/
	mkdir -p target
	sed 's|@PREFIX@|$(PREFIX)|; s|@VERSION@|$(VERSION)|' pitbook.pc.in >target/pitbook.pc
	install -m 644 target/pitbook.pc $(DESTDIR)$(PREFIX)/lib/pkgconfig/

# Ours beside two Rust versions under the same promises, in one run.
bench: $(ARCHIVE)
	$(RUST) bench $(RUST_FLAGS) --bench bench

# The comparison with the model, the histories and the relays again and again, each round from a new seed, for FUZZ_SECONDS.
fuzz: $(ARCHIVE)
	$(RUST) test --release $(RUST_FLAGS) --no-run
	FUZZ_SECONDS=$(FUZZ_SECONDS) sh tests/fuzz $(RUST) test --release $(RUST_FLAGS) --test against_model --test histories --test relays
