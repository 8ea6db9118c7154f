# Wickgarland: a verified library for the NVMe boot firmware table (NBFT).
#
#   make run      check a sample table, show what it says, rewrite it, build it from its description, and compare two
#   make test     every test: all proofs, then the second program, its vectors, and library and programs beside it
#   make programs  the five programs, proved and compiled, under target/bin/
#   make library  the static library, target/staticlib/libnbft.a (include/nbft.h declares its functions)
#   make lib      library, header and nbft.pc for pkg-config, under build/
#   make install  the same under PREFIX, /usr/local if none is given (DESTDIR goes before it); after `make lib`
#   make examples  the examples in C compiled, run, and held to what they are expected to print; one of them in C, in C++ and in Rust
#                 against an installed prefix; and those of docs/C-API.md
#   make bindings  the Rust crate over the library, bindings/rust, with its tests
#   make readme   the examples of README.md, docs/DESCRIPTIONS.md and docs/SAMPLES.md run, and held to what stands there; after `make run`
#   make interop  what nvme-cli shows of our tables beside what we show, value by value; fetches nvme-cli, so it needs the network
#   make soak     the library beside the second program for ten minutes; SECONDS=60 or CASES=1000000 for as long, SEED= for the same again
#   make bench    time of a check, a read, a rewrite, a closing up of the heap and a build, beside the second program's and a bare byte sum's
#   make worst    time of the closing that takes longest of those that we know
#   make plot     time by the table's length, drawn to docs/performance.png (needs python3)
#   make vectors  write the vectors, sample tables and cases anew
#   make clean    remove what the others made

# Without make's flags, since cargo cannot reach the job slots that they name and warns of it.
CARGO  := MAKEFLAGS= cargo
SECOND := second/target/release/second
AGREED := crates
PROOFS := target/proofs.log

# The library and the programs are x86-64 code. On another processor what links them is compiled for x86-64 too, by the compiler that
# .ci/emulator installs, and an emulator runs it.
X86 := x86_64-unknown-linux-gnu
ifeq ($(shell uname -m),x86_64)
RUN     :=
LINKING := $(CARGO)
X86_CC  := $(CC)
else
RUN     := qemu-x86_64
X86_CC  := x86_64-linux-gnu-gcc
LINKING := PATH=/usr/bin:$$PATH CARGO_TARGET_X86_64_UNKNOWN_LINUX_GNU_LINKER=x86_64-linux-gnu-gcc $(CARGO)
endif
BINDINGS := RUSTFLAGS=-Dwarnings RUSTDOCFLAGS=-Dwarnings $(if $(RUN),CARGO_TARGET_X86_64_UNKNOWN_LINUX_GNU_RUNNER=$(RUN)) $(LINKING)
BINS    := $(or $(NBFT_BIN),target/bin)
BIN     := $(RUN) $(BINS)
LIBRARY := $(or $(NBFT_LIB),target/staticlib)
LINKED  := $(RUN) second/linked/target/$(X86)/release/linked

PREFIX ?= /usr/local

PROGRAMS := nbft_check nbft_show nbft_rewrite nbft_build nbft_diff

.PHONY: run programs test proofs built compared second-tests comparisons compared-checks compared-reads compared-records compared-rewrites \
        compared-closings compared-builds compared-pairs compared-shown library lib install examples bindings readme interop soak vectors \
        clean second linked

run: programs
	@echo "nbft_check samples/machine.nbft: number, kind and position, and what they mean"
	@$(BIN)/nbft_check samples/machine.nbft
	@echo "nbft_show samples/machine.nbft"
	@$(BIN)/nbft_show samples/machine.nbft
	@echo "nbft_rewrite samples/machine.nbft target/machine.form: its one form, which says the same"
	@$(BIN)/nbft_rewrite samples/machine.nbft target/machine.form
	@$(BIN)/nbft_rewrite --same samples/machine.nbft target/machine.form
	@echo "nbft_build samples/machine.txt target/machine.built: the table built from its description, which says the same and is shown the same"
	@$(BIN)/nbft_build samples/machine.txt target/machine.built
	@$(BIN)/nbft_rewrite --same samples/machine.nbft target/machine.built
	@$(BIN)/nbft_show samples/machine.nbft > target/machine.shown
	@$(BIN)/nbft_show target/machine.built | diff target/machine.shown - && echo "shown the same"
	@echo "nbft_diff samples/machine.nbft samples/mixed.nbft: what the two say differently"
	@$(BIN)/nbft_diff samples/machine.nbft samples/mixed.nbft

# What is not proved yet is proved first, which takes minutes. `rt` has no command that makes a program and does not run it.
programs:
	@mkdir -p target/bin
	@for each in $(PROGRAMS); do (cd crates/$$each && rt run -- --help >/dev/null) && install crates/$$each/out/$$each target/bin || exit 1; done

# All proofs, on the checkout as it is found, and then all that is compared with what was built of them. The last line is that of `rt ci`,
# 'N passed, M failed', once more; if anything behind it fails so does the test.
test: proofs
	@$(MAKE) --no-print-directory built
	@$(MAKE) --no-print-directory NBFT_LIB="$(CURDIR)/target/staticlib" NBFT_BIN="$(CURDIR)/target/bin" compared
	@tail -n 1 $(PROOFS)

proofs:
	@.ci/proofs $(PROOFS)

# What `rt ci` has just built: the programs, and the library made of what it left, which asks for no name but those that nbft.h tells of.
built:
	@mkdir -p target/bin target/staticlib
	.ci/library
	@install -m 644 crates/nbft/out/libnbft.a target/staticlib
	@names=$$(nm -u target/staticlib/libnbft.a) || exit 1; \
	    asked=$$(echo "$$names" | awk '$$1 == "U" && $$2 != "memset" && $$2 != "memcpy" { print $$2 }'); \
	    [ -z "$$asked" ] || { echo "libnbft.a asks for names that nbft.h does not tell of:" $$asked >&2; exit 1; }
	@for each in $(PROGRAMS); do install crates/$$each/out/$$each target/bin || exit 1; done

# Each target prints when it is done, so that its lines stay together.
compared: second-tests
	@$(MAKE) --no-print-directory --jobs=2 --output-sync=target comparisons
	@$(MAKE) --no-print-directory readme compared-pairs compared-shown

# The second program's own tests, that the committed vectors, samples and cases are what it writes, and that a description that stands
# twice is the same.
second-tests: second
	cd second && $(CARGO) test --offline --quiet
	$(SECOND) vectors check second/vectors
	$(SECOND) samples check samples
	cmp samples/machine.txt crates/nbft_build/data/machine.txt
	$(SECOND) cases check $(AGREED)

# The library beside the second program, and as its users meet it.
comparisons: compared-checks compared-reads compared-records compared-rewrites compared-closings compared-builds examples bindings

compared-checks: linked
	$(LINKED) compare 40000 1

compared-reads: linked
	$(LINKED) reads 400 2

compared-records: linked
	$(LINKED) records 400 8

compared-rewrites: linked
	$(LINKED) rewrite 6000 3

compared-closings: linked
	$(LINKED) close 6000 5

compared-builds: linked
	$(LINKED) build 3000 4

# Pairs of tables, with what the second program says of each, held to what nbft_diff prints.
PAIRS := 400
compared-pairs: second
	@folder=$$(mktemp -d) && trap 'rm -rf "$$folder"' EXIT && $(SECOND) pairs write "$$folder" $(PAIRS) 6 && \
	for expected in "$$folder"/*.expected; do pair=$${expected%.expected}; $(BIN)/nbft_diff "$$pair.a" "$$pair.b" 2>/dev/null | \
	cmp - "$$expected" || { echo "nbft_diff prints something else than the second program, pair $${pair##*/}"; exit 1; }; done && \
	echo "$(PAIRS) pairs of tables: nbft_diff prints what the second program says"

# Generated tables, and pairs that say the same but for one thing, held to what nbft_show prints of them as JSON.
SHOWN := 500
compared-shown: second
	@RUN="$(RUN)" .ci/shown $(BINS)/nbft_show $(SECOND) $(SHOWN) 7

# What is not proved yet is proved first, which takes minutes.
library:
	cd crates/nbft && rt lib
	@mkdir -p target/staticlib
	@install -m 644 crates/nbft/out/libnbft.a target/staticlib

# The folder build/ is a prefix like any other: what stands there can be used before it is installed. All that works with a library
# takes the one in the folder NBFT_LIB, if that is given.
lib: $(if $(NBFT_LIB),,library)
	install -d build/lib/pkgconfig build/include
	install -m 644 $(LIBRARY)/libnbft.a build/lib
	install -m 644 include/nbft.h build/include
	sed 's|@PREFIX@|$(CURDIR)/build|' nbft.pc.in >build/lib/pkgconfig/nbft.pc

# It proves and compiles nothing, so that it can be run by another user than the one who made the library.
install:
	@test -f build/lib/libnbft.a || { echo "make lib comes first" >&2; exit 1; }
	install -d $(DESTDIR)$(PREFIX)/lib/pkgconfig $(DESTDIR)$(PREFIX)/include
	install -m 644 build/lib/libnbft.a $(DESTDIR)$(PREFIX)/lib
	install -m 644 build/include/nbft.h $(DESTDIR)$(PREFIX)/include
	sed 's|@PREFIX@|$(PREFIX)|' nbft.pc.in >$(DESTDIR)$(PREFIX)/lib/pkgconfig/nbft.pc

examples: $(if $(NBFT_LIB),,library)
	CC="$(X86_CC)" RUN="$(RUN)" examples/run $(LIBRARY)
	CC="$(X86_CC)" $(if $(RUN),CXX=x86_64-linux-gnu-g++ )RUN="$(RUN)" CARGO="$(BINDINGS)" examples/installed $(LIBRARY)
	CC="$(X86_CC)" RUN="$(RUN)" .ci/c-examples $(LIBRARY) docs/C-API.md

# A warning fails it. The tests run code that the library is linked to, so they too are x86-64 code.
bindings: $(if $(NBFT_LIB),,library)
	cd bindings/rust && $(BINDINGS) test --target $(X86) --offline --quiet
	cd bindings/rust && $(BINDINGS) doc --target $(X86) --offline --quiet --no-deps

# With the programs that stand in the folder NBFT_BIN, if that is given. It proves and compiles nothing.
readme:
	RUN="$(RUN)" .ci/readme-examples $(BINS) README.md docs/DESCRIPTIONS.md docs/SAMPLES.md

# nvme-cli is fetched into target/nvme-cli, or into the folder that NVME_CLI names, unless it is there. What is compared is what nbft_show
# prints if it is there, and else what the second program prints, which is the same.
interop: second
	RUN="$(RUN)" .ci/interop

# As many cases as CASES says, or else as many as SECONDS allow; from SEED on, or else from a fresh seed.
SECONDS = 600
soak: linked
	$(LINKED) soak $(if $(CASES),cases $(CASES),seconds $(SECONDS)) $(SEED)

vectors: second
	$(SECOND) vectors write second/vectors
	$(SECOND) samples write samples
	$(SECOND) cases write $(AGREED)

second:
	@cd second && $(CARGO) build --offline --quiet --release

# With the library that stands in the folder NBFT_LIB, if that is given.
linked: $(if $(NBFT_LIB),,library)
	@cd second/linked && $(LINKING) build --target $(X86) --offline --quiet --release

clean:
	rm -rf target build crates/*/out second/target second/linked/target bench/target bindings/rust/target

# By the place of this file, which examples/installed has read in a folder that has no benchmark.
include $(dir $(lastword $(MAKEFILE_LIST)))bench/rules.mk
