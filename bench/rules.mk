# The benchmark, run from the repository's top, whose Makefile includes this:
#
#   make bench           time of a sum, a check, a read, a rewrite, a closing up of the heap and a build, beside the second program's and a bare
#                        byte sum's
#   make bench SCALAR=1  the same without vector loops, as on a processor that has none: the library's module and the benchmark compiled so
#   make worst           time of the closing that takes longest of those that we know
#   make plot            time by the table's length, drawn to docs/performance.png (needs python3)

# The library itself is timed where it can be: it is x86-64 code with vector loops. Elsewhere its module is, compiled for what is asked for;
# times under an emulator would say nothing.
MODULE  := target/native$(if $(SCALAR),-scalar)
OUTPUT  := bench/target$(if $(SCALAR),/scalar)
COMPILE := CARGO_TARGET_DIR=$(CURDIR)/$(OUTPUT) NBFT_SUM=$(CURDIR)/$(MODULE)
ifeq ($(RUN)$(SCALAR),)
BENCH   := $(OUTPUT)/$(X86)/release/bench
BENCHED := $(COMPILE) $(CARGO) build --target $(X86)
else
BENCH   := $(OUTPUT)/release/bench
NOT_IT  := not the library but its module compiled for $(shell uname -m)$(if $(SCALAR), without vector loops as is the benchmark)
NOVECT  := $(if $(SCALAR),RUSTFLAGS="-C no-vectorize-loops -C no-vectorize-slp")
BENCHED := $(COMPILE) NBFT_LIB=$(CURDIR)/$(MODULE) NBFT_TIMED="$(NOT_IT)" $(NOVECT) $(CARGO) build
endif

# libnvme's reading of the typical table, where `make interop` has fetched it. It is of another release than the system's and is started by
# that one's loader.
FETCHED := $(or $(NVME_CLI),target/nvme-cli)/root/usr/lib/x86_64-linux-gnu
ifeq ($(RUN)$(SCALAR),)
BESIDE_LIBNVME = if [ ! -e $(FETCHED)/libnvme.so.1 ]; then echo "libnvme is not timed: make interop fetches it"; exit; fi; \
    folder=$$(mktemp -d) && trap 'rm -rf "$$folder"' EXIT && cp samples/machine.nbft "$$folder" && \
    $(CC) -std=gnu99 -Wall -Wextra -O2 -Iinclude bench/libnvme.c $(LIBRARY)/libnbft.a -o "$$folder/libnvme" && \
    $(FETCHED)/ld-linux-x86-64.so.2 --library-path $(FETCHED) "$$folder/libnvme" "$$folder/machine.nbft"
else
BESIDE_LIBNVME = :
endif

.PHONY: bench benched worst plot

bench: benched
	$(BENCH)
	@$(BESIDE_LIBNVME)

worst: benched
	$(BENCH) worst

plot: benched
	$(BENCH) series > bench/target/series
	bench/plot bench/target/series docs/performance.png

benched: $(if $(RUN)$(SCALAR),library,linked)
	@SCALAR=$(SCALAR) bench/native $(MODULE)
	@cd bench && $(BENCHED) --offline --quiet --release
