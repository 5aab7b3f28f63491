# What a newcomer runs: a first look, the program proved and built with two examples run, and the gate.
.PHONY: try run install test wrong-bodies

PROGRAM := build/fixd
C_PROGRAM := build/fixd-c
SOURCES := $(shell git ls-files crates crates.txt)
PREFIX ?= /usr/local

# the first example by the same sources, compiled without a proof of anything: a look, in two to eight minutes
try:
	@echo "compiling without proofs: two minutes, more beside other work" >&2
	@cd crates/fx_cli && rt try -- run data/half.bundle < ../../examples/half/half.csv
	@echo "this was a try: nothing of it is proved; 'make run' proves first" >&2

# proves the program, builds it, runs the first example, and goes from a source to its rows
run: $(PROGRAM)
	@$(PROGRAM) run examples/half/half.bundle < examples/half/half.csv
	@$(PROGRAM) synth --width 16 examples/smooth/smooth.fixd > build/smooth.bundle
	@$(PROGRAM) check build/smooth.bundle
	@$(PROGRAM) run build/smooth.bundle < examples/smooth/smooth.csv

$(PROGRAM): $(SOURCES)
	@echo "proving and building $(PROGRAM): 20 to 45 minutes of four processors the first time, seconds later" >&2
	@mkdir -p build
	@tools/prove fx_cli
	@(cd crates/fx_cli && rt run -- run ../../examples/half/half.bundle < ../../examples/half/half.csv) > build/build.log 2>&1 \
	  || { cat build/build.log >&2; exit 1; }
	@cp crates/fx_cli/out/fx_cli $(PROGRAM)

# proves and builds the second program, which prints C: what it stands on of the first is proved once
$(C_PROGRAM): $(SOURCES)
	@echo "proving and building $(C_PROGRAM): ten minutes after $(PROGRAM)" >&2
	@mkdir -p build
	@tools/prove fx_c_cli
	@(cd crates/fx_c_cli && rt run -- ../../examples/half/half.bundle) > build/build-c.log 2>&1 || { cat build/build-c.log >&2; exit 1; }
	@cp crates/fx_c_cli/out/fx_c_cli $(C_PROGRAM)

# puts both programs, the companion and their manual pages where a system expects them; the companion gets the sum of fixd, so that it knows it again
COMPANION = $(DESTDIR)$(PREFIX)/lib/fixd/companion
install: $(PROGRAM) $(C_PROGRAM)
	install -D -m 755 $(PROGRAM) $(DESTDIR)$(PREFIX)/bin/fixd
	install -D -m 755 $(C_PROGRAM) $(DESTDIR)$(PREFIX)/bin/fixd-c
	install -D -m 644 docs/fixd.1 $(DESTDIR)$(PREFIX)/share/man/man1/fixd.1
	install -D -m 644 docs/fixd-c.1 $(DESTDIR)$(PREFIX)/share/man/man1/fixd-c.1
	install -d $(COMPANION)
	install -m 644 companion/*.py $(COMPANION)
	install -m 755 companion/fixd-tools $(COMPANION)
	sha256sum < $(PROGRAM) > $(COMPANION)/installed.sum
	ln -sf ../lib/fixd/companion/fixd-tools $(DESTDIR)$(PREFIX)/bin/fixd-tools
	install -D -m 644 docs/fixd-tools.1 $(DESTDIR)$(PREFIX)/share/man/man1/fixd-tools.1

# every proof that this machine hasn't passed yet, the wrong bodies that tell most, every case, every test
test:
	@.ci/run

# the wrong bodies that the gate leaves out, of these crates or, in hours of a processor, of all: make wrong-bodies CRATES=fx_text
wrong-bodies:
	@tools/wrong-bodies $(CRATES)
