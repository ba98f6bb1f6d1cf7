# What a person types: `make demo` and `make test`.

PREFIX ?= /usr/local
N ?= 100000
SEED ?= 1
T ?= 60

.PHONY: demo test lib install bench bench-slow slow cases second fuzz afl clean

# Proves and builds what it needs, and tells the story of the clock tree: the tables and the findings by the proved archive,
# and one line by the program.
demo: lib
	@(cd crates/desk && rt run < stdin) > build/desk.log 2>&1 || { tail -n 30 build/desk.log; exit 1; }
	@examples/run.sh
	@printf '\nThe program (crates/desk/out/desk) prints the same for the model and the table with TICK off: '
	@crates/desk/out/desk < crates/desk/stdin
	@echo "P1 to P10 of document 01 and this line are also proved of the definitions: crates/meaning/specs/Cases.antt."

# The gate.
test:
	.ci/run

# build/libplaitcrumb.a: with include/plaitcrumb.h it is all that a C host needs. Made again when a crate has changed.
lib: build/libplaitcrumb.a
build/libplaitcrumb.a: crates.txt $(shell find crates -name out -prune -o \( -name '*.rt' -o -name '*.antt' \) -print)
	@mkdir -p build
	@(cd crates/plaitcrumb && rt lib) > build/lib.log 2>&1 || { tail -n 30 build/lib.log; exit 1; }
	@cp crates/plaitcrumb/out/libplaitcrumb.a build/
	@echo "build/libplaitcrumb.a is proved and built."

# The archive, the header and a pkg-config file below PREFIX.
install: lib
	install -d $(DESTDIR)$(PREFIX)/lib/pkgconfig $(DESTDIR)$(PREFIX)/include
	install -m 644 build/libplaitcrumb.a $(DESTDIR)$(PREFIX)/lib/
	install -m 644 include/plaitcrumb.h $(DESTDIR)$(PREFIX)/include/
	sed 's|@prefix@|$(abspath $(PREFIX))|' plaitcrumb.pc.in > $(DESTDIR)$(PREFIX)/lib/pkgconfig/plaitcrumb.pc

# Time and stack, side by side with the second program; writes bench/results.md. On an idle machine.
bench: lib
	bench/run.sh

# The same for the inputs that cost most alone; writes nothing.
bench-slow: lib
	bench/run.sh --slow

# What those inputs cost in instructions, cut to a size that runs in seconds, against the committed counts.
slow: lib
	tests/slow/run.sh

# The archive against the second program: make fuzz N=1000000 SEED=7
fuzz: lib
	tests/differential/run.sh $(N) $(SEED)

# The same, led by the branches that an input reaches, for T seconds: make afl T=60
afl: lib
	tests/fuzz/run.sh $(T) $(SEED)

# Writes the committed run cases anew.
cases:
	tests/cases.sh

# build/cargo/release/second, the second program.
second:
	@CARGO_TARGET_DIR=build/cargo cargo build --offline --release --quiet --manifest-path tests/second/Cargo.toml

# The proofs that are kept below crates go too: the next check starts from nothing.
clean:
	rm -rf build crates/*/out
