# make help     what can be made
# make run      can a rule fail? make run RULE=march K=2 (a rule of rules/, or the path of a table): the answer, and the slice
# make cli      target/kadvitul, the command that says so
# make print    the slice of a rule, by the proved printer alone: make print RULE=march K=2
# make test     the gate
# make lib      target/staticlib/libkadvitul.a, for C and Rust
# make bench    speed against plain Rust, as ratios
# make soak     N generated cases of each call, demand 3 and the printer: make soak N=1000000 SEED=1 (a new seed if none is given)
# make mutants  wrong definitions and wrong programs, and which proof refuses each
# make fmt      lay every file out
# make clean    remove what was made

RULE = small
K = 0
N = 100000
SEED ?=

# the crates that the archive is made of, and their files
parts = kadvitul_c $(shell awk -F: '$$1 == "kadvitul_c staticlib" { print $$2 }' crates.txt)
sources = $(shell find $(addprefix crates/,$(parts)) \( -name '*.rt' -o -name '*.antt' \) -not -path '*/out/*')

.DEFAULT_GOAL = help
.PHONY: help run cli print test bench lib soak fmt mutants clean

help:
	@sed -n 's/^# make/make/p' Makefile

run:
	@tools/run "$(RULE)" "$(K)"

cli:
	@tools/cli

print:
	@tools/print "$(RULE)" "$(K)"

test:
	@tools/gate

bench: lib
	@cd host && cargo run --offline --profile measure --quiet --bin bench

soak: lib
	@cd host && CASES=$(N) SEED=$(SEED) cargo run --offline --release --quiet --bin soak

lib: target/staticlib/libkadvitul.a

target/staticlib/libkadvitul.a: crates.txt $(sources)
	@command -v rt >/dev/null || { echo "make: the command rt is missing. Install the Rattle kit and put it on the PATH" >&2; exit 1; }
	cd crates/kadvitul_c && rt lib
	@mkdir -p target/staticlib && cp crates/kadvitul_c/out/libkadvitul_c.a $@

fmt:
	for crate in crates/*/; do (cd "$$crate" && rt fmt) || exit 1; done
	cd host && cargo fmt

mutants:
	@tools/mutants

clean:
	rm -rf target host/target crates/*/out
