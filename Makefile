# make                    prove every crate, build the report program and the archive
# make run CAPTURE=file   print a capture's line
# make install PREFIX=dir install the header, the archive, its pkg-config file and the report program
# make test               the gate: proofs, must-fail edits, programs, captures, the drill, and the archive against independent decoders in C and Rust
# make compare            the archive against the independent decoder on CASES random cases (300,000), from SEED
# make fuzz               the same under libFuzzer, for SECONDS_EACH seconds a target
# make floats             all 2^32 single-precision numbers through the archive, against a second computation in whole numbers
# make drill A=path B=path CAPTURES=dir   hold one report program, or two, to the drill set or to a folder of captures
# make bench              measure the five calls (and libosmocore's decoder where it is installed)
# make clean              remove what was built

.DEFAULT_GOAL := all
.PHONY: all run install test compare fuzz floats drill bench clean tools

all: tools
	rt all check
	tools/built report gateway

run:
	@test -n "$(CAPTURE)" || { echo "which capture? make run CAPTURE=examples/clean_20.capture" >&2; exit 1; }
	@test -r "$(CAPTURE)" || { echo "there is no readable file $(CAPTURE)" >&2; exit 1; }
	@tools/built report
	@target/bin/report < "$(CAPTURE)"

install:
	@PREFIX="$(PREFIX)" DESTDIR="$(DESTDIR)" tools/install

test:
	@tools/gate

compare:
	@CASES="$(CASES)" SEED="$(SEED)" tools/compare

fuzz:
	@SECONDS_EACH="$(SECONDS_EACH)" tools/fuzz

floats:
	@tools/floats

drill:
	@test -n "$(A)" || tools/built report
	@A="$(A)" B="$(B)" CAPTURES="$(CAPTURES)" tools/drill

bench: tools
	@tools/bench

tools:
	@tools/need rt gcc

clean:
	rm -rf target crates/*/out
