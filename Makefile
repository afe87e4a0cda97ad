# make run          the weigher on standard input and output
# make constants    the program constants on standard input and output: a pattern for each line's hexadecimal text
# make test         the gate: the constants, the comparisons, the examples, the program from outside, and rt ci
# make archive      target/staticlib/libweigher.a, the functions of include/weigher.h for C and Rust to link
# make bench        times the operations beside the machine's, musl's and the Rust's, and the program on whole streams beside the Rust service and cat
# make connections  400 connections under socat, each answer compared (tests/README.md)
# make faults       readers and peers that go or stall, signals, failing calls, 200 instances, a gigabyte of frames (tests/README.md)
.PHONY: run constants test archive program source compare examples outside bench connections faults always

# One rt at a time works in a crate.
.NOTPARALLEL:

run: target/bin/weigher.made
	@target/bin/weigher

constants: target/bin/constants.made
	@target/bin/constants

test: program archive source compare examples outside
	docs/check-proofs.sh
	tests/gate.sh

# A program that is proved and built; rt runs it too, on an empty input. Its log is on standard error.
target/bin/%.made: always
	@mkdir -p target/bin
	@cd crates/$* && rt run < /dev/null >&2
	@cp crates/$*/out/$* target/bin/$*

# The archive of one crate's exported functions, which stand for those of the crates below it.
target/staticlib/lib%.a: always
	@mkdir -p target/staticlib
	@cd crates/$* && rt lib >&2
	@cp crates/$*/out/lib$*.a target/staticlib/lib$*.a

always:

program: target/bin/weigher.made target/bin/constants.made

# Each constant of the Rust source, read by the program constants, beside the definitions' and the code's, where the source is there.
source: program
	tests/constants.sh

archives := constant_c operations_c payloads_c score_c service_c

# The five are made one where ar is there.
archive: $(archives:%=target/staticlib/lib%.a)
	@if command -v ar >/dev/null; then \
	    cd target/staticlib && \
	    printf '%s\n' 'create libweigher.a' $(archives:%='addlib lib%.a') save end | ar -M; \
	else \
	    echo "ar is not installed: target/staticlib/libweigher.a is not made"; \
	fi

# Edge cases and a million random ones of each operation, lists of calls, refused lists of entries, tiny scores, and texts of constants, where
# rustc and ar are there; the score, its recorded vectors, random streams, good lists, the entries of step 5 and the source's own texts where
# the Rust source is too.
compare: archive program target/staticlib/libfast_fused_c.a
	@if command -v rustc >/dev/null && command -v ar >/dev/null; then \
	    compare/build.sh && target/compare/compare run 1 && \
	    cat crates/exp2m1_vectors/stdin crates/phase_vectors/stdin | target/compare/compare check-score-vectors && \
	    target/compare/compare streams 2 && target/compare/compare calls 10 && target/compare/compare lists 1 && \
	    target/compare/compare tiny 1 && target/compare/compare constants 100; \
	else \
	    echo "rustc or ar is not installed: nothing is compared"; \
	fi

# The examples of docs/PROTOCOL.md; those in C where ar and a compiler are there, and the Rust crate where ar and cargo are.
examples: archive program
	tests/protocol.sh
	tests/c.sh
	tests/rust.sh

# The program from outside, some seconds each: connections where socat is there, and the faults.
outside: program
	@if command -v socat >/dev/null; then tests/connections.sh 60; else echo "socat is not installed: no connection is tried"; fi
	@tests/faults.sh short

connections: program
	tests/connections.sh

faults: program
	tests/faults.sh full
	tests/must-fail.sh

bench: archive program target/staticlib/libfast_fused_c.a
	compare/build.sh
	target/compare/compare bench
	target/compare/compare throughput
