# make demo     proves and builds the program, runs it on a sample and explains its report
# make test     proves everything and runs all tests
# make bench    measures the engine and the program beside Rust and C, and writes docs/BENCHMARK.md
# make fuzz     runs the library on records that coverage leads to, for up to an hour, and writes a section of docs/BENCHMARK.md
# make memory   runs the program on every vector under Valgrind's memcheck
# make job      builds tools/job, as tests/target/release/job
# make vectors  writes the records and reports of tests/vectors, and the reports of the samples
# make table    writes the sources of Table B-1 from data/table-b1.tsv
.PHONY: demo test bench fuzz memory job vectors table

cargo = cargo build --release --offline --locked --manifest-path tests/Cargo.toml --target-dir tests/target

demo:
	tools/demo

test:
	.ci/run

bench:
	tools/bench

fuzz:
	tools/fuzz

memory:
	tests/memory

job:
	$(cargo) -p job

vectors:
	$(cargo) -p vectors
	tests/target/release/vectors write

table:
	tools/table-b1 write
