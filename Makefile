# make run: the watch's formula screen in the terminal, where a formula is edited key by key; RECORDING=path for another recording. Formulas are
# read line by line where the input or the output is no terminal.
# make samples: the sample previews by the plain evaluator; TEXT='data.sum()' for one formula.
# make test: the gate. make check-shell: the stored example, and recorded keys with the screens that they lead to. make sanitize: the screen under
# sanitizers. make fuzz: random bytes as recordings and as keys, SECONDS=60 for each of the two ways. make wait: how long a key can wait.
# make bench: benchmarks; writes docs/benchmarks/figures.csv, and from it the tables and plots of docs/BENCHMARKS.md.
RECORDING = shell/interval.txt
SECONDS = 60

.PHONY: run samples test bench library check-shell sanitize fuzz wait

run: library
	@shell/check build
	@target/shell/formula '$(RECORDING)'

samples:
	cargo run --quiet --release --offline --manifest-path host/Cargo.toml --bin samples -- $(if $(TEXT),'$(TEXT)')

test:
	.ci/run

bench:
	.ci/library engine
	.ci/library measured
	cargo run --quiet --release --offline --manifest-path host/bench/Cargo.toml

# Proves the engine's crate each time, and those below it that have changed. Nothing is written to the output, so that make run can be piped.
library:
	@.ci/library engine >&2

check-shell: library
	shell/check example
	shell/check state
	shell/check screens

sanitize: library
	shell/check sanitized

fuzz: library
	shell/check fuzz $(SECONDS)

wait: library
	shell/check wait
