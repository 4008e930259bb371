# What can be made here. The Rattle crates stand in crates/, the Rust side in rust/.
.DEFAULT_GOAL := help
.PHONY: help demo test bench bench-report lint install uninstall

# Where 'make install' puts things; DESTDIR stands before it, for those who make packages.
PREFIX ?= /usr/local
DESTDIR ?=

# Under which name the benchmark's figures are stored, how long it takes, and the version that it is compared with.
NAME ?= now
MINUTES ?= 40
BEFORE ?=

help:
	@echo 'make demo    send a real film over a line that drops bits, list its rows and draw what came out'
	@echo 'make test    prove every crate and run every test; the last line is "N passed, M failed"'
	@echo 'make bench NAME=.. [MINUTES=40]   time the library beside unproved peers and store the figures in docs/benchmarks'
	@echo 'make bench-report NAME=.. [BEFORE=..]   make docs/BENCHMARKS.md and its pictures of stored figures'
	@echo 'make lint    check the layout of the Rust sources, and the Rust side with clippy; rt ci looks at the layout of those in Rattle'
	@echo 'make install PREFIX=..   put library, header, pkg-config file, film, rowlist and man pages in place'
	@echo 'make uninstall PREFIX=..   take them away again'

demo:
	@tools/demo.sh

test:
	@bash tools/test.sh

bench:
	@tools/bench.sh run '$(NAME)' '$(MINUTES)'

bench-report:
	@tools/bench.sh report '$(NAME)' '$(BEFORE)'

lint:
	@cd rust && cargo fmt --check
	@cd rust && cargo clippy --release --offline --all-targets -- -D warnings
	@cd rust/film && cargo fmt --all --check
	@tools/film-cargo.sh clippy --release --workspace --all-targets -- -D warnings

install:
	@tools/install.sh install '$(PREFIX)' '$(DESTDIR)'

uninstall:
	@tools/install.sh uninstall '$(PREFIX)' '$(DESTDIR)'
