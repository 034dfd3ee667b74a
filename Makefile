# make test     proves every crate, tries the must-fail edits, and runs the tests from outside
# make run      runs the program on a small casting, then lists the voids of the example casting
# make build    proves and builds the library, the program and the tool, as `make run` does first
# make install  installs them below PREFIX, and with DESTDIR below that folder
# make bench    times the library

SHELL := bash
.SHELLFLAGS := -euo pipefail -c
.ONESHELL:
.PHONY: test run build install bench

test:
	@tools/test

run: build
	@tools/run target/bin/small <examples/small.txt
	tools/run host/target/x86_64-unknown-linux-gnu/release/tholbrina list examples/casting.txt

build:
	@tools/build

install: build
	@tools/install

bench:
	@tools/bench
