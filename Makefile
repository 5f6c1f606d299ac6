# `make` alone prints what there is.
.PHONY: help test demo archive install uninstall test-install test-numpy bench robustness clean
.DEFAULT_GOAL := help

PREFIX ?= /usr/local
LIBDIR ?= $(PREFIX)/lib
INCLUDEDIR ?= $(PREFIX)/include
DOCDIR ?= $(PREFIX)/share/doc/estimator
CXXFLAGS ?= -O2 -Wall -Wextra -ffp-contract=off
# Handed to the script alone: exported, they would reach the make that `make test-install` starts with another PREFIX.
folders = PREFIX="$(PREFIX)" LIBDIR="$(LIBDIR)" INCLUDEDIR="$(INCLUDEDIR)" DOCDIR="$(DOCDIR)" DESTDIR="$(DESTDIR)"

help:
	@echo 'make archive        prove the library and write target/lib/libestimator.a'
	@echo 'make demo           build the examples, a scheduler and builders, and run them'
	@echo 'make install        archive, headers, pkg-config file, CMake package, licences'
	@echo '                      PREFIX=/usr/local LIBDIR=PREFIX/lib INCLUDEDIR=PREFIX/include'
	@echo '                      DOCDIR=PREFIX/share/doc/estimator DESTDIR='
	@echo 'make uninstall      remove what make install put there; same variables'
	@echo 'make test           the verdict: proofs, edits that must fail, runs, comparison with the Rust and NumPy'
	@echo 'make test-install   install into a fresh folder and build against it in every way'
	@echo 'make test-numpy     exchange NPY files with the installed NumPy'
	@echo 'make robustness     sanitizers, valgrind, fuzzers (FUZZ_SECONDS=60 each)'
	@echo 'make bench          times, instructions and stack beside the Rust'
	@echo 'make clean          remove target/, and the stored proofs, crates/*/out'
	@echo
	@echo 'ESTIMATOR_LIB=FOLDER  take FOLDER/libestimator.a instead of proving and building one'
	@echo 'KAN_RUST=FOLDER       the Rust that test and bench compare with (oracle/README.md)'

test:
	scripts/test.sh

archive:
	@scripts/archive.sh

demo: archive
	@scripts/need.sh g++=g++
	@mkdir -p target/demo
	$(CXX) -std=c++17 $(CXXFLAGS) -Iinclude examples/scheduler/main.cpp target/lib/libestimator.a -o target/demo/scheduler
	target/demo/scheduler examples/scheduler/files.csv target/demo/model.kan
	@echo "and every machine reaches these, as the published Rust did:"
	@cd target/demo && sha256sum --check "$(CURDIR)/examples/scheduler/model.sha256"
	$(CXX) -std=c++17 $(CXXFLAGS) -Iinclude examples/builders/main.cpp target/lib/libestimator.a -o target/demo/builders
	target/demo/builders

install: archive
	@$(folders) packaging/install.sh install
	@echo "installed under $(DESTDIR)$(PREFIX), the archive in $(DESTDIR)$(LIBDIR)"

uninstall:
	@$(folders) packaging/install.sh uninstall

test-install:
	packaging/test.sh

test-numpy: archive
	npy/run.sh

bench: archive
	bench/run.sh

robustness: archive
	robustness/run.sh

clean:
	rm -rf target crates/*/out
