# make run      lists a small recording          RECORDING=file lists another
# make test     everything: proofs, must-fail edits, programs, the comparison with the Rust
# make compare  the comparison alone             make bench   both sides timed
# make empties  empty buffers, null or not
# make archive  the library for C                make record  the original's answers, written down again for `replay`
SHELL := bash
.SHELLFLAGS := -eu -o pipefail -c
.ONESHELL:
.SILENT:

RECORDING ?= recordings/tone.g722

# Where the original Rust lies: the folder that has src/codec/mod.rs.
export ROZIMAHA_SOURCE ?= $(CURDIR)/docs/src
RUST_IS_HERE := [ -f "$$ROZIMAHA_SOURCE/src/codec/mod.rs" ]

# The archive and the programs are for x86-64, so what links the archive is too; elsewhere all of it runs under an emulator (host/tools.sh).
TARGET := x86_64-unknown-linux-gnu
CARGO := cargo build --quiet --offline --manifest-path host/Cargo.toml --target-dir build/host --target $(TARGET)
C_FLAGS := -std=c99 -Wall -Wextra -Werror -O2
ifeq ($(shell uname -m),x86_64)
CC := cc
else
EMULATOR := qemu-x86_64
CC := x86_64-linux-gnu-gcc
export RUSTC := /usr/bin/rustc
export CARGO_TARGET_X86_64_UNKNOWN_LINUX_GNU_LINKER := x86_64-linux-gnu-gcc
endif

.PHONY: run test archive tools seek checked-host empties compare bench record clean

run: tools target/bin/listing
	$(EMULATOR) target/bin/listing < "$(RECORDING)"

# The last line of all is the prover's own, so it is held back until everything else has passed.
test:
	mkdir -p build
	rt ci 2>&1 | tee build/rt-ci.log | sed -u '$$d'
	tail -n 1 build/rt-ci.log | grep -Eqx '[0-9]+ passed, 0 failed'
	if grep -Eq '^rt: ok.*, [1-9][0-9]* bad' build/rt-ci.log; then
	    echo 'a must-fail edit is bad: it shows nothing' >&2
	    exit 1
	fi
	$(MAKE) --no-print-directory seek empties
	if $(RUST_IS_HERE); then
	    $(MAKE) --no-print-directory compare
	else
	    echo 'NOT COMPARED: ROZIMAHA_SOURCE names no folder with the original Rust'
	fi
	tail -n 1 build/rt-ci.log

archive: target/staticlib/libcalls.a

SOURCES := crates.txt $(shell find crates -name out -prune -o \( -name '*.rt' -o -name '*.antt' \) -print)

# The crate calls_c exports what the crate calls has.
target/staticlib/libcalls.a: $(SOURCES)
	(cd crates/calls_c && rt lib)
	mkdir -p target/staticlib
	cp crates/calls_c/out/libcalls_c.a $@

# A program is built by running it, here over nothing.
target/bin/listing: $(SOURCES)
	(cd crates/listing && rt run < /dev/null > /dev/null)
	mkdir -p target/bin
	cp crates/listing/out/listing $@

tools:
	host/tools.sh

# The C example, built and run on the shipped recording.
seek: archive tools
	mkdir -p build
	$(CC) $(C_FLAGS) examples/seek.c target/staticlib/libcalls.a -o build/seek
	$(EMULATOR) build/seek recordings/tone.g722

# The original runs with overflow checks on, so that a sum that wraps there is seen.
checked-host: archive tools
	$(CARGO) --profile checked

# Empty buffers, passed as null and as another address.
empties: checked-host
	$(EMULATOR) build/host/$(TARGET)/checked/rozimaha-host empties

compare: checked-host
	$(EMULATOR) build/host/$(TARGET)/checked/rozimaha-host compare

bench: archive tools target/bin/listing
	$(CARGO) --profile release
	ROZIMAHA_EMULATOR=$(EMULATOR) $(EMULATOR) build/host/$(TARGET)/release/rozimaha-host bench

record: checked-host
	$(EMULATOR) build/host/$(TARGET)/checked/rozimaha-host record > crates/replay/data/recorded

clean:
	rm -rf build target crates/*/out
