# make run: the archive, and a small board played against it. make capture FILE=..: docs/CAPTURE.md. make install, make firmware, make differential,
# make bench, make compare: README.md says what they do.
CFLAGS = -std=c11 -O2 -Wall -Wextra -Werror -Iinclude
ARCHIVE = target/staticlib/libespi.a
SOURCES = $(shell find crates -name out -prune -o \( -name '*.rt' -o -name '*.antt' \) -print) crates.txt

# NATIVE: the archive for the machine at hand; where that is not x86-64, the firmware build of the same module. The x86-64 archive is then run by an emulator
# (tests/tools.sh installs what is needed), and what is timed is the machine's own build (TIMED). QUICK: as many calls as take a quarter of a minute.
ifeq ($(shell uname -m),x86_64)
NATIVE = $(ARCHIVE)
X86_CC = $(CC)
X86_RUN =
TIMED =
BARRED = $(COMPARE) --instructions 20000
else
NATIVE = target/firmware/$(shell uname -m)-linux-gnu/libespi.a
X86_CC = x86_64-linux-gnu-gcc -static
X86_RUN = qemu-x86_64-static -L /usr/x86_64-linux-gnu
TIMED = -native
BARRED =
endif
QUICK = 10000000

.PHONY: run board-test archive capture capture-test install header boundary bench figures shapes differential differential-quick rust-test compare \
	compare-quick clean

run: target/board
	./target/board

# What the board prints, against the stored transcript.
board-test: target/board
	./target/board > target/board.txt
	diff -u tests/board.txt target/board.txt

archive: $(ARCHIVE)

include tests/firmware/firmware.mk

target/board: examples/board.c examples/print.h include/espi.h $(NATIVE)
	$(CC) $(CFLAGS) -o $@ examples/board.c $(NATIVE)

# The program that plays a capture: make capture FILE=story.cap. It is x86-64 code, run by the emulator elsewhere (X86_RUN). rt run proves it, builds it and
# runs it, here on what the gate runs it on.
CAPTURE = target/bin/capture

$(CAPTURE): $(SOURCES)
	mkdir -p $(@D)
	cd crates/capture && rt run < stdin > $(abspath $@).txt
	cmp crates/capture/stdout $@.txt
	cp crates/capture/out/capture $@

capture:
	@test -f "$(FILE)" || { echo "make capture FILE=.., a file; docs/CAPTURE.md says how it looks"; exit 2; }
	@$(MAKE) --no-print-directory $(CAPTURE) >&2
	@$(X86_RUN) $(CAPTURE) < "$(FILE)"

# Stored captures and large ones, played by the engine written again in Rust and by the program; then captures made of traffic, played by both. The deliberate
# faults are sought in those same captures.
capture-test: $(CAPTURE)
	$(BUILD_RUST) --bin captures
	python3 tests/captures.py $(CAPTURES) --play
	python3 tests/captures.py $(X86_RUN) $(CAPTURE)
	$(CAPTURES) 600 -- $(X86_RUN) $(CAPTURE)
	$(CAPTURES) --faults 600

# The header is C11 on 64-bit and 32-bit machines, and C++11, without a warning.
HEADER_FLAGS = -Wall -Wextra -Wconversion -Wpedantic -Werror -ffreestanding -fsyntax-only -include include/espi.h

header:
	$(X86_CC) -std=c11 $(HEADER_FLAGS) -x c /dev/null
	$(X86_CC) -std=c11 -m32 $(HEADER_FLAGS) -x c /dev/null
	if command -v $(CXX) > /dev/null; then $(CXX) -std=c++11 $(HEADER_FLAGS) -x c++ /dev/null; else echo "header: no $(CXX), not tried as C++"; fi

# For programs on Linux: the archive, the header and what pkg-config reads; the version is the header's.
PREFIX = /usr/local
VERSION = $(shell sed -n 's/^.define ESPI_VERSION_MAJOR //p' include/espi.h).$(shell sed -n 's/^.define ESPI_VERSION_MINOR //p' include/espi.h)
INTO = $(DESTDIR)$(abspath $(PREFIX))

install: $(NATIVE)
	install -d $(INTO)/lib/pkgconfig $(INTO)/include
	install -m 644 $(NATIVE) $(INTO)/lib/libespi.a
	install -m 644 include/espi.h $(INTO)/include/espi.h
	sed -e 's|@PREFIX@|$(abspath $(PREFIX))|' -e 's|@VERSION@|$(VERSION)|' include/espi.pc.in > $(INTO)/lib/pkgconfig/espi.pc
	chmod 644 $(INTO)/lib/pkgconfig/espi.pc

boundary: target/boundary
	./target/boundary

target/boundary: tests/boundary.c tests/crc8.h include/espi.h $(NATIVE)
	$(CC) $(CFLAGS) -o $@ tests/boundary.c $(NATIVE)

bench: target/figures target/figures$(TIMED)
	python3 tests/figures.py

# What is measured compiles, and the shapes are the CRC.
figures: target/figures target/shapes$(TIMED)
	./target/shapes$(TIMED) kept 3 3 > /dev/null

target/figures: tests/figures.c tests/crc8.h include/espi.h $(ARCHIVE)
	$(X86_CC) $(CFLAGS) -D_POSIX_C_SOURCE=199309L -o $@ tests/figures.c $(ARCHIVE)

target/figures-native: tests/figures.c tests/crc8.h include/espi.h $(NATIVE)
	$(CC) $(CFLAGS) -D_POSIX_C_SOURCE=199309L -o $@ tests/figures.c $(NATIVE)

# The shapes of the CRC that were tried, each compiled as the kit compiles the archive, whose module names x86-64-v2 as its processor.
KIT_CLANG = $$(cat target/firmware/clang target/firmware/words)

shapes: target/shapes target/shapes$(TIMED)
	python3 tests/figures.py shapes

target/shapes: tests/shapes.c tests/shapes_run.c tests/crc8.h $(MODULE)
	$(KIT_CLANG) --target=x86_64-linux-gnu -march=x86-64-v2 -O3 -c tests/shapes.c -o $@.o
	$(X86_CC) $(CFLAGS) -D_POSIX_C_SOURCE=199309L -o $@ tests/shapes_run.c $@.o

target/shapes-native: tests/shapes.c tests/shapes_run.c tests/crc8.h $(MODULE)
	$(KIT_CLANG) --target=$(shell uname -m)-linux-gnu -O3 -c tests/shapes.c -o $@.o
	$(CC) $(CFLAGS) -D_POSIX_C_SOURCE=199309L -o $@ tests/shapes_run.c $@.o

# The engine written again in Rust, against the archive and the program that plays captures: calls and captures without a difference, then every deliberate
# fault found.
BUILD_RUST = cd tests/differential && ESPI_ARCHIVE_DIR=$(abspath $(dir $(NATIVE))) cargo build --release
DIFFERENTIAL = tests/differential/target/release/differential
CAPTURES = tests/differential/target/release/captures

rust-test:
	cd tests/differential && cargo test --release --lib
	cd tests/plain && cargo test --release

differential: rust-test $(NATIVE) $(CAPTURE)
	$(BUILD_RUST)
	$(DIFFERENTIAL) 2000000
	$(DIFFERENTIAL) --faults
	$(CAPTURES) 5000 -- $(X86_RUN) $(CAPTURE)
	$(CAPTURES) --faults 5000

differential-quick: $(NATIVE)
	$(BUILD_RUST) --bin differential
	$(DIFFERENTIAL) $(QUICK)
	$(DIFFERENTIAL) --faults

# The archive beside the same engine in plain Rust, a million exchanges through each: every reply compared, then times and instructions. With BARS=--bars
# instructions over the bars are a failure. compare-quick times nothing: it compares replies, then any calls on any bytes, and holds the instructions of the
# x86-64 archive to the bars (BARRED).
BUILD_COMPARE = cd tests/compare && ESPI_ARCHIVE_DIR=$(abspath $(dir $(NATIVE))) cargo build --release
COMPARE = tests/compare/target/release/compare

compare: $(NATIVE)
	$(BUILD_COMPARE)
	$(COMPARE) $(BARS)

compare-quick: $(NATIVE)
	$(BUILD_COMPARE)
	$(COMPARE) --check 100000
	$(COMPARE) --differential 2000000
	$(BARRED)

clean:
	rm -rf target tests/differential/target tests/plain/target tests/compare/target
