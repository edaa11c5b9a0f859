# Firmware builds and their tests (docs/PORTING.md).
#   make firmware TRIPLE=..      target/firmware/TRIPLE/libespi.a, its size and what it needs from outside
#   make firmware-tests          a build for every triple; on each machine the boundary test and the board; on the boards the calls from an interrupt and a
#                                main loop; a differential run on 32-bit Arm
#   make differential-firmware   2,000,000 calls of that run
#   make firmware-figures        stack and instructions on Cortex-M4 and RISC-V 32, as docs/PORTING.md and docs/FIGURES.md have them
MODULE = target/firmware/module.bc
TRIPLES = thumbv7em-none-eabi riscv32-unknown-elf aarch64-linux-gnu armv7-linux-gnueabihf

.PHONY: firmware firmware-tests differential-firmware firmware-figures FORCE
.PRECIOUS: $(addprefix target/firmware/%/,libespi.a boundary board interrupt stack figures) tests/differential/target/%/release/differential

# One run of the kit for the x86-64 archive and for the module that every other one is compiled of.
$(ARCHIVE) $(MODULE) &: $(SOURCES) tests/firmware/keep.sh
	tests/firmware/keep.sh

# A wrong TRIPLE is told before anything is proved.
firmware:
	@tests/firmware/build.sh "$(TRIPLE)" --known
	@$(MAKE) --no-print-directory target/firmware/$(TRIPLE)/libespi.a

# FLAGS may have changed: the script sees whether there is anything to do.
target/firmware/%/libespi.a: $(MODULE) FORCE
	@FLAGS="$(FLAGS)" tests/firmware/build.sh $*

# ---- the machines: how a program is built for one, and run on it

BOARD = -nographic -monitor none -serial none -chardev stdio,id=out -semihosting-config enable=on,target=native,chardev=out
MACHINES = $(TRIPLES)
BOARDS = thumbv7em-none-eabi riscv32-unknown-elf
BRIDGED = armv7-linux-gnueabihf

CC_thumbv7em-none-eabi = arm-none-eabi-gcc -mcpu=cortex-m4 -mthumb --specs=rdimon.specs -nostartfiles -T tests/firmware/cortex-m4.ld \
	-Wl,--gc-sections,--no-warn-execstack \
	$(shell arm-none-eabi-gcc -mcpu=cortex-m4 -mthumb -print-file-name=rdimon-crt0.o) tests/firmware/cortex-m4.c
RUN_thumbv7em-none-eabi = timeout 300 qemu-system-arm -M mps2-an386 $(BOARD) -kernel

# picolibc's own linker script: code and data in the memory of qemu's virt board, which begins at 80000000h.
CC_riscv32-unknown-elf = riscv64-unknown-elf-gcc -march=rv32imac -mabi=ilp32 --specs=picolibc.specs --oslib=semihost --crt0=semihost \
	-Wl,--gc-sections,--defsym=__flash=0x80000000,--defsym=__flash_size=4M,--defsym=__ram=0x80400000,--defsym=__ram_size=4M,--defsym=__stack_size=64K
RUN_riscv32-unknown-elf = timeout 300 qemu-system-riscv32 -M virt -bios none $(BOARD) -kernel

CC_armv7-linux-gnueabihf = arm-linux-gnueabihf-gcc -static
RUN_armv7-linux-gnueabihf = qemu-arm-static

ifeq ($(shell uname -m),aarch64)
CC_aarch64-linux-gnu = $(CC)
RUN_aarch64-linux-gnu =
else
CC_aarch64-linux-gnu = aarch64-linux-gnu-gcc -static
RUN_aarch64-linux-gnu = qemu-aarch64-static
endif

# Where the x86-64 archive is not native, it is one more of them.
ifneq ($(shell uname -m),x86_64)
MACHINES += x86_64-linux-gnu
BRIDGED += x86_64-linux-gnu
endif
CC_x86_64-linux-gnu = x86_64-linux-gnu-gcc -static
RUN_x86_64-linux-gnu = qemu-x86_64-static

target/firmware/x86_64-linux-gnu/libespi.a: $(ARCHIVE)
	mkdir -p $(@D)
	cp $(ARCHIVE) $@

START = tests/firmware/cortex-m4.c tests/firmware/cortex-m4.ld

target/firmware/%/boundary: tests/boundary.c tests/crc8.h include/espi.h $(START) target/firmware/%/libespi.a
	@$(CC_$*) $(CFLAGS) -o $@ tests/boundary.c $(@D)/libespi.a

target/firmware/%/board: examples/board.c examples/print.h include/espi.h $(START) target/firmware/%/libespi.a
	@$(CC_$*) $(CFLAGS) -o $@ examples/board.c $(@D)/libespi.a

target/firmware/%/interrupt: tests/firmware/interrupt.c tests/crc8.h include/espi.h $(START) target/firmware/%/libespi.a
	@$(CC_$*) $(CFLAGS) -o $@ tests/firmware/interrupt.c $(@D)/libespi.a

# ---- the tests

machine-%: target/firmware/%/boundary target/firmware/%/board
	@if nm -u target/firmware/$*/libespi.a | grep -E 'ldiv|divdi|moddi'; then echo "firmware: $*: a helper for 64-bit division is called"; exit 1; fi
	@said=$$($(RUN_$*) target/firmware/$*/boundary < /dev/null); failed=$$?; echo "firmware: $*: $$said"; exit $$failed
	@$(RUN_$*) target/firmware/$*/board < /dev/null > target/firmware/$*/board.txt
	@diff -u tests/board.txt target/firmware/$*/board.txt
	@echo "firmware: $*: the board prints its transcript"

# The emulator counts time in instructions here, so that nothing hangs on how busy its machine is.
interrupt-%: target/firmware/%/interrupt
	@said=$$($(RUN_$*) target/firmware/$*/interrupt -icount shift=3 < /dev/null); failed=$$?; echo "firmware: $*: $$said"; exit $$failed

# The differential run with the archive under an emulator, in a process of its own.
tests/differential/target/%/release/differential: target/firmware/%/libespi.a FORCE
	@cd tests/differential && ESPI_ARCHIVE_DIR=../../target/firmware/$* ESPI_CC=$(firstword $(CC_$*)) ESPI_RUNNER=$(RUN_$*) \
		cargo build --quiet --release --bin differential --features bridged --target-dir target/$*

bridged-%: tests/differential/target/%/release/differential
	@echo "firmware: $*: the differential run under $(RUN_$*)"
	@for words in "$(BRIDGED_CALLS)" --faults; do \
		$< $$words > target/firmware/$*/differential.txt || { cat target/firmware/$*/differential.txt; exit 1; }; \
		tail -n 1 target/firmware/$*/differential.txt; \
	done

# As many calls as take a quarter of a minute; fewer of the x86-64 archive, whose long run is on x86-64.
firmware-tests: BRIDGED_CALLS = 1200000
bridged-x86_64-linux-gnu: BRIDGED_CALLS = 200000
firmware-tests: $(MACHINES:%=machine-%) $(BOARDS:%=interrupt-%) $(BRIDGED:%=bridged-%)

differential-firmware: BRIDGED_CALLS = 2000000
differential-firmware: $(BRIDGED:%=bridged-%)

# ---- the figures of the boards

WRAP = $(patsubst %,-Wl$(comma)--wrap=espi_%,start reset platform_reset exchange look answer take_write set_wire read_wire set_line pulse_line)
comma = ,

target/firmware/%/stack: tests/firmware/stack.c tests/boundary.c tests/crc8.h include/espi.h $(START) target/firmware/%/libespi.a
	@$(CC_$*) $(CFLAGS) $(WRAP) -o $@ tests/firmware/stack.c tests/boundary.c $(@D)/libespi.a

target/firmware/%/figures: tests/firmware/figures.c tests/figures.c tests/crc8.h include/espi.h $(START) target/firmware/%/libespi.a
	@$(CC_$*) $(CFLAGS) -o $@ tests/firmware/figures.c $(@D)/libespi.a

firmware-figures: $(BOARDS:%=target/firmware/%/stack) $(BOARDS:%=target/firmware/%/figures)
	@python3 tests/firmware/figures.py $(foreach board,$(BOARDS),"$(board)=$(RUN_$(board))")
