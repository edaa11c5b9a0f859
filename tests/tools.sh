#!/usr/bin/env bash
# What the tests of the archives need beside gcc, make, python3 and cargo, as Debian's packages: cross compilers with their C libraries, emulators, and
# valgrind. Only what is missing is installed; with all there it takes a moment.
set -euo pipefail
missing=()

# The packages are missing where the test fails.
need() { # 'PACKAGE ..' TEST..
    local packages=$1
    shift
    # shellcheck disable=SC2206
    "$@" > /dev/null 2>&1 || missing+=($packages)
}
compiles() { "$@" -E -x c - <<< '#include <stdio.h>'; } # a compiler, and its C library's headers
runs() { "$1" --version; }

need 'gcc-arm-none-eabi libnewlib-arm-none-eabi' compiles arm-none-eabi-gcc --specs=rdimon.specs
need 'gcc-riscv64-unknown-elf picolibc-riscv64-unknown-elf' compiles riscv64-unknown-elf-gcc --specs=picolibc.specs
need 'gcc-arm-linux-gnueabihf libc6-dev-armhf-cross' compiles arm-linux-gnueabihf-gcc
need qemu-system-arm runs qemu-system-arm
need qemu-system-misc runs qemu-system-riscv32
need qemu-user-static runs qemu-arm-static
# what counts instructions, where the archive is the machine's own
[ "$(uname -m)" != x86_64 ] || need valgrind runs valgrind
# x86-64 and AArch64: the one that is not the machine at hand
[ "$(uname -m)" = aarch64 ] || need 'gcc-aarch64-linux-gnu libc6-dev-arm64-cross' compiles aarch64-linux-gnu-gcc
[ "$(uname -m)" = x86_64 ] || need 'gcc-x86-64-linux-gnu libc6-dev-amd64-cross' compiles x86_64-linux-gnu-gcc

[ ${#missing[@]} -gt 0 ] || exit 0
apt-get update -qq
DEBIAN_FRONTEND=noninteractive apt-get install -y -qq --no-install-recommends "${missing[@]}" > /dev/null
