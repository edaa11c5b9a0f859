#!/usr/bin/env bash
# build.sh TRIPLE: target/firmware/TRIPLE/libespi.a, of the module that tests/firmware/keep.sh kept, by the kit's own clang and in the words of the kit,
# but for those that name the machine. FLAGS: further words for clang, as -march=rv32imc.
set -eu
cd "$(dirname "$0")/../.."
out=target/firmware
# Most functions of the module are called once: -Os alone leaves them apart, which costs stack, and code to hand structs over. How far to inline is each
# core's own: beyond this the CRC would stand at every opcode of the decoder.
small='-Os -mllvm -inline-threshold'
case ${1:-} in
thumbv7em-none-eabi) own=$small=1000 ;;
riscv32-unknown-elf) own="$small=1500 -march=rv32imac -mabi=ilp32" ;;
aarch64-linux-gnu | armv7-linux-gnueabihf) own='-O3 -fPIC' ;;
*)
    echo "firmware: ${1:+no such TRIPLE: $1; }make firmware TRIPLE=.. with one of" >&2
    echo "thumbv7em-none-eabi riscv32-unknown-elf aarch64-linux-gnu armv7-linux-gnueabihf" >&2
    exit 2
    ;;
esac
[ "${2:-}" != --known ] || exit 0
folder=$out/$1 flags=${FLAGS:-}

# "not recognised": the module names an x86-64 processor for its functions, and any other machine's generic one is taken instead.
lower() {
    mkdir -p "$folder"
    rm -f "$folder"/*
    # shellcheck disable=SC2046,SC2086
    "$(cat $out/clang)" $(cat $out/words) "--target=$1" $own $flags -fno-unwind-tables -fno-asynchronous-unwind-tables -Wno-override-module \
        -c -x ir "$out/module.bc" -o "$folder/espi.o" 2> "$folder/said" || { cat "$folder/said" >&2; exit 1; }
    grep -v "^'x86-64-v2' is not a recognized processor for this target" "$folder/said" >&2 || true
    "$(dirname "$(cat $out/clang)")/llvm-ar" rcsD "$folder/libespi.a" "$folder/espi.o"
    echo "$flags" > "$folder/flags"
}

# Code and constants; on Arm the marks that a function cannot be unwound (.ARM.exidx) come beside them, and a linker script may discard them.
report() {
    bytes=$(size -A "$folder/espi.o" | awk '$1 ~ /^\.(text|rodata)/ { n += $2 } END { print n }')
    needs=$(nm -u "$folder/libespi.a" | awk '$1 == "U" { print $2 }' | sort -u | tr '\n' ' ')
    echo "$folder/libespi.a: $bytes bytes of code and constants; from outside: ${needs:-nothing }; $own${flags:+ $flags}; kit $(cat $out/kit-version)"
}

fresh() {
    [ "$folder/libespi.a" -nt "$out/module.bc" ] && [ "$folder/libespi.a" -nt tests/firmware/build.sh ] && [ "$(cat "$folder/flags")" = "$flags" ]
}

fresh || lower "$1"
report
