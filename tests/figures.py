#!/usr/bin/env python3
"""make bench: instructions and nanoseconds per exchange of libespi.a, by kind, beside the time that the exchange takes on a quad bus at 66 MHz.
make shapes: the same of the shapes of the CRC in tests/shapes.c, by their number of bytes.

Instructions are those of x86-64, counted, not timed: a program runs once with one call more than before, and the difference is that call. On x86-64
callgrind counts them; elsewhere the emulator's trace does, one line an instruction. Nanoseconds are those of the machine at hand, of its own build.
"""
import collections
import platform
import re
import subprocess
import sys
import tempfile

KINDS = ["GET_STATUS", "short I/O read", "its GET_PC", "64-byte piece", "256-byte piece", "PUT_PC of 64 bytes", "PUT_VWIRE",
         "PUT_VWIRE, PLTRST# falls", "PUT_VWIRE of 64 pairs", "GET_VWIRE", "GET_VWIRE of 1 line", "GET_VWIRE of 64 lines",
         "64 lines, 4 apart", "GET_CONFIGURATION", "SET_CONFIGURATION", "a refusal (GET_PC, none ready)"]
# The first is the test of the bytes and little else; the second that, and a wire's channel changed and stored.
BOARD = ["set wire, refused", "set wire", "set line", "pulse line", "look", "answer of 1 byte", "answer of 64 bytes", "answer of 4096 bytes", "take a write"]
SHAPES = ["bits", "table", "byte", "two", "three", "four", "eight", "lanes", "kept"]
LENGTHS = [3, 7, 64, 256]
LOAD = "state::holds"
NATIVE = platform.machine() == "x86_64"
EXCHANGES, CRCS = "target/figures", "target/shapes"
EMULATED = [] if NATIVE else ["qemu-x86_64-static"]


def run(command):
    return subprocess.run(command, check=True, capture_output=True, text=True).stdout


def timed(program, words, times):
    """The last word that the machine's own build prints, the least of five runs."""
    command = [program if NATIVE else program + "-native", *words, str(times)]
    return min((run(command).split()[-1] for _ in range(5)), key=float)


def counted(program, words, times, inside=""):
    """Instructions by symbol of a run with so many calls, or of the calls of one symbol in it; those of the archive are named espi_.. and CRATE::.."""
    counts = collections.Counter()
    if NATIVE:
        with tempfile.NamedTemporaryFile() as out:
            run(["valgrind", "--tool=callgrind", f"--callgrind-out-file={out.name}"] + ([f"--toggle-collect={inside}"] if inside else [])
                + [program, *words, str(times)])
            for line in run(["callgrind_annotate", "--threshold=100", out.name]).splitlines():
                row = re.match(r"\s*([\d,]+) \(\s*[\d.]+%\)\s+[^\s:]+:(\S+)", line)
                if row:
                    counts[row.group(2)] += int(row.group(1).replace(",", ""))
        return counts
    with tempfile.NamedTemporaryFile(mode="r") as out:
        run(["qemu-x86_64-static", "-singlestep", "-d", "exec,nochain", "-D", out.name, program, *words, str(times)])
        within = False
        for line in out:
            if line.startswith("Trace"):
                symbol = line.split("] ", 1)[-1].strip()
                within = not inside or symbol == inside or within and not symbol.startswith("espi_")
                counts[symbol] += within
    return counts


def instructions(program, words, inside=""):
    """Those of one call in the archive, or in a shape."""
    more = counted(program, words, 2, inside)
    more.subtract(counted(program, words, 1, inside))
    return sum(n for symbol, n in more.items() if "::" in symbol or symbol.startswith(("espi_", "crc_")))


def figures(kind):
    """Number, bytes sent and said, instructions of the archive, those of them in `state::holds`, nanoseconds."""
    number, sent, said, _ = run(EMULATED + [EXCHANGES, kind, "1"]).split()
    return number, int(sent), int(said), instructions(EXCHANGES, [kind]), instructions(EXCHANGES, [kind], LOAD), timed(EXCHANGES, [kind], 200000)


def shapes():
    print(f"{'':8}" + "".join(f"{f'{n} bytes':>12}" for n in LENGTHS) + "".join(f"{f'{n}, ns':>12}" for n in LENGTHS))
    for shape in SHAPES:
        counts = [instructions(CRCS, [shape, str(n)]) for n in LENGTHS]
        times = [timed(CRCS, [shape, str(n)], 200000) for n in LENGTHS]
        print(f"{shape:8}" + "".join(f"{x:>12}" for x in counts + times))


def main():
    print(f"{'exchange':32} {'number':>6} {'bytes':>9} {'instructions':>12} {'of them holds':>13} {'ns':>8} {'bus ns':>7}")
    for kind in KINDS:
        number, sent, said, total, holds, ns = figures(kind)
        clocks = 2 * (sent + said) + 2
        print(f"{kind:32} {number:>6} {f'{sent} / {said}':>9} {total:>12} {holds:>13} {ns:>8} {clocks / 66e6 * 1e9:>7.0f}")
    for kind in BOARD:
        _, _, _, total, holds, ns = figures(kind)
        print(f"{kind:32} {'':>6} {'':>9} {total:>12} {holds:>13} {ns:>8}")


if __name__ == "__main__":
    sys.exit(shapes() if sys.argv[1:] == ["shapes"] else main())
