#!/usr/bin/env python3
"""make firmware-figures: what a call costs on the emulated boards. Beside tests/figures.py, whose kinds these are.

    figures.py NAME=RUN ..    RUN runs a program on the board NAME; the programs are target/firmware/NAME/stack and figures

Stack: the deepest of each call over all that tests/boundary.c does (stack.c). Instructions: the emulator writes a line for each, with the symbol that it
belongs to. Those of the archive count, and those of memcpy and memset that it calls; a turn is what two turns have more than one (figures.c).
"""
import os
import shlex
import subprocess
import sys
import tempfile

sys.dont_write_bytecode = True
sys.path.insert(0, os.path.join(os.path.dirname(os.path.abspath(__file__)), ".."))
import figures  # noqa: E402


def helper(symbol):
    """One of the C library's functions over memory: memcpy, memset, and what Arm calls them."""
    return symbol.startswith(("mem", "__aeabi_mem"))


def run(command):
    done = subprocess.run(command, stdin=subprocess.DEVNULL, capture_output=True, text=True)
    if done.returncode != 0:
        sys.exit(f"figures: {shlex.join(command)}: status {done.returncode}\n{done.stdout}{done.stderr}")
    return done.stdout


def with_words(command, words):
    """The command line of a board's program stands in the semihosting option, where a comma is doubled."""
    more = "".join(",arg=" + word.replace(",", ",,") for word in words)
    return [word + more if word.startswith("enable=on") else word for word in command]


def traced(command):
    """Instructions of a run, the archive's with its helpers' and the helpers' alone, and what it printed."""
    count, helped, within = 0, 0, False
    with tempfile.NamedTemporaryFile(mode="r") as out:
        said = run(command + ["-singlestep", "-d", "exec,nochain", "-D", out.name])
        for line in out:
            if line.startswith("Trace"):
                symbol = line.split("] ", 1)[-1].strip()
                within = symbol.startswith("espi_") or "::" in symbol or within and helper(symbol)
                count += within
                helped += within and helper(symbol)
    return count, helped, said


def instructions(name, command, kind):
    """Of one turn: all, and those of memcpy and memset among them."""
    program = [f"target/firmware/{name}/figures"]
    (once, help_once, said), (twice, help_twice, again) = (traced(with_words(command, ["figures", kind, times]) + program) for times in "12")
    if said.split()[:3] != again.split()[:3]:
        sys.exit(f"figures: {kind} on {name} says {said}, then {again}")
    return f"{twice - once} ({help_twice - help_once})"


def stack(name, command):
    """Bytes by call."""
    return dict(line.split()[1:] for line in run(command + [f"target/firmware/{name}/stack"]).splitlines() if line.startswith("stack "))


def main():
    boards = {name: shlex.split(command) for name, command in (word.split("=", 1) for word in sys.argv[1:])}
    print(f"{'instructions (memcpy, memset)':32}" + "".join(f" {name:>20}" for name in boards))
    for kind in figures.KINDS + figures.BOARD:
        print(f"{kind:32}" + "".join(f" {instructions(name, command, kind):>20}" for name, command in boards.items()))
    depths = {name: stack(name, command) for name, command in boards.items()}
    print(f"\n{'stack in bytes':32}" + "".join(f" {name:>20}" for name in boards))
    for call in next(iter(depths.values())):
        print(f"{call:32}" + "".join(f" {depth[call]:>20}" for depth in depths.values()))


if __name__ == "__main__":
    main()
