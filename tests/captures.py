#!/usr/bin/env python3
"""Plays the captures of tests/captures with a program, and large ones that are made here (document 02, Q-2).

    captures.py PROGRAM..       e.g. target/bin/capture, or an emulator and its arguments before it

NAME.cap is the capture, NAME.txt what must be printed for it, and NAME.lines what tests/capture.py makes it of, if it is a good one. What is printed for the
stored ones was worked out by the engine written again in Rust (tests/differential, `captures --play`); for the large ones it is worked out here.
The story in docs/CAPTURE.md is that of customer.cap.
"""
import difflib
import fcntl
import os
import re
import subprocess
import sys
import tempfile
import termios
import time
from glob import glob

import capture

HERE = os.path.dirname(os.path.abspath(__file__))
LIMIT = 30  # seconds after which a program has not ended
QUICK = 1.0  # seconds that a full file may take where the program runs without an emulator
F_SETPIPE_SZ = 1031

faults = []


def fault(text):
    faults.append(text)
    print(f"captures: {text}")


def contents(path):
    with open(path, "rb") as f:
        return f.read()


# ---- the program


def printed(program, stdin):
    """What the program prints, and the seconds that it takes. It ends by itself, with 0."""
    begin = time.monotonic()
    try:
        run = subprocess.run(program, stdin=stdin, stdout=subprocess.PIPE, timeout=LIMIT, check=True)
    except subprocess.SubprocessError as error:
        return str(error).encode(), 0
    except OSError as error:
        sys.exit(f"captures: {error}")
    return run.stdout, time.monotonic() - begin


def played(program, file):
    with tempfile.TemporaryFile() as stdin:
        stdin.write(file)
        stdin.seek(0)
        return printed(program, stdin)


def compare(name, out, expected):
    if out == expected:
        return
    one, other = (text.decode(errors="replace").splitlines() for text in (expected, out))
    diff = list(difflib.unified_diff(one, other, "expected", "printed", lineterm="", n=1)) if len(one) < 1000 else []
    fault("\n".join([f"{name} is played in another way", *diff[:20]]))


# ---- the stored captures


def stored(program):
    names = sorted(path[: -len(".cap")] for path in glob(os.path.join(HERE, "captures", "*.cap")))
    for path in names:
        name, file, expected = os.path.basename(path), contents(path + ".cap"), contents(path + ".txt")
        compare(name, played(program, file)[0], expected)
        both_ways(name, path + ".lines", file, expected)
    return len(names)


def both_ways(name, path, file, expected):
    """The lines make the file, and the file gives its lines back; a bad file has none."""
    try:
        given = [capture.line_of(*entry) for entry in capture.read(file)]
    except capture.Wrong:
        if expected != b"bad capture\n" or os.path.exists(path):
            fault(f"{name}: tests/capture.py does not read it")
        return
    if expected == b"bad capture\n":
        fault(f"{name}: tests/capture.py reads it")
    elif capture.write(capture.entries_of(given)) != file:
        fault(f"{name}: its lines, read back, are another file")
    elif capture.write(capture.entries_of(contents(path).decode().splitlines())) != file:
        fault(f"{name}: {name}.lines is another file")


def as_a_program():
    """tests/capture.py as a person calls it: what it writes, and that it says what is wrong."""
    path = os.path.join(HERE, "captures", "")

    def called(*words, **more):
        run = subprocess.run([sys.executable, os.path.join(HERE, "capture.py"), *words], capture_output=True, timeout=LIMIT, **more)
        return run.returncode, run.stdout, run.stderr.decode()

    if called("write", path + "customer.lines") != (0, contents(path + "customer.cap"), ""):
        fault("tests/capture.py write customer.lines gives another file")
    code, out, said = called("read", path + "bad-last-kind.cap")
    if (code, out) != (1, b"bad capture\n") or "entry 3: kind 7" not in said:
        fault(f"tests/capture.py read bad-last-kind.cap: {code}, {out}, {said}")
    full = "command " + "FF" * (capture.MOST - 4)
    answers = ["success", "success 4294967296", "failure x", "failure 1 2"]
    for line in ["command 2", "command crc 25", *answers, "wire 1 2", "wire 1 2 256", "wire -1 0 0", "take 1", "look", full]:
        code, out, said = called("write", "-", input=f"take # fine\n\n{line}\n".encode())
        if (code, out) != (1, b"") or ("line 3" if line != full else "65536") not in said:
            fault(f"tests/capture.py write {line[:40]!r}: {code}, {out}, {said}")


def documented():
    """The page shows customer.cap and what is printed for it."""
    path = os.path.join(HERE, "captures", "customer")
    page = contents(os.path.join(HERE, "..", "docs", "CAPTURE.md")).decode()
    shown = re.findall(r"^    ((?:command|success).*\S)  +(\d+ \d+ \S+)$", page, re.MULTILINE)
    story = [capture.line_of(*entry) for entry in capture.read(contents(path + ".cap"))]
    if shown != list(zip(story, contents(path + ".txt").decode().splitlines())):
        fault("docs/CAPTURE.md shows another story than tests/captures/customer")


# ---- large ones


def table(entries):
    """A file of these entries, even if it is too long."""
    rows = b"".join(bytes([kind]) + len(body).to_bytes(2, "little") for kind, body in entries)
    return len(entries).to_bytes(2, "little") + rows + b"".join(body for _, body in entries)


def lines(replies):
    return "".join(f"{entry} {number} {reply}\n" for entry, (number, reply) in enumerate(replies, 1)).encode()


def with_crc(*data):
    return bytes(data) + bytes([capture.crc8(data)])


def long_reads():
    """Reads of 4,096 bytes in pieces of 256, as many as fit: the longest replies that there are."""
    entries = [(0, with_crc(0x22, 0x00, 0x10, 0x01, 0x73, 0x00, 0x00))]  # 010h: payload size 256, read size 4,096
    replies = [(0, "0807003A")]
    for serial in range(1, 16):
        data = bytes((serial + at * 7) % 256 for at in range(4096))
        entries += [(0, with_crc(0x02, 0x00, serial % 16 << 4, 0x00, 0x00, 0x00, 0x10, 0x00)), (1, serial.to_bytes(4, "little") + data)]
        entries += [(0, with_crc(0x01))] * 16
        replies += [(0, "0105002A"), (0, "-")]
        for piece in range(16):
            mark, status = {0: (0x0B, 0x15), 15: (0x0D, 0x07)}.get(piece, (0x09, 0x15))
            reply = with_crc(0x08, mark, serial % 16 << 4 | 1, 0x00, *data[256 * piece : 256 * piece + 256], status, 0x00)
            replies.append((0, reply.hex().upper()))
    return table(entries), lines(replies)


def large():
    """Name, file, what is printed."""
    reset = b"\xff" * (capture.MOST - 5)
    yield "65,536 bytes", table([(0, reset)]), b"1 0 -\n"
    yield "65,537 bytes", table([(0, reset + b"\xff")]), b"bad capture\n"
    yield "65,536 bytes and one more", table([(0, reset)]) + b"\x00", b"bad capture\n"
    yield "21,844 eSPI resets", table([(5, b"")] * 21844), lines([(0, "-")] * 21844)
    yield "21,844 takes", table([(6, b"")] * 21844), lines([(23, "-")] * 21844)
    yield "13,106 GET_STATUS", table([(0, b"\x25\xfb")] * 13106), lines([(0, "0807003A")] * 13106)
    yield "an answer of 65,527 bytes", table([(1, bytes(65531))]), b"1 20 -\n"
    yield "15 reads of 4,096 bytes", *long_reads()


def play_large(program):
    slowest = (0, "")
    for name, file, expected in large():
        out, seconds = played(program, file)
        compare(name, out, expected)
        slowest = max(slowest, (seconds, f"{name}: {len(file)} bytes, {len(expected)} printed"))
    print(f"captures: the slowest large file takes {slowest[0]:.2f} s ({slowest[1]})")
    if len(program) == 1 and slowest[0] > QUICK:
        fault(f"a full file takes more than {QUICK} s")


# ---- standard input


def in_pieces(program):
    """A pipe that gives a few bytes at a time."""
    path = os.path.join(HERE, "captures", "customer")
    file = contents(path + ".cap")
    with subprocess.Popen(program, stdin=subprocess.PIPE, stdout=subprocess.PIPE, bufsize=0) as run:
        try:
            for at in range(0, len(file), 7):
                run.stdin.write(file[at : at + 7])
                time.sleep(0.002)
        except BrokenPipeError:
            fault("customer in pieces of 7 bytes: the program ends before it has read them")
        out, _ = run.communicate(timeout=LIMIT)
    compare("customer in pieces of 7 bytes", out, contents(path + ".txt"))


def without_end(program):
    """A pipe that stays open: the program asks for one byte past the greatest length, and for no more."""
    given = 70000
    reading, writing = os.pipe()
    fcntl.fcntl(writing, F_SETPIPE_SZ, 1 << 17)
    os.write(writing, bytes(given))
    compare("a pipe without an end", printed(program, reading)[0], b"bad capture\n")
    left = int.from_bytes(fcntl.ioctl(reading, termios.FIONREAD, bytes(4)), sys.byteorder)
    if given - left != capture.MOST + 1:
        fault(f"of a pipe without an end {given - left} bytes are read, not {capture.MOST + 1}")
    os.close(reading)
    os.close(writing)


def main(program):
    if not program:
        sys.exit(__doc__.strip())
    count = stored(program)
    as_a_program()
    documented()
    play_large(program)
    in_pieces(program)
    without_end(program)
    if faults:
        sys.exit(f"captures: {len(faults)} faults")
    print(f"captures: {count} stored captures and the large ones are played as they should be")


if __name__ == "__main__":
    main(sys.argv[1:])
