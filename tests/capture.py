#!/usr/bin/env python3
"""Makes a capture from readable lines, and gives the lines of one (docs/CAPTURE.md).

    capture.py write LINES > FILE
    capture.py read FILE

LINES or FILE may be '-', standard input. One entry a line; bytes are in hex, numbers in decimal, and what stands behind a # is passed over:

    command 25 FB      the bytes of a command phase, its CRC byte included
    command 25 crc     the same: a last word crc is the CRC-8 of the bytes before it
    success 1 1D       an answer with success: its serial, then its data
    failure 1          an answer with failure: its serial
    wire 6 0 1         a wire set: index, bit, value
    platform-reset
    espi-reset
    take               a posted write taken
"""
import sys

MOST = 65536  # bytes of a file
# In the order of the kinds: the words of the lines, the least and the greatest length of a body.
WORDS = ["command", "success", "failure", "wire", "platform-reset", "espi-reset", "take"]
LENGTHS = [(0, MOST), (4, MOST), (4, 4), (3, 3), (0, 0), (0, 0), (0, 0)]


class Wrong(Exception):
    """What is wrong with a line, or with a file."""


def crc8(data):
    """Polynomial 07h, seed 00h, bit 7 first."""
    crc = 0
    for byte in data:
        crc ^= byte
        for _ in range(8):
            crc = (crc << 1 ^ 0x07) & 0xFF if crc & 0x80 else crc << 1
    return crc


# ---- from lines to a file


def number(word, most, what):
    if not (word.isascii() and word.isdigit()) or int(word) > most:
        raise Wrong(f"{what} is a decimal number from 0 to {most}, not {word!r}")
    return int(word)


def data_of(words):
    """Bytes in hex; with or without spaces between them."""
    try:
        return bytes.fromhex(" ".join(words))
    except ValueError:
        raise Wrong(f"not bytes in hex: {' '.join(words)!r}") from None


def serial_of(words):
    if not words:
        raise Wrong("an answer begins with its serial")
    return number(words[0], 2**32 - 1, "a serial").to_bytes(4, "little")


def body_of(kind, words):
    if kind == 0:
        data = data_of(words[:-1] if words[-1:] == ["crc"] else words)
        return data + bytes([crc8(data)]) if words[-1:] == ["crc"] else data
    if kind == 1:
        return serial_of(words) + data_of(words[1:])
    if kind == 2 and len(words) < 2:
        return serial_of(words)
    if kind == 3 and len(words) == 3:
        return bytes(number(word, 255, what) for word, what in zip(words, ["an index", "a bit", "a value"]))
    if kind == 3:
        raise Wrong("a wire has three numbers: index, bit, value")
    if words and kind > 1:
        raise Wrong(f"too much behind {WORDS[kind]}: {' '.join(words)!r}")
    return b""


def entries_of(lines):
    """The kind and body of each entry that the lines name."""
    entries = []
    for at, line in enumerate(lines, 1):
        words = line.split("#")[0].split()
        if not words:
            continue
        try:
            if words[0] not in WORDS:
                raise Wrong(f"no such entry: {words[0]!r}; there are {', '.join(WORDS)}")
            kind = WORDS.index(words[0])
            entries.append((kind, body_of(kind, words[1:])))
        except Wrong as wrong:
            raise Wrong(f"line {at}: {wrong}") from None
    return entries


def write(entries):
    """The file: the entry count, the contents, the bodies."""
    length = 2 + sum(3 + len(body) for _, body in entries)
    if length > MOST:
        raise Wrong(f"the file would have {length} bytes; it has at most {MOST}")
    table = b"".join(bytes([kind]) + len(body).to_bytes(2, "little") for kind, body in entries)
    return len(entries).to_bytes(2, "little") + table + b"".join(body for _, body in entries)


# ---- from a file to lines


def check(kind, body):
    if kind >= len(WORDS):
        raise Wrong(f"kind {kind} is unknown")
    least, most = LENGTHS[kind]
    if not least <= len(body) <= most:
        raise Wrong(f"{WORDS[kind]} with a body of {len(body)} bytes; it has {least}{' or more' if most == MOST else ''}")


def read(file):
    """The entries of a file."""
    if len(file) > MOST:
        raise Wrong(f"the file has more than {MOST} bytes")
    if len(file) < 2:
        raise Wrong(f"the file has {len(file)} bytes; the entry count takes two")
    count = int.from_bytes(file[:2], "little")
    at = 2 + 3 * count
    if at > len(file):
        raise Wrong(f"the contents of {count} entries end at byte {at}, the file has {len(file)}")
    rows = [(file[row], int.from_bytes(file[row + 1 : row + 3], "little")) for row in range(2, at, 3)]
    end = at + sum(length for _, length in rows)
    if end != len(file):
        raise Wrong(f"by its contents the file has {end} bytes, but it has {len(file)}")
    entries = []
    for entry, (kind, length) in enumerate(rows, 1):
        body, at = file[at : at + length], at + length
        try:
            check(kind, body)
        except Wrong as wrong:
            raise Wrong(f"entry {entry}: {wrong}") from None
        entries.append((kind, body))
    return entries


def line_of(kind, body):
    words = [WORDS[kind]]
    if kind in (1, 2):
        words.append(str(int.from_bytes(body[:4], "little")))
        body = body[4:]
    words += [str(byte) if kind == 3 else f"{byte:02X}" for byte in body]
    return " ".join(words)


# ---- the program


def opened(name):
    return sys.stdin.buffer if name == "-" else open(name, "rb")


def main(arguments):
    if len(arguments) != 2 or arguments[0] not in ("write", "read"):
        sys.exit(__doc__.strip())
    try:
        with opened(arguments[1]) as source:
            if arguments[0] == "write":
                sys.stdout.buffer.write(write(entries_of(source.read().decode().splitlines())))
            else:
                sys.stdout.write("".join(line_of(*entry) + "\n" for entry in read(source.read(MOST + 1))))
    except Wrong as wrong:
        if arguments[0] == "read":
            print("bad capture")
        sys.exit(f"{arguments[1]}: {wrong}")
    except (OSError, UnicodeDecodeError) as error:
        sys.exit(f"{arguments[1]}: {error}")


if __name__ == "__main__":
    main(sys.argv[1:])
