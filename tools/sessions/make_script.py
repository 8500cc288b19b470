#!/usr/bin/env python3
"""Makes a session runner's script of a text that a person can write.

    tools/sessions/make_script.py TEXT SCRIPT

reads TEXT and writes SCRIPT. A line is an entry: how many milliseconds to wait, and then what to send.

    0 12                  the core bytes of a packet, in hex; header, length and checksum are filled in
    0 21 FF*32            a byte that stands many times
    1500 raw 80 01 00     bytes as they stand, for a damaged packet
    10000 -               nothing: only time passes

Empty lines, and what follows a '#', say nothing. Where a line is wrong, its number and what is wrong with it are told,
and nothing is written.
"""
import re
import sys

MOST_ENTRIES = 64
MOST_BYTES = 65536
MOST_WAIT = 2**32 - 1
MOST_IN_PACKET = 2**16 - 1
FRAME = 7


class Wrong(Exception):
    """What is wrong with a line."""


def checksum(core):
    """CRC-32, bit-reversed, from 0xFFFFFFFF, not inverted at the end."""
    value = 0xFFFFFFFF
    for byte in core:
        value ^= byte
        for _ in range(8):
            value = value >> 1 ^ (0xEDB88320 if value & 1 else 0)
    return value


def framed(core):
    return b"\x80" + len(core).to_bytes(2, "little") + core + checksum(core).to_bytes(4, "little")


def wait_of(word):
    if not re.fullmatch("[0-9]{1,10}", word) or int(word) > MOST_WAIT:
        raise Wrong(f"'{word}' is not a wait, which is a number from 0 to {MOST_WAIT}")
    return int(word)


def bytes_of(words, most):
    data = bytearray()
    for word in words:
        parts = re.fullmatch(r"([0-9A-Fa-f]{2})(?:\*([1-9][0-9]{0,4}))?", word)
        if not parts:
            raise Wrong(f"'{word}' is not a byte, which is two hex digits, or with a count as in FF*32")
        data += bytes([int(parts[1], 16)]) * int(parts[2] or 1)
        if len(data) > most:
            raise Wrong(f"more than {most} bytes")
    if not data:
        raise Wrong("no bytes after the wait; a '-' sends nothing")
    return bytes(data)


def packet_of(words):
    if words == ["-"]:
        return b""
    if words[:1] == ["raw"]:
        return bytes_of(words[1:], MOST_IN_PACKET)
    return framed(bytes_of(words, MOST_IN_PACKET - FRAME))


def script_of(text):
    """The script, or a complaint that begins with the number of the line that is wrong."""
    entries, packets = b"", b""
    count = number = 0
    for number, line in enumerate(text.split("\n"), 1):
        words = line.split("#")[0].split()
        if not words:
            continue
        try:
            wait, packet = wait_of(words[0]), packet_of(words[1:])
            count += 1
            entries += wait.to_bytes(4, "little") + len(packet).to_bytes(2, "little")
            packets += packet
            if count > MOST_ENTRIES:
                raise Wrong(f"more than {MOST_ENTRIES} entries")
            if 2 + len(entries) + len(packets) > MOST_BYTES:
                raise Wrong(f"more than {MOST_BYTES} bytes in the script")
        except Wrong as wrong:
            return None, f"line {number}: {wrong}"
    if count == 0:
        return None, f"line {number}: the text ends here, and has no packet"
    return count.to_bytes(2, "little") + entries + packets, None


def main(arguments):
    if arguments in (["-h"], ["--help"]):
        print(__doc__)
        return 0
    if len(arguments) != 2:
        print(__doc__, file=sys.stderr)
        return 2
    source, target = arguments
    try:
        with open(source, encoding="utf-8-sig", errors="backslashreplace") as file:
            script, complaint = script_of(file.read())
        if complaint:
            print(f"{source}: {complaint}", file=sys.stderr)
            return 1
        with open(target, "wb") as file:
            file.write(script)
    except OSError as error:
        print(error, file=sys.stderr)
        return 1
    return 0


if __name__ == "__main__":
    sys.exit(main(sys.argv[1:]))
