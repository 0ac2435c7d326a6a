#!/usr/bin/env python3
"""tools/hexadecimal.py FILE: the bytes that stand in FILE in hexadecimal, as they are.

# begins a comment, and * N after the bytes of a line has them N times.
"""
import pathlib
import sys


def read_hex(path):
    data = b""
    for line in pathlib.Path(path).read_text().splitlines():
        digits, _, times = line.partition("#")[0].partition("*")
        data += bytes.fromhex(digits) * int(times or 1)
    return data


if __name__ == "__main__":
    sys.stdout.buffer.write(read_hex(sys.argv[1]))
