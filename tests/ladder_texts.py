#!/usr/bin/env python3
"""tests/ladder_texts.py OUT: for each input, tests/ladder.d/NAME.hex or profiles/NAME.hex, the bytes as OUT/NAME.in and, as
OUT/NAME.out, the text that the ladder program must print for them, worked out from the rules alone.

Where a text is stored beside its input the two must agree. Those in tests/ladder.d were written by hand, from the rules' text
for A, their numbers P6 to P10 and their table of refusals; that of 4,096 rows is too long to store.
"""
import pathlib
import sys

from rules import listing

TOP = pathlib.Path(__file__).parent.parent
sys.path.append(str(TOP / "tools"))
from hexadecimal import read_hex


def main():
    out = pathlib.Path(sys.argv[1])
    for folder, stored in ((TOP / "tests/ladder.d", ".out"), (TOP / "profiles", ".listing")):
        for path in sorted(folder.glob("*.hex")):
            data = read_hex(path)
            text = listing(data).encode()
            right = path.with_suffix(stored)
            if right.exists() and right.read_bytes() != text:
                sys.exit(f"{right} is not what the rules give for {path}")
            if not right.exists() and path.name != "rows_4096.hex":
                sys.exit(f"{path} has no stored text")
            (out / path.with_suffix(".in").name).write_bytes(data)
            (out / path.with_suffix(".out").name).write_bytes(text)


main()
