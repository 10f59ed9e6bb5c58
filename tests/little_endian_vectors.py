#!/usr/bin/env python3
"""What crates/little_endian_vectors must print: `python3 tests/little_endian_vectors.py > crates/little_endian_vectors/stdout`.

Reads only the calls' numbers from the program's source; the bytes are those of Python's own int.to_bytes."""
import pathlib
import re

SOURCE = pathlib.Path(__file__).parent.parent / "crates/little_endian_vectors/src/main.rt"


def main():
    text = SOURCE.read_text(encoding="utf-8")
    calls = re.findall(r"^    show\(rt, \|buf\| put_([ui])(\d+)\(buf, (\d+), (-?\d+)\)\)", text, re.M)
    if len(calls) != len(re.findall(r"^    show\(", text, re.M)):
        raise SystemExit("little_endian_vectors.py: a call in the program's source is not read")
    for kind, bits, at, value in calls:
        before = bytes(range(160, 172))
        number = int(value).to_bytes(int(bits) // 8, "little", signed=kind == "i")
        after = before[:int(at)] + number + before[int(at) + len(number):]
        print(before.hex(), "->", after.hex())


main()
