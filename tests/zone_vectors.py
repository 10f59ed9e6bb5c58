#!/usr/bin/env python3
"""What crates/zone_vectors must print: `python3 tests/zone_vectors.py > crates/zone_vectors/stdout`.

Reads only the calls' numbers from crates/zone_vectors/src/main.rt and finds the answers anew from 01, "Zone table and UTC",
with Python's unbounded integers. It shares nothing with the proved code."""
import pathlib
import re

SOURCE = pathlib.Path(__file__).parent.parent / "crates/zone_vectors/src/main.rt"
DAY = 86400


def marks(initial, instants, offsets):
    before = [initial] + offsets
    return [t + max(before[k], offsets[k]) for k, t in enumerate(instants)]


def rises(numbers):
    return all(a < b for a, b in zip(numbers, numbers[1:]))


def valid(initial, instants, offsets):
    if len(instants) != len(offsets) or len(instants) > 1024:
        return False
    if any(abs(t) > 2 ** 40 for t in instants) or not rises(instants):
        return False
    if any(abs(o) >= DAY for o in offsets + [initial]):
        return False
    return rises(marks(initial, instants, offsets))


def offset(initial, instants, offsets, local):
    reached = [o for m, o in zip(marks(initial, instants, offsets), offsets) if m <= local]
    return reached[-1] if reached else initial


def listed(numbers):
    return f"{len(numbers)} entries" if len(numbers) > 3 else "[" + " ".join(map(str, numbers)) + "]"


def show(initial, instants, offsets, local):
    line = f"{initial} {listed(instants)} {listed(offsets)} at {local}: "
    if not valid(initial, instants, offsets):
        print(line + "not valid")
        return
    found = offset(initial, instants, offsets, local)
    utc = f"UTC {local - found}" if abs(local) <= 2 ** 62 else "no UTC"
    print(line + f"offset {found}, {utc}")


def main():
    many = [(DAY * k, 3600 * (k % 2)) for k in range(1025)]
    text, number = SOURCE.read_text(encoding="utf-8"), r"(-?\d+)"
    # A literal array of a call may be written over several lines.
    text = re.sub(r"\s+", " ", text).replace("( ", "(").replace("[ ", "[").replace(", )", ")").replace(", ]", "]")
    listing = r"&\[((?:-?\d+(?:, )?)*)\]"
    calls = re.findall(rf" (?:show\(rt, {number}, {listing}, {listing}, {number}\)|many\(rt, {number}, {number}\))", text)
    if len(calls) != len(re.findall(r" (?:show\(rt, -?\d+, &\[|many\(rt, -?\d)", text)):
        raise SystemExit("zone_vectors.py: a call in the program's source is not read")
    for initial, instants, offsets, local, count, late in calls:
        if count:
            show(0, [t for t, _ in many[:int(count)]], [o for _, o in many[:int(count)]], int(late))
        else:
            show(int(initial), *[[int(it) for it in part.split(", ") if it] for part in (instants, offsets)], int(local))


main()
