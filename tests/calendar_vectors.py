#!/usr/bin/env python3
"""What crates/calendar_vectors must print: `python3 tests/calendar_vectors.py > crates/calendar_vectors/stdout`.

Reads only the calls and their numbers from crates/calendar_vectors/src/main.rt and finds the answers anew with Python's own calendar."""
import pathlib
import re
from datetime import date, datetime, timedelta

FIRST = date(1600, 1, 1)
LAST_DAY = (date(9999, 12, 31) - FIRST).days
NAMES = ["mo", "tu", "we", "th", "fr", "sa", "su"]
EPOCH = datetime(1970, 1, 1)


def show_date(y, m, d):
    head = f"{y:04d}-{m:02d}-{d:02d}: "
    try:
        day = date(y, m, d)
    except (ValueError, OverflowError):
        return head + "no date"
    if day < FIRST:
        return head + "no date"
    return head + f"day {(day - FIRST).days} {NAMES[day.weekday()]}"


def show_day(n):
    if n > LAST_DAY:
        return f"day {n}: none"
    return f"day {n}: {(FIRST + timedelta(days=n)).isoformat()}"


def show_seconds(t):
    if t < -11676096000:
        return f"{t}: before 1600"
    if t > 253402300799:
        return f"{t}: after 9999"
    return f"{t}: {(EPOCH + timedelta(seconds=t)).isoformat()}"


def show_moment(n, second):
    head = f"day {n} second {second}: "
    if n > LAST_DAY or second > 86399:
        return head + "none"
    t = datetime(1600, 1, 1) + timedelta(days=n, seconds=second)
    return head + str((t - EPOCH) // timedelta(seconds=1))


def month_length(y, m):
    if not 1 <= m <= 12:
        return 0
    after = date(y + m // 12, m % 12 + 1, 1)
    return (after - date(y, m, 1)).days


def show_month_day(y, m, z):
    n = month_length(y, m)
    days = list(range(1, n + 1))
    found = 0
    if 1 <= z <= n:
        found = days[z - 1]
    elif -n <= z <= -1:
        found = days[z]
    return f"{z} of {y:04d}-{m:02d}: {found}"


def sweep():
    total = 0
    day = FIRST
    for n in range(LAST_DAY + 1):
        day = FIRST + timedelta(days=n)
        total = (total * 8191 + day.year * 372 + day.month * 31 + day.day * 7 + day.weekday()) % 1000003
    return f"days that come back: {LAST_DAY + 1}, checksum {total}"


# The cases themselves stand in the program, once.
CASE = re.compile(r"^    (show_\w+)\(rt, (.*)\)(?:\?;)?$")


def main(source):
    body = {}
    order = []
    name = None
    for line in open(source, encoding="utf-8"):
        if line.startswith("fn "):
            name = line[3:line.index("(")]
            body[name] = []
        elif line.startswith("    ") and name is not None:
            body[name].append(line.rstrip("\n"))
    for line in body["main"]:
        called = line.strip().split("(")[0]
        order.append(called)
    for called in order:
        if called == "sweep":
            print(sweep())
            continue
        for line in body[called]:
            if line == "    Ok(())":
                continue
            found = CASE.match(line)
            args = [int(a) for a in found.group(2).split(",")]
            print(globals()[found.group(1)](*args))


main(pathlib.Path(__file__).parent.parent / "crates/calendar_vectors/src/main.rt")
