#!/usr/bin/env python3
"""What crates/values_vectors must print: `python3 tests/values_vectors.py > crates/values_vectors/stdout`.

Reads the cases from crates/values_vectors/stdin and finds the answers anew from 01, "Reading the event", and request 4's numbers, with regular
expressions, Python's datetime and unbounded integers. It shares nothing with the proved code."""
import datetime
import pathlib
import re

CASES = pathlib.Path(__file__).parent.parent / "crates/values_vectors/stdin"
DAY = 86400
STAMP = r"([0-9]{4})-([0-9]{2})-([0-9]{2})T([0-9]{2}):([0-9]{2}):([0-9]{2})"
LEGAL = re.compile(r"[0-9]*[1-9]")


def moment(parts):
    """The date-time of six numbers, with 400 years added so that the year 0 has one, too; None where there is none."""
    year, month, day, hour, minute, second = map(int, parts)
    try:
        return datetime.datetime(year + 400 if year < 400 else year, month, day, hour, minute, second)
    except ValueError:
        return None


def local(text, last):
    found = re.fullmatch(STAMP + r"(?:\.([0-9]*))?", text)
    if not found:
        return "fault 21"
    when = moment(found.groups()[:6])
    if when is None or not 1601 <= int(found[1]) <= last:
        return "fault 21"
    if found[7] is not None:
        return "fault 8" if LEGAL.fullmatch(found[7]) else "fault 21"
    since = when - datetime.datetime(1600, 1, 1)
    return str(since.days * DAY + since.seconds)


def utc(text):
    found = re.fullmatch(STAMP + r"(?:\.([0-9]*))?Z", text)
    right = found and moment(found.groups()[:6]) and (found[7] is None or LEGAL.fullmatch(found[7]))
    return "1" if right else "0"


TIME = r"(?:T(?:(?P<h1>[0-9]+)H(?:(?P<m1>[0-9]+)M(?:(?P<s1>[0-9]+)(?:\.(?P<f1>[0-9]+))?S)?)?" \
    r"|(?P<m2>[0-9]+)M(?:(?P<s2>[0-9]+)(?:\.(?P<f2>[0-9]+))?S)?|(?P<s3>[0-9]+)(?:\.(?P<f3>[0-9]+))?S))"
DURATION = re.compile(r"P(?:(?:(?P<w>[0-9]+)W)?(?:(?P<d>[0-9]+)D)?)" + TIME + "?", re.IGNORECASE)


def span(text):
    found = DURATION.fullmatch(text)
    if not found or len(text) == 1:
        return "fault 22"

    def of(*names):
        return next((found[name] for name in names if found[name] is not None), None)

    def amount(*names):
        return int(of(*names) or 0)

    days = 7 * amount("w") + amount("d")
    seconds = 3600 * amount("h1") + 60 * amount("m1", "m2") + amount("s1", "s2", "s3")
    fraction = of("f1", "f2", "f3")
    total = DAY * days + seconds
    if fraction is not None:
        return "fault 8" if LEGAL.fullmatch(fraction) and total < 366 * DAY else "fault 22"
    return "fault 22" if total > 366 * DAY else f"{days} days {seconds}"


def among(names, text, first=0):
    return str(names.index(text) + first) if text in names else None


MONTHS = [str(k) for k in range(1, 13)]


def month(text):
    return among(MONTHS, text, 1) or ("fault 8" if text[-1:] == "L" and text[:-1] in MONTHS else "fault 24")


def join(text):
    """Request 4: "The order against the other numbers is that of 6", "The earliest place decides, then the lowest number". A fault is written with
    two digits for its number, 00 for none, and one for its place, which only 20 to 26 carry."""
    faults = [(int(part[:2]), int(part[2])) for part in text.split() if part[:2] != "00"]
    number, place = min(faults, key=lambda f: (6 if f[0] >= 20 else f[0], f[1], f[0]), default=(0, 0))
    return f"fault {number} at {place if number >= 20 else 0}"


READERS = {
    "s": lambda t: local(t, 9998),
    "u": lambda t: local(t, 9999),
    "z": utc,
    "d": span,
    "j": join,
    "b": lambda t: among(["free", "busy"], t) or "fault 24",
    "p": lambda t: among(["public", "private", "secret"], t) or "1",
    "E": lambda t: str(int(t == "Event")),
    "R": lambda t: str(int(t == "RecurrenceRule")),
    "N": lambda t: str(int(t == "NDay")),
    "f": lambda t: among(["daily", "weekly", "monthly", "yearly"], t, 1) or ("fault 8" if t in ("hourly", "minutely", "secondly") else "fault 24"),
    "w": lambda t: among(["mo", "tu", "we", "th", "fr", "sa", "su"], t) or "fault 24",
    "m": month,
    "k": lambda t: "fault 0" if t == "omit" else "fault 8" if t in ("forward", "backward") else "fault 24",
    "r": lambda t: "fault 0" if t == "gregorian" else "fault 8",
}


def main():
    for line in CASES.read_text().split("\n"):
        if len(line) >= 2:
            print(f"{line} -> {READERS[line[0]](line[2:])}")


main()
