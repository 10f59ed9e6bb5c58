"""When an occurrence starts and ends in UTC, for tests/call_vectors.py: 01, "Zone table and UTC", and source document 004, "Duration"."""
import re
from typing import NamedTuple


class Zone(NamedTuple):
    name: str
    initial: int
    # an instant and the offset from then on
    entries: list

    def offset(self, local):
        """"The offset for a local time is that after the last transition whose mark is at or before it, else the initial one.\""""
        before, found = self.initial, self.initial
        for instant, after in self.entries:
            if instant + max(before, after) <= local:
                found = after
            before = after
        return found

    def utc(self, local):
        return local - self.offset(local)


# The zone tables of crates/call_vectors, by their numbers.
ZONES = [
    Zone('America/New_York', -14400, [(1604210400, -18000), (1615705200, -14400)]),
    Zone('Europe/London', 3600, [(1603587600, 0), (1616893200, 3600)]),
    Zone('Australia/Lord_Howe', 39600, [(1617462000, 37800), (1633188600, 39600)]),
    # 30 December 2011 was left out
    Zone('Pacific/Apia', -36000, [(1325239200, 50400), (1333202400, 46800)]),
    # made up: from the lowest offset to the highest, and back
    Zone('Example/Widest', -86399, [(1622505600, 86399), (1625097600, -86399)]),
]

# "floating uses 0 and the name is not compared"
FLOATING = Zone(None, 0, [])


def duration(text):
    """The days and the seconds of a duration. "A week is always the same as seven days.\""""
    weeks, days, hours, minutes, seconds = (int(n or 0) for n in re.fullmatch(r'P(?:(\d+)W)?(?:(\d+)D)?(?:T(?:(\d+)H)?(?:(\d+)M)?(?:(\d+)S)?)?', text).groups())
    return weeks * 7 + days, (hours * 60 + minutes) * 60 + seconds


def end(zone, local, length):
    """"add weeks and days to the local start, convert to UTC, add the hours, minutes and seconds as absolute time". Only seconds are counted, since
    Python's datetime ends with 9999, and an event may not."""
    days, seconds = duration(length)
    return zone.utc(local + 86400 * days) + seconds
