#!/usr/bin/env python3
"""What crates/event_vectors must print: `python3 tests/event_vectors.py > crates/event_vectors/stdout`.

Its texts, parted by byte 0x1E: `python3 tests/event_vectors.py texts > crates/event_vectors/stdin`. Every text is JSON with good names, so the answers
are 0, 5, 20 to 26, and 7 to 9. They, the places of 20 to 26, and what is read of an accepted event are found here from document 01, "Reading the
event" and "Rules of recurrence", and from request 4, with Python's datetime, regular expressions and unbounded integers; nothing is shared with the
proved code. Where a case marks the place, or names the number, they are compared first."""
import datetime
import re
import sys
from typing import NamedTuple

# ---- JSON, with the place of every value and name, and the raw text between the quotes of every string

TOKEN = re.compile(r'[ \t\n\r]*("(?:[^"\\]|\\.)*"|-?[0-9][0-9.eE+-]*|true|false|null|[][{},:])')


class Raw(str):
    """A string as it is written, escapes kept."""


class Number(str):
    """A number as it is written."""


class Name(str):
    """A member's name as it is written, and the place of its opening quote."""
    def __new__(cls, text, place):
        made = super().__new__(cls, text)
        made.place = place
        return made


class Node(NamedTuple):
    """A value, and the place at which it begins."""
    place: int
    value: object


def bytewise(text):
    """A character for each byte, so that a place in it is a byte's."""
    return text.encode().decode('latin-1')


def parse(text, at=0):
    """The value from a place on, and the place after it."""
    found = TOKEN.match(text, at)
    token, place, at = found[1], found.start(1), found.end()
    if token == '[':
        items = []
        if TOKEN.match(text, at)[1] == ']':
            return Node(place, items), TOKEN.match(text, at).end()
        while True:
            item, at = parse(text, at)
            items.append(item)
            found = TOKEN.match(text, at)
            at = found.end()
            if found[1] == ']':
                return Node(place, items), at
    if token == '{':
        members = {}
        if TOKEN.match(text, at)[1] == '}':
            return Node(place, members), TOKEN.match(text, at).end()
        while True:
            name, at = parse(text, at)
            value, at = parse(text, TOKEN.match(text, at).end())
            members[Name(name.value, name.place)] = value
            found = TOKEN.match(text, at)
            at = found.end()
            if found[1] == '}':
                return Node(place, members), at
    if token[0] == '"':
        return Node(place, Raw(token[1:-1])), at
    if token in ('true', 'false', 'null'):
        return Node(place, {'true': True, 'false': False, 'null': None}[token]), at
    return Node(place, Number(token)), at


# ---- values

# Request 4: "Split 6: wrong JSON type 20, bad date or time 21, bad duration 22, number out of range or with a fraction or exponent 23, unknown word in a
# closed list (`@type` and `byMonth` too) 24, empty list 25, anything else 26, which a wrong backslash always is."
TYPE, DATE, LENGTH, RANGE, WORD, EMPTY, OTHER = range(20, 27)


class Wrong(Exception):
    def __init__(self, number):
        self.number = number


STAMP = r'([0-9]{4})-([0-9]{2})-([0-9]{2})T([0-9]{2}):([0-9]{2}):([0-9]{2})'
LEGAL = re.compile(r'[0-9]*[1-9]')
EPOCH = datetime.datetime(1600, 1, 1)
DAYS = ['mo', 'tu', 'we', 'th', 'fr', 'sa', 'su']


def check(right, number):
    if not right:
        raise Wrong(number)


def word(value):
    check(isinstance(value, Raw), TYPE)
    check('\\' not in value, OTHER)
    return str(value)


def integer(value):
    check(isinstance(value, Number), TYPE)
    check(re.fullmatch(r'-?(0|[1-9][0-9]*)', value) and abs(int(value)) < 2 ** 53, RANGE)
    return int(value)


def local(text, last=9998):
    found = re.fullmatch(STAMP + r'(?:(\.[0-9]*))?', text)
    check(found, DATE)
    try:
        when = datetime.datetime(*map(int, found.groups()[:6]))
    except ValueError:
        raise Wrong(DATE)
    check(1601 <= when.year <= last, DATE)
    if found[7] is not None:
        raise Wrong(8 if LEGAL.fullmatch(found[7][1:]) else DATE)
    since = when - EPOCH
    return since.days * 86400 + since.seconds


def read_start(value):
    return local(word(value))


def read_until(value):
    return local(word(value), 9999)


def read_updated(value):
    found = re.fullmatch(STAMP + r'(?:\.([0-9]*))?Z', word(value))
    check(found and (found[7] is None or LEGAL.fullmatch(found[7])), DATE)
    parts = list(map(int, found.groups()[:6]))
    parts[0] += 2000 if parts[0] < 2000 else 0
    try:
        datetime.datetime(*parts)
    except ValueError:
        raise Wrong(DATE)


def read_uid(value):
    check(word(value) != '', OTHER)


def read_zone(value):
    if value is None:
        return None
    check(word(value) != '', OTHER)
    return word(value)


# Source document 004: "P" (dur-date / dur-time / dur-week), with weeks and days together, and hours, minutes and seconds that leave no gap.
SECOND = r'(?:([0-9]+)(?:\.([0-9]+))?S)'
MINUTE = rf'(?:([0-9]+)M{SECOND}?)'
HOUR = rf'(?:([0-9]+)H{MINUTE}?)'
SECOND2, MINUTE2 = SECOND, rf'(?:([0-9]+)M{SECOND}?)'
DURATION = re.compile(rf'P(?:([0-9]+)W)?(?:([0-9]+)D)?(?:T(?:{HOUR}|{MINUTE2}|{SECOND2}))?', re.I)


def read_length(value):
    text = word(value)
    found = DURATION.fullmatch(text)
    check(found and len(text) > 1, LENGTH)
    week, day, h1, m1, s1, f1, m2, s2, f2, s3, f3 = found.groups()
    number = lambda *parts: sum(int(p) for p in parts if p is not None)
    days = 7 * number(week) + number(day)
    seconds = 3600 * number(h1) + 60 * number(m1, m2) + number(s1, s2, s3)
    check(86400 * days + seconds <= 366 * 86400, LENGTH)
    fraction = f1 or f2 or f3
    if fraction is not None:
        check(86400 * days + seconds < 366 * 86400 and LEGAL.fullmatch(fraction), LENGTH)
        raise Wrong(8)
    return days, seconds


def read_busy(value):
    check(word(value) in ('free', 'busy'), WORD)
    return word(value) == 'busy'


def read_boolean(value):
    check(isinstance(value, bool), TYPE)
    return value


def read_privacy(value):
    return {'public': 0, 'private': 1, 'secret': 2}.get(word(value), 1)


def read_text(value):
    check(isinstance(value, Raw), TYPE)
    return str(value)


# ---- every part is read, and all faults are kept; one of them decides

class Reader:
    def __init__(self):
        self.faults = []

    def fault(self, number, place=0):
        """7 to 9 carry no place."""
        self.faults.append((number, place))

    def first(self):
        """"The order against the other numbers is that of 6", "The earliest place decides, then the lowest number"."""
        return min(self.faults, key=lambda f: (6 if f[0] >= TYPE else f[0], f[1], f[0]), default=(0, 0))

    def read(self, reader, node, default=None):
        try:
            return reader(node.value)
        except Wrong as wrong:
            self.fault(wrong.number, node.place if wrong.number >= TYPE else 0)
            return default

    def optional(self, members, name, reader, default):
        return self.read(reader, members[name], default) if name in members else default

    def required(self, node, name, reader):
        """"a missing member counts at its object\""""
        if name not in node.value:
            self.fault(OTHER, node.place)
            return None
        return self.read(reader, node.value[name])

    def holds(self, node, kind):
        """Is it an array, or an object?"""
        if not isinstance(node.value, kind):
            self.fault(TYPE, node.place)
        return isinstance(node.value, kind)


def exactly(name):
    def reader(value):
        check(word(value) == name, WORD)
    return reader


def read_frequency(value):
    if word(value) in ('hourly', 'minutely', 'secondly'):
        raise Wrong(8)
    check(word(value) in ('daily', 'weekly', 'monthly', 'yearly'), WORD)
    return word(value)


def read_count(value):
    check(integer(value) >= 1, RANGE)
    return integer(value)


def read_weekday(value):
    check(word(value) in DAYS, WORD)
    return DAYS.index(word(value))


def signed(most):
    def reader(value):
        check(1 <= abs(integer(value)) <= most, RANGE)
        return integer(value)
    return reader


def read_month(value):
    text = word(value)
    bare = text[:-1] if text.endswith('L') else text
    check(re.fullmatch(r'[1-9]|1[0-2]', bare), WORD)
    if bare != text:
        raise Wrong(8)
    return int(bare)


def read_scale(value):
    check(word(value) == 'gregorian', 8)


def read_skip(value):
    if word(value) in ('forward', 'backward'):
        raise Wrong(8)
    check(word(value) == 'omit', WORD)


def read_nday(reader, node):
    """The weekday, and its place in the period or 0."""
    if not reader.holds(node, dict):
        return 0, 0
    reader.required(node, '@type', exactly('NDay'))
    day = reader.required(node, 'day', read_weekday)
    return day, reader.optional(node.value, 'nthOfPeriod', signed(53), 0)


def by_list(reader, rule, name, entry):
    if name not in rule or not reader.holds(rule[name], list):
        return []
    if not rule[name].value:
        reader.fault(EMPTY, rule[name].place)
    if len(rule[name].value) > 64:
        reader.fault(9)
    return [entry(node) for node in rule[name].value]


def read_rule(reader, node):
    if not reader.holds(node, dict):
        return None
    rule = node.value
    reader.required(node, '@type', exactly('RecurrenceRule'))
    frequency = reader.required(node, 'frequency', read_frequency)
    days = by_list(reader, rule, 'byDay', lambda entry: read_nday(reader, entry))
    if frequency in ('daily', 'weekly') and any(nth != 0 for _, nth in days):
        reader.fault(7)
    for name in ('byYearDay', 'byWeekNo', 'byHour', 'byMinute', 'bySecond'):
        if name in rule:
            reader.fault(8)
    reader.optional(rule, 'rscale', read_scale, None)
    reader.optional(rule, 'skip', read_skip, None)
    if 'count' in rule and 'until' in rule:
        reader.fault(7)
    return dict(
        frequency=frequency,
        interval=reader.optional(rule, 'interval', read_count, 1),
        first=reader.optional(rule, 'firstDayOfWeek', read_weekday, 0),
        days=days,
        dates=by_list(reader, rule, 'byMonthDay', lambda entry: reader.read(signed(31), entry)),
        months=by_list(reader, rule, 'byMonth', lambda entry: reader.read(read_month, entry)),
        positions=by_list(reader, rule, 'bySetPosition', lambda entry: reader.read(signed(366), entry)),
        until=reader.optional(rule, 'until', read_until, None),
        count=reader.optional(rule, 'count', read_count, None))


def read_rules(reader, event, name):
    if name not in event or not reader.holds(event[name], list):
        return []
    if len(event[name].value) > 8:
        reader.fault(9)
    return [read_rule(reader, rule) for rule in event[name].value]


def read_override(reader, own, name, node):
    """"an override name being a value too\""""
    date = reader.read(local, Node(name.place, name))
    if not reader.holds(node, dict):
        return None
    patch = node.value
    if any(n == 'timeZone' or '/' in n or '~' in n for n in patch):
        reader.fault(8)

    def patched(name, read, default, mine):
        if name not in patch:
            return mine
        return default if patch[name].value is None else reader.read(read, patch[name])

    excluded = patched('excluded', read_boolean, False, False)
    if excluded and len(patch) > 1:
        reader.fault(7)
    return dict(
        date=date, excluded=excluded,
        start=reader.optional(patch, 'start', read_start, date),
        length=patched('duration', read_length, (0, 0), own['length']),
        busy=patched('freeBusyStatus', read_busy, True, own['busy']),
        allday=patched('showWithoutTime', read_boolean, False, own['allday']),
        title=patched('title', read_text, None, own['title']),
        description=patched('description', read_text, None, own['description']))


def is_event(value):
    """An object whose `@type`, compared byte by byte, is `Event`, with the members that must be there."""
    return isinstance(value, dict) and {'@type', 'uid', 'updated', 'start'} <= value.keys() \
        and isinstance(value['@type'].value, Raw) and value['@type'].value == 'Event'


def read_event(text):
    """The answer, its place, and what was read where it is 0. Of a JSON text with good names."""
    event = parse(bytewise(text))[0].value
    if not is_event(event):
        return 5, 0, None
    reader = Reader()
    reader.read(read_uid, event['uid'])
    reader.read(read_updated, event['updated'])
    own = dict(
        start=reader.read(read_start, event['start']),
        length=reader.optional(event, 'duration', read_length, (0, 0)),
        busy=reader.optional(event, 'freeBusyStatus', read_busy, True),
        allday=reader.optional(event, 'showWithoutTime', read_boolean, False),
        title=reader.optional(event, 'title', read_text, None),
        description=reader.optional(event, 'description', read_text, None),
        zone=reader.optional(event, 'timeZone', read_zone, None),
        privacy=reader.optional(event, 'privacy', read_privacy, 0),
        rules=read_rules(reader, event, 'recurrenceRules'),
        excluded=read_rules(reader, event, 'excludedRecurrenceRules'),
        overrides=[])
    if 'recurrenceId' in event:
        reader.fault(8)
    if 'recurrenceOverrides' in event and reader.holds(event['recurrenceOverrides'], dict):
        overrides = event['recurrenceOverrides'].value
        if len(overrides) > 256:
            reader.fault(9)
        own['overrides'] = [read_override(reader, own, name, patch) for name, patch in overrides.items()]
    return *reader.first(), own


# ---- what the program prints

def text_line(text):
    return '-' if text is None else '"' + text + '"'


def details(d):
    return f"start {d['start']} days {d['length'][0]} seconds {d['length'][1]} busy {int(d['busy'])} allday {int(d['allday'])}" \
        f" title {text_line(d['title'])} description {text_line(d['description'])}"


def rule_line(kind, r):
    rates = ['daily', 'weekly', 'monthly', 'yearly']
    end = f"until {r['until']}" if r['until'] is not None else f"count {r['count']}" if r['count'] is not None else 'never'
    listed = lambda name, l: f" {name}" + ''.join(f' {v}' for v in l)
    return (f"{kind} {rates.index(r['frequency'])} interval {r['interval']} first {r['first']}" + listed('days', [f'{d}:{n}' for d, n in r['days']])
            + listed('dates', r['dates']) + listed('months', r['months']) + listed('positions', r['positions']) + f' {end}')


def lines(text):
    answer, place, event = read_event(text)
    yield f'{answer} {place}'
    if answer:
        return
    yield f"event privacy {event['privacy']} zone {text_line(event['zone'])} {details(event)}"
    for kind, name in (('rule', 'rules'), ('excluded', 'excluded')):
        for r in event[name]:
            yield rule_line(kind, r)
    for o in event['overrides']:
        yield f"override {o['date']} excluded {int(o['excluded'])} {details(o)}"


BLOCK = 262144


def blocks(texts):
    """The texts, each with its mark after it; where one would go over the end of a block of the input, spaces fill the block."""
    written = 0
    for text in texts:
        data = text.encode()
        room = BLOCK - written % BLOCK
        if len(data) >= room:
            yield b' ' * room
            written += room
        yield data + b'\x1e'
        written += len(data) + 1


def compare():
    for number, place, text in marked():
        if read_event(text)[:2] != (number, place):
            sys.exit(f'{number} at {place} was found by hand: {text}')
    for number, text in alone():
        if read_event(text)[0] != number:
            sys.exit(f'{number} was found by hand: {text}')


if __name__ == '__main__':
    from event_cases import alone, cases, marked
    compare()
    if sys.argv[1:] == ['texts']:
        sys.stdout.buffer.write(b''.join(blocks(cases())))
    else:
        sys.stdout.buffer.write(''.join(line + '\n' for text in cases() for line in lines(text)).encode('latin-1'))
