"""The cases of crates/call_vectors: events with windows and buffers, and what their documents print of them where they do."""
import datetime
import json
from typing import NamedTuple

from call_times import ZONES
from event_cases import marked


class Case(NamedTuple):
    event: dict
    window: tuple
    room: int = 8192
    # the number of the zone table
    zone: int = 0
    # the ids, and the bytes, that a document prints
    printed: list = None
    bytes: str = None
    # UTC start and end of each record, found by hand
    times: list = None
    # a text that is spelled otherwise, the answer that 01 gives for it, and the place that was found by hand
    text: str = None
    answer: int = None
    place: int = None


def dates(text, time='09:00:00'):
    """'1997-09: 2-11 15; 1997-10: 1' as date-times."""
    found = []
    for part in text.split(';'):
        month, days = part.split(':')
        for day in days.split():
            first, _, last = day.partition('-')
            for d in range(int(first), int(last or first) + 1):
                found.append(datetime.datetime.fromisoformat(f'{month.strip()}-{d:02}T{time}'))
    return found


def nday(text):
    """'mo' or '-1fr' as an entry of byDay."""
    entry = {'@type': 'NDay', 'day': text[-2:]}
    if text[:-2]:
        entry['nthOfPeriod'] = int(text[:-2])
    return entry


def rule(frequency, by_day='', **more):
    made = {'@type': 'RecurrenceRule', 'frequency': frequency, **more}
    if by_day:
        made['byDay'] = [nday(d) for d in by_day.split()]
    return made


def event(start, *rules, excluded=(), overrides=None, time='09:00:00'):
    made = {'@type': 'Event', 'uid': 'a', 'updated': '2020-01-01T00:00:00Z', 'start': start if 'T' in start else f'{start}T{time}'}
    if rules:
        made['recurrenceRules'] = list(rules)
    if excluded:
        made['excludedRecurrenceRules'] = list(excluded)
    if overrides:
        made['recurrenceOverrides'] = overrides
    return made


WIDE = ('1601-01-01', '9999-01-01')


def window(first, last):
    return tuple(datetime.datetime.fromisoformat(x if 'T' in x else f'{x}T00:00:00') for x in (first, last))


# RFC 5545, 3.8.5.3, inside the profile: start, rule, end of the window, the dates that it prints.
RFC5545 = [
    ('1997-09-02', rule('daily', count=10), '9999-01-01', '1997-09: 2-11'),
    ('1997-09-02', rule('daily', until='1997-12-23T19:00:00'), '9999-01-01', '1997-09: 2-30; 1997-10: 1-31; 1997-11: 1-30; 1997-12: 1-23'),
    ('1997-09-02', rule('daily', interval=2), '1997-10-05', '1997-09: 2 4 6 8 10 12 14 16 18 20 22 24 26 28 30; 1997-10: 2 4'),
    ('1997-09-02', rule('daily', interval=10, count=5), '9999-01-01', '1997-09: 2 12 22; 1997-10: 2 12'),
    ('1998-01-01', rule('yearly', 'su mo tu we th fr sa', byMonth=['1'], until='2000-01-31T14:00:00'), '9999-01-01', '1998-01: 1-31; 1999-01: 1-31; 2000-01: 1-31'),
    ('1998-01-01', rule('daily', byMonth=['1'], until='2000-01-31T14:00:00'), '9999-01-01', '1998-01: 1-31; 1999-01: 1-31; 2000-01: 1-31'),
    ('1997-09-02', rule('weekly', count=10), '9999-01-01', '1997-09: 2 9 16 23 30; 1997-10: 7 14 21 28; 1997-11: 4'),
    ('1997-09-02', rule('weekly', until='1997-12-23T19:00:00'), '9999-01-01', '1997-09: 2 9 16 23 30; 1997-10: 7 14 21 28; 1997-11: 4 11 18 25; 1997-12: 2 9 16 23'),
    ('1997-09-02', rule('weekly', interval=2, firstDayOfWeek='su'), '1998-02-18', '1997-09: 2 16 30; 1997-10: 14 28; 1997-11: 11 25; 1997-12: 9 23; 1998-01: 6 20; 1998-02: 3 17'),
    ('1997-09-02', rule('weekly', 'tu th', count=10, firstDayOfWeek='su'), '9999-01-01', '1997-09: 2 4 9 11 16 18 23 25 30; 1997-10: 2'),
    ('1997-09-01', rule('weekly', 'mo we fr', interval=2, until='1997-12-23T19:00:00', firstDayOfWeek='su'), '9999-01-01',
     '1997-09: 1 3 5 15 17 19 29; 1997-10: 1 3 13 15 17 27 29 31; 1997-11: 10 12 14 24 26 28; 1997-12: 8 10 12 22'),
    ('1997-09-02', rule('weekly', 'tu th', interval=2, count=8, firstDayOfWeek='su'), '9999-01-01', '1997-09: 2 4 16 18 30; 1997-10: 2 14 16'),
    ('1997-09-05', rule('monthly', '1fr', count=10), '9999-01-01',
     '1997-09: 5; 1997-10: 3; 1997-11: 7; 1997-12: 5; 1998-01: 2; 1998-02: 6; 1998-03: 6; 1998-04: 3; 1998-05: 1; 1998-06: 5'),
    ('1997-09-05', rule('monthly', '1fr', until='1997-12-24T00:00:00'), '9999-01-01', '1997-09: 5; 1997-10: 3; 1997-11: 7; 1997-12: 5'),
    ('1997-09-07', rule('monthly', '1su -1su', interval=2, count=10), '9999-01-01', '1997-09: 7 28; 1997-11: 2 30; 1998-01: 4 25; 1998-03: 1 29; 1998-05: 3 31'),
    ('1997-09-22', rule('monthly', '-2mo', count=6), '9999-01-01', '1997-09: 22; 1997-10: 20; 1997-11: 17; 1997-12: 22; 1998-01: 19; 1998-02: 16'),
    ('1997-09-28', rule('monthly', byMonthDay=[-3]), '1998-02-27', '1997-09: 28; 1997-10: 29; 1997-11: 28; 1997-12: 29; 1998-01: 29; 1998-02: 26'),
    ('1997-09-02', rule('monthly', byMonthDay=[2, 15], count=10), '9999-01-01', '1997-09: 2 15; 1997-10: 2 15; 1997-11: 2 15; 1997-12: 2 15; 1998-01: 2 15'),
    ('1997-09-30', rule('monthly', byMonthDay=[1, -1], count=10), '9999-01-01', '1997-09: 30; 1997-10: 1 31; 1997-11: 1 30; 1997-12: 1 31; 1998-01: 1 31; 1998-02: 1'),
    ('1997-09-10', rule('monthly', byMonthDay=[10, 11, 12, 13, 14, 15], interval=18, count=10), '9999-01-01', '1997-09: 10-15; 1999-03: 10-13'),
    ('1997-09-02', rule('monthly', 'tu', interval=2), '1998-04-01', '1997-09: 2 9 16 23 30; 1997-11: 4 11 18 25; 1998-01: 6 13 20 27; 1998-03: 3 10 17 24 31'),
    ('1997-06-10', rule('yearly', byMonth=['6', '7'], count=10), '9999-01-01',
     '1997-06: 10; 1997-07: 10; 1998-06: 10; 1998-07: 10; 1999-06: 10; 1999-07: 10; 2000-06: 10; 2000-07: 10; 2001-06: 10; 2001-07: 10'),
    ('1997-03-10', rule('yearly', byMonth=['1', '2', '3'], interval=2, count=10), '9999-01-01',
     '1997-03: 10; 1999-01: 10; 1999-02: 10; 1999-03: 10; 2001-01: 10; 2001-02: 10; 2001-03: 10; 2003-01: 10; 2003-02: 10; 2003-03: 10'),
    ('1997-05-19', rule('yearly', '20mo'), '2000-01-01', '1997-05: 19; 1998-05: 18; 1999-05: 17'),
    ('1997-03-13', rule('yearly', 'th', byMonth=['3']), '2000-01-01', '1997-03: 13 20 27; 1998-03: 5 12 19 26; 1999-03: 4 11 18 25'),
    ('1997-06-05', rule('yearly', 'th', byMonth=['6', '7', '8']), '1998-01-01', '1997-06: 5 12 19 26; 1997-07: 3 10 17 24 31; 1997-08: 7 14 21 28'),
    ('1998-02-13', rule('monthly', 'fr', byMonthDay=[13]), '2000-12-01', '1998-02: 13; 1998-03: 13; 1998-11: 13; 1999-08: 13; 2000-10: 13'),
    ('1997-09-13', rule('monthly', 'sa', byMonthDay=[7, 8, 9, 10, 11, 12, 13]), '1998-07-01',
     '1997-09: 13; 1997-10: 11; 1997-11: 8; 1997-12: 13; 1998-01: 10; 1998-02: 7; 1998-03: 7; 1998-04: 11; 1998-05: 9; 1998-06: 13'),
    ('1996-11-05', rule('yearly', 'tu', byMonth=['11'], interval=4, byMonthDay=[2, 3, 4, 5, 6, 7, 8]), '2005-01-01', '1996-11: 5; 2000-11: 7; 2004-11: 2'),
    ('1997-09-04', rule('monthly', 'tu we th', bySetPosition=[3], count=3), '9999-01-01', '1997-09: 4; 1997-10: 7; 1997-11: 6'),
    ('1997-09-29', rule('monthly', 'mo tu we th fr', bySetPosition=[-2]), '1998-04-01', '1997-09: 29; 1997-10: 30; 1997-11: 27; 1997-12: 30; 1998-01: 29; 1998-02: 26; 1998-03: 30'),
    ('1997-08-05', rule('weekly', 'tu su', interval=2, count=4, firstDayOfWeek='mo'), '9999-01-01', '1997-08: 5 10 19 24'),
    ('1997-08-05', rule('weekly', 'tu su', interval=2, count=4, firstDayOfWeek='su'), '9999-01-01', '1997-08: 5 17 19 31'),
    ('2007-01-15', rule('monthly', byMonthDay=[15, 30], count=5), '9999-01-01', '2007-01: 15 30; 2007-02: 15; 2007-03: 15 30'),
]

# 01, "Worked dates".
WORKED = [
    ('2024-01-31', [rule('monthly', count=3)], [], None, '2024-01: 31; 2024-03: 31; 2024-05: 31'),
    ('2024-01-31', [rule('monthly', count=3, byMonthDay=[-1])], [], None, '2024-01: 31; 2024-02: 29; 2024-03: 31'),
    ('2024-02-29', [rule('yearly', count=3)], [], None, '2024-02: 29; 2028-02: 29; 2032-02: 29'),
    ('2024-01-03', [rule('weekly', 'mo', count=3)], [], None, '2024-01: 3 8 15'),
    ('2024-01-01', [rule('daily', count=3)], [rule('weekly', 'tu')], None, '2024-01: 1 3'),
    ('2024-01-01', [rule('daily', count=3)], [rule('weekly', 'tu')], {'2024-01-02T09:00:00': {}}, '2024-01: 1-3'),
    ('2024-05-31', [rule('monthly', 'mo tu we th fr', bySetPosition=[-1], count=3)], [], None, '2024-05: 31; 2024-06: 28; 2024-07: 31'),
]


def dated():
    for start, made, end, printed in RFC5545:
        yield event(start, made), window('1601-01-01', end), dates(printed)
    for start, rules, excluded, overrides, printed in WORKED:
        yield event(start, *rules, excluded=excluded, overrides=overrides), window(*WIDE), dates(printed)
    for start, made, end, printed in RFC5545[::3]:
        yield event(start, made), window('1997-10-01', '1998-02-01'), None
        yield event(start, rule('daily', count=400), excluded=[made]), window('1997-01-01', '1999-01-01'), None
    # ends of the profile: the first week of 1601, the last week of 9998
    for first in ('mo', 'tu', 'we', 'th', 'fr', 'sa', 'su'):
        for interval in (1, 2):
            yield event('1601-01-01', rule('weekly', 'mo th su', firstDayOfWeek=first, interval=interval)), window('1601-01-01', '1601-02-15'), None
            yield event('9998-11-20', rule('weekly', 'mo th su', firstDayOfWeek=first, interval=interval)), window('9998-11-01', '9999-01-01'), None
            yield event('9998-12-30', rule('weekly', 'mo tu we th fr sa su', firstDayOfWeek=first, bySetPosition=[-1, 2])), window('9998-12-01', '9999-01-01'), None
        yield event('2024-02-28', rule('weekly', 'sa tu', firstDayOfWeek=first, interval=3, bySetPosition=[2, -2])), window('2024-01-01', '2025-06-01'), None
    yield event('9998-12-31', rule('daily')), window(*WIDE), None
    yield event('9998-12-01', rule('yearly', byMonth=['12'], byMonthDay=[-1, 1]), time='23:59:59'), window(*WIDE), None
    yield event('1601-01-01', rule('yearly', byMonthDay=[29], byMonth=['2'])), window('1601-01-01', '1710-01-01'), None
    # leap days, 31sts
    for frequency in ('monthly', 'yearly'):
        for start in ('2024-02-29', '2023-12-31', '2024-01-30', '1896-02-29'):
            yield event(start, rule(frequency)), window('1890-01-01', '2040-01-01'), None
            yield event(start, rule(frequency, byMonthDay=[-1, 29, 31])), window('1890-01-01', '2030-01-01'), None
            yield event(start, rule(frequency, '5mo -5fr', interval=2)), window('1890-01-01', '2030-01-01'), None
    # errors seen in other calendars
    yield event('2024-01-03', rule('weekly', 'mo', count=5)), window(*WIDE), None
    yield event('2024-01-20', rule('monthly', 'mo tu we th fr', bySetPosition=[1, 3], count=6)), window(*WIDE), None
    yield event('2024-01-31', rule('monthly', interval=1, count=8)), window(*WIDE), None
    yield event('2024-03-15', rule('yearly', '10mo -10mo', count=6)), window(*WIDE), None
    yield event('2024-03-15', rule('daily', until='2024-03-18T09:00:00')), window(*WIDE), None
    yield event('2024-03-15', rule('daily', until='2024-03-18T08:59:59')), window(*WIDE), None
    yield event('2024-03-15', rule('daily', until='2024-03-01T00:00:00')), window(*WIDE), None
    yield event('2024-03-15', rule('weekly', count=3), rule('monthly', count=4), rule('daily', interval=100, count=5)), window(*WIDE), None
    # excluded rules: the start only where it matches
    yield event('2024-01-03', rule('daily', count=20), excluded=[rule('weekly', 'mo', count=2)]), window(*WIDE), None
    yield event('2024-01-03', rule('daily', count=20), excluded=[rule('weekly', 'we', count=2)]), window(*WIDE), None
    yield event('2024-01-03', rule('daily', count=20), excluded=[rule('daily', until='2024-01-01T00:00:00')]), window(*WIDE), None
    yield event('2024-01-03', rule('daily', count=9), excluded=[rule('daily', interval=2), rule('daily', interval=3)]), window(*WIDE), None
    # overrides: any time of day, before the start, excluded, beating an excluded rule
    yield event('2024-01-03', overrides={'2024-01-03T09:00:00': {'excluded': True}}), window(*WIDE), None
    yield event('2024-01-03', rule('daily', count=5), excluded=[rule('daily')],
                overrides={'2024-01-04T09:00:00': {}, '2024-01-04T08:00:00': {}, '1999-01-01T00:00:00': {}, '2024-01-05T09:00:00': {'excluded': True}}), window(*WIDE), None
    yield event('2024-01-03', rule('daily', count=5), overrides={'2024-01-06T09:00:01': {}, '2024-01-06T08:59:59': {}, '2024-01-05T09:00:00': {'title': 'x'}}), \
        window('2024-01-05T09:00:00', '2024-01-06T09:00:01'), None
    yield event('2024-01-03', rule('daily')), window('2024-01-05T09:00:00', '2024-01-05T09:00:00'), None
    yield event('2024-01-03', rule('daily')), window('2024-01-05T09:00:00', '2024-01-05T09:00:01'), None
    yield event('2024-01-03', rule('daily')), window('2024-01-05T09:00:01', '2024-01-06T09:00:00'), None


def plain(**more):
    return {**event('2020-11-01', time='01:30:00'), 'timeZone': 'America/New_York', 'duration': 'PT1H', **more}


def rfc8984(title, start, length, made, **more):
    return {**event(start, made), 'title': title, 'duration': length, **more}


TRAILER = '1c0001000000000000000000'


def nested(levels):
    """A text whose member x opens the levels that the event itself leaves."""
    made = json.dumps(plain(), separators=(',', ':'))
    return made[:-1] + ',"x":' + '[' * (levels - 1) + ']' * (levels - 1) + '}'


def sized(n):
    made = json.dumps(plain(), separators=(',', ':'))
    return made + ' ' * (n - len(made))


def whole():
    """01's cases without a star, and what a call has besides dates."""
    widest = window(*WIDE)
    # "Window with equal ends: the trailer alone; 12 bytes of buffer suffice, 11 answer 13."
    instant = window('2024-01-03', '2024-01-03')
    yield Case(event('2024-01-03', rule('daily')), instant, 12, bytes=TRAILER)
    yield Case(event('2024-01-03', rule('daily')), instant, 11, answer=13)
    yield Case(event('2024-01-03'), widest, 40)
    yield Case(event('2024-01-03'), widest, 39, answer=13)
    # "Text of 65,536 bytes is read, 65,537 answers 1. 16 levels pass, 17 answer 2."
    yield Case(plain(), widest, text=sized(65536))
    yield Case(None, widest, text=sized(65537), answer=1)
    yield Case(plain(), widest, text=nested(16))
    yield Case(None, widest, text=nested(17), answer=2)
    # RFC 8984, 6.5, 6.8 and 6.9: a day each year, a floating time each day, a course with overrides (its zone left out: the program's table is another's)
    yield Case(rfc8984('April Fool\'s Day', '1900-04-01T00:00:00', 'P1D', rule('yearly'), showWithoutTime=True), window('1900-01-01', '2031-01-01'))
    yield Case(rfc8984('Yoga', '2020-01-01T07:00:00', 'PT30M', rule('daily'), timeZone=None), window('2019-12-01', '2020-03-01'))
    yield Case(rfc8984('Calculus I', '2020-01-08T09:00:00', 'PT1H30M', rule('weekly', until='2020-06-24T09:00:00'), recurrenceOverrides={
        '2020-01-07T14:00:00': {'title': 'Introduction to Calculus I (optional)'},
        '2020-04-01T09:00:00': {'excluded': True},
        '2020-06-25T09:00:00': {'title': 'Calculus I Exam', 'start': '2020-06-25T10:00:00', 'duration': 'PT2H'}}), widest,
        printed=[datetime.datetime(2020, 1, 7, 14)]
        + [datetime.datetime(2020, 1, 8, 9) + 7 * n * datetime.timedelta(days=1) for n in range(25) if n != 12] + [datetime.datetime(2020, 6, 25, 9)])
    # overlap and gap: the offset before
    for time in ('00:59:59', '01:00:00', '01:30:00', '01:59:59', '02:00:00', '03:00:00'):
        yield Case({**plain(), 'start': f'2020-11-01T{time}'}, widest)
        yield Case({**plain(), 'start': f'2021-03-14T{time}'}, widest)
    # marks, lengths, patches
    yield Case(plain(freeBusyStatus='free', showWithoutTime=True, duration='P1W2D'), widest)
    yield Case(plain(timeZone=None, showWithoutTime=True), widest)
    yield Case(plain(recurrenceRules=[rule('weekly', count=5)], recurrenceOverrides={
        '2020-11-08T01:30:00': {'start': '2020-11-09T23:00:00', 'duration': 'PT2H', 'freeBusyStatus': 'free'},
        '2020-11-15T01:30:00': {'excluded': True},
        '2020-11-10T00:00:00': {'showWithoutTime': True, 'title': 'once more'}}), window('2020-11-01', '2020-11-25'))
    # privacy: 12 tells no secret event's zone
    for privacy in ('public', 'private', 'secret', 'whatever'):
        yield Case(plain(privacy=privacy), widest)
        yield Case(plain(privacy=privacy, timeZone='Europe/London'), widest)
        yield Case(plain(privacy=privacy), widest, 11, answer=13)
    # a start in the table's place must be in the window by its id
    yield Case(plain(), window('2020-11-01T01:30:00', '2020-11-01T01:30:01'))
    yield Case(plain(), window('2020-11-01T01:30:01', '2020-12-01'), bytes=TRAILER)


# Request 2, "A day is not 86,400 seconds": start, duration, UTC start and UTC end, by the number of the zone table.
LENGTHS = [
    # New York. The clock goes back on 2020-11-01 from 02:00:00 to 01:00:00, and that day has 25 hours; it goes forward on 2021-03-14 from 02:00:00 to
    # 03:00:00, and that day has 23.
    (0, [
        ('2020-10-31T12:00:00', 'P1D', '2020-10-31T16:00:00', '2020-11-01T17:00:00'),
        ('2020-10-31T12:00:00', 'PT24H', '2020-10-31T16:00:00', '2020-11-01T16:00:00'),
        ('2020-11-01T00:00:00', 'P1D', '2020-11-01T04:00:00', '2020-11-02T05:00:00'),
        ('2020-11-01T00:00:00', 'PT24H', '2020-11-01T04:00:00', '2020-11-02T04:00:00'),
        ('2021-03-13T12:00:00', 'P1D', '2021-03-13T17:00:00', '2021-03-14T16:00:00'),
        ('2021-03-13T12:00:00', 'PT24H', '2021-03-13T17:00:00', '2021-03-14T17:00:00'),
        ('2021-03-14T00:00:00', 'P1D', '2021-03-14T05:00:00', '2021-03-15T04:00:00'),
        ('2021-03-14T00:00:00', 'PT24H', '2021-03-14T05:00:00', '2021-03-15T05:00:00'),
        # weeks, days and hours; the clock changes in the days, or in the hours after them
        ('2020-10-25T12:00:00', 'P1W2DT3H', '2020-10-25T16:00:00', '2020-11-03T20:00:00'),
        ('2021-03-10T12:00:00', 'P1W2DT3H', '2021-03-10T17:00:00', '2021-03-19T19:00:00'),
        ('2020-10-22T23:00:00', 'P1W2DT3H', '2020-10-23T03:00:00', '2020-11-01T06:00:00'),
        ('2020-10-30T12:00:00', 'P1DT24H', '2020-10-30T16:00:00', '2020-11-01T16:00:00'),
        ('2020-10-31T12:00:00', 'P1DT24H', '2020-10-31T16:00:00', '2020-11-02T17:00:00'),
        ('2021-03-12T12:00:00', 'P1DT24H', '2021-03-12T17:00:00', '2021-03-14T17:00:00'),
        ('2021-03-13T12:00:00', 'P1DT24H', '2021-03-13T17:00:00', '2021-03-15T16:00:00'),
        # over both changes
        ('2020-10-31T12:00:00', 'P20W', '2020-10-31T16:00:00', '2021-03-20T16:00:00'),
        # the day lands in the gap, at its edges, and the hours go on from there
        ('2021-03-13T01:59:59', 'P1D', '2021-03-13T06:59:59', '2021-03-14T06:59:59'),
        ('2021-03-13T02:00:00', 'P1D', '2021-03-13T07:00:00', '2021-03-14T07:00:00'),
        ('2021-03-13T02:30:00', 'P1D', '2021-03-13T07:30:00', '2021-03-14T07:30:00'),
        ('2021-03-13T02:30:00', 'P1DT1H', '2021-03-13T07:30:00', '2021-03-14T08:30:00'),
        ('2021-03-13T02:59:59', 'P1D', '2021-03-13T07:59:59', '2021-03-14T07:59:59'),
        ('2021-03-13T03:00:00', 'P1D', '2021-03-13T08:00:00', '2021-03-14T07:00:00'),
        # and in the overlap
        ('2020-10-31T00:59:59', 'P1D', '2020-10-31T04:59:59', '2020-11-01T04:59:59'),
        ('2020-10-31T01:00:00', 'P1D', '2020-10-31T05:00:00', '2020-11-01T05:00:00'),
        ('2020-10-31T01:30:00', 'P1D', '2020-10-31T05:30:00', '2020-11-01T05:30:00'),
        ('2020-10-31T01:30:00', 'P1DT1H', '2020-10-31T05:30:00', '2020-11-01T06:30:00'),
        ('2020-10-31T01:59:59', 'P1D', '2020-10-31T05:59:59', '2020-11-01T05:59:59'),
        ('2020-10-31T02:00:00', 'P1D', '2020-10-31T06:00:00', '2020-11-01T07:00:00'),
        # the start lies in the gap, and in the overlap
        ('2021-03-14T02:30:00', 'P1D', '2021-03-14T07:30:00', '2021-03-15T06:30:00'),
        ('2021-03-14T02:30:00', 'PT24H', '2021-03-14T07:30:00', '2021-03-15T07:30:00'),
        ('2020-11-01T01:30:00', 'P1D', '2020-11-01T05:30:00', '2020-11-02T06:30:00'),
        ('2020-11-01T01:30:00', 'PT24H', '2020-11-01T05:30:00', '2020-11-02T05:30:00'),
        # no days
        ('2021-03-14T02:30:00', 'P0D', '2021-03-14T07:30:00', '2021-03-14T07:30:00'),
        ('2020-11-01T01:30:00', 'P0D', '2020-11-01T05:30:00', '2020-11-01T05:30:00'),
        ('2020-11-01T01:30:00', 'P0W0DT1H', '2020-11-01T05:30:00', '2020-11-01T06:30:00'),
        # the longest; the table begins with summer
        ('2020-01-01T00:00:00', 'P366D', '2020-01-01T04:00:00', '2021-01-01T05:00:00'),
        ('2020-01-01T00:00:00', 'P52W2D', '2020-01-01T04:00:00', '2021-01-01T05:00:00'),
        ('2020-01-01T00:00:00', 'PT8784H', '2020-01-01T04:00:00', '2021-01-01T04:00:00'),
        ('2020-10-31T12:00:00', 'P365DT24H', '2020-10-31T16:00:00', '2021-11-01T16:00:00'),
        ('2020-11-15T12:00:00', 'P366D', '2020-11-15T17:00:00', '2021-11-16T16:00:00'),
        # the ends of the profile: the last end lies in the year 10000
        ('1601-01-01T00:00:00', 'P366D', '1601-01-01T04:00:00', '1602-01-02T04:00:00'),
        ('9998-12-31T00:00:00', 'P1D', '9998-12-31T04:00:00', '9999-01-01T04:00:00'),
        ('9998-12-31T23:59:59', 'P365D', '9999-01-01T03:59:59', 253402315199),
        ('9998-12-31T23:59:59', 'P366D', '9999-01-01T03:59:59', 253402401599),
    ]),
    # London: back on 2020-10-25 from 02:00:00 to 01:00:00, forward on 2021-03-28 from 01:00:00 to 02:00:00.
    (1, [
        ('2021-03-28T00:00:00', 'P1D', '2021-03-28T00:00:00', '2021-03-28T23:00:00'),
        ('2021-03-28T00:00:00', 'PT24H', '2021-03-28T00:00:00', '2021-03-29T00:00:00'),
        ('2021-03-27T01:30:00', 'P1D', '2021-03-27T01:30:00', '2021-03-28T01:30:00'),
        ('2021-03-28T01:30:00', 'P1D', '2021-03-28T01:30:00', '2021-03-29T00:30:00'),
        ('2020-10-25T00:00:00', 'P1D', '2020-10-24T23:00:00', '2020-10-26T00:00:00'),
        ('2020-10-24T01:30:00', 'P1D', '2020-10-24T00:30:00', '2020-10-25T00:30:00'),
        ('2020-10-18T01:30:00', 'P1WT2H', '2020-10-18T00:30:00', '2020-10-25T02:30:00'),
    ]),
    # Lord Howe: back by half an hour on 2021-04-04 at 02:00:00, and forward on 2021-10-03 at 02:00:00.
    (2, [
        ('2021-04-03T12:00:00', 'P1D', '2021-04-03T01:00:00', '2021-04-04T01:30:00'),
        ('2021-04-03T12:00:00', 'PT24H', '2021-04-03T01:00:00', '2021-04-04T01:00:00'),
        ('2021-04-03T01:45:00', 'P1D', '2021-04-02T14:45:00', '2021-04-03T14:45:00'),
        ('2021-10-02T12:00:00', 'P1D', '2021-10-02T01:30:00', '2021-10-03T01:00:00'),
        ('2021-10-02T02:15:00', 'P1D', '2021-10-01T15:45:00', '2021-10-02T15:45:00'),
        ('2021-10-02T02:30:00', 'P1D', '2021-10-01T16:00:00', '2021-10-02T15:30:00'),
    ]),
    # Apia: 2011-12-30 was left out, so a day that starts in it has no length; back by an hour on 2012-04-01 at 04:00:00.
    (3, [
        ('2011-12-29T00:00:00', 'P1D', '2011-12-29T10:00:00', '2011-12-30T10:00:00'),
        ('2011-12-29T00:00:00', 'P2D', '2011-12-29T10:00:00', '2011-12-30T10:00:00'),
        ('2011-12-30T12:00:00', 'P1D', '2011-12-30T22:00:00', '2011-12-30T22:00:00'),
        ('2011-12-30T12:00:00', 'PT24H', '2011-12-30T22:00:00', '2011-12-31T22:00:00'),
        ('2012-03-31T12:00:00', 'P1D', '2012-03-30T22:00:00', '2012-03-31T23:00:00'),
    ]),
    # The widest jump that a table can have, forward at 2021-06-01T00:00:00Z and back a month later. "Where a jump puts the end before the start, it is
    # written as calculated."
    (4, [
        ('2021-06-01T00:00:00', 'P1D', '2021-06-01T23:59:59', '2021-06-01T00:00:01'),
        ('2021-05-31T23:59:59', 'P1D', '2021-06-01T23:59:58', '2021-06-01T00:00:00'),
        ('2021-05-31T23:59:58', 'P1D', '2021-06-01T23:59:57', '2021-06-02T23:59:57'),
        ('2021-06-01T23:59:58', 'P1D', '2021-06-02T23:59:57', '2021-06-01T23:59:59'),
        ('2021-06-01T00:00:00', 'P1DT23H59M58S', '2021-06-01T23:59:59', '2021-06-01T23:59:59'),
        ('2021-06-01T00:00:00', 'P1DT24H', '2021-06-01T23:59:59', '2021-06-02T00:00:01'),
        ('2021-06-01T00:00:00', 'PT24H', '2021-06-01T23:59:59', '2021-06-02T23:59:59'),
        ('2021-06-01T00:00:00', 'P0D', '2021-06-01T23:59:59', '2021-06-01T23:59:59'),
        ('2021-07-01T12:00:00', 'P1D', '2021-06-30T12:00:01', '2021-07-03T11:59:59'),
        ('9998-12-31T23:59:59', 'P366D', '9999-01-01T23:59:58', 253402473598),
    ]),
]


def in_zone(zone, start, length, **more):
    return {**event(start), 'timeZone': ZONES[zone].name, 'duration': length, **more}


def lengths():
    """Request 2's ends, one record a case, then with rules, overrides and privacy."""
    widest = window(*WIDE)
    for zone, rows in LENGTHS:
        for start, length, first, last in rows:
            yield Case(in_zone(zone, start, length), widest, zone=zone, times=[(first, last)])
    # "The limit of 366 days stays, still counted with 86,400."
    for length in ('P367D', 'P366DT1S', 'P52W2DT1S', 'P365DT24H1S', 'PT8784H1S'):
        yield Case(in_zone(0, '2020-11-01T00:00:00', length), widest, answer=22)
    # floating: a day has 24 hours
    for start, length, first, last in (
            ('2020-10-31T12:00:00', 'P1D', '2020-10-31T12:00:00', '2020-11-01T12:00:00'),
            ('2021-03-13T02:30:00', 'P1DT24H', '2021-03-13T02:30:00', '2021-03-15T02:30:00'),
            ('9998-12-31T23:59:59', 'P366D', '9998-12-31T23:59:59', 253402387199)):
        yield Case(in_zone(0, start, length, timeZone=None), widest, times=[(first, last)])
    # another zone's table is refused
    yield Case(in_zone(0, '2021-03-28T00:00:00', 'P1D'), widest, zone=1, answer=12)
    for privacy in ('private', 'secret', 'whatever'):
        yield Case(in_zone(0, '2021-03-14T00:00:00', 'P1D', privacy=privacy), widest,
                   times=[] if privacy == 'secret' else [('2021-03-14T05:00:00', '2021-03-15T04:00:00')])
    yield from long_series()
    yield from patched_lengths()


def long_series():
    """A day each day, over both changes of New York's clock, and over the widest jump."""
    daily = {'recurrenceRules': [rule('daily')]}
    for start in ('2020-10-25T00:00:00', '2020-10-25T02:30:00', '2020-10-25T01:30:00'):
        yield Case(in_zone(0, start, 'P1D', **daily), window('2020-10-25', '2021-03-20'))
    yield Case(in_zone(0, '2020-10-25T12:00:00', 'P1D', **daily), window('2020-10-31', '2020-11-02'), times=[
        ('2020-10-31T16:00:00', '2020-11-01T17:00:00'), ('2020-11-01T17:00:00', '2020-11-02T17:00:00')])
    yield Case(in_zone(0, '2020-10-25T12:00:00', 'PT24H', **daily), window('2020-10-31', '2020-11-02'), times=[
        ('2020-10-31T16:00:00', '2020-11-01T16:00:00'), ('2020-11-01T17:00:00', '2020-11-02T17:00:00')])
    yield Case(in_zone(0, '2020-10-25T12:00:00', 'P1D', **daily), window('2021-03-12', '2021-03-15'), times=[
        ('2021-03-12T17:00:00', '2021-03-13T17:00:00'), ('2021-03-13T17:00:00', '2021-03-14T16:00:00'), ('2021-03-14T16:00:00', '2021-03-15T16:00:00')])
    yield Case(in_zone(4, '2021-05-31T00:00:00', 'P1D', **daily), window('2021-05-31', '2021-06-03'), zone=4, times=[
        ('2021-05-31T23:59:59', '2021-06-01T23:59:59'), ('2021-06-01T23:59:59', '2021-06-01T00:00:01'), ('2021-06-01T00:00:01', '2021-06-02T00:00:01')])


def patched_lengths():
    """A patch gives a length, or none, or a start that the event's length is added to."""
    for length, last in (('P1D', '2020-11-01T17:00:00'), ('PT24H', '2020-11-01T16:00:00'), (None, '2020-10-31T16:00:00'), ('P1W2DT3H', '2020-11-09T20:00:00')):
        for own in ('PT1H', 'P1D'):
            yield Case(in_zone(0, '2020-10-31T12:00:00', own, recurrenceOverrides={'2020-10-31T12:00:00': {'duration': length}}), window(*WIDE),
                       times=[('2020-10-31T16:00:00', last)])
    for length, last in (('P1D', '2021-03-14T16:00:00'), ('PT24H', '2021-03-14T17:00:00'), (None, '2021-03-13T17:00:00')):
        yield Case(in_zone(0, '2021-03-13T12:00:00', 'PT1H', recurrenceOverrides={'2021-03-13T12:00:00': {'duration': length}}), window(*WIDE),
                   times=[('2021-03-13T17:00:00', last)])
    # the id stays, and the length counts from the moved start; an override adds a date in the overlap
    yield Case(in_zone(0, '2021-03-12T12:00:00', 'P1D', recurrenceRules=[rule('daily', count=3)], recurrenceOverrides={
        '2020-11-01T01:30:00': {},
        '2021-03-12T12:00:00': {'start': '2021-03-13T02:30:00'},
        '2021-03-13T12:00:00': {'start': '2021-03-14T02:30:00', 'duration': 'P1DT1H'},
        '2021-03-14T12:00:00': {'start': '2020-10-31T23:00:00', 'freeBusyStatus': None}}), window(*WIDE), times=[
        ('2020-11-01T05:30:00', '2020-11-02T06:30:00'), ('2021-03-13T07:30:00', '2021-03-14T07:30:00'),
        ('2021-03-14T07:30:00', '2021-03-15T07:30:00'), ('2020-11-01T03:00:00', '2020-11-02T04:00:00')])


# 1 to 4 carry no place: texts with a wrong value, too. A byte that is no UTF-8 is written as a lone surrogate.
WRONG = '{"@type":"Event","uid":"","updated":1,"start":"x"'
WRONG_TEXTS = [
    (1, WRONG + '}' + ' ' * (65537 - len(WRONG) - 1)), (2, WRONG + ',"x":' + '[' * 16 + ']' * 16 + '}'), (2, WRONG + ',"x":' + '[' * 16),
    (3, ''), (3, ' '), (3, WRONG), (3, WRONG + '}}'), (3, WRONG + ',}'), (3, WRONG + ',"x":"\\ud800"}'), (3, WRONG + ',"x":"\udcff"}'),
    (3, WRONG + ',"uid":01}'), (4, WRONG + ',"uid":"a"}'), (4, WRONG + ',"\\u0061":1}'), (4, WRONG + ',"x":[{"a":1,"a":2}]}'),
    (4, WRONG[:1] + '"recurrenceOverrides":{"2024-02-02T10:00:0\\u0030":{}},' + WRONG[1:] + '}'), (5, '[]'), (5, '1'), (5, '{}'),
    (5, '{"@type":"Event","uid":"","updated":1}'), (5, WRONG.replace('Event', 'Even\\u0074') + '}')]


def filled(size, end):
    """An event of a size, with a long string and then the end, which begins with a wrong value, and its place."""
    made = json.dumps(plain(), separators=(',', ':'))[:-1] + ',"x":"ééé'
    name = '","title": '
    return made + 'a' * (size - len((made + name + end).encode())) + name + end, size - len(end)


def places():
    """Request 4: the call for places, and that the call for the table answers the same."""
    widest = window(*WIDE)
    for number, place, text in marked():
        yield Case(json.loads(text) if number == 0 else None, widest, text=text, answer=number, place=place)
    # a wrong value near the end of a long text
    for size, value in ((2047, '1}'), (2048, '1}'), (2049, '1}'), (2048, '[""],"recurrenceId":1}'), (2049, 'null}'), (65536, 'null}')):
        text, place = filled(size, value)
        yield Case(None, widest, text=text, answer=20, place=place)
    for number, text in WRONG_TEXTS:
        yield Case(None, widest, text=text, answer=number)
    # privacy: the place is the uploader's to see
    for privacy in ('public', 'private', 'secret', 'whatever'):
        made = plain(privacy=privacy, freeBusyStatus='x')
        yield Case(made, widest, answer=24, place=len(json.dumps(made, separators=(',', ':'))) - len('"x"}'))
        yield Case(plain(privacy=privacy, timeZone='Europe/London'), widest, place=0)
        yield Case(plain(privacy=privacy), widest, 11, answer=13, place=0)


def cases():
    for made, span, printed in dated():
        yield Case(made, span, printed=printed)
    yield from whole()
    yield from lengths()
    yield from places()
