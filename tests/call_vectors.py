#!/usr/bin/env python3
"""What crates/call_vectors must print: `python3 tests/call_vectors.py > crates/call_vectors/stdout`.

Its input: `python3 tests/call_vectors.py texts > crates/call_vectors/stdin`. Each case is an event's text, the number of a zone table, a window and
the length of a buffer; what is printed is what two whole calls give, the one for places and the one for the table. The recurrence ids are found here
from document 01's six numbered rules by going through all days of every period, with Python's datetime, the table from 01's "The sheet and the
words", UTC in call_times.py, and what is wrong with a text, and where, in event_vectors.py; nothing is shared with the proved code. Where a case
names the dates that its document prints, the times or the place that were found by hand, or the answer, they are compared first."""
import datetime
import json
import struct
import sys

import call_times
import event_vectors

DAYS = ['mo', 'tu', 'we', 'th', 'fr', 'sa', 'su']
ONE = datetime.timedelta(days=1)
LAST = datetime.date(9998, 12, 31)
EPOCH = datetime.datetime(1970, 1, 1)


def stamp(text):
    return datetime.datetime.strptime(text, '%Y-%m-%dT%H:%M:%S')


def month_length(day):
    following = (day.replace(day=28) + 4 * ONE).replace(day=1)
    return (following - ONE).day


# 1. "Periods are whole days, weeks from `firstDayOfWeek`, months or years. The first holds the start; then every interval-th."

def period(rule, day):
    """The first day of the period that holds a day, and the period's number."""
    frequency = rule['frequency']
    if frequency == 'daily':
        return day, day.toordinal()
    if frequency == 'weekly':
        first = DAYS.index(rule.get('firstDayOfWeek', 'mo'))
        since = (day.weekday() - first) % 7
        return day - since * ONE, (day.toordinal() - since) // 7
    if frequency == 'monthly':
        return day.replace(day=1), day.year * 12 + day.month
    return day.replace(month=1, day=1), day.year


def days_of(rule, day):
    first, number = period(rule, day)
    found = []
    at = first
    while period(rule, at)[1] == number:
        found.append(at)
        if at == datetime.date.max:
            break
        at += ONE
    return found


# 2. and 3. The by-lists, with the start's values added first.

def place(number, length):
    return number if number > 0 else length + 1 + number


def stays(rule, start, day):
    months = [int(m) for m in rule.get('byMonth', [])]
    dates = rule.get('byMonthDay', [])
    named = rule.get('byDay', [])
    frequency = rule['frequency']
    in_year = frequency == 'yearly' and not months
    if frequency == 'yearly' and not months and (dates or not named):
        months = [start.month]
    if frequency in ('monthly', 'yearly') and not dates and not named:
        dates = [start.day]
    if frequency == 'weekly' and not named:
        named = [{'day': DAYS[start.weekday()]}]
    if months and day.month not in months:
        return False
    if dates and not any(place(d, month_length(day)) == day.day for d in dates):
        return False
    return not named or any(meets(entry, day, in_year) for entry in named)


def meets(entry, day, in_year):
    if DAYS.index(entry['day']) != day.weekday():
        return False
    if 'nthOfPeriod' not in entry:
        return True
    first, last = (day.replace(month=1, day=1), day.replace(month=12, day=31)) if in_year else \
        (day.replace(day=1), day.replace(day=month_length(day)))
    before, behind = (day - first).days // 7, (last - day).days // 7
    return place(entry['nthOfPeriod'], before + 1 + behind) == before + 1


# 4. to 6.

def rule_dates(rule, start, excluded, until_day):
    """The date-times of a rule, from the start to a day."""
    begin = start.date()
    first_number = period(rule, begin)[1]
    end = stamp(rule['until']) if 'until' in rule else None
    most = rule.get('count')
    given = []
    if not excluded:
        given.append(start)
    at = begin
    stop = min(until_day, LAST) if end is None else min(until_day, LAST, end.date())
    while at <= stop and (most is None or len(given) < most):
        number = period(rule, at)[1]
        whole = days_of(rule, at)
        if (number - first_number) % rule.get('interval', 1) == 0:
            listed = [d for d in whole if stays(rule, begin, d)]
            if 'bySetPosition' in rule:
                places = {place(p, len(listed)) for p in rule['bySetPosition']}
                listed = [d for i, d in enumerate(listed) if i + 1 in places]
            for d in listed:
                moment = datetime.datetime.combine(d, start.time())
                if d > LAST or moment < start or moment == start and not excluded:
                    continue
                if end is not None and moment > end:
                    continue
                given.append(moment)
        if whole[-1] >= LAST:
            break
        at = whole[-1] + ONE
    return given if most is None else given[:most]


def ids(event, window):
    start = stamp(event['start'])
    to = window[1]
    found = {start}
    for rule in event.get('recurrenceRules', []):
        found.update(rule_dates(rule, start, False, to.date()))
    last = max(found).date()
    for rule in event.get('excludedRecurrenceRules', []):
        found.difference_update(rule_dates(rule, start, True, last))
    for name, patch in event.get('recurrenceOverrides', {}).items():
        if patch.get('excluded'):
            found.discard(stamp(name))
        else:
            found.add(stamp(name))
    return sorted(x for x in found if window[0] <= x < window[1])


def seconds(moment):
    since = moment - EPOCH
    return since.days * 86400 + since.seconds


def patched(event, moment):
    """The properties of an occurrence after its patch. "Null means the default or no words"."""
    patch = event.get('recurrenceOverrides', {}).get(moment.isoformat(), {})
    after = {**event, 'start': moment.isoformat(), **patch}
    return {name: value for name, value in after.items() if value is not None}


def record(event, moment, zone):
    """28 bytes: id, UTC start, UTC end, marks, three zeros."""
    after = patched(event, moment)
    local = seconds(stamp(after['start']))
    floating = event.get('timeZone') is None
    used = call_times.FLOATING if floating else zone
    marks = (after.get('freeBusyStatus', 'busy') == 'busy') + 2 * after.get('showWithoutTime', False) + 4 * floating
    return struct.pack('<qqqI', seconds(moment), used.utc(local), call_times.end(used, local, after.get('duration', 'PT0S')), marks)


def table(event, window, zone):
    secret = event.get('privacy') == 'secret'
    found = [] if secret else ids(event, window)
    records = b''.join(record(event, x, zone) for x in found)
    return records + struct.pack('<HHII', 28, 1, len(found), 28 * len(found))


def text_of(case):
    return case.text if case.text is not None else json.dumps(case.event, separators=(',', ':'))


def located(case):
    """The answer for the text, and the place. 1 to 4 are said by the case: "only a call of the uploader's own, on one text, gives the place"."""
    return (case.answer, 0) if case.answer in (1, 2, 3, 4) else event_vectors.read_event(text_of(case))[:2]


def outcome(case):
    """The answer and the bytes for a text that is accepted: 12, 13 or 0."""
    zone = call_times.ZONES[case.zone]
    if case.event.get('privacy') != 'secret' and case.event.get('timeZone') not in (None, zone.name):
        return 12, b''
    made = table(case.event, case.window, zone)
    return (13, b'') if case.room < len(made) else (0, made)


def times_in(made):
    """The UTC start and end of each record."""
    return [(start, end) for _, start, end, _ in struct.iter_unpack('<qqqI', made[:-12])]


def line(answer, made):
    """The last number: how many bytes after the table changed."""
    return f'{answer} {len(made)} {made.hex()} 0'


def from_1600(moment):
    return seconds(moment) + 11676096000


def instant(time):
    """A time that a case names: a second count where Python's datetime has no such year."""
    return time if isinstance(time, int) else seconds(stamp(time))


def expected(case):
    number, place = located(case)
    if case.place is not None and place != case.place:
        sys.exit(f'another place was found by hand: {place} {text_of(case)}')
    answer, made = (number, b'') if number != 0 else table_of(case)
    if case.answer is not None and answer != case.answer:
        sys.exit(f'another answer was found by hand: {answer} {text_of(case)}')
    return f'{number} {place} {line(answer, made)}'


def table_of(case):
    """The outcome, compared with what the case has of it."""
    if case.printed is not None and ids(case.event, case.window) != case.printed:
        sys.exit(f'the document prints other dates: {case.event}')
    answer, made = outcome(case)
    if case.bytes is not None and made.hex() != case.bytes:
        sys.exit(f'the document prints other bytes: {case.event}')
    if case.times is not None and times_in(made) != [(instant(start), instant(end)) for start, end in case.times]:
        sys.exit(f'other times were found by hand: {case.event}')
    return answer, made


if __name__ == '__main__':
    from call_cases import cases
    for case in cases():
        if sys.argv[1:] == ['texts']:
            made = f'{case.zone} {from_1600(case.window[0])} {from_1600(case.window[1])} {case.room} {text_of(case)}\x1e'
            sys.stdout.buffer.write(made.encode('utf-8', 'surrogateescape'))
        else:
            print(expected(case))
