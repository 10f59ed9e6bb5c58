"""The texts of crates/event_vectors: for every property each kind of wrong value, each limit from both sides, combinations of wrong values in both
orders, spellings that mean the same. Some have the place marked at which the fault that decides begins."""

BASE = {'@type': '"Event"', 'uid': '"a"', 'updated': '"2020-01-01T00:00:00Z"', 'start': '"2024-01-31T09:30:00"'}
RULE = {'@type': '"RecurrenceRule"', 'frequency': '"monthly"'}
NDAY = {'@type': '"NDay"', 'day': '"mo"'}
KINDS = ['null', 'false', 'true', '0', '-1', '1.5', '1e2', '""', '"x"', '"a\\\\b"', '"\\u0061"', '[]', '{}', '["x"]', '{"x":1}']


def obj(members):
    return '{' + ','.join(f'"{n}":{v}' for n, v in members.items()) + '}'


def arr(items):
    return '[' + ','.join(items) + ']'


def event(**more):
    return obj({**BASE, **{n.replace('AT', '@'): v for n, v in more.items()}})


def without(*names, **more):
    return obj({n: v for n, v in {**BASE, **more}.items() if n not in names})


def rule(**more):
    return obj({**RULE, **more})


def with_rule(*rules):
    return event(recurrenceRules=arr(rules))


def nday(day='"mo"', **more):
    return obj({**NDAY, 'day': day, **more})


def override(name, **patch):
    return event(recurrenceOverrides=obj({name: obj(patch)}))


STAMPS = ['2024-02-29T00:00:00', '2023-02-29T00:00:00', '1601-01-01T00:00:00', '1600-12-31T23:59:59', '9998-12-31T23:59:59', '9999-01-01T00:00:00',
          '9999-12-31T23:59:59', '2024-13-01T00:00:00', '2024-00-01T00:00:00', '2024-01-32T00:00:00', '2024-01-00T00:00:00', '2024-01-01T24:00:00',
          '2024-01-01T23:60:00', '2024-01-01T23:59:60', '2024-01-01T00:00:00Z', '2024-01-01T00:00', '2024-01-01', '2024-01-01 00:00:00',
          '2024-01-01t00:00:00', '2024-01-01T00:00:00.5', '2024-01-01T00:00:00.50', '2024-01-01T00:00:00.', '2024-01-01T00:00:00.0',
          '2024-01-01T00:00:00.05', '2023-02-29T00:00:00.5', '02024-01-01T00:00:00', '1900-02-29T00:00:00', '2000-02-29T00:00:00', '+024-01-01T00:00:00',
          '2024-1-01T00:00:00', '2024-01-01T00:00:00.5Z', '2024-01-01T00:00:00\\u0020']
LENGTHS = ['P', 'PT', 'P1W', 'P1W2D', 'P2D', 'P1D1W', 'PT1H', 'PT1H5S', 'PT1H5M', 'PT1H5M7S', 'PT5M7S', 'PT7S', 'P1DT', 'P1DT1H', 'P1W1DT1S', 'P366D', 'P367D',
           'P366DT1S', 'P365DT24H', 'P365DT24H1S', 'P52W2D', 'P53W', 'PT31622400S', 'PT31622401S', 'pt1h', 'p1w2dt3h4m5s', '-P1D', '+P1D', 'P1Y', 'P1M', 'PT0.5S',
           'PT1.5S', 'PT1.50S', 'PT1.S', 'PT.5S', 'PT1.5M', 'PT1H1.5M', 'P366DT0.5S', 'P365DT23H59M59.5S', 'P0D', 'PT0S', 'P00000000000000000000000000001D',
           'P99999999999999999999999D', 'PT1H1.5S', 'PT1H2M3.25S', '1D', 'P1', 'P1DT5M', 'P1W1DT1H1M1S', ' P1D', 'P1D ', 'P1.5D', 'PT366M', 'P1WT1H']
UPDATED = ['0000-01-01T00:00:00Z', '9999-12-31T23:59:59Z', '2024-01-01T00:00:00', '2024-01-01T00:00:00z', '2024-01-01T00:00:00.5Z', '2024-01-01T00:00:00.50Z',
           '2024-01-01T00:00:00.Z', '2024-01-01T00:00:00+00:00', '2024-02-30T00:00:00Z', '0000-02-29T00:00:00Z', '0100-02-29T00:00:00Z', '0400-02-29T00:00:00Z',
           '2024-01-01T00:00:60Z', '', 'Z']


def top():
    yield from ('[]', '1', '"Event"', 'null', '{}', ' ' + event(), event() + '\n')
    yield event()
    for name in BASE:
        yield without(name)
        for kind in KINDS:
            yield event(**{name: kind})
    yield event(ATtype='"event"')
    yield event(ATtype='"Even\\u0074"')
    yield event(ATtype='"Task"', start='1')
    yield without('uid', start='1')
    yield without('start', recurrenceId='1')
    for name in ('duration', 'freeBusyStatus', 'showWithoutTime', 'title', 'description', 'privacy', 'timeZone', 'recurrenceRules', 'excludedRecurrenceRules',
                 'recurrenceOverrides', 'recurrenceId', 'other', 'Duration', 'recurrencerules', 'locale'):
        for kind in KINDS:
            yield event(**{name: kind})
    for stamp in STAMPS:
        yield event(start=f'"{stamp}"')
    for length in LENGTHS:
        yield event(duration=f'"{length}"')
    for updated in UPDATED:
        yield event(updated=f'"{updated}"')
    for word in ('free', 'busy', 'Free', 'BUSY', 'tentative', 'fre', 'freee', 'bu\\u0073y'):
        yield event(freeBusyStatus=f'"{word}"')
    for word in ('public', 'private', 'secret', 'Public', 'confidential', '', 'secre', 'secrett', 'pub\\u006cic'):
        yield event(privacy=f'"{word}"')
    for zone in ('Europe/Berlin', 'x', 'a b', 'é', 'a\\/b'):
        yield event(timeZone=f'"{zone}"')
    for text in ('', 'a', 'é€\U00010348', '\\"\\\\', '\\u00e9', 'Dr. Who \\n away'):
        yield event(title=f'"{text}"', description=f'"{text}{text}"')
    yield event(title='"t"', description='null')
    yield event(recurrenceId='null', title='1')
    yield event(recurrenceId='null')
    yield '{ "start" : "2024-01-31T09:30:00" ,\n"uid":"a", "@type"\t:"Event","updated":"2020-01-01T00:00:00Z","x":{"start":1,"y":[{}]} }'


def rules():
    yield with_rule()
    yield event(recurrenceRules='[]', excludedRecurrenceRules='[]')
    yield event(excludedRecurrenceRules=arr([rule(frequency='"weekly"', interval='2')]))
    for kind in KINDS:
        yield with_rule(kind)
        for name in ('@type', 'frequency', 'interval', 'count', 'until', 'firstDayOfWeek', 'byDay', 'byMonthDay', 'byMonth', 'bySetPosition', 'rscale', 'skip',
                     'byYearDay', 'other'):
            yield with_rule(obj({**RULE, name: kind}))
        for name in ('byMonthDay', 'byMonth', 'bySetPosition', 'byDay'):
            yield with_rule(rule(**{name: arr([kind])}))
        for name in ('@type', 'day', 'nthOfPeriod', 'other'):
            yield with_rule(rule(byDay=arr([obj({**NDAY, name: kind})])))
    yield with_rule(obj({'frequency': '"daily"'}))
    yield with_rule(obj({'@type': '"RecurrenceRule"'}))
    for frequency in ('daily', 'weekly', 'monthly', 'yearly', 'hourly', 'minutely', 'secondly', 'Daily', 'dail', 'dailyy', 'fortnightly'):
        yield with_rule(rule(frequency=f'"{frequency}"'))
        yield with_rule(rule(frequency=f'"{frequency}"', byDay=arr([nday(nthOfPeriod='1')])))
    for name in ('interval', 'count'):
        for value in ('1', '2', '0', '-1', '-0', '9007199254740991', '9007199254740992', '1.0', '1e0', '123456789012345678901234567890', '"1"'):
            yield with_rule(rule(**{name: value}))
    for stamp in STAMPS:
        yield with_rule(rule(until=f'"{stamp}"'))
    yield with_rule(rule(until='"2024-01-01T00:00:00"', count='1'))
    yield with_rule(rule(until='"x"', count='1'))
    yield with_rule(rule(until='"2024-01-01T00:00:00.5"', count='1'))
    yield with_rule(rule(until='"2024-01-01T00:00:00"', count='0'))
    for day in ('mo', 'tu', 'we', 'th', 'fr', 'sa', 'su', 'Mo', 'mon', 'm', ''):
        yield with_rule(rule(firstDayOfWeek=f'"{day}"'))
        yield with_rule(rule(byDay=arr([nday(f'"{day}"')])))
    for nth in ('1', '-1', '53', '-53', '54', '-54', '0', '-0', '1.0', '5'):
        for frequency in ('monthly', 'yearly', 'weekly', 'daily'):
            yield with_rule(rule(frequency=f'"{frequency}"', byDay=arr([nday(), nday('"su"', nthOfPeriod=nth)])))
    for date in ('1', '31', '32', '0', '-1', '-31', '-32', '9007199254740992'):
        yield with_rule(rule(byMonthDay=arr(['15', date])))
    for month in [str(m) for m in range(14)] + ['01', '-1', '1L', '12L', '13L', '0L', 'L', '1l', '5LL', '']:
        yield with_rule(rule(byMonth=arr([f'"{month}"'])))
    for position in ('1', '366', '367', '-366', '-367', '0', '-1'):
        yield with_rule(rule(bySetPosition=arr([position])))
    for scale in ('gregorian', 'Gregorian', 'hebrew', '', 'greg\\u006frian'):
        yield with_rule(rule(rscale=f'"{scale}"'))
    for skip in ('omit', 'forward', 'backward', 'Omit', '', 'omi\\u0074'):
        yield with_rule(rule(skip=f'"{skip}"'))
    for name in ('byYearDay', 'byWeekNo', 'byHour', 'byMinute', 'bySecond', 'byweekno', 'byEaster'):
        yield with_rule(rule(**{name: '[1]'}))
        yield with_rule(rule(**{name: 'null'}, interval='0'))
    full = dict(interval='3', firstDayOfWeek='"su"', byDay=arr([nday('"fr"'), nday('"mo"', nthOfPeriod='-2')]), byMonthDay='[-1,13,13]',
                byMonth='["2","12"]', bySetPosition='[1,-1]')
    yield with_rule(rule(**full, count='7'), rule(frequency='"yearly"', **full, until='"9999-12-31T23:59:59"'), rule())
    yield event(recurrenceRules=arr([rule(count='2')]), excludedRecurrenceRules=arr([rule(**full), rule(frequency='"daily"')]))


def limits():
    for n in (63, 64, 65, 66, 200):
        for name, entry in (('byMonthDay', '5'), ('bySetPosition', '-7'), ('byMonth', '"3"'), ('byDay', nday(nthOfPeriod='2'))):
            yield with_rule(rule(**{name: arr([entry] * n)}))
        yield with_rule(rule(byMonthDay=arr(['5'] * n + ['32'])))
        yield with_rule(rule(byMonth=arr(['"3"'] * n + ['"3L"'])))
        yield with_rule(rule(frequency='"weekly"', byDay=arr([nday()] * n + [nday(nthOfPeriod='1')])))
        yield with_rule(rule(byDay=arr([nday()] * n + ['1'])))
    for n in (7, 8, 9, 10):
        yield with_rule(*[rule(count=str(k + 1)) for k in range(n)])
        yield event(excludedRecurrenceRules=arr([rule(interval=str(k + 1)) for k in range(n)]))
        yield event(recurrenceRules=arr([rule()] * n), excludedRecurrenceRules=arr([rule(count='0')]))
        yield with_rule(*[rule()] * n, rule(frequency='"hourly"'))
        yield with_rule(*[rule()] * n, rule(count='1', until='"2024-01-01T00:00:00"'))
    dates = [f'20{y:02}-{m:02}-{d:02}T09:30:00' for y in range(10, 12) for m in range(1, 13) for d in range(1, 28)]
    for n in (255, 256, 257, 300):
        yield event(recurrenceOverrides=obj({d: '{}' for d in dates[:n]}))
        yield event(recurrenceOverrides=obj({**{d: '{}' for d in dates[:n]}, dates[n]: '{"excluded":true,"a":1}'}))
        yield event(recurrenceOverrides=obj({**{d: '{}' for d in dates[:n]}, dates[n]: '{"a/b":1}'}))
        yield event(recurrenceOverrides=obj({**{d: '{}' for d in dates[:n]}, 'x': '{}'}))
        yield event(recurrenceOverrides=obj({d: '{"excluded":true}' for d in dates[:n]}), recurrenceRules=arr([rule(byYearDay='1')]))


def overrides():
    own = dict(duration='"P1DT2H"', freeBusyStatus='"free"', showWithoutTime='true', title='"own title"', description='"own words"')
    day = '2024-02-02T10:00:00'
    yield event(**own, recurrenceOverrides='{}')
    yield event(**own, recurrenceOverrides=obj({day: '{}'}))
    for stamp in STAMPS[:-1]:
        yield override(stamp)
        yield override(day, start=f'"{stamp}"')
    for kind in KINDS:
        yield event(recurrenceOverrides=obj({day: kind}))
        for name in ('start', 'duration', 'freeBusyStatus', 'showWithoutTime', 'title', 'description', 'excluded', 'timeZone', 'privacy', 'uid', '@type',
                     'recurrenceRules', 'recurrenceOverrides', 'a/b', 'a~1b', '~', '/', 'other'):
            yield event(**own, recurrenceOverrides=obj({day: obj({name: kind})}))
    for length in LENGTHS[::4]:
        yield override(day, duration=f'"{length}"')
    for name, value in (('duration', '"PT1S"'), ('freeBusyStatus', '"busy"'), ('showWithoutTime', 'false'), ('title', '"new"'), ('description', '""'),
                        ('start', '"2024-02-03T11:11:11"'), ('privacy', '"secret"'), ('excluded', 'false'), ('excluded', 'true')):
        yield event(**own, recurrenceOverrides=obj({day: obj({name: value})}))
        yield event(**own, recurrenceOverrides=obj({day: obj({name: value, 'other': '1'}), '2024-02-03T10:00:00': '{"excluded":true}'}))
    yield override(day, excluded='true', title='1')
    yield override(day, excluded='true', title='"a"')
    yield override(day, excluded='null', title='"a"')
    yield override(day, excluded='false', title='"a"')
    yield override(day, excluded='true', timeZone='"a"')
    yield event(recurrenceOverrides=obj({'2024-02-02T10:00:00.5': '{"start":null}'}))
    yield event(recurrenceOverrides=obj({'2024-02-02T10:00:00.5': '1'}))
    yield event(**own, recurrenceOverrides=obj({day: obj({n: 'null' for n in ('duration', 'freeBusyStatus', 'showWithoutTime', 'title', 'description', 'excluded')})}))


# ---- places

DAY = '2024-02-02T10:00:00'
MARK = '¦'

# The number, and a text with a mark before the value that decides, or none for 7 to 9. `EVENT` stands for the members that an event must have.
EVENT = '"@type":"Event","uid":"a","updated":"2020-01-01T00:00:00Z","start":"2024-01-31T09:30:00"'
RULE_IS = '"@type":"RecurrenceRule","frequency":"monthly"'
MARKED = [
    (0, '{EVENT}'),
    (5, '{"@type":"Task","uid":"","updated":"","start":""}'),
    # every number, at the top
    (20, '{EVENT,"title":¦1}'),
    (20, '{EVENT,"title":¦null}'),
    (20, '{EVENT,"showWithoutTime":¦"true"}'),
    (20, '{EVENT,"recurrenceRules":¦{}}'),
    (20, '{EVENT,"recurrenceOverrides":¦[]}'),
    (21, '{"@type":"Event","uid":"a","updated":"2020-01-01T00:00:00Z","start":¦"2023-02-29T00:00:00"}'),
    (21, '{"@type":"Event","uid":"a","updated":¦"2020-01-01T00:00:00","start":"2024-01-31T09:30:00"}'),
    (21, '{"@type":"Event","uid":"a","updated":"2020-01-01T00:00:00Z","start":¦"2024-01-31T09:30:00.50"}'),
    (8, '{"@type":"Event","uid":"a","updated":"2020-01-01T00:00:00Z","start":"2024-01-31T09:30:00.5"}'),
    (22, '{EVENT,"duration":¦"P"}'),
    (22, '{EVENT,"duration":¦"P367D"}'),
    (24, '{EVENT,"freeBusyStatus":¦"tentative"}'),
    (26, '{EVENT,"timeZone":¦""}'),
    (26, '{"@type":"Event","uid":¦"","updated":"2020-01-01T00:00:00Z","start":"2024-01-31T09:30:00"}'),
    (26, '{EVENT,"privacy":¦"publi\\u0063"}'),
    # and in a rule
    (20, '{EVENT,"recurrenceRules":[¦1]}'),
    (20, '{EVENT,"recurrenceRules":[{RULE_IS,"byDay":[¦"mo"]}]}'),
    (20, '{EVENT,"recurrenceRules":[{RULE_IS,"byMonth":[¦2]}]}'),
    (20, '{EVENT,"recurrenceRules":[{RULE_IS,"interval":¦"\\u0031"}]}'),
    (21, '{EVENT,"recurrenceRules":[{RULE_IS,"until":¦"2024"}]}'),
    (23, '{EVENT,"recurrenceRules":[{RULE_IS,"interval":¦0}]}'),
    (23, '{EVENT,"recurrenceRules":[{RULE_IS,"count":¦1.0}]}'),
    (23, '{EVENT,"recurrenceRules":[{RULE_IS,"count":¦1e3}]}'),
    (23, '{EVENT,"recurrenceRules":[{RULE_IS,"bySetPosition":[1, ¦-367]}]}'),
    (24, '{EVENT,"recurrenceRules":[{"@type":¦"Rule","frequency":"monthly"}]}'),
    (24, '{EVENT,"recurrenceRules":[{RULE_IS,"byMonth":["1",¦"13"]}]}'),
    (24, '{EVENT,"recurrenceRules":[{RULE_IS,"byDay":[{"@type":¦"Day","day":"mo"}]}]}'),
    (24, '{EVENT,"recurrenceRules":[{RULE_IS,"byDay":[{"@type":"NDay","day":¦"MO"}]}]}'),
    (24, '{EVENT,"recurrenceRules":[{RULE_IS,"skip":¦"omits"}]}'),
    (25, '{EVENT,"recurrenceRules":[{RULE_IS,"byDay":¦[]}]}'),
    (25, '{EVENT,"recurrenceRules":[{RULE_IS,"byMonthDay": ¦[ ] }]}'),
    (26, '{EVENT,"recurrenceRules":[{RULE_IS,"rscale":¦"gregoria\\u006e"}]}'),
    (8, '{EVENT,"recurrenceRules":[{RULE_IS,"rscale":"hebrew"}]}'),
    # "a missing member counts at its object"
    (26, '{EVENT,"recurrenceRules":[¦{}]}'),
    (26, '{EVENT,"recurrenceRules":[{RULE_IS}, ¦{"@type":"RecurrenceRule"}]}'),
    (26, '{EVENT,"recurrenceRules":[{RULE_IS}],"excludedRecurrenceRules":[ ¦{"frequency":"daily"}]}'),
    (26, '{EVENT,"recurrenceRules":[ ¦{"interval":0,"frequency":"x"}]}'),
    (26, '{EVENT,"recurrenceRules":[{RULE_IS,"byDay":[{"@type":"NDay","day":"mo"},¦{"@type":"NDay"}]}]}'),
    (26, '{EVENT,"recurrenceRules":[{RULE_IS,"byDay":[{"@type":"NDay","day":"mo"},¦{"nthOfPeriod":0,"day":"x"}]}]}'),
    (26, '{EVENT,"recurrenceRules":[¦{"byDay":[{}]}]}'),
    (23, '{EVENT,"recurrenceRules":[{RULE_IS,"interval":¦0},{}]}'),
    # "an override name being a value too"
    (21, '{EVENT,"recurrenceOverrides":{¦"x":{}}}'),
    (21, '{EVENT,"recurrenceOverrides":{¦"":1}}'),
    (21, '{EVENT,"recurrenceOverrides":{"2024-02-02T10:00:00":{}, ¦"2024-02-30T10:00:00":{"title":1}}}'),
    (20, '{EVENT,"recurrenceOverrides":{"2024-02-02T10:00:00":{"title":¦1}, "2024-02-30T10:00:00":{}}}'),
    (20, '{EVENT,"recurrenceOverrides":{"2024-02-02T10:00:00.5":¦1}}'),
    (20, '{EVENT,"recurrenceOverrides":{"2024-02-02T10:00:00":{"timeZone":"a","start":¦null}}}'),
    (8, '{EVENT,"recurrenceOverrides":{"2024-02-02T10:00:00.5":{}}}'),
    # "The earliest place decides, then the lowest number": bytes are counted, white space and all
    (26, '{"uid":¦"","start":"x","@type":"Event","updated":1}'),
    (20, '{"updated":¦1,"start":"x","@type":"Event","uid":""}'),
    (21, '{"start":¦"x","@type":"Event","uid":"","updated":1}'),
    (22, ' \t\r\n{ EVENT ,\n"title" : "é€𐍈" , "é€" : "𐍈" , "duration" :\r\n ¦"PT" , "privacy" : 1 }'),
    (24, '{"x":{"start":1,"y":[{}]},EVENT,"description":"\\"\\\\\\u00e9","freeBusyStatus":¦"é"}'),
    # 7 to 9 carry no place and come after 20 to 26, wherever they stand
    (7, '{EVENT,"recurrenceRules":[{RULE_IS,"count":1,"until":"2024-01-01T00:00:00"}]}'),
    (20, '{EVENT,"recurrenceRules":[{RULE_IS,"count":1,"until":"2024-01-01T00:00:00"}],"title":¦1}'),
    (20, '{EVENT,"recurrenceId":1,"title":¦1}'),
    (20, '{EVENT,"title":¦1,"recurrenceId":1}'),
    (7, '{EVENT,"recurrenceId":1,"recurrenceOverrides":{"2024-02-02T10:00:00":{"excluded":true,"a":1}}}'),
]


def marked():
    """The number, the place and the text of each case that has a mark."""
    for number, text in MARKED:
        text = text.replace('EVENT', EVENT).replace('RULE_IS', RULE_IS)
        before, _, after = text.partition(MARK)
        yield number, len(before.encode()) if after else 0, before + after


# Members by the number that they answer, at the top, in a rule, in an entry of `byDay` and in a patch.
NINTH = arr([rule()] * 9)
WRONG_TOP = [
    (20, 'title', '1'), (20, 'recurrenceOverrides', '[]'), (20, 'recurrenceRules', '[null]'), (21, 'start', '"x"'), (21, 'updated', '"x"'),
    (22, 'duration', '"P"'), (23, 'recurrenceRules', arr([rule(interval='0')])), (24, 'freeBusyStatus', '"x"'),
    (25, 'excludedRecurrenceRules', arr([rule(byMonth='[]')])), (26, 'uid', '""'), (26, 'excludedRecurrenceRules', '[{}]'),
    (21, 'recurrenceOverrides', '{"x":{}}'), (7, 'recurrenceOverrides', obj({DAY: '{"excluded":true,"a":1}'})), (8, 'recurrenceId', '1'),
    (9, 'excludedRecurrenceRules', NINTH)]
WRONG_RULE = [
    (20, 'rscale', '1'), (20, 'byDay', '{}'), (21, 'until', '"x"'), (23, 'interval', '0'), (23, 'bySetPosition', '[1,0]'), (24, 'firstDayOfWeek', '"x"'),
    (24, 'frequency', '"x"'), (25, 'byMonth', '[]'), (26, 'skip', '"omi\\u0074"'), (26, 'byDay', '[{}]'), (8, 'byYearDay', '1'), (8, 'frequency', '"hourly"'),
    (9, 'byMonthDay', arr(['5'] * 65))]
WRONG_NDAY = [(20, 'day', '1'), (24, 'day', '"x"'), (24, '@type', '"x"'), (26, '@type', '"NDa\\u0079"'), (23, 'nthOfPeriod', '0'), (20, 'nthOfPeriod', '"1"'),
              (7, 'nthOfPeriod', '1')]
WRONG_PATCH = [
    (20, 'title', '1'), (20, 'start', 'null'), (20, 'showWithoutTime', '"x"'), (20, 'excluded', '1'), (21, 'start', '"x"'), (22, 'duration', '"P"'),
    (24, 'freeBusyStatus', '"x"'), (26, 'freeBusyStatus', '"\\u0062usy"'), (26, 'duration', '"P1\\u0044"'), (7, 'excluded', 'true'), (8, 'timeZone', 'null'),
    (8, 'a/b', '1'), (8, 'start', '"2024-01-01T00:00:00.5"')]


def pairs(wrong):
    """Two members each, in both orders."""
    for _, name, value in wrong:
        for _, other, more in wrong:
            if name != other:
                yield {name: value, other: more}


def last(members, base):
    """The base's members, then others, which may stand for some of the base."""
    return obj({**{n: v for n, v in base.items() if n not in members}, **members})


def alone():
    """The number, and a text in which one member answers it."""
    for number, name, value in WRONG_TOP:
        yield number, last({name: value}, BASE)
    for number, name, value in WRONG_RULE:
        yield number, with_rule(rule(count='5'), last({name: value}, RULE))
    for number, name, value in WRONG_NDAY:
        yield number, with_rule(rule(frequency='"weekly"', byDay=arr([nday(), last({name: value}, NDAY)])))
    for number, name, value in WRONG_PATCH:
        yield number, event(recurrenceOverrides=obj({DAY: '{}', '2024-02-03T10:00:00': last({name: value}, {'description': '"d"'})}))


def in_both_orders():
    for members in pairs(WRONG_TOP):
        yield last(members, BASE)
        yield obj({**members, **{n: v for n, v in BASE.items() if n not in members}})
    for members in pairs(WRONG_RULE):
        yield with_rule(last(members, RULE))
    for members in pairs(WRONG_NDAY):
        yield with_rule(rule(frequency='"weekly"', byDay=arr([nday(), last(members, NDAY)])))
    for members in pairs(WRONG_PATCH):
        yield event(recurrenceOverrides=obj({DAY: obj(members)}))
    # a patch's member, or its name, beside those of another
    for _, name, value in WRONG_PATCH:
        for other in ('x', '2024-02-03T10:00:00.5', '2024-02-03T10:00:00.50'):
            yield event(recurrenceOverrides=obj({DAY: obj({name: value}), other: '{}'}))
            yield event(recurrenceOverrides=obj({other: obj({name: value})}))
            yield event(recurrenceOverrides=obj({other: '{}', DAY: obj({name: value})}))
            yield event(recurrenceOverrides=obj({other: '1', DAY: obj({name: value})}))


# Every string that is read, in a text; `STRING` stands for it, and a right value is named.
STRINGS = [
    ('2024-01-31T09:30:00', event(start='STRING')), ('2020-01-01T00:00:00Z', event(updated='STRING')), ('a', event(uid='STRING')),
    ('PT1H', event(duration='STRING')), ('free', event(freeBusyStatus='STRING')), ('secret', event(privacy='STRING')), ('x', event(timeZone='STRING')),
    ('RecurrenceRule', with_rule(rule(**{'@type': 'STRING'}))), ('daily', with_rule(rule(frequency='STRING'))),
    ('2024-01-31T09:30:00', with_rule(rule(until='STRING'))), ('mo', with_rule(rule(firstDayOfWeek='STRING'))),
    ('1', with_rule(rule(byMonth='["2",STRING,"0"]'))), ('gregorian', with_rule(rule(rscale='STRING'))), ('omit', with_rule(rule(skip='STRING'))),
    ('NDay', with_rule(rule(byDay=arr([nday(**{'@type': 'STRING'})])))), ('su', with_rule(rule(byDay=arr([nday(), nday('STRING')])))),
    ('2024-01-31T09:30:00', override(DAY, start='STRING')), ('P1D', override(DAY, duration='STRING')), ('busy', override(DAY, freeBusyStatus='STRING')),
    # strings with any bytes, and what is no string
    ('a', event(title='STRING')), ('a', event(description='STRING')), ('a', override(DAY, title='STRING')), ('a', override(DAY, description='STRING')),
    ('1', with_rule(rule(interval='STRING'))), ('1', with_rule(rule(count='STRING'))), ('1', with_rule(rule(byMonthDay='[2,STRING]'))),
    ('1', with_rule(rule(bySetPosition='[STRING]'))), ('1', with_rule(rule(byDay=arr([nday(nthOfPeriod='STRING')])))),
    ('a', event(showWithoutTime='STRING')), ('a', override(DAY, excluded='STRING')), ('Event', event(ATtype='STRING')), ('a', event(other='STRING'))]


def backslashes():
    """"26, which a wrong backslash always is"."""
    for right, text in STRINGS:
        escaped = f'\\u{ord(right[0]):04x}{right[1:]}'
        for string in (right, escaped, right + '\\n', '\\/', 'x\\\\', '\\"' + right, right + '.5\\t', 'é', 'x'):
            yield text.replace('STRING', f'"{string}"')


def spaced(text, by):
    """White space around every token, all of it before a value counted."""
    made, inside, escape = by, False, False
    for c in text:
        made += c if inside or c not in '{}[]:,' else by + c + by
        if escape or c == '\\':
            escape = not escape
        elif c == '"':
            inside = not inside
    return made + by


def moved():
    """Places after white space, after characters of two to four bytes and after members that are not read."""
    for _, text in alone():
        yield text
        yield spaced(text, ' ')
        yield spaced(text, '\r\n\t ')
        yield '{"é€𐍈":["𐍈",{"start":1,"é":{}}],' + text[1:]
        yield text[:-1] + ',"title2":"\\\\é","é":"é"}'
    for name in ('byDay', 'byMonthDay', 'byMonth', 'bySetPosition'):
        for other in ('byDay', 'byMonthDay', 'byMonth', 'bySetPosition'):
            yield with_rule(rule(**{name: '[]', other: '[]'}))
            yield with_rule(rule(**{name: '[]', other: '[true]'}))
            yield with_rule(rule(**{other: '[]'}), rule(**{name: '1'}))


class Draw:
    """The same numbers on every machine."""
    def __init__(self, seed):
        self.state = seed

    def below(self, n):
        self.state = (self.state * 6364136223846793005 + 1442695040888963407) % 2 ** 64
        return (self.state >> 33) % n

    def order(self, items):
        items = list(items)
        return [items.pop(self.below(len(items))) for _ in range(len(items))]


def drawn():
    """Several wrong members of all kinds in one text, the members of each object in any order."""
    draw = Draw(4)

    def some(base, wrong, most):
        picked = dict((name, value) for _, name, value in (wrong[draw.below(len(wrong))] for _ in range(draw.below(most + 1))))
        return obj(dict(draw.order({**base, **picked}.items())))

    for _ in range(250):
        days = arr([some(NDAY, WRONG_NDAY, 1) for _ in range(1 + draw.below(2))])
        rules = [some({**RULE, 'byDay': days} if draw.below(2) else RULE, WRONG_RULE, 2) for _ in range(draw.below(3))]
        dates = draw.order([DAY, '2024-02-03T10:00:00', 'é', '2024-02-04T10:00:00.5'])[:draw.below(3)]
        patches = {date: some({'title': '"t"'}, WRONG_PATCH, 2) for date in dates}
        members = {'recurrenceRules': arr(rules), 'recurrenceOverrides': obj(patches), 'title': '"é"'}
        yield spaced(some({**BASE, **members}, WRONG_TOP, 1), ' ' * draw.below(2))


def cases():
    for part in (top, rules, limits, overrides):
        yield from part()
    for _, _, text in marked():
        yield text
    for part in (in_both_orders, backslashes, moved, drawn):
        yield from part()
