#!/usr/bin/env python3
"""Reads the calendar of a room by a parser that is not ours, python3-icalendar:

    calendar_read.py FILE OFFICE [ZONE]

prints the room's label, then the bookings as the reply to `calendar` has them, then the ids of those that are cancelled; a fault of the
file's form ends it with status 1. With ZONE the rules of that zone in the file are compared with those of Python's own.
"""

import datetime
import re
import sys
import zoneinfo

import icalendar

path, office, zone = (sys.argv[1:] + [''])[:3]
text = open(path, 'rb').read()


def fault(words):
    print('fault:', words)
    sys.exit(1)


def clock(moment, day):
    """A time of day; midnight at the end of the day is 24:00."""
    return '24:00' if moment.date() != day else moment.strftime('%H:%M')


def line_of(event):
    start, stop, mark = event['DTSTART'].dt, event['DTEND'].dt, {'CONFIRMED': 'C', 'TENTATIVE': 'T'}[event['STATUS']]
    wanted = {'TZID': zone} if zone else {}
    if dict(event['DTSTART'].params) != wanted or dict(event['DTEND'].params) != wanted:
        fault(f'a time of another zone: {event["DTSTART"].params}')
    day = start.date()
    return f'{day} {start:%H:%M}-{clock(stop, day)} {mark} {event["UID"].split("@")[0]} {event["SUMMARY"]}'


if not text.endswith(b'\r\n') or b'\n' in text.replace(b'\r\n', b''):
    fault('lines end in CR LF')
if max(map(len, text.split(b'\r\n'))) > 75:
    fault('a line has at most 75 bytes')
for line in text.replace(b'\r\n ', b'').split(b'\r\n'):
    if re.match(rb'(SUMMARY|LOCATION|NAME|X-WR-CALNAME):', line) and not re.fullmatch(rb'[A-Z-]+:(?:[^\\,;]|\\[\\,;])*', line):
        fault(f'a text with signs that are not escaped: {line}')
calendar = icalendar.Calendar.from_ical(text)
if calendar['VERSION'] != '2.0' or not calendar['PRODID'] or not calendar.subcomponents:
    fault('version, product or all parts are missing')
events = calendar.walk('VEVENT')
for event in events:
    # in the calendar of all rooms, an event's place is its room
    is_placed = 'all_rooms' in path or event['LOCATION'] == calendar['X-WR-CALNAME']
    if event['UID'].split('@')[1] != office or 'DTSTAMP' not in event or not is_placed:
        fault(f'an event: {event}')
if len({event['UID'] for event in events}) != len(events):
    fault('an id stands twice')
if zone:
    [rules] = calendar.walk('VTIMEZONE')
    ours = rules.to_tz()
    for year in sorted({event['DTSTART'].dt.year for event in events}):
        for month in range(1, 13):
            at = datetime.datetime(year, month, 11, 12)
            if ours.utcoffset(at) != zoneinfo.ZoneInfo(zone).utcoffset(at):
                fault(f'the zone at {at}: {ours.utcoffset(at)}')
print(calendar['X-WR-CALNAME'])
for line in sorted(line_of(event) for event in events if event['STATUS'] != 'CANCELLED'):
    print(line)
for event in sorted((event for event in events), key=lambda event: event['UID']):
    if event['STATUS'] == 'CANCELLED' or event['SEQUENCE']:
        print(event['UID'].split('@')[0], 'cancelled' if event['STATUS'] == 'CANCELLED' else 'changed', event['SEQUENCE'])
