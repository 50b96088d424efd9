"""Files of bookings for the tests of the page and of rooms-import: what is in them, and what is wrong with it."""

from page import DAY

# Lines of a CSV with the columns room, day, start, stop, length, title and id, and what is said of each; nothing of one that can be asked for.
BAD_CSV = [
    (f'oak,{DAY},09:00,10:00,,Good,', ''),
    (f'oak,{DAY},9.00,,60,The same hours,', '09:00–10:00 is Good of this list'),
    (f'attic,{DAY},09:00,10:00,,Nowhere,', '“attic” is no room of this office'),
    (f',{DAY},09:00,10:00,,Nowhere at all,', 'it names no room'),
    ('oak,2095-02-30,09:00,10:00,,No day,', '“2095-02-30” is no day'),
    ('oak,12/31/2095,09:00,10:00,,Two ways,', '“12/31/2095” is no day'),
    ('oak,2100-01-01,09:00,10:00,,Too late,', '“2100-01-01” is no day'),
    ('oak,,09:00,10:00,,Never,', '“” is no day'),
    (f'oak,{DAY},25:00,,60,No hour,', '“25:00” is no time of day'),
    (f'oak,{DAY},=NOW(),,60,A formula,', '“=NOW()” is no time of day'),
    (f'oak,{DAY},10:00,9:00,,Backwards,', 'it ends before it begins'),
    (f'oak,{DAY},23:30,,60,Over midnight,', 'a meeting ends at midnight'),
    (f'oak,{DAY},17:00,,1e2,No length,', '“1e2” is no length in minutes'),
    (f'oak,{DAY},17:00,,,No end,', 'neither a stop nor a length'),
    (f'oak,{DAY},17:00,18:00,30,Two lengths,', 'its length and its stop are not the same'),
    (f'oak,{DAY},17:00,18:00,,,', 'it has no title'),
    (f'oak,{DAY},17:00,18:00,,日本語,', 'its title has no plain letter'),
    (f'oak,{DAY},17:00,18:00,,{"T" * 61},', 'its title has 61 letters'),
    (f'oak,{DAY},17:00,18:00,,With an id,x-1', ''),
    (f'elm,{DAY},17:00,18:00,,With the same,x-1', 'it is the same as that of line 20'),
    (f'oak,{DAY},17:00,18:00,,Too many,x-2,y', 'it has 8 cells, and the first line 7'),
    (f'"Elm, 2nd floor",{DAY},18:00,19:00,,"Quotes, ""doubled""",', ''),
    (f'ELM,{DAY},23:00,24:00,,Until midnight,', ''),
    (f'oak,{DAY},18:00,19:00,,"Never closed,', 'its quotes are not closed'),
]

# Titles that somebody else's program might run.
FORMULAS = ['=HYPERLINK("http://x.invalid","press")', '+1+1', '-2+3', '@SUM(1,1)', '<img src=x onerror="window.pwned=1">', '</script><script>window.pwned=1', '{{7*7}} ${7*7}',
            "'; DROP TABLE log;--", '%0d%0aX: y &lt;b&gt; \\n', '"quoted", and; more']


def of_many_lines(count):
    """A CSV of so many lines, on twenty days of two rooms; most of them are in one another's way."""
    return 'room,day,start,length,title\n' + ''.join(
        f'{"oak" if number % 2 else "elm"},2097-03-{number % 20 + 1:02},{7 + number // 40 % 12:02}:{number // 480 % 4 * 15:02},15,Line {number}\n' for number in range(count))


def event(*lines):
    return '\r\n'.join(['BEGIN:VEVENT', *lines, 'END:VEVENT'])


BERLIN, OUTLOOK = ';TZID=Europe/Berlin:', ';TZID="W. Europe Standard Time":'

CALENDAR = '\r\n'.join([
    'BEGIN:VCALENDAR', 'VERSION:2.0', 'PRODID:-//test', 'BEGIN:VTIMEZONE', 'TZID:Europe/Berlin', 'BEGIN:STANDARD', 'DTSTART:19701025T030000', 'TZOFFSETFROM:+0200', 'TZOFFSETTO:+0100',
    'RRULE:FREQ=YEARLY;BYDAY=-1SU;BYMONTH=10', 'END:STANDARD', 'END:VTIMEZONE',
    event('UID:planning@x', f'DTSTART{BERLIN}20960102T090000', f'DTEND{BERLIN}20960102T100000', 'SUMMARY:Planning\\, first\\; with a th', ' ousand', 'LOCATION:Oak',
          *(f'ATTENDEE;CN="Guest {number}; of: many";ROLE=REQ-PARTICIPANT:mailto:guest{number}@example.invalid' for number in range(1000))),
    event('UID:utc@x', 'DTSTART:20960103T090000Z', 'DURATION:PT1H30M', 'SUMMARY:From Greenwich'),
    event('UID:weekly@x', f'DTSTART{OUTLOOK}20960103T140000', f'DTEND{OUTLOOK}20960103T150000', 'RRULE:FREQ=WEEKLY;COUNT=4;BYDAY=TU,TH', f'EXDATE{OUTLOOK}20960105T140000', 'SUMMARY:Weekly'),
    event('UID:weekly@x', f'RECURRENCE-ID{OUTLOOK}20960110T140000', f'DTSTART{OUTLOOK}20960110T160000', f'DTEND{OUTLOOK}20960110T170000', 'SUMMARY:Weekly\\, later'),
    event('UID:monthly@x', 'DTSTART;TZID=America/New_York:20960120T140000', 'DTEND;TZID=America/New_York:20960120T150000', 'RRULE:FREQ=MONTHLY;BYDAY=3FR;UNTIL=20960501T000000Z', 'SUMMARY:New York'),
    event('UID:whole@x', 'DTSTART;VALUE=DATE:20960106', 'SUMMARY:Holiday'),
    event('UID:moon@x', 'DTSTART;TZID=Moon/Sea:20960106T100000', 'DTEND;TZID=Moon/Sea:20960106T110000', 'SUMMARY:Moon'),
    event('UID:night@x', f'DTSTART{BERLIN}20960106T230000', f'DTEND{BERLIN}20960107T010000', 'SUMMARY:Over midnight'),
    event('UID:gone@x', f'DTSTART{BERLIN}20960106T100000', f'DTEND{BERLIN}20960106T110000', 'STATUS:CANCELLED', 'SUMMARY:Gone'),
    'BEGIN:VTODO', 'UID:todo@x', 'SUMMARY:To do', 'END:VTODO',
    event('UID:strange@x', f'DTSTART{BERLIN}20960106T100000', f'DTEND{BERLIN}20960106T110000', 'RRULE:FREQ=MONTHLY;BYDAY=MO;BYSETPOS=2;COUNT=3', 'SUMMARY:Strange'),
    event('UID:back@x', f'DTSTART{BERLIN}20960106T100000', f'DTEND{BERLIN}20960106T090000', 'SUMMARY:Backwards'),
    'BEGIN:VEVENT', 'UID:half@x', f'DTSTART{BERLIN}20960106T100000', 'SUMMARY:Half'])
