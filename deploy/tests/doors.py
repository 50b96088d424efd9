#!/usr/bin/env python3
"""A tablet at a door in a real browser: the code, booking from now on, checking in, the release of what nobody checked in to, and an early end.

    doors.py PROGRAM FOLDER URL PORT FREE PICTURES ROOMS

The words are those of desk.py; URL is that of the tablet of room-a. FOLDER has doors.db, a replica 1 of primary 1 with rooms from room-a to
room-l, and calendars/west/here, the marks of who checked in.
"""

import datetime
import json
import os
import shutil
import subprocess
import sys
import time
import zoneinfo

from colours import names_and_colours
from page import Office, Page, check, write_rooms

program, folder, url, port, free, pictures, rooms_json = sys.argv[1:]
ROOMS = {'room-a': 'Room A, floor 2', 'room-b': 'Room B, floor 3'}
HERE = os.path.join(os.environ['ROOMS_CALENDARS'], 'west/here')
# a clock that can be put ahead, in the page before its own code runs
CLOCK = '''(() => { const Real = Date; let ahead = 0; window.later = minutes => { ahead += 60000 * minutes; };
globalThis.Date = class extends Real { constructor(...words) { super(...(words.length ? words : [Real.now() + ahead])); } static now() { return Real.now() + ahead; } }; })();'''
# a zone in which it is about noon
hour = datetime.datetime.now(datetime.timezone.utc).hour
ZONE = f'Etc/GMT{-((12 - hour + 12) % 24 - 12):+}'
NAUGHTY = '<img src=x onerror=alert(1)>'
skew = 0


def now():
    """The day and the minute at the rooms, by the clock of the page."""
    moment = datetime.datetime.now(zoneinfo.ZoneInfo(ZONE)) + datetime.timedelta(minutes=skew)
    return moment.date().isoformat(), moment.hour * 60 + moment.minute


def text(minute):
    return f'{minute // 60:02}:{minute % 60:02}'


def later(minutes):
    global skew
    skew += minutes
    page.run('later(arguments[0])', minutes)
    page.look()


def show(room, again=True):
    """The display, with the clock of the machine."""
    global skew
    skew = 0
    page.open(f'{page.bare}/door.html{"?" + str(time.time()) if again else ""}#{room}')


def settings(**words):
    write_rooms(rooms_json, ROOMS, zone=ZONE, **words)


def book(room, start, length, title):
    day, _ = now()
    office.between(lambda: office.rooms('book', room, str(length), day, text(start), title))


def cancel_all(room):
    day, _ = now()

    def act():
        for line in office.rooms('sheet', room, day).splitlines()[1:]:
            if line[0].isdigit():
                office.rooms('cancel', room, line.split()[2])
    office.between(act)


def sheet(room):
    return asked(f'rooms/{room}/days/{now()[0]}')


def asked(path):
    return page.run('const reply = await fetch(new URL(arguments[0], location.origin)); return reply.text();', '/' + path)


def press(words):
    """The button with these words, once it is there and nothing is under way."""
    there = 'return [...document.querySelectorAll("#acts button:not(:disabled)")].findIndex(each => each.textContent.startsWith(arguments[0])) + 1'
    check(f'there is {words}', page.waits(lambda: page.run(there, words)), page.text('#acts'))
    page.click(f'#acts button:nth-child({page.run(there, words)})')


def codes(name, picture):
    """What another program reads off a picture."""
    ran = subprocess.run(['zbarimg', '-q', '--raw', picture], stdout=subprocess.PIPE, stderr=subprocess.DEVNULL, text=True)
    return ran.stdout.strip()


def a_display():
    settings()
    show('room-a')
    page.until('a display', '#word', 'Free')
    check('which nobody can press', page.text('#acts') == '', page.text('#acts'))
    page.picture_of('door-code')
    if not shutil.which('zbarimg'):
        print('skipped: the code at the door (no zbarimg)')
        return
    read = codes('door', os.path.join(pictures, 'door-code.png'))
    check('its code leads to the page of this room and day', read == f'{page.bare}/#{now()[0]}/day/room-a', read)
    rows = page.run('const { qrOf } = await import("/qr.js"); return arguments[0].map(length => qrOf("https://rooms.example/#".padEnd(length, "0123456789/-aZ")))',
                    list(range(23, 214, 8)) + [213, 214])
    check('a text that is too long has no code', rows.pop() is None)
    for length, code in zip(list(range(23, 214, 8)) + [213], rows):
        wanted, path = 'https://rooms.example/#', os.path.join(folder, 'code.pgm')
        while len(wanted) < length:
            wanted += '0123456789/-aZ'
        size, scale = len(code) + 8, 5
        dark = [[0 < y - 3 <= len(code) and 0 < x - 3 <= len(code) and code[y - 4][x - 4] for x in range(size)] for y in range(size)]
        with open(path, 'wb') as out:
            out.write(b'P5 %d %d 255\n' % (size * scale, size * scale) +
                      b''.join(bytes(0 if each else 255 for each in row for _ in range(scale)) * scale for row in dark))
        check(f'a code of {length} letters is read', codes('code', path) == wanted[:length], codes('code', path))


def book_now():
    day, minute = now()
    settings(door={})
    show('room-a')
    press('Book 30 min')
    page.until('it is taken', '#word', 'Taken')
    page.until('it says until when', '#said', 'Booked until ')
    page.until('by what', '#title', 'Booked at the door')
    start = next((at for at in (minute, minute + 1, minute + 2) if f'{text(at)}-{text(at + 30)} T 1-' in sheet('room-a')), None)
    check('the office has it, for half an hour from now', start is not None, sheet('room-a'))
    check('who booked it is here', len(os.listdir(HERE)) == 1 and os.listdir(HERE)[0].startswith('room-a.1-'), os.listdir(HERE))
    check('nothing else can be booked meanwhile', 'Book' not in page.text('#acts'), page.text('#acts'))
    check('nobody has to check in where that is not wanted', 'Check in' not in page.text('#acts'), page.text('#acts'))
    press('End now')
    page.until('an end is pressed twice', '#acts', 'Really end it?')
    page.picture_of('door-end')
    press('Really end it?')
    page.until('it is free again', '#word', 'Free')
    page.until('and says so', '#said', 'Ended: Booked at the door.')
    check('the office has no booking', '(no bookings)' in sheet('room-a'), sheet('room-a'))
    book('room-a', now()[1] + 40, 30, 'Soon')
    show('room-a')
    page.until('a booking that comes soon', '#next', 'Soon')
    check('what is too long is not offered', page.waits(lambda: page.text('#acts').split() == ['Book', '15', 'min', 'Book', '30', 'min']), page.text('#acts'))
    page.picture_of('door-free-acts')
    names_and_colours(page, 'door-acts')
    page.resize(375, 812)
    time.sleep(0.5)
    fit = page.run('return [document.documentElement.scrollHeight - innerHeight, document.documentElement.scrollWidth - innerWidth]')
    check('all of it fits on a narrow screen', max(fit) <= 0, fit)
    page.picture_of('door-narrow')
    page.resize(1280, 900)
    fit = page.run('return [document.documentElement.scrollHeight - innerHeight, document.documentElement.scrollWidth - innerWidth]')
    check('and on a wide one', max(fit) <= 0, fit)
    cancel_all('room-a')


def a_moment_late():
    """Somebody else is a moment earlier: the request is taken back at once."""
    show('room-a')
    page.until('the room is free', '#acts', 'Book 15 min')
    book('room-a', now()[1], 20, 'Earlier')
    press('Book 15 min')
    page.until('it says who has it', '#said', 'somebody was a moment earlier')
    check('the request is withdrawn', ' cancel ' in asked('rooms/room-a/errors'), asked('rooms/room-a/errors'))
    check('and has no room', 'Booked at the door' not in sheet('room-a'), sheet('room-a'))
    cancel_all('room-a')


def check_in():
    settings(door={'release': 10})
    day, minute = now()
    book('room-a', minute - 1, 60, NAUGHTY)
    show('room-a')
    page.until('its title is a text', '#title', NAUGHTY)
    page.until('until when one may check in', '#acts', 'Check in, by ')
    page.picture_of('door-check-in')
    names_and_colours(page, 'door-check-in')
    press('Check in')
    page.until('it says so', '#said', f'Checked in to {NAUGHTY}.')
    check('there is a mark', page.waits(lambda: len([name for name in os.listdir(HERE) if name.startswith('room-a.')]) == 2), os.listdir(HERE))
    later(30)
    page.look()
    time.sleep(1)
    check('what somebody checked in to stays', NAUGHTY in sheet('room-a'), sheet('room-a'))
    check('and asks for no further one', 'Check in' not in page.text('#acts'), page.text('#acts'))
    cancel_all('room-a')


def release():
    day, minute = now()
    book('room-a', minute - 1, 120, 'Planning')
    show('room-a')
    page.until('a booking under way', '#title', 'Planning')
    page.until('its minutes are counted from now on, since nobody could check in before', '#acts', 'Check in, by ' + text(now()[1] + 10)[:3])
    page.picture_of('door-buttons')
    later(8)
    time.sleep(1)
    check('before the time it stays', 'Planning' in sheet('room-a'), sheet('room-a'))
    later(3)
    page.until('then the room is free', '#word', 'Free')
    page.until('and it says why', '#said', 'nobody checked in to Planning.')
    check('the office has taken it back', 'Planning' not in sheet('room-a'), sheet('room-a'))
    page.picture_of('door-released')


def no_release_while_deaf():
    """While nobody could press anything, since no reply came, nothing goes; nor right after."""
    book('room-a', now()[1] - 1, 120, 'A cut')
    show('room-a')
    page.until('a booking before a cut', '#acts', 'Check in')
    office.stop()
    page.look()
    page.until('without the office there is nothing to press', '#word', 'Taken')
    check('no button', page.waits(lambda: page.text('#acts') == ''), page.text('#acts'))
    later(30)
    office.serve()
    page.look()
    page.until('after it the time begins anew', '#acts', 'Check in, by ')
    time.sleep(1)
    check('nothing was released', 'A cut' in sheet('room-a'), sheet('room-a'))
    cancel_all('room-a')


def settings_of_rooms():
    """A room may have settings of its own; and where nobody can say who checked in, nothing goes."""
    with open(rooms_json, 'w') as out:
        json.dump({'office': 'West office', 'zone': ZONE, 'door': {'release': 10}, 'rooms': [{'name': 'room-a', 'label': 'Room A', 'door': {}},
                                                                                           {'name': 'room-b', 'label': 'Room B', 'door': False}]}, out)
    book('room-a', now()[1] - 1, 60, 'Its own way')
    show('room-a')
    page.until('a room without check-in', '#acts', 'End now')
    check('asks for none', 'Check in' not in page.text('#acts'), page.text('#acts'))
    show('room-b')
    page.until('a room without buttons', '#word', 'Free')
    time.sleep(0.5)
    check('has none', page.text('#acts') == '', page.text('#acts'))
    settings(door={'release': 10})
    os.rename(HERE, HERE + '.away')
    show('room-a')
    page.until('without marks', '#acts', 'End now')
    later(30)
    time.sleep(1)
    check('nothing is released', 'Its own way' in sheet('room-a'), sheet('room-a'))
    os.rename(HERE + '.away', HERE)
    cancel_all('room-a')


def another_room():
    """The tablet of a room may do nothing at another one."""
    show('room-b')
    press('Book 15 min')
    page.until('the password is for one room', '#said', 'Not done: the password was refused')
    check('nothing was booked there', '(no bookings)' in sheet('room-b'), sheet('room-b'))


settings()
office = Office(program, f'{folder}/doors.db', port)
page = Page(int(free) + 1, os.path.join(folder, 'profile-doors'), url, pictures)
try:
    office.serve()
    page.open(f'{url}/door/room-a/cancel/1-1')      # asks for the tablet's password, and does nothing
    page.devtools('Page.enable')
    page.devtools('Page.addScriptToEvaluateOnNewDocument', source=CLOCK)
    for step in (a_display, book_now, a_moment_late, check_in, release, no_release_while_deaf, settings_of_rooms, another_room):
        skew = 0
        step()
    check('nothing in the console of the browser', not [line for line in page.log() if 'Failed to load resource' not in line], page.log())
except (RuntimeError, OSError) as error:
    check('the browser', False, str(error))
finally:
    page.end()
    office.stop()
