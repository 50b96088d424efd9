#!/usr/bin/env python3
"""Any room in a real browser: rooms by seats and equipment, over several days; the first that is free is asked for, and the next if that had gone.

    anyroom.py PROGRAM FOLDER URL PORT FREE PICTURES ROOMS

The words are those of desk.py. FOLDER has anyroom.db, a replica 1 of primary 1 with rooms from room-a to room-l and the bookings of views.db.
"""

import datetime
import json
import os
import sys
import time
import zoneinfo

from colours import names_and_colours
from page import DAY, Office, Page, check

program, folder, url, port, free, pictures, rooms_json = sys.argv[1:]
hour = datetime.datetime.now(datetime.timezone.utc).hour
ZONE = f'Etc/GMT{-((12 - hour + 12) % 24 - 12):+}'      # where it is about noon
ROOMS = [{'name': 'room-a', 'label': 'Room A', 'seats': 12, 'has': ['screen', 'phone']}, {'name': 'room-b', 'label': 'Room B', 'seats': 8, 'has': ['screen']},
         {'name': 'room-c', 'label': 'Room C', 'seats': 4, 'has': ['<img src=x onerror=alert(1)>']}, {'name': 'room-d', 'label': '<b>Room D</b>'}]
# what happens on the way of the next request to book: somebody else is faster, or its reply is lost
FASTER = '''const real = window.fetch, times = arguments[0]; let done = 0; window.sent = 0;
window.fetch = async (path, words) => { if (String(path).endsWith('/submit') && words.method === 'POST') { window.sent += 1;
  if (done++ < times) await real(path, { ...words, body: words.body.replace(/"title":"[^"]*"/, '"title":"Faster"') }); } return real(path, words); };'''
LOST = '''const real = window.fetch; window.sent = 0;
window.fetch = async (path, words) => { const reply = await real(path, words);
  if (String(path).endsWith('/submit') && words.method === 'POST') { window.sent += 1; throw new TypeError('lost'); } return reply; };'''


def settings(rooms):
    with open(rooms_json, 'w') as out:
        json.dump({'office': 'West office', 'from': '08:00', 'to': '19:00', 'zone': ZONE, 'rooms': rooms}, out)


def show(day=DAY):
    page.open(f'{page.bare}/?{time.time()}#{day}/find/room-a')
    page.until('free rooms', '#found', 'Room A')
    page.gone('whose sheets are read', '#found', 'Not read yet')


def ask(length='60', begin='09:00', end='12:00', days='1', seats='', things=()):
    for field, value in (('length', length), ('from', begin), ('to', end), ('seats', seats), ('days', days)):
        page.set(f'#find-{field}', value)
    page.run('for (const box of document.querySelectorAll("#find-has input")) box.checked = arguments[0].includes(box.value); '
             'document.querySelector("#find-has").dispatchEvent(new Event("change"))', list(things))
    page.gone('all sheets are read', '#found', 'Not read yet')


def rooms_shown():
    return page.run('return [...document.querySelectorAll("#found li b")].map(each => each.textContent)')


def sheet(room, day=DAY):
    return page.run('return (await fetch(new URL(arguments[0], location.origin))).text()', f'/rooms/{room}/days/{day}')


def book_first(title):
    page.write('#any-title', title)
    page.click('#any-send')


def what_is_needed():
    settings(ROOMS)
    show()
    page.until('what a room has', '#found li:nth-child(1)', '12 seats, screen, phone')
    check('what rooms.json says is text', '<b>Room D</b>' in page.text('#found') and '<img' in page.text('#find-has'), page.text('#found'))
    ask(seats='8')
    check('by seats', rooms_shown() == ['Room A', 'Room B'], rooms_shown())
    ask(seats='8', things=['phone'])
    check('by equipment too', rooms_shown() == ['Room A'], rooms_shown())
    ask(seats='13')
    page.until('no room has so many', '#found', 'No room has all of that')
    ask(seats='8', days='3')
    check('over three days', page.run('return [...document.querySelectorAll("#found .day")].map(each => each.textContent)') ==
          ['Monday 2095-12-19', 'Tuesday 2095-12-20', 'Wednesday 2095-12-21'], page.text('#found'))
    page.picture_of('find-days')
    names_and_colours(page, 'find-days')
    count = 'return performance.getEntriesByType("resource").filter(each => each.name.includes("/days/")).length'
    before = page.run(count)
    page.look()
    time.sleep(1)
    check('a round asks for the chosen day alone', page.run(count) - before == 2, page.run(count) - before)
    page.resize(375, 812)
    time.sleep(0.3)
    wide = page.run('return document.documentElement.scrollWidth - window.innerWidth')
    check('a phone needs no scrolling sideways', wide <= 0, wide)
    small = page.run('return [...document.querySelectorAll("#find button, #find select, #find input")].filter(each => each.checkVisibility()'
                     ' && each.getBoundingClientRect().height < 24).map(each => each.outerHTML.slice(0, 80))')
    check('what is pressed is large enough for a finger', small == [], small)
    page.picture_of('find-days-phone')
    page.resize(1280, 900)
    settings([{'name': 'room-a', 'label': 'Room A'}])
    show()
    check('where nothing is known of rooms, nothing is asked', page.text('#find-has') == '' and not page.run('return document.querySelector("#find-seats").checkVisibility()'))
    settings(ROOMS)


def the_first():
    """Sixty minutes for eight people in the morning: the smaller room is taken at nine, the larger one too."""
    show()
    ask(seats='8')
    book_first('Übersicht')
    page.until('a title with other letters', '#any-said', 'Take “Uebersicht”')
    page.click('#any-said button')
    check('is spelt anew', page.value('#any-title') == 'Uebersicht')
    book_first('')
    page.until('no title', '#any-said', 'A title has 1 to 60')
    book_first('Eight of us')
    page.until('the first that is free', '#any-said', 'Booked, not final yet: Room A, Monday 2095-12-19, 10:30–11:30')
    check('the office has it once', sheet('room-a').count('Eight of us') == 1 and 'Eight of us' not in sheet('room-b'), sheet('room-a'))
    page.until('it is among my requests', '#mine', 'Eight of us')
    ask(seats='8', days='2')
    book_first('Smaller')
    page.until('another morning, in the smaller room of the two', '#any-said', 'Room B, Tuesday 2095-12-20, 09:00–10:00')
    page.click('#find-seats')
    page.keys('1')
    check('what came of it goes with the next key', page.text('#any-said') == '', page.text('#any-said'))


def the_next():
    """Somebody is faster twice: each request without a room is withdrawn before the next is sent."""
    show('2095-12-22')
    ask()
    page.run(FASTER, 2)
    book_first('At last')
    page.until('the third is booked', '#any-said', 'Booked, not final yet: Room A, Thursday 2095-12-22, 09:00')
    check('each was sent once', page.run('return window.sent') == 3, page.run('return window.sent'))
    sheets = [sheet(room, '2095-12-22') for room in ('room-a', 'room-b', 'room-c', 'room-d')]
    check('it is booked once', sum(each.count('At last') for each in sheets) == 1, sheets)
    check('the faster ones have theirs', sum(each.count('Faster') for each in sheets) == 2, sheets)
    logs = page.run('return Promise.all(arguments[0].map(async room => (await fetch(new URL("/rooms/" + room + "/errors", location.origin))).text()))', ['room-b', 'room-c'])
    check('what found no room is withdrawn', all(' cancel ' in each and 'At last' in each for each in logs), logs)
    show('2095-12-27')
    ask(begin='09:00', end='10:00')
    page.run(FASTER, 9)
    book_first('Too late')
    page.until('all had gone', '#any-said', 'all that was free had gone by then')
    ask(begin='09:00', end='09:30')
    book_first('Too long')
    page.until('nothing is free for so long', '#any-said', 'no room is free for that long')


def without_a_reply():
    show('2095-12-28')
    ask()
    page.run(LOST)
    book_first('Perhaps')
    page.until('a reply is lost', '#any-said', 'Perhaps booked: ')
    time.sleep(1)
    check('no further one is sent', page.run('return window.sent') == 1, page.run('return window.sent'))
    page.until('it stands among my requests', '#mine', 'Perhaps booked')
    show('2095-12-29')
    ask()
    office.stop()
    book_first('Nobody there')
    page.until('nothing was sent', '#any-said', 'Not booked: ')
    check('and is not among my requests', 'Nobody there' not in page.text('#mine'), page.text('#mine'))
    office.serve()
    page.look()
    page.gone('a line that is back', '#alarm', 'No connection')


def nothing_past():
    today = datetime.datetime.now(zoneinfo.ZoneInfo(ZONE))
    show(today.date().isoformat())
    ask(begin='00:00', end='23:59', length='30')
    book_first('From now on')
    page.until('today', '#any-said', 'Booked, not final yet')
    start = page.text('#any-said').split(', ')[-1][:5]
    check('nothing that is past is asked for', start >= today.strftime('%H:%M'), page.text('#any-said'))


office = Office(program, f'{folder}/anyroom.db', port)
page = Page(int(free) + 1, os.path.join(folder, 'profile-any'), url, pictures)
try:
    settings(ROOMS)
    office.serve()
    page.sign_in()
    for step in (what_is_needed, the_first, the_next, without_a_reply, nothing_past):
        step()
    check('nothing in the console of the browser', not [line for line in page.log() if 'Failed to load resource' not in line], page.log())
except (RuntimeError, OSError) as error:
    check('the browser', False, str(error))
finally:
    page.end()
    office.stop()
