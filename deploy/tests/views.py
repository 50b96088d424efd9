#!/usr/bin/env python3
"""The page's views in a real browser, through nginx, against a served replica: free rooms, week, phone, address, print, clocks, door, access.

    views.py PROGRAM FOLDER URL PORT FREE PICTURES ROOMS

The words are those of desk.py. FOLDER has views.db, a replica 1 of primary 1 with twelve rooms from room-a to room-l.
"""

import base64
import datetime
import os
import re
import sys
import time
import zlib
import zoneinfo

from colours import names_and_colours
from page import DAY, Office, Page, booking, check, slot, write_rooms

program, folder, url, port, free, pictures, rooms_json = sys.argv[1:]
TWELVE = {'room-' + letter: f'Room {letter.upper()}, floor {number % 4 + 1}' for number, letter in enumerate('abcdefghijkl')}
THREE = {name: TWELVE[name] for name in ('room-a', 'room-b', 'room-c')}


def show(address, again=False):
    """Opens the page at this address; where it is open already, as by a link, or anew."""
    page.open(f'{page.bare}/{"?" + str(time.time()) if again else ""}{address}')


def a_free_room():
    show(f'#{DAY}')
    page.until('the day', '#grid', 'Planning')
    page.click('#views [data-view="find"]')
    page.until('free rooms of the day', '#sheet-title', 'Free rooms, Monday 2095-12-19')
    page.set('#find-length', '90')
    page.set('#find-from', '09:00')
    page.set('#find-to', '12:00')
    page.until('a room that is free all the time', '#found li:nth-child(3)', '09:00–12:00')
    page.until('what is free around a booking', '#found li:nth-child(1)', '10:30–12:00')
    check('what is too short is not offered', '09:00–09:30' not in page.text('#found'), page.text('#found'))
    page.until('a room that is not free for so long', '#found li:nth-child(2)', 'Not free for that long')
    page.picture_of('find')
    page.click('#found li:nth-child(1) button')
    fields = [page.value(each) for each in ('#room', '#wish-day', '#wish-start', '#length')]
    check('a press fills the form', fields == ['room-a', DAY, '10:30', '90'], fields)
    page.click('#found li:nth-child(3) button')
    page.until('another room asks there too', '#question', 'Your wish is Room A, floor 1')
    page.click('#question button:last-child')
    check('and the wish stays', page.value('#room') == 'room-a')
    page.click('#clear')


def a_week():
    show(f'#{DAY}')
    page.set('#at-room', 'room-b')
    page.click('#views [data-view="week"]')
    page.until('a week of a room', '#sheet-title', 'Room B, floor 2, 2095-12-19 to 2095-12-25')
    page.there('a booking of its Monday', booking('room-b', '09:30'))
    page.there('and one of its Friday', booking('room-b', '13:00', '2095-12-23'))
    check('seven days', page.run('return document.querySelectorAll("#grid .column").length') == 7)
    page.click(slot('room-b', '11:00', '2095-12-21'))
    check('a slot of another day', [page.value('#wish-day'), page.value('#room')] == ['2095-12-21', 'room-b'])
    page.run('document.querySelector("#scroll").scrollTop = 120')
    page.picture_of('week')
    page.click('#clear')
    page.click('#after')
    page.until('the week after', '#sheet-title', '2095-12-26 to 2096-01-01')


BOXES = '''const cut = (box, at) => ({ left: Math.max(box.left, at.left), right: Math.min(box.right, at.right), top: Math.max(box.top, at.top), bottom: Math.min(box.bottom, at.bottom) });
const wordsOf = node => { const range = document.createRange(); range.selectNodeContents(node); return cut(range.getBoundingClientRect(), node.closest('.booking').getBoundingClientRect()); };
const meet = (one, other) => one.left < other.right && other.left < one.right && one.top < other.bottom && other.top < one.bottom;
const wishes = [...document.querySelectorAll('.choice, .clash')], words = [...document.querySelectorAll('.booking .words')];
return [wishes.length, words.filter(each => wishes.some(wish => meet(wish.getBoundingClientRect(), wordsOf(each)))).map(each => each.innerText)];'''


def labels():
    """No label is printed on another one, nor cut off, wherever the wish is."""
    for address, room, day in ((f'#{DAY}', 'room-b', DAY), (f'#{DAY}/week/room-b', 'room-b', DAY)):
        show(address, again=True)
        page.there('a booking to be in the way of', booking(room, '09:30', day))
        for start in ('09:30', '09:00', '11:00'):
            page.wish(room, start, 'In the way', day)
            page.there(f'a wish at {start}', '.choice.clashing')
            count, bad = page.run(BOXES)
            check(f'at {start} no label is on another: {address}', count > 1 and bad == [], (count, bad))
        page.click('#clear')
    long = {'room-a': 'The large meeting room of building B, east wing, behind the lift, 3rd floor', **{name: THREE[name] for name in ('room-b', 'room-c')}}
    write_rooms(rooms_json, long, zone='Europe/Berlin')
    page.resize(900, 900)
    show(f'#{DAY}', again=True)
    page.there('a long name', booking('room-a', '09:30'))
    cut = page.run('return [...document.querySelectorAll(".head")].map(each => [each.scrollHeight - each.clientHeight, each.offsetHeight])')
    check('no name of a room is cut off', all(over <= 0 for over, _ in cut), cut)
    check('all heads are as high', len({high for _, high in cut}) == 1, cut)
    page.resize(1280, 900)
    write_rooms(rooms_json, THREE, zone='Europe/Berlin')


def evenings():
    """After the office's hours each view opens where its bookings are, not at the evening."""
    hour = datetime.datetime.now(datetime.timezone.utc).hour
    ahead = (21 - hour + 12) % 24 - 12              # a zone in which it is between nine and ten in the evening
    zone = f'Etc/GMT{-ahead:+}'
    write_rooms(rooms_json, THREE, zone=zone)
    today = datetime.datetime.now(zoneinfo.ZoneInfo(zone)).date().isoformat()
    office.between(lambda: office.rooms('book', 'room-a', '60', today, '08:30', 'In the morning'))
    page.resize(1280, 500)
    for view in ('day', 'week'):
        show(f'#{today}/{view}/room-a', again=True)
        page.there(f'the {view} of today', booking('room-a', '08:30', today))
        time.sleep(0.3)
        seen = page.run('const box = document.querySelector(arguments[0]).getBoundingClientRect(), head = document.querySelector("#grid .column .head").getBoundingClientRect(),'
                        ' scroll = document.querySelector("#scroll").getBoundingClientRect(); return box.top >= head.bottom - 1 && box.top < scroll.bottom',
                        booking('room-a', '08:30', today))
        check(f'in the evening the {view} shows the morning', seen)
    page.resize(1280, 900)
    write_rooms(rooms_json, THREE, zone='Europe/Berlin')


def the_address():
    show(f'#{DAY}')
    page.until('a day of the address', '#sheet-title', 'Monday 2095-12-19')
    page.click('#after')
    page.until('the day after', '#sheet-title', 'Tuesday 2095-12-20')
    check('it is in the address', page.run('return location.hash') == '#2095-12-20')
    page.click('#views [data-view="week"]')
    page.until('a week', '#sheet-title', 'Room A, floor 1, 2095-12-19')
    check('the view is in the address', page.run('return location.hash') == '#2095-12-20/week/room-a', page.run('return location.hash'))
    page.run('history.back()')
    page.until('back', '#sheet-title', 'Tuesday 2095-12-20')
    page.run('history.back()')
    page.until('back once more', '#sheet-title', 'Monday 2095-12-19')
    page.run('history.forward()')
    page.until('forward', '#sheet-title', 'Tuesday 2095-12-20')
    page.run('location.hash = "#2095-12-23/find/room-b"')
    page.until('an address that is written', '#sheet-title', 'Free rooms, Friday 2095-12-23')
    today = datetime.date.today().isoformat()
    for address, words in (('#2026-13-77', 'There is no day 2026-13-77'), ('#2026-02-30', 'There is no day 2026-02-30'),
                           (f'#{DAY}/year/room-a', 'There is no view year'), (f'#{DAY}/day/attic', 'There is no room attic')):
        show(address, again=True)
        page.until(f'{address} has a word', '#word', words)
        page.until(f'{address} shows a sheet', '#grid', 'Room A')
        check(f'{address} is no unknown room', 'does not know' not in page.text('#grid'))
        if 'no day' in words:
            page.until(f'{address} shows today', '#sheet-title', today)


def clocks():
    """Twice the same moment, in two zones that never have the same day."""
    for zone in ('Pacific/Kiritimati', 'Pacific/Pago_Pago'):
        write_rooms(rooms_json, THREE, zone=zone, **{'from': '00:00', 'to': '24:00'})
        show('', again=True)
        page.until(f'{zone} is named', '#zone', f'wall clock of the rooms ({zone})')
        now = datetime.datetime.now(zoneinfo.ZoneInfo(zone))
        page.until(f'today in {zone}', '#sheet-title', now.date().isoformat())
        page.there(f'a line for now in {zone}', '.now')
        at = int(page.run('return document.querySelector(".now").style.getPropertyValue("--start")'))
        check(f'it is at the minute of {zone}', abs(at - (now.hour * 60 + now.minute)) <= 2, at)
        drawn = page.run('const box = each => document.querySelector(each).getBoundingClientRect(), hours = document.querySelector(".times .body").children;'
                         'return [box(".now").top - hours[0].getBoundingClientRect().top, hours[1].getBoundingClientRect().top - hours[0].getBoundingClientRect().top]')
        check(f'and drawn to scale in {zone}', abs(drawn[0] / drawn[1] - at / 60) < 0.03, drawn)
    write_rooms(rooms_json, THREE, zone='Nowhere/Atlantis')
    show('', again=True)
    page.until('a zone that is not known', '#zone', 'does not know the zone Nowhere/Atlantis')
    write_rooms(rooms_json, THREE, zone='Europe/Berlin')


def hours_to_scale():
    show(f'#{DAY}', again=True)
    page.there('a day', booking('room-a', '09:30'))
    heights = page.run('return arguments[0].map(each => document.querySelector(each).offsetHeight)',
                       [booking('room-a', '09:30'), booking('room-c', '15:00'), booking('room-c', '15:10'), slot('room-a', '14:00')])
    check('hours are to scale', heights[0] / heights[3] == 4 and heights[1] / heights[3] == 10 / 15 and heights[2] / heights[3] == 20 / 15, heights)
    times = page.run('return [...document.querySelectorAll(".times .time")].map(each => each.offsetHeight)')
    check('each hour is as high as the others', set(times) == {4 * heights[3]}, times)


def drawn_words(pdf):
    """How often the printed page shows text, and its first font sizes: a rough look, as fonts are embedded in parts."""
    streams = re.findall(rb'stream\r?\n(.*?)endstream', base64.b64decode(pdf), re.S)
    texts = []
    for stream in streams:
        try:
            texts.append(zlib.decompress(stream))
        except zlib.error:
            pass
    return sum(len(re.findall(rb'T[jJ]\b', text)) for text in texts)


def printing():
    """What is printed is what is shown, and the door's sheet where that was asked for."""
    shown = "return [...document.querySelectorAll('body > *, main > *')].filter(each => each.checkVisibility()).map(each => each.id || each.tagName)"
    page.run('window.print = () => {}')
    page.devtools('Emulation.setEmulatedMedia', media='print')
    check('the grid is printed', 'sheet' in page.run(shown) and 'request' not in page.run(shown) and 'door' not in page.run(shown), page.run(shown))
    check('with its bookings', page.run('return document.querySelector(arguments[0]).checkVisibility()', booking('room-a', '09:30')))
    check('whole', page.run('const s = document.querySelector("#scroll"); return s.scrollHeight <= s.clientHeight + 2 && s.scrollWidth <= s.clientWidth + 2'))
    check('a page can be printed', drawn_words(page.printed()) > 10, drawn_words(page.printed()))
    page.picture_of('printed')
    page.devtools('Emulation.setEmulatedMedia', media='')
    page.set('#at-room', 'room-c')
    page.until('another room', '#at-room', 'Room C')
    page.click('#print-door')
    page.devtools('Emulation.setEmulatedMedia', media='print')
    check('the sheet for the door', page.run(shown) == ['door'], page.run(shown))
    for words in ('Room C, floor 3', 'Monday 2095-12-19', '15:00–15:10', 'Call'):
        page.until(f'it has {words}', '#door', words)
    page.devtools('Emulation.setEmulatedMedia', media='')
    page.run('window.dispatchEvent(new Event("afterprint"))')
    check('the page is back', 'sheet' in page.run(shown))


def fits(selector):
    return page.run('const box = document.querySelector(arguments[0]).getBoundingClientRect();'
                    'return box.left >= 0 && box.top >= 0 && box.right <= innerWidth && box.bottom <= innerHeight', selector)


def a_phone():
    write_rooms(rooms_json, TWELVE, zone='Europe/Berlin')
    show(f'#{DAY}', again=True)
    page.until('twelve rooms', '#grid', 'Room L')
    page.there('with their bookings', booking('room-a', '09:30'))
    page.picture_of('twelve')
    page.resize(375, 812)
    check('one room at a time', page.waits(lambda: page.run('return document.querySelectorAll("#grid .column").length') == 1))
    wide = page.run('return [document.documentElement.scrollWidth - window.innerWidth, document.querySelector("#scroll").scrollWidth - document.querySelector("#scroll").clientWidth]')
    check('a phone needs no scrolling sideways', max(wide) <= 0, wide)
    head = page.run('return document.querySelector(".head").offsetHeight / document.querySelector("#scroll").offsetHeight')
    check('most of the box is the day', head < 0.15, head)
    page.set('#at-room', 'room-b')
    page.there('another room', booking('room-b', '09:30'))
    check('it is in the address', page.run('return location.hash') == f'#{DAY}/day/room-b')
    page.click(slot('room-b', '14:00'))
    page.until('the way to the form', '#go-on', 'Go on: Room B, floor 2, 14:00–15:00')
    small = page.run('return [...document.querySelectorAll("button, select, input, a")].filter(each => each.checkVisibility() && !each.matches(".skip, .booking, a")'
                     ' && each.getBoundingClientRect().height < 24).map(each => each.outerHTML.slice(0, 80))')
    check('what is pressed is large enough for a finger', small == [], small)
    page.picture_of('phone')
    page.click('#go-on')
    check('the form is reached', page.run('return document.activeElement.id') == 'title')
    page.set('#wish-start', '10:30')
    page.until('a clash is named on a phone', '#clash', '09:30 to 11:30 is Workshop.')
    page.write('#title', 'In the way')
    page.click('#send')
    page.until('and asks there', '#question', 'Ask all the same?')
    check('the question fits', fits('#question'))
    page.click('#question button:last-child')
    page.click('#clear')
    page.click(booking('room-b', '09:30'))
    page.until('a box on a phone', '#box', 'Workshop')
    check('the box fits', fits('#box'))
    page.click('#box [data-box=close]')
    check('the link to subscribe is that of the room', page.attribute('#calendar-link', 'href') == 'room-b.ics', page.attribute('#calendar-link', 'href'))
    for view in ('find', 'week'):
        show(f'#{DAY}/{view}/room-b')
        page.until(f'{view} on a phone', '#sheet-title', 'Room B' if view == 'week' else 'Free')
        time.sleep(0.3)
        wide = page.run('return document.documentElement.scrollWidth - window.innerWidth')
        check(f'{view} needs no scrolling of the page sideways', wide <= 0, wide)
    show('#2095-12-23/week/room-b')
    page.until('the week on a phone', '#sheet-title', 'Room B, floor 2, 2095-12-23 to 2095-12-29')
    check('begins at the chosen day, which is seen whole', fits('#grid .column:nth-child(2) .head') and
          'Friday' in page.text('#grid .column:nth-child(2) .head'), page.text('#grid .column:nth-child(2) .head'))
    page.there('with its booking', booking('room-b', '13:00', '2095-12-23'))
    page.picture_of('week-phone')
    page.open(f'{page.bare}/door.html#room-e')
    page.until('the door on a narrow screen', '#word', 'Free')
    check('it fits', page.run('return document.documentElement.scrollHeight <= innerHeight && document.documentElement.scrollWidth <= innerWidth'))
    page.resize(1280, 900)
    write_rooms(rooms_json, THREE, zone='Europe/Berlin')


# ---- access

def access():
    """A screen reader's tree, colours, and the order of Tab; axe-core isn't there to be asked."""
    show(f'#{DAY}', again=True)
    page.there('a day', booking('room-a', '09:30'))
    page.click(slot('room-a', '11:00'))
    names_and_colours(page, 'day')
    tree = page.devtools('Accessibility.getFullAXTree')['nodes']
    names = [node['name']['value'] for node in tree if not node['ignored'] and node['role']['value'] == 'button' and node.get('name')]
    for wanted in ('Room A, floor 1, 09:30–10:30, Planning, Booked', 'Room A, floor 1, 10:30 free', 'Room C, floor 3, 15:10–15:30, Tea, Booked, not final yet'):
        check(f'a screen reader hears {wanted}', wanted in names, names[:20])
    reached = []
    page.run('document.activeElement.blur(); window.scrollTo(0, 0)')
    for _ in range(55):
        page.keys('\ue004')
        reached.append(page.run('const at = document.activeElement; return at.id || at.dataset.view || (at.dataset.key && "grid") || at.tagName'))
    for wanted in ('skip', 'day', 'week', 'month', 'coming', 'find', 'search', 'before', 'today', 'after', 'at-room', 'print-door', 'door-link', 'calendar-link', 'grid', 'room', 'wish-day',
                   'wish-start', 'length', 'title', 'send', 'clear'):
        check(f'Tab reaches {wanted}', wanted in reached, reached)
    check('the grid is one stop', reached.count('grid') == 1, reached)
    page.click(booking('room-a', '09:30'))
    page.until('a box', '#box', 'Planning')
    names_and_colours(page, 'box')
    page.click('#box [data-box=close]')
    page.click('#clear')
    show(f'#{DAY}/find/room-a')
    page.until('free rooms', '#found', 'Room B')
    names_and_colours(page, 'find')


# ---- the door

def a_door():
    zone = zoneinfo.ZoneInfo('Europe/Berlin')
    now = datetime.datetime.now(zone)
    if now.hour == 23 and now.minute > 40:
        check('skipped: the door just before midnight', True)
        return
    today, minute = now.date().isoformat(), now.hour * 60 + now.minute
    text = lambda at: f'{at // 60:02}:{at % 60:02}'
    start, change, end = max(0, minute - 5), minute + 8, minute + 12

    def book():
        office.rooms('book', 'room-d', str(change - start), today, text(start), 'Present meeting')
        office.rooms('book', 'room-d', str(end - change), today, text(change), 'Straight after')
    office.between(book)
    write_rooms(rooms_json, TWELVE, zone='Europe/Berlin')
    page.open(f'{page.bare}/door.html#room-e')
    page.until('a free room', '#word', 'Free')
    page.until('for how long', '#until', 'for the rest of the day')
    page.until('what comes next', '#next', 'Nothing else today')
    page.picture_of('door-free')
    page.open(f'{page.bare}/door.html#room-d')
    page.until('a taken room', '#word', 'Taken')
    page.until('until when', '#until', f'until {text(end)}')
    page.until('by what', '#title', 'Present meeting')
    page.until('and what comes next', '#next', f'Next: {text(change)}–{text(end)} Straight after')
    page.until('its name', '#room', 'Room D, floor 4')
    size = page.run('return parseFloat(getComputedStyle(document.querySelector("#word")).fontSize) / Math.min(innerWidth, innerHeight)')
    check('a word to be read from five metres', size > 0.3, size)
    check('all of it fits', page.run('return document.documentElement.scrollHeight <= innerHeight && document.documentElement.scrollWidth <= innerWidth'))
    page.picture_of('door-taken')
    names_and_colours(page, 'door')
    page.open(f'{page.bare}/door.html#attic')
    page.until('a room that is not there', '#until', 'does not know the room')
    page.open(f'{page.bare}/door.html#')
    page.until('no room', '#next', 'Room D, floor 4')
    page.open(f'{page.bare}/door.html#room-d')
    page.until('the room again', '#word', 'Taken')
    office.stop()
    page.look()
    time.sleep(0.5)
    page.look()
    page.until('a lost line', '#news', 'No connection. Last news of ')
    page.until('it goes on by its last news', '#word', 'Taken')
    page.open(f'{page.bare}/door.html?again#room-d')
    page.until('also when it is opened anew', '#until', f'until {text(end)}')
    page.look()
    page.until('with the time of its last news', '#news', 'No connection. Last news of ')
    check('which is that of the rooms', re.search(r'of (\d\d:\d\d)', page.text('#news'))[1] in [text((minute + late) % 1440) for late in range(3)], page.text('#news'))
    office.serve()
    page.look()
    page.gone('a line that is back', '#news', 'No connection')


write_rooms(rooms_json, THREE, zone='Europe/Berlin')
office = Office(program, f'{folder}/views.db', port)
page = Page(int(free) + 1, os.path.join(folder, 'profile-views'), url, pictures)
try:
    office.serve()
    page.sign_in()
    for step in (a_free_room, a_week, labels, evenings, the_address, clocks, hours_to_scale, printing, a_phone, access, a_door):
        step()
    check('nothing in the console of the browser', not [line for line in page.log() if 'Failed to load resource' not in line], page.log())
except (RuntimeError, OSError) as error:
    check('the browser', False, str(error))
finally:
    page.end()
    office.stop()
