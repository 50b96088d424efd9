#!/usr/bin/env python3
"""Looking, in a real browser: a month, a room's coming bookings, a search by title, all of it by keys; and without any connection, by what was kept.

    looking.py PROGRAM FOLDER URL PORT FREE PICTURES ROOMS

The words are those of desk.py. FOLDER has looking.db, a replica 1 of primary 1 with rooms from room-a to room-l and the bookings of views.db.
"""

import os
import signal
import subprocess
import sys
import time

from colours import names_and_colours
from page import DAY, Office, Page, booking, check, write_rooms

program, folder, url, port, free, pictures, rooms_json = sys.argv[1:]
ROOMS = {'room-a': 'Room A', 'room-b': 'Room B', 'room-c': 'Room C'}
NAUGHTY = ['<img src=x onerror=alert(1)>', '=1+1', '"\'&lt;b>', 'a, b; c']
NGINX = os.path.join(folder, '..', 'nginx')
LEFT, UP, RIGHT, DOWN, PAGE_UP, PAGE_DOWN, HOME, END, ENTER, TAB = '\ue012', '\ue013', '\ue014', '\ue015', '\ue00e', '\ue00f', '\ue011', '\ue010', '\ue007', '\ue004'


def show(address, again=True):
    page.open(f'{page.bare}/{"?" + str(time.time()) if again else ""}{address}')


def date(day):
    return f'#month [data-day="{day}"]'


def at():
    return page.run('return document.activeElement.dataset.day || document.activeElement.id')


def no_scrolling(name):
    time.sleep(0.3)
    wide = page.run('return document.documentElement.scrollWidth - window.innerWidth')
    check(f'{name} needs no scrolling sideways', wide <= 0, wide)
    small = page.run('return [...document.querySelectorAll("main button, main select, main input")].filter(each => each.checkVisibility()'
                     ' && each.getBoundingClientRect().height < 24).map(each => each.outerHTML.slice(0, 80))')
    check(f'what is pressed is large enough for a finger: {name}', small == [], small)


def a_month():
    show(f'#{DAY}')
    page.click('#views [data-view="month"]')
    page.until('a month', '#sheet-title', 'Room A, December 2095')
    check('it is in the address', page.run('return location.hash') == f'#{DAY}/month/room-a', page.run('return location.hash'))
    page.until('its bookings', date(DAY), '09:30 Planning')
    check('all days are read', page.waits(lambda: not page.run('return document.querySelector("#month [aria-label*=\\"not read yet\\"]")')))
    check('31 days', page.run('return document.querySelectorAll("#month [data-day]").length') == 31)
    columns = page.run('return [...document.querySelectorAll("#month tbody tr")].map(line => [...line.cells].map(cell => cell.querySelector("b")?.textContent || ""))')
    check('from Monday to Sunday', columns[0] == ['', '', '', '1', '2', '3', '4'] and columns[-1] == ['26', '27', '28', '29', '30', '31', ''], columns)
    name = page.attribute(date('2095-12-24'), 'aria-label')
    check('titles of strangers are text', all(title in name for title in NAUGHTY) and page.text(date('2095-12-24')).count('<img') == 1, name)
    check('what is too much for a day is counted', 'and 1 more' in page.text(date('2095-12-24')), page.text(date('2095-12-24')))
    check('a screen reader hears the bookings of a day', page.attribute(date(DAY), 'aria-label') == 'Monday 2095-12-19, 1 booking, 09:30 Planning', page.attribute(date(DAY), 'aria-label'))
    page.picture_of('month')
    names_and_colours(page, 'month')
    page.run('document.querySelector("#zone").focus(); document.querySelector(arguments[0]).focus()', date(DAY))
    for keys, day in ((RIGHT, '2095-12-20'), (DOWN, '2095-12-27'), (UP + LEFT, '2095-12-19'), (HOME + DOWN + END, '2095-12-31'), (PAGE_DOWN, '2096-01-31'),
                      (PAGE_UP, '2095-12-31'), (RIGHT, '2096-01-01'), (UP, '2095-12-25')):
        page.keys(keys)
        check(f'keys lead to {day}', page.waits(lambda: at() == day), at())
    check('one day is a stop of Tab', page.run('return document.querySelectorAll("#month [tabindex=\\"0\\"]").length') == 1)
    page.keys(ENTER)
    page.until('a press leads to the day', '#sheet-title', 'Sunday 2095-12-25')
    show(f'#{DAY}/month/room-b')
    page.until('another room', date('2095-12-23'), '13:00 Retrospective')
    page.click('#after')
    page.until('the month after', '#sheet-title', 'Room B, January 2096')
    page.click('#before')
    page.resize(375, 812)
    page.until('a month on a phone', '#sheet-title', 'Room B, December 2095')
    no_scrolling('a month')
    check('with how many bookings a day has', page.text(date('2095-12-23')).split() == ['23', '1'], page.text(date('2095-12-23')))
    page.picture_of('month-phone')
    page.resize(1280, 900)


def what_comes():
    show(f'#{DAY}')
    page.click('#views [data-view="coming"]')
    page.until('what comes', '#sheet-title', 'Room A, 2095-12-19 to 2096-01-18')
    page.gone('all days are read', '#coming', 'not read yet')
    titles = page.run('return [...document.querySelectorAll("#coming b")].map(each => each.textContent)')
    check('in their order', titles == ['Planning', *NAUGHTY], titles)
    page.picture_of('coming')
    names_and_colours(page, 'coming')
    page.click('#coming li button')
    page.until('a press opens the box', '#box', 'Planning')
    page.keys(ENTER)
    check('and closes it', page.waits(lambda: not page.run('return document.querySelector("#box").open')))
    page.run('document.querySelectorAll("#coming button")[1].focus()')
    page.keys(ENTER)
    page.until('by keys too', '#box', NAUGHTY[0])
    page.click('#box [data-box=cancel]')
    page.click('#box [data-box=cancel]')
    page.until('it is cancelled there', '#box', 'Cancelled')
    page.click('#box [data-box=close]')
    page.click('#after')
    page.until('a week on', '#sheet-title', 'Room A, 2095-12-26 to 2096-01-25')
    page.gone('its days are read', '#coming', 'not read yet')
    page.until('where nothing is', '#coming', 'No bookings in these days.')
    page.resize(375, 812)
    show(f'#{DAY}/coming/room-b')
    page.until('what comes on a phone', '#coming', 'Retrospective')
    no_scrolling('a list')
    page.picture_of('coming-phone')
    page.resize(1280, 900)


def a_search():
    show(f'#{DAY}/search/room-a')
    page.until('what is looked through', '#search-hint', 'Looks through what this browser has read')
    check('which is what was shown before', ' sheets of ' in page.text('#search-hint') and 'to 2096-0' in page.text('#search-hint'), page.text('#search-hint'))
    page.run('document.querySelector("#search-for").focus()')
    page.keys('RETRO')
    page.until('a part of a title, in whatever case', '#search-found', 'Retrospective Fri 2095-12-23, 13:00–14:00, Room B')
    page.until('it is counted', '#search-words', '1 found.')
    check('and marked', page.text('#search-found mark') == 'Retro', page.text('#search-found'))
    page.picture_of('search')
    names_and_colours(page, 'search')
    page.write('#search-for', 'an')
    page.until('another', '#search-found', 'Planning')
    page.write('#search-for', '<B>')
    page.until('what nobody has', '#search-words', 'Nothing found.')
    page.write('#search-for', '=1+')
    page.until('signs are signs', '#search-found', '=1+1')
    page.run('document.querySelector("#search-for").focus()')
    page.keys(TAB + ENTER)
    page.until('a key shows the day', '#sheet-title', 'Saturday 2095-12-24')
    page.resize(375, 812)
    show(f'#{DAY}/search/room-a')
    page.write('#search-for', 'a')
    page.until('a search on a phone', '#search-found', 'Planning')
    no_scrolling('a search')
    page.picture_of('search-phone')
    page.resize(1280, 900)


def stop_proxy():
    with open(os.path.join(NGINX, 'pid')) as file:
        number = int(file.read())
    os.kill(number, signal.SIGTERM)
    while os.path.exists(f'/proc/{number}') and open(f'/proc/{number}/stat').read().split()[2] != 'Z':
        time.sleep(0.1)


def without_any_connection():
    """The proxy is down: the page opens all the same, with its last sheets, plainly marked as old; and so does the door."""
    show(f'#{DAY}')
    page.there('a day', booking('room-a', '09:30'))
    ready = page.waits(lambda: page.run('return Boolean(navigator.serviceWorker.controller)'))
    check('the page is kept', ready)
    kept = page.run('const kept = await caches.open("rooms-page"); return (await kept.keys()).map(each => new URL(each.url).pathname)')
    folder_of_page = os.path.join(os.path.dirname(os.path.dirname(os.path.abspath(__file__))), 'page')
    ours = ['/' + name for name in os.listdir(folder_of_page) if name.endswith('.js')] + ['/words/' + name for name in os.listdir(os.path.join(folder_of_page, 'words'))]
    missing = [name for name in ['/', '/door.html', '/desk.css', '/door.css', '/unstarted.css', '/rooms.json', *ours] if name not in kept and name not in ('/worker.js', '/figures.js', '/table.js')]
    check('all its files', missing == [], missing)
    check('and no sheet or request', not [name for name in kept if name.startswith('/rooms/') or 'submit' in name], kept)
    page.open(f'{page.bare}/door.html#room-a')
    page.waits(lambda: page.run('return document.body.className') != 'unknown')
    stop_proxy()
    try:
        show(f'#{DAY}')
        page.until('it opens without a connection', '#alarm', 'No connection to the office since ')
        page.until('what is shown is marked as old', '#alarm', 'What is shown is old, of ')
        page.there('with its last sheets', booking('room-a', '09:30'))
        check('and its names', page.text('#office') == 'West office' and 'Room A' in page.text('#grid'), page.text('#office'))
        page.picture_of('offline')
        show(f'#{DAY}/month/room-a')
        page.until('a month too', date(DAY), '09:30 Planning')
        page.until('marked as old', '#alarm', 'What is shown is old, of ')
        show(f'#{DAY}/search/room-a')
        page.write('#search-for', 'retro')
        page.until('and a search', '#search-found', 'Retrospective')
        page.write('#title', 'Nobody there')
        page.wish('room-a', '14:00', 'Nobody there')
        page.click('#send')
        page.until('nothing is booked', '#send-error', 'Not booked: no reply. Nothing was sent')
        page.open(f'{page.bare}/door.html?again#room-a')
        page.until('the door opens too', '#news', 'No connection')
        check('and shows what it knew', page.text('#word') in ('Free', 'Taken'), page.text('#word'))
    finally:
        proxy.append(subprocess.Popen(['nginx', '-c', os.path.join(NGINX, 'conf'), '-e', os.path.join(NGINX, 'errors')], stderr=subprocess.DEVNULL))
    show(f'#{DAY}')
    page.there('the line is back', booking('room-a', '09:30'))
    page.gone('and nothing is old', '#alarm', 'No connection')


proxy = []
write_rooms(rooms_json, ROOMS, zone='Europe/Berlin')
office = Office(program, f'{folder}/looking.db', port)
for place, title in enumerate(NAUGHTY):
    office.rooms('book', 'room-a', '30', '2095-12-24', f'{9 + place:02}:00', title)
page = Page(int(free) + 1, os.path.join(folder, 'profile-looking'), url, pictures)
try:
    office.serve()
    page.sign_in()
    for step in (a_month, what_comes, a_search, without_any_connection):
        step()
    check('nothing in the console of the browser', not [line for line in page.log() if 'Failed to load resource' not in line and 'ERR_CONNECTION' not in line], page.log())
except (RuntimeError, OSError) as error:
    check('the browser', False, str(error))
finally:
    page.end()
    office.stop()
    for each in proxy:
        each.terminate()
        each.wait()
