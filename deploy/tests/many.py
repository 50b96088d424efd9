#!/usr/bin/env python3
"""Many requests at once at the page, through nginx: a series, what of it is taken, a run that is stopped, cut and broken off, and groups.

    many.py PROGRAM FOLDER URL PORT FREE PICTURES ROOMS

The words are those of desk.py. FOLDER has many.db, a replica 1 of primary 1 with the rooms oak and elm.
"""

import datetime
import json
import os
import sys
import time

from colours import names_and_colours
from page import DAY, Office, Page, booking, check, write_rooms

program, folder, url, port, free, pictures, rooms_json = sys.argv[1:]
TUESDAYS = [(datetime.date(2095, 12, 20) + datetime.timedelta(days=7 * number)).isoformat() for number in range(6)]
STRANGE = '<img src=x onerror=alert(1)>"\'&=1+1'


def state(name):
    return f'#plan-items details[data-state="{name}"]'


def counts():
    """How many items the list has of each state."""
    return page.run('return Object.fromEntries([...document.querySelectorAll("#plan-items details")].map(each => '
                    '[each.dataset.state, Number(each.querySelector("summary").innerText.split(" ").at(-1))]))')


def becomes(name, wanted, patience=60):
    check(name, page.waits(lambda: counts() == wanted, patience), counts())


def settled(patience=60):
    """The list is looked at or asked for to its end."""
    page.waits(lambda: page.run('return document.querySelector("#plan-progress").hidden'), patience)


def series(room='oak', start='09:00', length='60', title='Jour fixe', begin=TUESDAYS[0], end=TUESDAYS[-1], days=''):
    if not page.has('#many:not([hidden])'):
        page.click('#many-open')
    page.click('#many-parts [data-part="series"]')
    for field, value in (('room', room), ('start', start), ('length', length), ('title', title), ('from', begin), ('until', end), ('list', days)):
        page.set(f'#series-{field}', value)
    page.click('#series button[type=submit]')
    settled()


def sheet(room, day):
    return office.asked(f'/rooms/{room}/days/{day}')


def a_series():
    """Each Tuesday until a day: what is taken is seen before anything is asked, and found room elsewhere on its day."""
    page.sign_in()
    page.open(f'{page.bare}/#{TUESDAYS[0]}')
    page.until('the page', '#grid', 'Board')
    page.wish('oak', '09:00', 'Jour fixe', TUESDAYS[0])
    page.click('#many-open')
    fields = [page.value(f'#series-{each}') for each in ('room', 'start', 'length', 'title', 'from')]
    check('the series begins with what stands in the form', fields == ['oak', '09:00', '60', 'Jour fixe', TUESDAYS[0]], fields)
    ticked = page.run('return [...document.querySelectorAll("#series-weekdays input:checked")].map(each => each.parentElement.innerText.trim())')
    check('its weekday is ticked', ticked == ['Tue'], ticked)
    page.click('#series button[type=submit]')
    page.until('a series without an end is refused', '#series-error', 'a first and a last day')
    page.set('#series-until', TUESDAYS[-1])
    page.click('#series button[type=submit]')
    becomes('what is taken is seen', {'clash': 2, 'free': 4})
    page.until('and by what', state('clash'), '09:00–10:00 is Board')
    page.until('also by strangers, as text', state('clash'), STRANGE)
    check('nothing was asked', 'Jour fixe' not in sheet('oak', TUESDAYS[0]))
    page.click(f'{state("free")} li:nth-child(4) input')
    page.until('one is left out by hand', '#plan-buttons', 'Ask for 3')
    page.click(f'{state("clash")} li:nth-child(1) button')
    page.until('free hours of its day', state('clash'), 'Oak 10:00–11:00')
    page.until('also in another room', state('clash'), 'Elm, 2nd floor 09:00–10:00')
    page.picture_of('many-looked')
    page.click(f'{state("clash")} li:nth-child(1) .buttons button:nth-child(1)')
    page.until('one is taken', '#plan-buttons', 'Ask for 4')


def it_is_asked():
    page.click('#plan-buttons .main')
    settled()
    becomes('what was ticked is booked', {'clash': 1, 'free': 1, 'booked': 4})
    page.until('in words', '#plan-words', '6 in the list: 1 taken; 1 free; 4 booked, not final yet.')
    seen = [day for day in TUESDAYS if 'Jour fixe' in sheet('oak', day)]
    check('at the office too', seen == [*TUESDAYS[:3], TUESDAYS[4]] and '08:00-09:00' in sheet('oak', TUESDAYS[0]), seen)
    page.picture_of('many-asked')
    names = os.listdir(groups)
    check('the group is kept', len(names) == 1 and len(json.load(open(os.path.join(groups, names[0])))['items']) == 4, names)
    names_and_colours(page, 'many')


def without_room():
    """Another desk was quicker: what found no room is shown with free hours, and one of them is asked for instead."""
    series(title='Late', start='14:00')
    becomes('all free', {'free': 6})
    office.between(lambda: office.rooms('book', 'oak', '30', TUESDAYS[1], '14:15', 'Quicker'))
    page.click('#plan-buttons .main')
    settled()
    becomes('one found no room', {'none': 1, 'booked': 5})
    page.until('it is shown with free hours', state('none'), 'Oak 14:45–15:45')
    page.picture_of('many-no-room')
    page.click(f'{state("none")} button[aria-label$="14:45–15:45"]')
    becomes('another hour is asked for', {'booked': 6})
    page.until('and the first request withdrawn', state('booked'), 'Instead of request')
    check('so the office says', '14:45-15:45' in sheet('oak', TUESDAYS[1]) and ' cancel ' in office.asked('/rooms/oak/errors'), office.asked('/rooms/oak/errors'))
    page.click('#plan-buttons [data-key="away"]')
    check('the list is put away', page.waits(lambda: not page.text('#plan')))


def asked_twice():
    series(title='Late', start='14:00')
    becomes('what is there already is not asked for again', {'clash': 1, 'there': 5})
    check('there is nothing to ask for', not page.has('#plan-buttons .main'))


def slowly():
    """From here on each request waits a while before it is sent."""
    page.run('window.real = window.real || fetch; window.fetch = async (at, words) => { if (String(at).endsWith("/submit") && words.method === "POST") '
             'await new Promise(done => setTimeout(done, 700)); return real(at, words); }')


def it_is_stopped():
    series(title='Stopped', start='16:00')
    slowly()
    page.click('#plan-buttons .main')
    page.until('a bar of progress', '#plan-words', 'Asking:')
    check('which is seen', page.run('return document.querySelector("#plan-progress").checkVisibility()'))
    page.waits(lambda: 'Stopped' in sheet('oak', TUESDAYS[0]))
    page.click('#plan-buttons [data-key="stop"]')
    settled()
    seen = counts()
    check('a run is stopped', seen.get('booked', 0) in (1, 2, 3) and seen['free'] + seen['booked'] == 6, seen)
    page.click('#plan-buttons .main')
    settled()
    becomes('and goes on', {'booked': 6})


def it_is_broken_off():
    """The tab is closed while a request is under way: opened anew, the page says what was asked, and asks nothing by itself."""
    series(title='Broken', start='17:00')
    slowly()
    page.click('#plan-buttons .main')
    page.waits(lambda: 'Broken' in sheet('oak', TUESDAYS[1]))
    page.run('window.onbeforeunload = null')
    page.leave(f'{page.bare}/rooms.json')
    asked = sum('Broken' in sheet('oak', day) for day in TUESDAYS)
    page.open(f'{page.bare}/?broken#{TUESDAYS[0]}')
    page.until('a run that was broken off is found', '#plan-trouble', 'This list was broken off')
    settled()
    seen = counts()
    check('what was asked is known', seen.get('booked') == asked and seen.get('free') == 6 - asked, (seen, asked))
    time.sleep(2)
    check('nothing is asked by itself', sum('Broken' in sheet('oak', day) for day in TUESDAYS) == asked)
    page.click('#plan-buttons .main')
    settled()
    becomes('it goes on', {'booked': 6})
    check('and asked for nothing twice', [sheet('oak', day).count('Broken') for day in TUESDAYS] == [1] * 6 and 'Broken' not in office.asked('/rooms/oak/errors'))
    page.open(f'{page.bare}/?mended#{TUESDAYS[0]}')
    page.until('the page anew', '#grid', 'Broken')
    time.sleep(1)
    check('what was ended is not taken up again', not page.text('#many'))


def the_line_is_cut():
    """The office ends meanwhile, and a reply is lost."""
    series(title='Lost reply', start='11:00')
    page.run('window.lost = 0; window.real = window.real || fetch; window.fetch = async (at, words) => { const reply = await real(at, words); '
             'if (String(at).endsWith("/submit") && words.method === "POST" && lost++ === 1) throw new Error("cut"); return reply; }')
    page.click('#plan-buttons .main')
    settled()
    becomes('a lost reply is made good by the sheet', {'booked': 6})
    check('and nothing is asked twice', [sheet('oak', day).count('Lost reply') for day in TUESDAYS] == [1] * 6 and 'Lost reply' not in office.asked('/rooms/oak/errors'))
    series(title='Unheard', start='12:00')
    page.run('window.fetch = async (at, words) => { if (String(at).endsWith("/submit") && words.method === "POST") throw new Error("cut"); return real(at, words); }')
    page.click('#plan-buttons .main')
    settled()
    page.until('a request that nobody heard of', '#plan-trouble', 'No reply (no reply) to the request for Unheard, Oak')
    becomes('ends the run', {'perhaps': 1, 'free': 5})
    page.run('window.fetch = real')
    page.click('#plan-buttons [data-key="unsure"]')
    becomes('it is looked for', {'free': 6})
    page.click('#plan-buttons .main')
    settled()
    becomes('and asked for at a press', {'booked': 6})


def groups_of_the_office():
    """At another desk: what was asked for together, and its cancel as one."""
    other = Page(int(free) + 2, os.path.join(folder, 'profile-many-2'), url, pictures, width=375, height=812)
    try:
        other.sign_in()
        other.resize(375, 812)
        other.open(f'{other.bare}/#{TUESDAYS[0]}')
        other.until('another desk', '#grid', 'Late')
        other.click('#many-open')
        other.click('#many-parts [data-part="groups"]')
        other.until('has the groups', '#groups', 'Late')
        check('all of them', other.run('return document.querySelectorAll("#groups .group").length') == 6, other.text('#groups'))
        late = '#groups .group[aria-label="Late"]'
        other.click(f'{late} button')
        other.until('one is shown', f'{late} li:nth-child(6)', 'Booked, not final yet')
        wide = other.run('return document.documentElement.scrollWidth - window.innerWidth')
        check('a phone needs no scrolling sideways', wide <= 0, wide)
        other.picture_of('groups-phone')
        names_and_colours(other, 'groups')
        other.click(f'{late} button.cancel')
        other.until('its cancel asks', '#question', 'Cancel all 6 requests of Late from today on?')
        other.click('#question button:last-child')
        check('nothing is cancelled by no', sum('Late' in sheet('oak', day) for day in TUESDAYS) == 6)
        other.click(f'{late} button.cancel')
        other.click('#question button.main')
        other.until('it is cancelled as one', '#groups', '6 cancelled.', 90)
        check('at the office too', not any('Late' in sheet('oak', day) for day in TUESDAYS), [sheet('oak', day) for day in TUESDAYS])
        other.until('none of it stands', late, 'none of them stands')
        other.click('#many-parts [data-part="series"]')
        other.picture_of('many-phone')
        wide = other.run('return document.documentElement.scrollWidth - window.innerWidth')
        check('nor does the series', wide <= 0, wide)
        check('nothing in the console of the phone', not [line for line in other.log() if 'Failed to load resource' not in line])
    finally:
        other.end()


def lists_and_rules():
    """Days of a list, and the rules of a series, by what comes of them."""
    series(title='Listed', start='18:00', days=f'{TUESDAYS[0]}, 22.12.2095; 2095-02-30 31/12/2095')
    becomes('a list of days', {'bad': 2, 'free': 2})
    page.until('a wrong day is named', state('bad'), '“2095-02-30” is no day')
    for every, wanted in (('2', [TUESDAYS[0], TUESDAYS[2], TUESDAYS[4]]), ('month', ['2095-12-20', '2096-01-17'])):
        page.set('#series-every', every)
        series(title='Turns', start='18:00')
        days = page.run('return [...document.querySelectorAll("#plan-items li label")].map(each => each.innerText.match(/[0-9-]{10}/)[0])')
        check(f'in each {every}', days == wanted, days)
    page.set('#series-every', '1')
    page.run('for (const box of document.querySelectorAll("#series-weekdays input")) { box.checked = box.value <= 5; box.dispatchEvent(new Event("change")); }')
    series(title='Week', start='18:00', begin='2096-01-02', end='2096-01-08')
    days = page.run('return [...document.querySelectorAll("#plan-items li label")].map(each => each.innerText.match(/[0-9-]{10}/)[0])')
    check('each weekday of a week', days == [f'2096-01-0{number}' for number in range(2, 7)], days)
    page.set('#series-until', '2099-12-31')
    page.click('#series button[type=submit]')
    page.until('a series without bounds', '#series-error', 'more than 500 days')


write_rooms(rooms_json, {'oak': 'Oak', 'elm': 'Elm, 2nd floor'}, zone='Etc/UTC')
groups = os.path.join(os.environ['ROOMS_CALENDARS'], 'west', 'groups')
office = Office(program, f'{folder}/many.db', port)
office.rooms('book', 'oak', '60', TUESDAYS[0], '09:00', 'Board')
office.rooms('book', 'oak', '60', TUESDAYS[3], '08:30', STRANGE)
page = Page(int(free) + 1, os.path.join(folder, 'profile-many'), url, pictures)
try:
    office.serve()
    for step in (a_series, it_is_asked, without_room, asked_twice, it_is_stopped, it_is_broken_off, the_line_is_cut, groups_of_the_office, lists_and_rules):
        step()
    check('nothing in the console of the browser', not [line for line in page.log() if 'Failed to load resource' not in line], page.log())
except (RuntimeError, OSError) as error:
    check('the browser', False, str(error))
finally:
    page.end()
    office.stop()
