#!/usr/bin/env python3
"""Bookings that are moved, lengthened and renamed at the page, through nginx: in which order, what is said before, and what is found after a cut.

    move.py PROGRAM FOLDER URL PORT FREE PICTURES ROOMS

The words are those of desk.py. FOLDER has move.db, a replica 1 of primary 1 with the rooms oak and elm.
"""

import json
import os
import sys
import time
import urllib.request

from colours import names_and_colours
from page import DAY, Office, Page, booking, check, write_rooms

program, folder, url, port, free, pictures, rooms_json = sys.argv[1:]
NEXT = '2095-12-20'
STRANGE = '"><script>alert(1)</script>'


def sheet(room='oak', day=DAY):
    """The lines of a sheet without marks and ids."""
    return [' '.join([line.split(' ')[0], *line.split(' ')[3:]]) for line in office.asked(f'/rooms/{room}/days/{day}').splitlines()[1:]]


def ask(path, **words):
    """What another desk asks for meanwhile."""
    request = urllib.request.Request(f'http://127.0.0.1:{port}{path}', json.dumps(words).encode())
    with urllib.request.urlopen(request, timeout=60) as reply:
        return json.load(reply)


def book(start, length, title, room='oak', day=DAY):
    return ask('/submit', room=room, day=day, start=start, length=length, title=title)['id']


def change(at, /, room='oak', day=DAY, **fields):
    """Opens the form of the booking that stands there, and fills it in."""
    page.look()
    page.there(f'a booking at {at}', booking(room, at, day))
    page.click(booking(room, at, day))
    page.click('#box [data-box=move]')
    for name, value in fields.items():
        page.set(f'#move-{name}', value)
    page.run('document.querySelector("#move form").dispatchEvent(new Event("change"))')


def press(name, words):
    page.waits(lambda: not page.run('return document.querySelector("#move-send").disabled'))
    page.click('#move-send')
    page.until(name, '#move-outcome', words)
    page.click('#move-close')


def is_sheet(name, wanted, **at):
    check(name, sheet(**at) == wanted, sheet(**at))


def before(path, act):
    """Does something at this side just before the page sends its next request to this path."""
    page.run('window.real = window.real || fetch; window.gate = null; window.reached = 0; window.fetch = async (at, words) => { '
             'if (String(at).endsWith(arguments_path) && words.method === "POST" && reached++ === 0) await new Promise(open => { window.gate = open; }); '
             'return real(at, words); }'.replace('arguments_path', json.dumps(path)))
    yield
    page.waits(lambda: page.run('return window.gate !== null'))
    act()
    page.run('window.gate(); window.fetch = window.real')


def a_move():
    page.sign_in()
    page.open(f'{page.bare}/#{DAY}')
    change('09:00', start='11:00')
    page.until('what is done and what may be lost is said before', '#move-loss', 'The new one is asked for first, and the old one is cancelled once it is booked.')
    page.until('also of what is not final', '#move-loss', 'Until the offices have met the new one is not final')
    page.picture_of('move')
    names_and_colours(page, 'move')
    press('a booking is moved', f'Moved: {STRANGE}, Oak, {DAY} 11:00–12:00, request 1-')
    is_sheet('at the office too', [f'11:00-12:00 {STRANGE}', '14:00-15:00 Board'])
    page.there('and in the grid', booking('oak', '11:00'))
    page.until('among mine', '#mine', STRANGE)
    check('no title is code', not page.has('body script:not([src])'))
    change('11:00', start='11:00')
    check('without a change there is nothing to do', page.run('return document.querySelector("#move-send").disabled'))
    page.keys('\ue00c')
    change('11:00', name='Another room', length='30')
    page.set('#move-room', 'elm')
    press('to another room, with another title and length', f'Moved: Another room, Elm, 2nd floor, {DAY} 11:00–11:30')
    is_sheet('there', ['11:00-11:30 Another room'], room='elm')
    is_sheet('and no longer here', ['14:00-15:00 Board'])


def in_the_way():
    change('11:00', room='elm')
    page.set('#move-room', 'oak')
    page.set('#move-start', '13:30')
    page.set('#move-length', '60')
    page.run('document.querySelector("#move form").dispatchEvent(new Event("change"))')
    page.until('what is in the way is seen before', '#move-way', '14:00–15:00 is Board.')
    page.until('with free hours', '#move-free', 'Oak 13:00–14:00')
    page.picture_of('move-taken')
    page.click('#move-send')
    time.sleep(1)
    is_sheet('nothing is done then', ['11:00-11:30 Another room'], room='elm')
    page.click('#move-free button')
    page.gone('free hours are taken by a press', '#move-way', 'Board')
    press('and asked for', f'Moved: Another room, Oak, {DAY} 13:00–14:00')
    is_sheet('so it stands', ['13:00-14:00 Another room', '14:00-15:00 Board'])


def longer_and_renamed():
    change('13:00', start='12:30', length='90')
    page.until('hours that meet the old ones', '#move-loss', 'so the old booking is cancelled first')
    press('a booking is lengthened', f'Changed: Another room, Oak, {DAY} 12:30–14:00')
    is_sheet('so it is', ['12:30-14:00 Another room', '14:00-15:00 Board'])
    change('12:30', name='Müller')
    page.until('a title that can’t be kept', '#move-way', 'as “Mueller”')
    page.set('#move-name', 'Mueller')
    page.run('document.querySelector("#move form").dispatchEvent(new Event("input"))')
    press('a booking is renamed', f'Changed: Mueller, Oak, {DAY} 12:30–14:00')
    is_sheet('and has the name', ['12:30-14:00 Mueller', '14:00-15:00 Board'])


def somebody_was_quicker():
    """In the moment between the sheet and the request."""
    gate = before('/submit', lambda: book('09:30', 30, 'Quick'))
    next(gate)
    change('12:30', start='09:00')
    page.waits(lambda: not page.run('return document.querySelector("#move-send").disabled'))
    page.click('#move-send')
    next(gate, None)
    page.until('a move that found no room', '#move-outcome', 'Not moved: Oak, 2095-12-19 09:00–10:30 was taken meanwhile. The booking stands as it was.')
    page.click('#move-close')
    is_sheet('nothing is lost', ['09:30-10:00 Quick', '12:30-14:00 Mueller', '14:00-15:00 Board'])
    errors = office.asked('/rooms/oak/errors')
    check('and the request without a room is withdrawn', ' cancel ' in errors.splitlines()[-1], errors)
    gate = before('/submit', lambda: book('12:00', 30, 'Quick too'))
    next(gate)
    change('12:30', start='11:30')
    page.waits(lambda: not page.run('return document.querySelector("#move-send").disabled'))
    page.click('#move-send')
    next(gate, None)
    page.until('one whose old hours are its alternative', '#move-outcome', 'It has its old hours again, as request 1-')
    page.click('#move-close')
    is_sheet('has them', ['09:30-10:00 Quick', '12:00-12:30 Quick too', '12:30-14:00 Mueller', '14:00-15:00 Board'])
    gate = before('/submit', lambda: book('11:00', 45, 'Quickest'))
    next(gate)
    ask('/cancel', room='oak', id=identity('Quick too'))
    change('12:30', start='11:30', length='150')
    page.waits(lambda: not page.run('return document.querySelector("#move-send").disabled'))
    page.click('#move-send')
    next(gate, None)
    page.until('one that was lengthened in vain', '#move-outcome', 'It has its old hours again, as request 1-')
    page.click('#move-close')
    is_sheet('has its old hours', ['09:30-10:00 Quick', '11:00-11:45 Quickest', '12:30-14:00 Mueller', '14:00-15:00 Board'])


def identity(title, room='oak', day=DAY):
    return next(line.split(' ')[2] for line in office.asked(f'/rooms/{room}/days/{day}').splitlines()[1:] if line.endswith(title))


def held(path):
    """From here on the page hears nothing of what it sends to this path."""
    page.run('window.real = window.real || fetch; window.fetch = (at, words) => String(at).endsWith(arguments_path) && words.method === "POST" '
             '? new Promise(() => {}) : real(at, words)'.replace('arguments_path', json.dumps(path)))


def closed_between(path):
    held(path)
    page.waits(lambda: not page.run('return document.querySelector("#move-send").disabled'))
    page.click('#move-send')
    page.until(f'it waits at {path}', '#move-outcome', 'Cancelling the old one.' if path == '/cancel' else 'Asking for the new one.')
    time.sleep(0.5)
    page.open(f'{page.bare}/?{time.time()}#{NEXT}')


def the_tab_is_closed():
    book('09:00', 60, 'Twice', day=NEXT)
    page.open(f'{page.bare}/?next#{NEXT}')
    change('09:00', day=NEXT, start='15:00')
    closed_between('/cancel')
    page.until('two that stand are found', '#moves', 'Both stand: Oak, Tue 2095-12-20 09:00–10:00 (request 1-')
    page.picture_of('move-broken')
    names_and_colours(page, 'moves')
    is_sheet('both stand', ['09:00-10:00 Twice', '15:00-16:00 Twice'], day=NEXT)
    page.click('#moves button')
    page.until('the old one is cancelled at a press', '#outcome', 'The old booking is cancelled')
    check('that is all', page.waits(lambda: not page.text('#moves')))
    is_sheet('one stands', ['15:00-16:00 Twice'], day=NEXT)
    change('15:00', day=NEXT, start='10:00')
    closed_between('/cancel')
    page.until('two again', '#moves', 'Both stand')
    page.click('#moves button:nth-child(2)')
    page.until('the new one is taken back', '#outcome', 'is taken back')
    is_sheet('the old one stands', ['15:00-16:00 Twice'], day=NEXT)
    change('15:00', day=NEXT, start='10:00')
    closed_between('/submit')
    page.until('one that was not asked for yet', '#moves', 'It was not done: Oak, Tue 2095-12-20 15:00–16:00 stands as it was.')
    page.click('#moves button')
    check('needs no more', page.waits(lambda: not page.text('#moves')))
    change('15:00', day=NEXT, start='15:15')
    closed_between('/submit')
    page.until('none that stands is found', '#moves', 'Neither stands: Oak, Tue 2095-12-20 15:00–16:00 was cancelled')
    check('none stands', 'Twice' not in office.asked(f'/rooms/oak/days/{NEXT}'))
    page.click('#moves button')
    page.until('it is asked for at a press', '#outcome', 'Booked, not final yet: Twice')
    is_sheet('it stands', ['15:15-16:15 Twice'], day=NEXT)
    check('nothing more is said', page.waits(lambda: not page.text('#moves')))


def the_line_is_cut():
    """Replies are lost on their way back."""
    lost = ('window.real = window.real || fetch; window.lost = 0; window.fetch = async (at, words) => { const reply = await real(at, words); '
            'if (String(at).endsWith(arguments_path) && words.method === "POST" && lost++ === 0) throw new Error("cut"); return reply; }')
    for path, start, words in (('/cancel', '09:00', 'Moved'), ('/submit', '11:00', 'Moved')):
        page.run(lost.replace('arguments_path', json.dumps(path)))
        at = sheet(day=NEXT)[0][:5]
        change(at, day=NEXT, start=start)
        press(f'a lost reply of {path} is made good', f'{words}: Twice, Oak, {NEXT} {start}')
        is_sheet('and one stands', [f'{start}-{int(start[:2]) + 1}:00 Twice'], day=NEXT)
    page.run('window.fetch = (at, words) => words.method === "POST" ? Promise.reject(new Error("cut")) : String(at).includes("requests") || String(at).includes("errors") '
             '? Promise.reject(new Error("cut")) : real(at, words)')
    change('11:00', day=NEXT, start='11:30')
    page.waits(lambda: not page.run('return document.querySelector("#move-send").disabled'))
    page.click('#move-send')
    page.until('a line that is cut', '#move-outcome', 'The move was broken off (no reply)')
    page.until('nothing is known yet', '#moves-list', 'What of it stands is not known yet')
    page.click('#move-close')
    page.run('window.fetch = real')
    page.look()
    page.until('once it is back it is', '#moves-list', 'It was not done')
    page.click('#moves button')
    office.stop()
    change('11:00', day=NEXT, start='13:00')
    page.run('document.querySelector("#move-start").dispatchEvent(new Event("change"))')
    page.until('an office that ended', '#move-way', 'can’t be read')
    page.click('#move-close')
    office.serve()
    page.look()
    is_sheet('nothing was done', ['11:00-12:00 Twice'], day=NEXT)


def fallen_back():
    """The old hours are the alternative of the new request, and its reply gets lost, or the tab is closed before it comes."""
    book('12:00', 30, 'In the way', day=NEXT)
    for name, lost, words in (('lost', 'throw new Error("cut")', ''), ('closed', 'await new Promise(() => {})', 'closed')):
        page.run('window.real = window.real || fetch; window.fetch = async (at, words) => { const reply = await real(at, words); '
                 'if (String(at).endsWith("/submit") && words.method === "POST") { LOST; } return reply; }'.replace('LOST', lost))
        change('11:00', day=NEXT, start='11:30')
        page.run('window.ready = window.fetch; window.fetch = (at, words) => String(at).includes("/days/") ? real(at, words).then(async reply => new Response((await reply.text()).replace('
                 '/^12:00.*\\n/m, ""), { status: reply.status })) : ready(at, words)')
        page.run('document.querySelector("#move form").dispatchEvent(new Event("change"))')
        page.gone(f'{name}: the sheet is an old one', '#move-way', 'In the way')
        page.click('#move-send')
        if words:
            page.waits(lambda: 'Twice' in office.asked(f'/rooms/oak/days/{NEXT}'))
            page.until('it waits for the reply', '#move-outcome', 'Asking for the new one.')
            page.waits(lambda: identity('Twice', day=NEXT) != before_it)
            page.open(f'{page.bare}/?fallen#{NEXT}')
            page.until('a request that fell back is found', '#moves', 'was taken. It has Oak, Tue 2095-12-20 11:00–12:00, as request 1-')
            page.click('#moves button')
            check('and needs no more', page.waits(lambda: not page.text('#moves')))
        else:
            page.until('a lost reply of one that fell back is made good', '#move-outcome', 'It has its old hours again, as request 1-')
            page.click('#move-close')
        before_it = identity('Twice', day=NEXT)
        page.run('window.fetch = window.real || fetch')
        is_sheet(f'{name}: it stands', ['11:00-12:00 Twice', '12:00-12:30 In the way'], day=NEXT)
    ask('/cancel', room='oak', id=identity('In the way', day=NEXT))
    page.look()


def of_a_group():
    """A booking of a group that is moved stays of it."""
    name = os.path.join(groups, f'{NEXT}.abcdefgh')
    with open(name, 'w') as out:
        json.dump({'title': 'Group', 'made': '', 'items': [{'room': 'oak', 'day': NEXT, 'start': '11:00', 'length': 60, 'title': 'Twice', 'id': identity('Twice', day=NEXT),
                                                           'state': 'booked'}]}, out)
    os.chmod(name, 0o666)
    change('11:00', day=NEXT, start='16:00')
    press('one of a group is moved', 'Moved: Twice')
    with open(name) as read:
        items = json.load(read)['items']
    check('and stays of it', [(item['id'], item['start']) for item in items] == [(identity('Twice', day=NEXT), '16:00')], items)


def on_a_phone():
    page.resize(375, 812)
    page.open(f'{page.bare}/?phone#{NEXT}')
    page.there('the booking', booking('oak', '16:00', NEXT))
    page.click('#mine button[data-key^="move"]')
    check('the form fits', page.run('const box = document.querySelector("#move").getBoundingClientRect(); return box.left >= 0 && box.right <= innerWidth && box.top >= 0 && box.bottom <= innerHeight'),
          page.run('return JSON.stringify(document.querySelector("#move").getBoundingClientRect())'))
    page.picture_of('move-phone')
    page.keys('\ue00c')
    check('escape closes it', page.waits(lambda: not page.has('#move[open]')))


write_rooms(rooms_json, {'oak': 'Oak', 'elm': 'Elm, 2nd floor'}, zone='Etc/UTC')
groups = os.path.join(os.environ['ROOMS_CALENDARS'], 'west', 'groups')
office = Office(program, f'{folder}/move.db', port)
office.rooms('book', 'oak', '60', DAY, '09:00', STRANGE)
office.rooms('book', 'oak', '60', DAY, '14:00', 'Board')
page = Page(int(free) + 1, os.path.join(folder, 'profile-move'), url, pictures)
try:
    office.serve()
    for step in (a_move, in_the_way, longer_and_renamed, somebody_was_quicker, the_tab_is_closed, the_line_is_cut, fallen_back, of_a_group, on_a_phone):
        step()
    check('nothing in the console of the browser', not [line for line in page.log() if 'Failed to load resource' not in line], page.log())
except (RuntimeError, OSError) as error:
    check('the browser', False, str(error))
finally:
    page.end()
    office.stop()
