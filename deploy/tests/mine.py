#!/usr/bin/env python3
"""'My requests' of a browser that has many, through nginx: how little is asked of the office, and how they are shown.

    mine.py PROGRAM FOLDER URL PORT FREE PICTURES ROOMS

The words are those of desk.py. FOLDER has mine.db, a replica 1 of primary 1 with the rooms oak and elm.
"""

import datetime
import json
import os
import re
import sys
import time

from page import Office, Page, check, write_rooms

program, folder, url, port, free, pictures, rooms_json = sys.argv[1:]
access = os.path.join(folder, '..', 'nginx', 'access')
DAYS = [(datetime.date(2095, 12, 19) + datetime.timedelta(days=number)).isoformat() for number in range(5)]
MOST = 4


def book_many():
    """Thirty requests a day in oak on five days, each a quarter of an hour, as entries of this browser's list."""
    entries = []
    for day in DAYS:
        for number in range(30):
            start, stop = (f'{minute // 60:02}:{minute % 60:02}' for minute in (480 + 15 * number, 495 + 15 * number))
            identity = office.rooms('book', 'oak', '15', day, start, f'Many {number}').split()[0]
            outcome = {'id': identity, 'mark': 'T', 'state': 'booked', 'day': day, 'start': start, 'stop': stop}
            entries.append({'room': 'oak', 'title': f'Many {number}', 'wish': {'day': day, 'start': start}, 'length': 15, 'sent': f'{day} {number}',
                            'first': outcome, 'now': outcome})
    return entries


def asked(act):
    """What the program was asked meanwhile, by the log of the proxy."""
    with open(access, encoding='utf-8') as log:
        log.seek(0, os.SEEK_END)
        act()
        return [path for path in re.findall(r'"(?:GET|POST) (/rooms/\S+|/submit|/cancel) ', log.read())]


def a_round():
    """A round of asking, to its end."""
    page.run('window.done = 0; window.real = window.real || fetch; window.fetch = async (...words) => { window.last = Date.now(); '
             'const reply = await real(...words); window.last = Date.now(); return reply; }')
    page.look()
    page.waits(lambda: page.run('return window.last && Date.now() - window.last > 700'))


def opens_with(entries, address):
    """The page at this address, in a browser with these requests: put into it where no page goes on that would put its own back."""
    page.open(f'{page.bare}/rooms.json')
    page.run('localStorage.setItem("rooms.mine", JSON.stringify(arguments[0]))', entries)
    page.open(page.bare + address)


def few_questions():
    page.sign_in()
    opens_with(entries[:30], f'/?few#{DAYS[0]}')
    page.until('thirty requests of the day that is shown', '#mine', 'Many 29')
    time.sleep(1)
    seen = asked(a_round)
    check('what is on the sheet that is shown is not asked again', sorted(seen) == [f'/rooms/{room}/days/{DAYS[0]}' for room in ('elm', 'oak')], seen)
    opens_with(entries, f'/?many#{DAYS[0]}/week/oak')
    page.until('a hundred and fifty', '#mine', '30 requests')
    time.sleep(2)
    seen = asked(a_round)
    check('a week that is shown is asked for by its sheets alone', len(seen) == 7 and all('/days/' in path for path in seen), seen)
    page.open(f'{page.bare}/?many#2095-11-01')
    page.until('a day on which none of them stands', '#sheet-title', '2095-11-01')
    time.sleep(2)
    for number in range(3):
        seen = [path for path in asked(a_round) if '2095-11-01' not in path]
        check(f'no more than {MOST} further questions a round, {number}', len(seen) <= MOST and not [path for path in seen if '/requests/' in path], seen)


def what_is_missing():
    """Those that aren't where they stood are asked for by their ids, and no others."""
    first, second = entries[0]['now']['id'], entries[31]['now']['id']
    office.between(lambda: [office.rooms('cancel', 'oak', each) for each in (first, second)])
    page.open(f'{page.bare}/?missing#{DAYS[0]}')
    page.until('a request that was cancelled elsewhere', f'#mine li:has(button[data-key="show {DAYS[0]} 0"])', 'cancelled it')
    page.run('document.querySelectorAll("#mine summary")[1].click()')
    page.until('also one of another day', f'#mine li:has(button[data-key="show {DAYS[1]} 1"])', 'cancelled it', 60)
    office.between(lambda: office.rooms('commit', '1000'))
    page.look()
    page.until('what is final', f'#mine li:has(button[data-key="show {DAYS[0]} 1"])', 'Booked')
    time.sleep(2)
    for _ in range(2):
        seen = asked(a_round)
        check('once it is final, it is not asked for again', not [path for path in seen if first in path.split('/')], seen)


def folded_by_day():
    height = page.run('return document.querySelector("#mine").offsetHeight')
    page.open(f'{page.bare}/?folded#{DAYS[0]}')
    page.until('days', '#mine', 'Tue 2095-12-20 30 requests')
    days = page.run('return [...document.querySelectorAll("#mine summary")].map(each => each.innerText.slice(4, 14))')
    check('in their order', days == DAYS, days)
    shown = page.run('return [...document.querySelectorAll("#mine details")].filter(each => each.open).length')
    check('one of them open', shown == 1, shown)
    page.click('#mine details:nth-child(3) summary')
    page.look()
    time.sleep(0.7)
    check('a day that is opened stays open', page.run('return document.querySelectorAll("#mine details")[2].open'), height)
    past = [{**each, 'now': {**each['now'], 'day': '1995-12-18', 'mark': 'C'}, 'sent': 'past ' + each['sent']} for each in entries[40:43]]
    opens_with(entries[1:3] + past, f'/?past#{DAYS[0]}')
    page.until('days that are past', '#mine', 'Take off all 3 of past days')
    page.picture_of('mine')
    page.click('#mine [data-key="past"]')
    page.gone('go by one press', '#mine', '1995-12-18')
    left = page.run('return JSON.parse(localStorage["rooms.mine"]).length')
    check('and nothing else goes', left == 2, left)


write_rooms(rooms_json, {'oak': 'Oak', 'elm': 'Elm'}, zone='Etc/UTC')
office = Office(program, f'{folder}/mine.db', port)
entries = book_many()
page = Page(int(free) + 1, os.path.join(folder, 'profile-mine'), url, pictures)
try:
    office.serve()
    for step in (few_questions, what_is_missing, folded_by_day):
        step()
    check('nothing in the console of the browser', not [line for line in page.log() if 'Failed to load resource' not in line], page.log())
except (RuntimeError, OSError) as error:
    check('the browser', False, str(error))
finally:
    page.end()
    office.stop()
