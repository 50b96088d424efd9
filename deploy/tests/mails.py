#!/usr/bin/env python3
"""The field for a mail address at the page, in a real browser, through nginx; and the rooms that other offices have.

    mails.py PROGRAM FOLDER URL PORT FREE PICTURES ROOMS

The words are those of desk.py. FOLDER has mails.db, a replica 2 of primary 1 with the room oak. What the office's service would write
(status.json) is written here, into the folder of ROOMS_CALENDARS that the proxy serves, beside which the proxy puts addresses.
"""

import datetime
import json
import os
import shutil
import sys
import time

from colours import names_and_colours
from page import DAY, Office, Page, booking, check, write_rooms

program, folder, url, port, free, pictures, rooms_json = sys.argv[1:]
cache = os.path.join(os.environ['ROOMS_CALENDARS'], 'west')
drop = os.path.join(cache, 'mail')
ADDRESS = "o'brien+rooms@sub.example.org"
ASH = {'room': 'ash', 'label': 'Ash, <b>3rd</b> floor', 'known': False, 'office': 'east'}
BEECH = {'room': 'beech', 'label': 'beech', 'known': True, 'office': None}


def write_status(**words):
    made = datetime.datetime.now(datetime.timezone.utc).strftime('%Y-%m-%dT%H:%M:%SZ')
    with open(os.path.join(cache, 'status.json.new'), 'w', encoding='ascii') as out:
        json.dump({'made': made, 'news': None, 'server': 2, 'primary': 1, 'requests': 0, 'tentative': 0, 'red_minutes': 60, 'peers': [], 'callers': [], **words}, out)
    os.replace(os.path.join(cache, 'status.json.new'), os.path.join(cache, 'status.json'))


def addresses():
    return {name: open(os.path.join(drop, name), encoding='ascii').read() for name in sorted(os.listdir(drop))}


def books(time_of_day, title, address):
    page.wish('oak', time_of_day, title)
    page.write('#mail', address)
    page.click('#send')


def no_field():
    page.sign_in()
    page.open(f'{page.bare}/#{DAY}')
    page.until('the page', '#grid', '09:00')
    for words in ({}, {'mail': False}):
        write_status(**words)
        page.look()
        time.sleep(1)
        check(f'no mail, no field: {words}', page.text('#mail-field') == '', page.text('#mail-field'))


def an_address():
    write_status(mail=True)
    page.look()
    page.until('where mails can be sent there is one', '#mail-field', 'Mail address (may stay empty)')
    check('it is for addresses', page.attribute('#mail', 'type') == 'email')
    for wrong in ('anna', 'anna@', 'Anna <anna@example.org>', 'anna b@example.org', '-anna@example.org', 'müller@example.org', 'anna@example.org,eve@example.org'):
        books('09:00', 'Budget', wrong)
        page.until(f'no address: {wrong}', '#mail-error', 'That is no mail address')
    check('the field is marked', page.attribute('#mail', 'aria-invalid') == 'true')
    check('nothing was sent', 'Budget' not in page.text('#mine') and addresses() == {}, addresses())
    names_and_colours(page, 'mail field')
    page.picture_of('mail-field')
    books('09:00', 'Budget', ADDRESS)
    page.until('with one it is booked', '#outcome', 'Booked, not final yet')
    page.until('and that is said', '#mail-word', 'What becomes of request 2-1 is mailed to that address.')
    check('the proxy has it', addresses() == {'2-1': ADDRESS}, addresses())
    check('the field is empty again', page.value('#mail') == '')
    page.picture_of('mail-word')
    check('no address can be read at the page any more', 'brien' not in page.text('body'))
    kept = page.run('return JSON.stringify(localStorage) + document.cookie + document.querySelector("#mine").innerText')
    check('the browser keeps it nowhere', 'brien' not in kept, kept)
    seen = page.run('return fetch("/mail/2-1").then(reply => reply.status)')
    check('and can\'t read it again', seen == 403, seen)
    books('10:00', 'Without', '')
    page.until('without one it is booked as ever', '#outcome', '10:00–11:00')
    check('and nothing is handed over', page.text('#mail-word') == '' and list(addresses()) == ['2-1'], addresses())


def no_room():
    books('09:00', 'Squeezed in', ADDRESS)
    page.until('a clash asks', '#question', 'Ask all the same?')
    page.click('#question button.main')
    page.until('no room', '#outcome', 'No room')
    page.until('the address is taken all the same', '#mail-word', 'request 2-3')
    check('and it says that there is no room yet', addresses()['2-3'] == ADDRESS + ' none', addresses())
    check('the form stays as it was', page.value('#mail') == ADDRESS)
    page.click('#clear')
    check('until it is cleared', page.value('#mail') == '')


def not_taken():
    shutil.rmtree(drop)
    books('13:00', 'Rota', ADDRESS)
    page.until('what the proxy can\'t keep', '#mail-word', 'The mail address was not taken for request 2-4 (status ')
    check('is said in red', page.attribute('#mail-word', 'class') == 'error')
    page.until('and it is booked', '#outcome', 'Booked, not final yet')
    os.makedirs(drop)
    books('14:00', 'Next', '')
    page.until('the next one', '#outcome', '14:00–15:00')
    check('has nothing of it', page.text('#mail-word') == '')
    os.remove(os.path.join(cache, 'status.json'))
    page.look()
    time.sleep(1)
    check('where the state is not known for a moment the field stays', page.text('#mail-field') != '')


def series(start, title):
    for field, value in (('room', 'oak'), ('start', start), ('length', '30'), ('title', title), ('from', DAY), ('until', '2095-12-26'), ('list', '')):
        page.set(f'#series-{field}', value)
    page.click('#series button[type=submit]')
    page.until(f'{title}: what is free', '#plan-buttons', 'Ask for 2')


def a_series():
    write_status(mail=True)
    page.look()
    page.click('#many-open')
    series('16:00', 'Each week')
    page.until('a list of many requests has a field of its own', '#plan-mail-field', 'Gets a mail of all that becomes of each request.')
    before = addresses()
    page.write('#plan-mail', 'anna@')
    page.click('#plan-buttons .main')
    page.until('no address there', '#plan-mail-error', 'That is no mail address')
    check('nothing was asked for', 'Each week' not in office.asked(f'/rooms/oak/days/{DAY}'))
    names_and_colours(page, 'mail field of many')
    page.write('#plan-mail', ADDRESS)
    page.click('#plan-buttons .main')
    page.until('with one all are booked', '#plan-words', '2 in the list: 2 booked, not final yet.')
    seen = {name: text for name, text in addresses().items() if name not in before}
    check('the proxy has it for each', list(seen.values()) == [ADDRESS] * 2, seen)
    check('nothing more is said', page.text('#plan-mail-error') == '' and 'mail' not in page.text('#plan-items'), page.text('#plan-items'))
    kept = page.run('return JSON.stringify(localStorage) + document.cookie')
    check('the browser keeps it nowhere, nor the group', 'brien' not in kept and not any('brien' in open(os.path.join(cache, 'groups', it)).read() for it in os.listdir(os.path.join(cache, 'groups'))), kept)
    shutil.rmtree(drop)
    series('16:30', 'Also')
    check('the next list begins without an address', page.value('#plan-mail') == '', page.value('#plan-mail'))
    page.write('#plan-mail', ADDRESS)
    page.click('#plan-buttons .main')
    page.until('what the proxy can\'t keep is said at each', '#plan-items', 'Also its mail address was not taken (status ')
    page.until('and both are booked', '#plan-words', '2 in the list: 2 booked, not final yet.')
    os.makedirs(drop)
    page.click('#many-close')


def a_change():
    page.click(booking('oak', '16:00'))
    page.click('#box [data-box="move"]')
    page.set('#move-start', '17:00')
    page.write('#move-mail', 'anna')
    page.waits(lambda: not page.run('return document.querySelector("#move-send").disabled'))
    page.click('#move-send')
    page.until('no address for what is changed', '#move-mail-error', 'That is no mail address')
    check('the booking stands', 'Each week' in page.text(booking('oak', '16:00')))
    names_and_colours(page, 'mail field of a change')
    page.picture_of('mail-move')
    page.write('#move-mail', ADDRESS)
    page.waits(lambda: not page.run('return document.querySelector("#move-send").disabled'))
    page.click('#move-send')
    page.until('with one it is moved', '#move-outcome', 'Moved: Each week')
    page.until('and that is said', '#move-outcome', 'is mailed to that address.')
    check('the proxy has it for the new request', list(addresses().values()) == [ADDRESS] and f'What becomes of request {list(addresses())[0]} ' in page.text('#move-outcome'), addresses())
    page.click('#move-close')
    page.click(booking('oak', '17:00'))
    page.click('#box [data-box="move"]')
    check('the next change begins without an address', page.value('#move-mail') == '')
    page.set('#move-start', '17:30')
    page.run('document.querySelector("#move-start").dispatchEvent(new Event("change", { bubbles: true }))')
    page.waits(lambda: not page.run('return document.querySelector("#move-send").disabled'))
    page.click('#move-send')
    page.until('without one it is moved as ever', '#move-outcome', '17:30–18:00')
    check('and nothing is handed over', 'mail' not in page.text('#move-outcome') and len(addresses()) == 1, page.text('#move-outcome'))
    page.click('#move-close')


def rooms_elsewhere():
    check('no line of rooms elsewhere', page.text('#elsewhere') == '')
    write_status(elsewhere=[ASH], mail=True)
    page.look()
    page.until('a room that another office alone has', '#elsewhere', 'Another office has: Ash, <b>3rd</b> floor, of east. This office doesn’t know it yet, and can’t book there.')
    page.until('and what to do', '#elsewhere', 'Whoever looks after this office adds a room to it by rooms-office add-room.')
    check('a label is text', not page.has('#elsewhere b'))
    page.picture_of('elsewhere')
    names_and_colours(page, 'rooms elsewhere')
    page.click('#elsewhere button')
    check('it is hidden', page.waits(lambda: page.text('#elsewhere') == ''), page.text('#elsewhere'))
    page.open(f'{page.bare}/#{DAY}')
    page.until('also when the page is opened anew', '#grid', 'Budget')
    time.sleep(1)
    check('it stays so', page.text('#elsewhere') == '', page.text('#elsewhere'))
    write_status(elsewhere=[{**ASH, 'known': True}, BEECH], mail=True)
    page.look()
    page.until('until that changes', '#elsewhere', 'This page doesn’t show: Ash, <b>3rd</b> floor, of east; beech.')
    page.resize(375, 812)
    wide = page.run('return document.documentElement.scrollWidth - window.innerWidth')
    check('on a phone nothing scrolls sideways', wide <= 0, wide)
    page.run('document.querySelector("#mail-field").scrollIntoView()')
    page.picture_of('mail-phone')
    small = page.run('return [...document.querySelectorAll("#mail, #elsewhere button")].filter(each => each.getBoundingClientRect().height < 24).length')
    check('what is pressed is large enough for a finger', small == 0, small)


for name in ('news.json', 'status.json'):
    if os.path.exists(os.path.join(cache, name)):
        os.remove(os.path.join(cache, name))
shutil.rmtree(drop, ignore_errors=True)
os.makedirs(drop)
write_rooms(rooms_json, {'oak': 'Oak'}, zone='Etc/UTC')
office = Office(program, f'{folder}/mails.db', port)
page = Page(int(free) + 1, os.path.join(folder, 'profile-mails'), url, pictures)
try:
    office.serve()
    no_field()
    an_address()
    no_room()
    not_taken()
    a_series()
    a_change()
    rooms_elsewhere()
    seen = [line for line in page.log() if 'Failed to load resource' not in line]
    check('nothing in the console of the browser', not seen, seen)
except (RuntimeError, OSError) as error:
    check('the browser', False, str(error))
finally:
    page.end()
    office.stop()
