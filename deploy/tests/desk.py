#!/usr/bin/env python3
"""The front desk's page in a real browser, through nginx, against a served replica: requests, clashes, cancels, lost replies.

    desk.py PROGRAM FOLDER URL PORT FREE PICTURES ROOMS

URL is the proxy's address, with a user and a password, which hands requests to PORT of this machine; from FREE on two ports are
free. FOLDER has desk.db, a replica 2 of primary 1 with the rooms oak and elm, and other.db, replica 1 with oak; ROOMS is the
rooms.json of the page. For each thing that was looked at a line `ok ..` or `FAILED: ..` is printed.
"""

import os
import socket
import subprocess
import sys
import threading
import time

from page import DAY, Office, Page, booking, check, slot, write_rooms

program, folder, url, port, free, pictures, rooms_json = sys.argv[1:]
courier = os.path.join(os.path.dirname(__file__), '..', 'courier', 'rooms-courier')
THREE = {'oak': 'Oak', 'elm': 'Elm, 2nd floor', 'ash': 'Ash'}


def a_day_is_shown():
    page.sign_in()
    page.open(f'{page.bare}/#{DAY}')
    page.until('a day is shown', '#grid', 'Standing meeting')
    check('a title is text', not page.has('#grid i'))
    page.until('a title keeps its signs', '#grid', '<i>Standing meeting</i>')
    page.until('the name of the day', '#sheet-title', 'Monday 2095-12-19')
    page.until('a room that is not known', '#grid', 'does not know the room')
    page.click('#after')
    page.until('the day after', '#sheet-title', 'Tuesday 2095-12-20')
    page.click('#before')
    page.until('the day before', '#sheet-title', 'Monday 2095-12-19')
    page.until('the day again', '#grid', 'Standing meeting')


def a_request_by_clicking():
    page.click(slot('oak', '14:00'))
    page.click(slot('oak', '15:00'))
    page.until('an alternative is listed', '#choices', '2095-12-19 15:00')
    page.until('the day of the wish in words', '#wish-words', 'Monday 2095-12-19, 14:00–15:00')
    page.write('#title', 'Budget <b>Meeting</b>')
    page.write('#length', '1441')
    page.click('#send')
    page.until('a refusal is shown beside its field', '#length-error', '1440')
    check('the field is marked', page.attribute('#length', 'aria-invalid') == 'true')
    page.write('#length', '60')
    page.click('#send')
    page.until('the outcome', '#outcome', 'Booked, not final yet: Oak, Monday 2095-12-19, 14:00–15:00')
    check('the wish was booked, no alternative', 'alternative' not in page.text('#outcome'), page.text('#outcome'))
    page.there('the booking in the grid', booking('oak', '14:00'))
    page.until('the request among mine', '#mine', 'Booked, not final yet')
    check('the grid has no markup of a title', not page.has('#grid b b'))


def a_title():
    page.wish('oak', '16:15', '  Café Ærø „Müller“ – 日本 ')
    page.click('#send')
    page.until('letters outside ASCII are offered in plain ones', '#title-error', 'Take “Cafe Aeroe "Mueller" -”')
    page.click('#title-error button')
    check('the offer is taken', page.value('#title') == 'Cafe Aeroe "Mueller" -', page.value('#title'))
    page.write('#title', '日本')
    page.click('#send')
    page.until('a title without a plain letter', '#title-error', 'no other scripts')
    check('nothing is offered for it', not page.has('#title-error button'))
    page.write('#title', ' Spaces at the ends ')
    page.click('#send')
    page.until('spaces at the ends of a title are dropped', '#outcome', '16:15–17:15')
    check('what went well is reported', page.attribute('#outcome', 'class') == 'good')
    page.write('#title', 'T' * 62)
    check('and no more once the next title is typed', page.text('#outcome') == '', page.text('#outcome'))
    page.until('the letters of a title are counted', '#title-count', '62 of 60 letters')
    page.click(slot('elm', '17:00'))
    page.click('#send')
    page.until('a title that is too long is refused with its count', '#title-error', 'This one has 62')
    page.write('#title', 'Müller')
    page.until('as they can be kept', '#title-count', '7 of 60 letters')
    page.click('#clear')
    page.until('and the title is kept', '#mine li:first-child', 'Spaces at the ends')


def a_clash():
    """Before anything is sent, and after no room was had."""
    page.click(slot('oak', '13:30'))
    page.until('a clash is named', '#clash', '14:00 to 15:00 is Budget <b>Meeting</b>.')
    height = page.run('return document.querySelector(".choice").offsetHeight / document.querySelector(arguments[0]).offsetHeight', booking('oak', '14:00'))
    check('the wish is drawn with its whole length', 0.99 < height < 1.01, height)
    clash = page.run('return document.querySelector(".clash").offsetHeight / document.querySelector(".choice").offsetHeight')
    check('what of it is taken is drawn', 0.49 < clash < 0.51, clash)
    page.run('document.querySelector("#scroll").scrollTop = 420')
    page.picture_of('clash')
    page.write('#title', 'Squeezed in')
    page.click('#send')
    page.until('a clash asks', '#question', '14:00 to 15:00 is Budget <b>Meeting</b>. Ask all the same?')
    page.click('#question button:last-child')
    check('it asks no longer', page.waits(lambda: not page.has('#question[open]')))
    check('nothing was sent', 'Squeezed in' not in page.text('#mine'))
    page.click('#send')
    page.until('it asks again', '#question', 'Ask all the same?')
    page.click('#question button.main')
    page.until('no room', '#outcome', 'No room: Oak is taken at 2095-12-19 13:30')
    check('no room is red', page.attribute('#outcome', 'class') == 'bad' and page.has('#request.refused'))
    check('the form stays as it was', [page.value(each) for each in ('#room', '#wish-day', '#wish-start', '#length', '#title')]
          == ['oak', DAY, '13:30', '60', 'Squeezed in'])
    page.until('the free hours of that day are offered', '#offers', '13:00–14:00')
    page.until('and the next after it', '#offers', '15:00–16:00')
    page.until('and those of other rooms', '#offers', 'Free in Elm, 2nd floor: 13:30–14:30')
    page.until('which may still get a room', '#outcome', 'may still get one until the offices have met')
    page.until('it is among mine', '#mine', 'No room')
    page.until('also there', '#mine', 'It may still get a room until the offices have met')
    page.picture_of('no-room')
    page.click('#offers button[aria-label="Ask for Elm, 2nd floor, 13:30"]')
    check('an offer fills the form', [page.value('#room'), page.value('#wish-start'), page.value('#title')] == ['elm', '13:30', 'Squeezed in'])
    page.click('#send')
    page.until('the offer is booked', '#outcome', 'Elm, 2nd floor, Monday 2095-12-19, 13:30–14:30')
    page.until('the request that it stands for is withdrawn', '#offers', 'Withdrawn: Squeezed in, by request 2-')
    page.until('and so among mine', '#mine', 'withdrew it: it had no room')
    page.open(f'{page.bare}/?again#{DAY}')
    page.until('the office knows it as withdrawn', '#mine', 'withdrew it: it had no room')


def a_request_that_waits():
    """One that found no room and is withdrawn by hand; one whose place another one takes, which is no offer."""
    no_room('Waits')
    page.click('#clear')
    page.click('#mine li:first-child button[data-key^="cancel"]')
    page.until('a withdrawal asks first', '#mine li:first-child', 'Really withdraw?')
    page.click('#mine li:first-child button[data-key^="cancel"]')
    page.until('a withdrawal is reported', '#outcome', 'Withdrawn: Waits, by request 2-')
    page.until('and seen in the list', '#mine li:first-child', 'Withdrawn')
    check('it is not withdrawn twice', not page.has('#mine li:first-child button.cancel'))
    no_room('Otherwise')
    page.wish('elm', '11:00', 'Otherwise')
    page.click('#send')
    page.until('another one of that name asks about the one before', '#question', 'Otherwise, Oak) has no room')
    page.click('#question button.main')
    page.until('and withdraws it', '#offers', 'Withdrawn: Otherwise, by request 2-')
    no_room('Left')
    page.wish('elm', '12:00', 'Another meeting')
    page.click('#send')
    page.until('one of another name', '#outcome', 'Elm, 2nd floor, Monday 2095-12-19, 12:00')
    time.sleep(0.5)
    check('leaves it alone', not page.has('#question[open]') and 'Withdrawn: Left' not in page.text('#offers'))


def no_room(title):
    page.wish('oak', '14:00', title)
    page.click('#send')
    page.until(f'{title}: it asks', '#question', 'Ask all the same?')
    page.click('#question button.main')
    page.until(f'{title}: no room', '#outcome', 'No room: Oak is taken at 2095-12-19 14:00')


def an_alternative():
    """Somebody else was quicker than the sheet that is shown."""
    page.click(slot('oak', '09:00'))
    page.click(slot('oak', '11:00'))
    page.write('#title', 'Second best')
    office.between(lambda: office.rooms('book', 'oak', '60', DAY, '09:30', 'Quicker'))
    page.click('#send')
    page.until('the alternative that was taken is named', '#outcome', '11:00–12:00')
    page.until('by its number', '#outcome', 'That is alternative 1: 2095-12-19 09:00 was taken.')


def another_room():
    """A wish is not dropped without a question."""
    page.click(slot('oak', '17:30'))
    page.click(slot('elm', '08:00'))
    page.until('another room asks', '#question', 'Your wish is Oak, 2095-12-19 17:30')
    page.click('#question button:last-child')
    check('the wish stays', [page.value('#room'), page.value('#wish-start')] == ['oak', '17:30'])
    page.click(slot('elm', '08:00'))
    page.click('#question button.main')
    page.waits(lambda: page.value('#room') == 'elm')
    check('or is dropped', [page.value('#room'), page.value('#wish-start')] == ['elm', '08:00'])
    page.click('#clear')


def a_past_day():
    page.wish('elm', '10:00', 'Long ago', '1995-12-18')
    page.click('#send')
    page.until('a past day asks', '#question', '1995-12-18, 10:00–11:00 is past')
    page.click('#question button:last-child')
    page.click('#clear')
    check('it was not sent', 'Long ago' not in page.text('#mine'))


def a_booking_is_pressed():
    """One that was not made here: its box, and its cancel, pressed twice."""
    page.click(booking('elm', '09:10'))
    for words in ('<i>Standing meeting</i>', 'Elm, 2nd floor', 'Monday 2095-12-19', '09:10–10:00', 'Request 2-1', 'Booked, not final yet', 'Seen so since'):
        page.until(f'the box has {words}', '#box', words)
    page.picture_of('box')
    page.click('#box .cancel')
    page.until('a cancel asks first', '#box', 'Really cancel?')
    check('one press cancels nothing', page.has(booking('elm', '09:10')))
    page.click('#box .cancel')
    page.until('the box shows what became of it', '#box', 'Cancelled')
    page.until('and by what', '#box', 'cancelled it; not final yet')
    check('it is not cancelled twice', not page.has('#box .cancel'))
    page.keys('\ue00c')                     # escape
    check('escape closes the box', page.waits(lambda: not page.has('#box[open]')))
    page.there('its hours are free', slot('elm', '09:15'))


def taking_off_the_list():
    page.click(slot('oak', '17:45'))
    page.write('#title', 'Taken off')
    page.click('#send')
    page.until('a request that is taken off', '#mine li:first-child', 'Taken off')
    page.until('once it is booked', '#mine li:first-child', 'not final yet')
    page.click('#mine li:first-child button[data-key^="off"]')
    page.until('what stands asks before it leaves the list', '#question', 'it stays booked all the same')
    page.click('#question button:last-child')
    page.until('it may be left there', '#mine li:first-child', 'Taken off')
    page.click('#mine li:first-child button[data-key^="cancel"]')
    page.until('a cancel in the list asks first', '#mine', 'Really cancel?')
    page.click('#mine li:first-child button[data-key^="cancel"]')
    page.until('a cancel', '#outcome', 'Cancelled: Taken off, by request 2-')
    page.until('it is cancelled among mine', '#mine li:first-child', 'cancelled it')
    page.click('#mine li:first-child button[data-key^="off"]')
    page.gone('what is cancelled leaves the list at once', '#mine', 'Taken off')


def a_move_arrives():
    """The other office's request goes first, and this one's moves to its alternative; then the primary commits, and cancels."""
    exchange()
    page.look()
    page.until('a booking moved', '#mine', 'Moved from 2095-12-19 14:00 to 2095-12-19 15:00')
    page.until('the earlier request in the grid', '#grid', 'Earlier')
    check('the primary commits', other.rooms('commit', '1000').startswith('committed '))
    exchange()
    page.look()
    page.until('what is committed is booked', '#mine', 'Booked Budget <b>Meeting</b>')
    page.there('a booking that is final', booking('oak', '15:00') + '.sure')
    check('the other office cancels', other.rooms('cancel', 'oak', '2-2') == '1-2 T cancels 2-2\n')
    exchange()
    page.look()
    page.until('a cancel of another office', '#mine', 'Request 1-2 cancelled it')
    page.gone('a cancelled booking has left the grid', '#grid', 'Budget <b>Meeting</b>')


def exchange():
    other.serve()
    done = subprocess.run([courier, f'http://127.0.0.1:{port}', f'http://127.0.0.1:{free}'], stdout=subprocess.PIPE, text=True)
    check('the courier', done.returncode == 0, done.stdout)
    other.stop()


def a_request_by_keys():
    page.run('document.querySelector(arguments[0]).focus()', slot('elm', '16:00'))
    page.keys('\ue015\ue015\ue007')          # down, down, enter
    check('keys choose a slot', page.value('#wish-start') == '16:30', page.value('#wish-start'))
    check('the focus stays in the grid', page.run('return document.activeElement.dataset.start') == '990')
    page.run('document.querySelector("#title").focus()')
    page.keys('By keys\ue007')
    page.until('a request by keys alone', '#outcome', '16:30–17:30')


def keys_of_the_grid():
    at = 'return document.activeElement.dataset.key'
    page.run('document.querySelector(arguments[0]).focus()', slot('elm', '13:15'))
    for name, keys, wanted in (('down to a booking', '\ue015', f'booking elm {DAY} 810'), ('down behind it', '\ue015', f'slot elm {DAY} 870'),
                               ('to the side', '\ue012', f'booking oak {DAY} 840'), ('to the top', '\ue011', f'slot oak {DAY} 480'),
                               ('two hours on', '\ue00f', f'booking oak {DAY} 570')):
        page.keys(keys)
        check(f'keys go {name}', page.run(at) == wanted, page.run(at))
    page.keys('\ue007')                      # enter
    page.until('enter opens a booking', '#box', 'Quicker')
    page.keys('\ue00c')
    check('the focus is back where it was', page.waits(lambda: page.run(at) == f'booking oak {DAY} 570'), page.run(at))


def a_refused_room():
    page.wish('ash', '09:00', 'Nowhere')
    page.click('#send')
    page.until('a refused room is shown beside it', '#room-error', 'does not know the room')
    page.click('#clear')


def an_error_log():
    page.click('#log summary')
    page.until('what found no room', '#errors', '2095-12-19 13:30-14:30 Squeezed in')
    no_room('From the log')
    page.click('#clear')
    waiting = '#errors li:has(button[aria-label$=": From the log"])'
    page.there('what is not final may be withdrawn there', waiting)
    page.click(f'{waiting} button')
    page.click(f'{waiting} button')
    page.until('by two presses', '#outcome', 'Withdrawn: From the log, by request 2-')
    page.until('and it is seen', '#errors', 'From the log (not final yet), withdrawn by 2-')
    check('what is final may not', not page.has('#errors button'), page.text('#errors'))
    no_room('Left behind')
    page.click('#clear')


def one_who_may_not_book():
    """With a user and a password in the address, who reads and may not book."""
    guest = Page(int(free) + 2, os.path.join(folder, 'guest'), url.replace('desk:desk', 'readers:readers'), pictures)
    try:
        guest.open(f'{guest.url}/#{DAY}')
        guest.until('a page whose address has a password', '#grid', 'Earlier')
        check('no red bar there', not guest.text('#alarm'))
        guest.wish('oak', '08:00', 'Not mine')
        guest.click('#send')
        guest.until('one who may not book is asked for a password', '#outcome', 'nothing is sent before')
        guest.until('nothing is perhaps booked meanwhile', '#mine', 'None yet')
        # a browser without a head shows no box for passwords: from here on the reply to one that was refused is played
        guest.open(f'{guest.bare}/?again#{DAY}')
        guest.until('the page again', '#grid', 'Earlier')
        for status in (401, 403):
            guest.run('window.real = window.real || fetch; window.fetch = (at, words) => String(at).endsWith("/submit") '
                      '? Promise.resolve(new Response("", { status: arguments[0] })) : real(at, words)'.replace('arguments[0]', str(status)))
            guest.wish('oak', '08:00', 'Not mine')
            guest.click('#send')
            guest.until(f'{status} is not sent', '#send-error', 'Not booked: this user may not book')
            guest.until(f'and with {status} nothing is perhaps booked', '#mine', 'None yet')
        guest.click(booking('oak', '11:00'))
        guest.click('#box .cancel')
        guest.click('#box .cancel')
        guest.until('nor may they cancel', '#box', 'Not cancelled: this user may not book')
    finally:
        guest.end()


def silent_upstream():
    """Takes each request at the port whole, answers nothing, and keeps the first line of each."""
    lines, server = [], socket.socket()
    server.setsockopt(socket.SOL_SOCKET, socket.SO_REUSEADDR, 1)
    server.bind(('127.0.0.1', int(port)))
    server.listen()

    def work():
        while True:
            try:
                connection, _ = server.accept()
            except OSError:
                return
            lines.append(connection.recv(65536).split(b'\r\n')[0].decode())
            connection.close()
    threading.Thread(target=work, daemon=True).start()
    return server, lines


def the_replica_ends():
    office.stop()
    page.look()
    time.sleep(0.5)
    page.look()
    page.until('an office that ended is reported', '#alarm', 'No connection to the office since')
    page.until('its last sheet is old', '#alarm', 'What is shown is old, of')
    page.until('its last sheet stays', '#grid', 'Earlier')
    page.wish('oak', '17:45', 'Lost')
    check('what went well before is not beside a red bar', page.text('#outcome') == '', page.text('#outcome'))
    page.click('#send')
    page.until('a request that was not sent', '#send-error', 'Not booked')
    check('the form is as it was', page.value('#title') == 'Lost')
    left = '#mine li:has(button[aria-label$=": Left behind"])'
    page.click(f'{left} button.cancel')
    page.click(f'{left} button.cancel')
    page.until('a withdrawal that was not sent', left, 'Not withdrawn: the office is not taking requests. Nothing was sent; you may press Withdraw again')
    server, lines = silent_upstream()
    page.click(f'{left} button.cancel')
    page.click(f'{left} button.cancel')
    page.until('a withdrawal without a reply', left, 'Perhaps withdrawn (no reply)')
    page.click('#send')
    page.until('a request without a reply', '#send-error', 'Perhaps booked')
    page.until('it stands among mine', '#mine', 'Perhaps booked')
    for _ in range(3):
        page.look()
        time.sleep(0.3)
    sent = [line for line in lines if line.startswith('POST')]
    check('each was sent once', [line.split()[1] for line in sent] == ['/cancel', '/submit'], sent)
    server.shutdown(socket.SHUT_RDWR)
    server.close()
    page.open(f'{page.bare}/?down#{DAY}')
    page.until('opened anew meanwhile, the page shows the last sheets', '#grid', 'Earlier')
    page.until('as old ones', '#alarm', 'What is shown is old, of')
    check('all of them', page.has(booking('elm', '13:30')) and 'Not read yet' not in page.text('#grid'))
    page.open(f'{page.bare}/?down#2095-12-21')
    page.until('a day that it never read', '#alarm', 'There is no sheet to show')
    page.open(f'{page.bare}/?down#{DAY}')
    page.until('the day that it read', '#grid', 'Earlier')


def the_replica_is_back():
    office.serve()
    # the first good reply of any kind takes the red bar away, and no round of asking is waited for
    page.run('document.querySelector("#clear").click()')
    page.run('window.real = fetch; window.fetch = (at, words) => String(at).includes("/days/") ? new Promise(() => {}) : real(at, words)')
    page.look()
    page.wish('elm', '18:00', 'Back')
    check('the red bar is there', page.text('#alarm') != '')
    page.run('window.fetch = (at, words) => String(at).includes("/days/") && !String(at).includes("elm") ? new Promise(() => {}) : real(at, words)')
    page.click('#send')
    page.until('a request after that', '#outcome', 'Elm, 2nd floor')
    check('the red bar goes with the first good reply', page.text('#alarm') == '', page.text('#alarm'))
    page.open(f'{page.bare}/?once-more#{DAY}')
    page.until('my requests outlast the page', '#mine', 'Perhaps booked')
    check('it was not sent by the page that was opened again', 'Lost' not in page.text('#grid'))


write_rooms(rooms_json, THREE)
office, other = Office(program, f'{folder}/desk.db', port), Office(program, f'{folder}/other.db', free)
page = Page(int(free) + 1, os.path.join(folder, 'profile'), url, pictures)
try:
    office.serve()
    for step in (a_day_is_shown, a_request_by_clicking, a_title, a_clash, a_request_that_waits, an_alternative, another_room, a_past_day, a_booking_is_pressed,
                 taking_off_the_list, a_request_by_keys, a_move_arrives, keys_of_the_grid, a_refused_room, an_error_log,
                 one_who_may_not_book, the_replica_ends, the_replica_is_back):
        step()
    check('nothing in the console of the browser', not [line for line in page.log() if 'Failed to load resource' not in line], page.log())
except (RuntimeError, OSError) as error:
    check('the browser', False, str(error))
finally:
    page.end()
    office.stop()
    other.stop()
