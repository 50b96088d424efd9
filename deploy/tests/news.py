#!/usr/bin/env python3
"""The page's news in real browsers, through nginx: what the merge did to the office's requests, at every desk; and when the offices met.

    news.py PROGRAM FOLDER URL PORT FREE PICTURES ROOMS

The words are those of desk.py. FOLDER has news.db, a replica 2 of primary 1 with the rooms oak and elm. What the office's service
would write (news.json, status.json) is written here, into the folder of ROOMS_CALENDARS that the proxy serves.
"""

import datetime
import json
import os
import shutil
import sys
import time

from colours import names_and_colours
from page import DAY, Office, Page, booking, check, write_rooms

program, folder, url, port, free, pictures, rooms_json = sys.argv[1:]
cache = os.path.join(os.environ['ROOMS_CALENDARS'], 'west')
told = os.path.join(cache, 'told')
TWO = {'oak': 'Oak', 'elm': 'Elm, 2nd floor'}
NEXT = '2095-12-21'
LOST, EVIL = 'East supplier', '<img src=x onerror="document.title=1"> & Co'


def moment(ago=0):
    """A moment so many minutes ago, as the files have it."""
    at = datetime.datetime.now(datetime.timezone.utc) - datetime.timedelta(minutes=ago)
    return at.strftime('%Y-%m-%dT%H:%M:%SZ')


def put(name, words):
    path = os.path.join(cache, name)
    with open(path + '.new', 'w', encoding='ascii') as out:
        json.dump(words, out)
    os.replace(path + '.new', path)


def slot_of(day, start, stop):
    return {'day': day, 'start': start, 'stop': stop}


def item(number, kind, title, room='oak', **words):
    return {'key': f'2-{number}.1764536{number:03}', 'id': f'2-{number}', 'room': room, 'title': title, 'kind': kind,
            'from': None, 'to': None, 'by': None, 'mark': 'T', 'found': moment(), **words}


def write_news(items, **words):
    made = f'2026-11-30T21:{len(items) % 60:02}:{len(items) // 60:02}Z'
    put('news.json', {'office': 'west', 'server': 2, 'made': made, 'items': items})
    put('status.json', {'made': moment(), 'news': made, 'server': 2, 'primary': 1, 'requests': 300, 'tentative': 12, 'red_minutes': 60,
                        'peers': [], 'callers': [], **words})


def news_of(lost):
    """What one exchange may do; `lost` is the number of the request of this office that has no room."""
    return [item(900, 'moved', 'Review', **{'from': slot_of(NEXT, '13:00', '14:00'), 'to': slot_of(NEXT, '17:00', '18:00')}),
            item(int(lost), 'lost', LOST, **{'from': slot_of(DAY, '09:00', '10:30')}),
            item(901, 'lost', 'Board', 'elm', mark='C', **{'from': slot_of(DAY, '11:00', '12:00')}),
            item(902, 'found', 'Interview', to=slot_of(NEXT, '08:00', '09:00')),
            item(903, 'cancelled', EVIL, by='1-7', **{'from': slot_of(NEXT, '17:30', '18:30')}),
            item(904, 'cancelled', 'Cancelled here', by='2-90', **{'from': slot_of(NEXT, '11:00', '12:00')}),
            item(905, 'none', 'Refused at once', wish=slot_of(NEXT, '08:30', '09:30')),
            item(906, 'final', 'Final', mark='C', **{'from': slot_of(DAY, '16:00', '17:00'), 'to': slot_of(DAY, '16:00', '17:00')})]


def no_news_yet():
    page.sign_in()
    page.open(f'{page.bare}/#{DAY}')
    page.until('without the files the page is there', '#grid', 'Planning')
    page.look()
    time.sleep(0.5)
    check('and has no bar', page.text('#bar') == '' and page.text('#met') == '', page.text('#bar'))
    check('its title is the office', page.run('return document.title') == 'West office', page.run('return document.title'))


def a_bar(at, name):
    at.look()
    at.until(f'{name}: a bar', '#bar', '2 meetings lost their room, 1 moved, 1 found a room after all, 1 was cancelled by another office.')
    check(f'{name}: the number is in the title of the window', at.waits(lambda: at.run('return document.title') == '(5) West office'), at.run('return document.title'))


def the_list():
    page.picture_of('bar')
    page.click('#bar-open')
    page.until('the bar leads to a list', '#news-title', 'What became of')
    days = page.run('return [...document.querySelectorAll("#news summary")].map(each => each.innerText)')
    check('sorted by day', days == ['Monday 2095-12-19: 2 meetings lost their room', 'Wednesday 2095-12-21: 1 meeting moved, 1 found a room after all, '
                                    '1 was cancelled by another office'], days)
    titles = page.run('return [...document.querySelectorAll("#news li b")].map(each => each.innerText)')
    check('and by hour', titles == [LOST, 'Board', 'Interview', 'Review', EVIL], titles)
    check('a title is text', not page.has('#news img'))
    for words in ('It had Mon 2095-12-19 09:00–10:30, and lost it to an earlier request. It may still get a room until the offices have met',
                  'Moved from Wed 2095-12-21 13:00–14:00 to Wed 2095-12-21 17:00–18:00', 'It has a room by now: Wed 2095-12-21 08:00–09:00',
                  'was cancelled by another office (request 1-7)'):
        page.until(f'it says {words}', '#news', words)
    for words in ('Cancelled here', 'Refused at once', 'Final'):
        check(f'nothing of {words}', words not in page.text('#news'))
    check('what is final is not withdrawn', page.run('return document.querySelectorAll("#news button.cancel").length') == 1)
    page.picture_of('news')
    names_and_colours(page, 'news')
    page.click(button('Show the day', 'Review'))
    page.until('to the day', '#sheet-title', f'Wednesday {NEXT}')


def button(words, title):
    return f'#news button[aria-label={json.dumps(words + ": " + title)}]'


def asking_again(lost):
    page.click(button('Ask again', LOST))
    page.until('the day of what was lost', '#sheet-title', f'Monday {DAY}')
    fields = [page.value(each) for each in ('#room', '#wish-day', '#wish-start', '#length', '#title')]
    check('the form has its title and length', fields == ['oak', DAY, '', '90', LOST], fields)
    page.until('free hours of that day are offered', '#offers', 'Free in Oak: 10:30–12:00')
    page.until('and those of the other room', '#offers', 'Free in Elm, 2nd floor: 09:00–10:30')
    page.picture_of('ask-again')
    page.click('#offers button[aria-label="Ask for Elm, 2nd floor, 09:00"]')
    page.click('#send')
    page.until('an offer is booked', '#outcome', f'Elm, 2nd floor, Monday {DAY}, 09:00–10:30')
    page.until('and what has no room is withdrawn', '#offers', f'Withdrawn: {LOST}, by request 2-')
    page.until('in the list, too', '#news', 'It is withdrawn')
    check('its cancel is in the log', any(line.endswith(f'cancel {lost}') for line in errors('oak')), errors('oak'))


def errors(room):
    lines = []
    office.between(lambda: lines.extend(office.rooms('errors', room).split('\n')))
    return [line for line in lines if line]


def telling():
    page.click(button('I have told them', LOST))
    page.gone('who was told leaves the list', '#news', LOST)
    check('a mark is there', os.listdir(told) == [news[1]['key']], os.listdir(told))
    page.until('the bar counts on', '#bar', '1 meeting lost its room, 1 moved')
    check('and the title of the window', page.run('return document.title') == '(4) West office', page.run('return document.title'))
    other.look()
    other.until('another desk sees it at its next round', '#bar', '1 meeting lost its room, 1 moved')
    page.open(f'{page.bare}/?again#{DAY}')
    page.until('nothing is shown twice', '#bar', '1 meeting lost its room, 1 moved')
    page.click('#bar-open')
    shutil.move(told, told + '.away')
    page.click(button('I have told them', 'Review'))
    page.until('a mark that could not be put', '#news', 'Not marked as told: status 500')
    shutil.move(told + '.away', told)
    page.click('#news details:last-child > button')
    page.until('a whole day is asked about', '#question', f'All 3 of Wednesday {NEXT} were told?')
    page.click('#question button.main')
    page.gone('and told at once', '#news', 'Review')
    page.until('what is left', '#bar', '1 meeting lost its room.')
    write_news([*news, item(901, 'final', 'Board', 'elm', mark='C')])
    page.click(button('I have told them', 'Board'))
    check('the bar goes with the last', page.waits(lambda: page.text('#bar') == '' and page.text('#news') == ''))
    check('and the number in the title', page.run('return document.title') == 'West office', page.run('return document.title'))


def withdrawing():
    """At an entry of the list, by hand; and a request that has changed twice is one entry."""
    page.wish('oak', '14:00', 'Twice')
    page.click('#send')
    page.until('one that has no room', '#question', 'Ask all the same?')
    page.click('#question button.main')
    page.until('as it is told', '#outcome', 'No room')
    page.click('#clear')
    number = int(page.run('return JSON.parse(localStorage["rooms.mine"])[0].now.id').split('-')[1])
    first = item(number, 'moved', 'Twice', **{'from': slot_of(DAY, '13:00', '14:00'), 'to': slot_of(DAY, '14:00', '15:00')})
    second = {**item(number, 'lost', 'Twice', **{'from': slot_of(DAY, '14:00', '15:00')}), 'key': f'2-{number}.1764537000'}
    write_news([*news, first, second])
    page.look()
    page.until('what changed twice is counted once', '#bar', '1 meeting lost its room.')
    page.click('#bar-open')
    page.until('with both changes', '#news', 'Moved from Mon 2095-12-19 13:00–14:00 to Mon 2095-12-19 14:00–15:00. Then: It had Mon 2095-12-19 14:00–15:00, and lost it')
    page.click('#news button.cancel')
    page.until('a withdrawal asks first', '#news', 'Really withdraw?')
    page.click('#news button.cancel')
    page.until('it is reported', '#outcome', 'Withdrawn: Twice, by request 2-')
    page.until('and seen', '#news', 'It is withdrawn')
    page.click(button('I have told them', 'Twice'))
    check('both are told by one press', page.waits(lambda: {first['key'], second['key']} <= set(os.listdir(told))), os.listdir(told))


def a_week_away():
    """A thousand changes are one list, of which little is open."""
    days = [(datetime.date(2095, 12, 1) + datetime.timedelta(days=number)).isoformat() for number in range(20)]
    many = [item(100 + number, 'lost' if number % 3 else 'moved', f'Meeting {number}', mark='T',
                 **{'from': slot_of(days[number // 50], '08:00', '09:00'), 'to': None if number % 3 else slot_of(days[number // 50], '10:00', '11:00')})
            for number in range(1000)]
    for number, each in enumerate(many):
        each['key'] = f'2-{number + 100}.1764538000'
    write_news(many)
    page.look()
    page.until('a thousand changes', '#bar', '666 meetings lost their room, 334 moved')
    if not page.text('#news'):
        page.click('#bar-open')
    page.until('are one list', '#news', 'Thursday 2095-12-01: 33 meetings lost their room, 17 moved')
    count = page.run('return [document.querySelectorAll("#news details").length, document.querySelectorAll("#news li").length, document.querySelector("#news").offsetHeight]')
    check('folded by day', count[:2] == [20, 0] and count[2] < 1200, count)
    page.click('#news details:nth-child(2) summary')
    check('of a day at most forty are shown', page.waits(lambda: page.run('return document.querySelectorAll("#news li").length') == 40),
          page.run('return document.querySelectorAll("#news li").length'))
    page.click('#news details:nth-child(2) > button')
    check('or all of them', page.waits(lambda: page.run('return document.querySelectorAll("#news li").length') == 50))
    page.look()
    time.sleep(0.5)
    check('the day stays open', page.run('return document.querySelectorAll("#news li").length') == 50)
    write_news(news)
    page.look()
    page.gone('all of it goes', '#bar', '666')


def meeting_others():
    write_news(news, peers=[{'name': 'east', 'met': moment(5), 'fault': None}, {'name': 'north', 'met': moment(61), 'fault': 'can\'t be reached'}],
               callers=[{'name': 'south', 'met': None}, {'name': 'north', 'met': moment(90)}])
    page.look()
    page.until('who was met', '#met', 'Met east ')
    page.until('who was not', '#met', 'can\'t be reached')
    page.until('or never', '#met', 'Never met south')
    page.until('and what waits', '#met', '12 requests wait to be final')
    red = page.run('return [...document.querySelectorAll("#met .red")].map(each => each.innerText.split(" ").slice(0, 3).join(" "))')
    check('red are those that were met too long ago', len(red) == 2 and red[0].startswith('Met north') and red[1].startswith('Never met south'), red)
    page.picture_of('met')
    names_and_colours(page, 'met')
    write_news(news, peers=[{'name': 'north', 'met': moment(61), 'fault': None}], callers=[{'name': 'north', 'met': moment(2)}], tentative=1)
    page.look()
    page.until('either of two ways is a meeting', '#met', '1 request waits to be final')
    check('which is not red', not page.has('#met .red'), page.text('#met'))
    write_news(news, peers=[{'name': 'east', 'met': moment(5), 'fault': None}], made=moment(6))
    page.look()
    page.until('a service that writes nothing any more', '#met .red', 'has written nothing since')
    write_news(news, peers=[{'name': 'east', 'met': moment(24 * 60 * 3), 'fault': None}])
    page.open(f'{page.bare}/door.html#oak')
    page.until('the door has it', '#met', 'Met east ')
    page.until('with the day', '#met', (datetime.date.today() - datetime.timedelta(days=3)).isoformat()[:8])
    check('in red', page.has('#met .red'))
    page.until('and what waits there', '#met', '12 requests wait to be final')
    check('all of it fits', page.run('return document.documentElement.scrollHeight <= innerHeight && document.documentElement.scrollWidth <= innerWidth'))
    page.picture_of('door-met')
    names_and_colours(page, 'door with meetings')
    os.remove(os.path.join(cache, 'status.json'))
    page.look()
    check('without the file it has nothing', page.waits(lambda: page.text('#met') == ''))


def a_phone():
    phone.resize(375, 812)
    phone.sign_in()
    phone.open(f'{phone.bare}/#{DAY}')
    a_bar(phone, 'on a phone')
    phone.picture_of('bar-phone')
    phone.click('#bar-open')
    phone.until('the list on a phone', '#news', LOST)
    wide = phone.run('return document.documentElement.scrollWidth - window.innerWidth')
    check('it needs no scrolling sideways', wide <= 0, wide)
    small = phone.run('return [...document.querySelectorAll("#bar button, #news button, #news summary")].filter(each => each.checkVisibility()'
                      ' && each.getBoundingClientRect().height < 24).map(each => each.outerHTML.slice(0, 80))')
    check('what is pressed there is large enough for a finger', small == [], small)
    phone.picture_of('news-phone')
    phone.click(button('Ask again', 'Board'))
    phone.until('asking again on a phone', '#offers', 'Free in')
    check('leads to the form', phone.run('const box = document.querySelector("#title").getBoundingClientRect(); return box.top >= 0 && box.bottom <= innerHeight'))
    phone.click('#clear')


for name in ('news.json', 'status.json'):
    if os.path.exists(os.path.join(cache, name)):
        os.remove(os.path.join(cache, name))
shutil.rmtree(told, ignore_errors=True)
os.makedirs(told)
write_rooms(rooms_json, TWO, zone='Etc/UTC')
office = Office(program, f'{folder}/news.db', port)
lost = next(line for line in office.rooms('errors', 'oak').split('\n') if line.startswith('T')).split()[1]
news = news_of(lost.split('-')[1])
page = Page(int(free) + 1, os.path.join(folder, 'profile-news'), url, pictures)
other = Page(int(free) + 2, os.path.join(folder, 'profile-other'), url, pictures)
phone = Page(int(free) + 3, os.path.join(folder, 'profile-phone'), url, pictures)
try:
    office.serve()
    no_news_yet()
    write_news(news)
    a_bar(page, 'at the desk')
    other.sign_in()
    other.open(f'{other.bare}/#{DAY}')
    a_bar(other, 'at another desk')
    a_phone()
    the_list()
    asking_again(lost)
    telling()
    withdrawing()
    a_week_away()
    meeting_others()
    for each in (page, other, phone):
        seen = [line for line in each.log() if 'Failed to load resource' not in line]
        check('nothing in the console of the browser', not seen, seen)
except (RuntimeError, OSError) as error:
    check('the browser', False, str(error))
finally:
    for each in (page, other, phone):
        each.end()
    office.stop()
