#!/usr/bin/env python3
"""The page in each language, in a real browser: every view at a wide and at a narrow window, the door and the figures, by the browser, the office and the menu.

    languages.py PROGRAM FOLDER URL PORT FREE PICTURES ROOMS

The words are those of desk.py. FOLDER has languages.db, a replica 1 of primary 1 with rooms from room-a to room-l and the bookings of views.db. What the
office's service would write is written here. Whatever can be read on a view has to be made of the sentences of its language (page/words), beside names,
titles, days and numbers: else the line names the view, the language and the text.
"""

import datetime
import json
import os
import re
import sys
import time
import zoneinfo

import words as files
from colours import names_and_colours
from page import DAY, Office, Page, booking, check, slot

program, folder, url, port, free, pictures, rooms_json = sys.argv[1:]
PAGE = os.path.join(os.path.dirname(os.path.abspath(__file__)), '..', 'page')
CACHE = os.path.join(os.environ['ROOMS_CALENDARS'], 'west')
WORDS = {language: files.words_of(f'{PAGE}/words/{language}.js') for language in ('en', 'de', 'fr')}
WIDTHS = ((1280, 900), (375, 812))
# a zone in which it is about noon
hour = datetime.datetime.now(datetime.timezone.utc).hour
ZONE = f'Etc/GMT{-((12 - hour + 12) % 24 - 12):+}'
ROOMS = {'room-a': 'Oak', 'room-b': 'Elm, 2', 'room-c': '<b>Ash</b>'}
NAUGHTY = '<img src=x onerror=alert(1)>'
OURS = 'Zzyzx <i>of ours</i>'
# what stands in the page and is of no language: names, titles, and what the office's service wrote
DATA = [*ROOMS.values(), NAUGHTY, OURS, 'Planning', 'Workshop', 'Retrospective', 'Call', 'Tea', 'West office', ZONE, 'Fjord',
        'north', 'no line', 'Deutsch', 'English', 'Français', 'attic', 'decade', 'room-a', 'room-b', 'room-c', 'Zzyzx', 'UnknownRoom']
# a title of which a search has marked a part
MARKED = ['Plan', 'ning']
# what the languages say of the same things
SEEN = {
    'en-US': {'language': 'en', 'day': 'Monday 2095-12-19', 'week': 'Oak, 2095-12-18 to 2095-12-24', 'month': 'Oak, December 2095', 'first': 'Sunday', 'short': 'Sun',
              'search': 'Search', 'free': 'Free', 'taken': 'Taken', 'hours': '2.0 h'},
    'de-DE': {'language': 'de', 'day': 'Montag, 19.12.2095', 'week': 'Oak, 19.12.2095 bis 25.12.2095', 'month': 'Oak, Dezember 2095', 'first': 'Montag', 'short': 'Mo',
              'search': 'Suche', 'free': 'Frei', 'taken': 'Belegt', 'hours': '2,0 h'},
    'fr-FR': {'language': 'fr', 'day': 'Lundi 19/12/2095', 'week': 'Oak, du 19/12/2095 au 25/12/2095', 'month': 'Oak, décembre 2095', 'first': 'Lundi', 'short': 'Lun.',
              'search': 'Recherche', 'free': 'Libre', 'taken': 'Occupée', 'hours': '2,0 h'},
}
# all that can be read or heard at this moment; the menu of languages has each in its own
READ = '''const read = new Set([document.title]), isSeen = node => node.checkVisibility({ visibilityProperty: true }) && !node.closest('#language, .unstarted, script, style');
const walker = document.createTreeWalker(document.body, NodeFilter.SHOW_TEXT);
while (walker.nextNode()) { const at = walker.currentNode.parentElement.closest('select') || walker.currentNode.parentElement; if (isSeen(at)) read.add(walker.currentNode.data); }
for (const node of document.querySelectorAll('body *')) if (isSeen(node)) for (const name of ['aria-label', 'title', 'placeholder', 'data-none', 'alt', 'abbr', 'aria-description'])
  if (node.hasAttribute(name)) read.add(node.getAttribute(name));
return [...read].map(text => text.replace(/\\s+/g, ' ').trim()).filter(text => /\\p{L}\\p{L}/u.test(text));'''
# what reaches over the window's edge, and what is cut off, but for what scrolls by itself
OVER = '''const isFree = node => node.checkVisibility({ visibilityProperty: true }) && !node.closest('.scroll, .wide, .skip, svg, option');
const nodes = [...document.querySelectorAll('body *')].filter(isFree), named = node => node.tagName + '#' + node.id + ' ' + (node.innerText || '').replace(/\\s+/g, ' ').slice(0, 50);
const wide = nodes.filter(node => node.getBoundingClientRect().right > innerWidth + 1).map(named);
const cut = nodes.filter(node => node.matches('button, h1, h2, h3, legend, label') && !node.closest('#month') && node.scrollWidth > node.clientWidth + 1 && node.clientWidth).map(named);
return [document.documentElement.scrollWidth - innerWidth, wide, cut];'''
# names of days and months as a browser of this language has them
NAMES = '''const of = options => [...Array(12).keys()].flatMap(n => [new Date(Date.UTC(2095, n, 1 + n)), new Date(Date.UTC(2095, 0, 1 + n))])
  .map(date => date.toLocaleDateString(arguments[0], { timeZone: 'UTC', ...options }));
return [...of({ weekday: 'long' }), ...of({ weekday: 'short' }), ...of({ month: 'long' })];'''


def cleared(text):
    return re.sub(r'\s+', ' ', text).strip()


def pieces_of(language):
    """What the sentences of a language are made of, the longest first."""
    texts = [text for template in WORDS[language].values() for text in (template.values() if isinstance(template, dict) else [template])]
    return sorted({cleared(piece) for text in texts for piece in re.split(r'\{\w+\}', text) if re.search(r'[^\W\d_]', piece)}, key=len, reverse=True)


PIECES = {language: pieces_of(language) for language in WORDS}


def without(text, piece):
    """The text without each whole occurrence of the piece."""
    before = r'(?<![^\W\d_])' if piece[0].isalpha() else ''
    behind = r'(?![^\W\d_])' if piece[-1].isalpha() else ''
    return re.sub(before + re.escape(piece) + behind, ' ', text) if piece in text else text


def foreign(text, language, names):
    """What of a text is of no sentence of its language, and neither a name, a title, a day nor a number."""
    rest = re.sub(r'https://\S+', ' ', cleared(text))
    for piece in [*DATA, *PIECES[language], *names, *MARKED]:
        rest = without(rest, piece)
    return ' '.join(re.findall(r'[^\W\d_]{2,}', rest))


class Desk:
    """A browser of one language at the page, and what is looked at in it."""

    def __init__(self, locale, number):
        self.locale, self.seen, self.number = locale, SEEN[locale], number
        self.language = self.seen['language']
        self.page = Page(int(free) + 1, os.path.join(folder, f'profile-{locale}'), url, pictures, language=locale)
        self.width, self.heard = 0, set()
        self.page.sign_in()
        self.names = {SEEN[it]['language']: sorted({name for word in self.page.run(NAMES, it) for name in (word, word[0].upper() + word[1:])}, key=len, reverse=True)
                      for it in SEEN}

    def show(self, address, path='', again=True):
        self.page.open(f'{self.page.bare}/{path}{"?" + str(time.time()) if again else ""}{address}')

    def look(self, view, language=None):
        """All that can be read is of the language, and nothing is wider than the window."""
        time.sleep(0.3)
        language = language or self.language
        read = self.page.run(READ)
        bad = {text: rest for text in read if text not in self.heard and (rest := foreign(text, language, self.names[language]))}
        check(f'{view}, {language}, {self.width}: all is said in the language', bad == {}, bad)
        self.heard |= set(read) - set(bad)
        over, wide, cut = self.page.run(OVER)
        check(f'{view}, {language}, {self.width}: nothing is wider than the window', over <= 0 and wide == [], (over, wide))
        check(f'{view}, {language}, {self.width}: nothing is cut off', cut == [], cut)
        if 'DEPLOY_PICTURES' in os.environ:
            self.page.picture_of(f'language-{language}-{self.width}-{view.replace(" ", "-")}')

    def says(self, key, selector):
        """The sentence of this key comes to this place: that of none, where it has forms."""
        template = WORDS[self.language][key]
        longest = max(re.split(r'\{\w+\}', template if isinstance(template, str) else template['0']), key=len)
        self.page.until(f'{key}, {self.language}, {self.width}', selector, longest.strip(' '))


# ---- what the office and its service have

def put(name, text):
    path = os.path.join(CACHE, name)
    with open(path + '.new', 'w', encoding='ascii') as out:
        out.write(text)
    os.replace(path + '.new', path)


def moment(ago=0):
    return (datetime.datetime.now(datetime.timezone.utc) - datetime.timedelta(minutes=ago)).strftime('%Y-%m-%dT%H:%M:%SZ')


def settings(**words):
    rooms = [{'name': 'room-a', 'label': 'Oak', 'seats': 1, 'has': ['Fjord']}, {'name': 'room-b', 'label': 'Elm, 2', 'seats': 8}, {'name': 'room-c', 'label': '<b>Ash</b>'}]
    with open(rooms_json, 'w', encoding='ascii') as out:
        json.dump({'office': 'West office', 'from': '08:00', 'to': '19:00', 'zone': ZONE, **words, 'rooms': rooms}, out)


def slot_of(start, stop):
    return {'day': DAY, 'start': start, 'stop': stop}


def write_service():
    """The news, of each kind; the other offices; and the figures of two months."""
    made = moment()

    def item(number, kind, **words):
        return {'key': f'1-{number}.1764536{number:03}', 'id': f'1-{number}', 'room': 'room-a', 'title': OURS, 'kind': kind, 'from': None, 'to': None, 'by': None,
                'mark': 'T', 'found': made, **words}
    items = [item(901, 'moved', **{'from': slot_of('13:00', '14:00'), 'to': slot_of('17:00', '18:00')}), item(902, 'lost', **{'from': slot_of('09:00', '10:30')}),
             item(903, 'lost', **{'from': slot_of('09:00', '10:30'), 'mark': 'C'}), item(904, 'found', **{'to': slot_of('15:00', '16:00')}),
             item(905, 'cancelled', **{'from': slot_of('11:00', '12:00'), 'by': '2-7'}), item(906, 'moved', **{'from': slot_of('13:00', '14:00'), 'to': slot_of('17:00', '18:00')})]
    put('news.json', json.dumps({'office': 'west', 'server': 1, 'made': made, 'items': items}))
    put('status.json', json.dumps({
        'made': moment(30), 'news': made, 'server': 1, 'primary': 1, 'requests': 300, 'tentative': 12, 'red_minutes': 60, 'mail': True,
        'peers': [{'name': 'north', 'met': moment(3000), 'fault': 'no line'}, {'name': 'Fjord', 'met': None, 'fault': None}], 'callers': [],
        'elsewhere': [{'room': 'fjord', 'label': 'Fjord', 'known': False, 'office': 'north'}, {'room': 'attic', 'label': 'attic', 'known': True}]}))
    days = ('Monday', 'Tuesday', 'Wednesday', 'Thursday', 'Friday', 'Saturday', 'Sunday')
    lines = [f'room-{room},"{label}",2027-0{month},{day},600,{60 if day == "Monday" else 0},0,1,0,0,0'
             for room, label in (('a', 'Oak'), ('b', 'Elm, 2')) for month in (3, 4) for day in days]
    put('figures.csv', 'room,label,month,weekday,open,booked,outside,bookings,no_room,moved,lost\r\n' + '\r\n'.join(lines) + '\r\n')


# ---- what is looked at

def a_day(desk):
    page, seen = desk.page, desk.seen
    desk.show(f'#{DAY}')
    page.until(f'the day in its language: {desk.locale}', '#sheet-title', seen['day'])
    page.there('a booking', booking('room-a', '09:30'))
    page.until('the other offices', '#met', 'north')
    check(f'the page says its language: {desk.locale}', page.attribute('html', 'lang') == desk.language, page.attribute('html', 'lang'))
    check(f'and no more that it has not started: {desk.locale}', not page.has('.unstarted'))
    desk.look('day')
    page.click('#bar-open')
    page.there('the news', '#news details')
    page.run('for (const each of document.querySelectorAll("#news details:not([open]) summary")) each.click()')
    desk.look('news')
    page.click('#bar-open')
    page.run('document.querySelector("#log").open = true; document.querySelector("#log").dispatchEvent(new Event("toggle"))')
    time.sleep(1)
    desk.look('requests without a room')
    page.run('document.querySelector("#log").open = false')
    if desk.width > 1000:
        names_and_colours(page, f'day-{desk.language}')
    desk.show('#2095-13-01/decade/attic')
    desk.says('desk.noDay', '#word')
    desk.look('an address of nothing')


def titles(desk):
    """They stay as they are, and are text."""
    page = desk.page
    desk.show('#2095-12-20')
    page.until('a title with markup is text', booking('room-a', '10:00', '2095-12-20'), NAUGHTY)
    check('it has made nothing', not page.has('#grid img') and not page.has('#grid h3 b'))
    page.click(booking('room-a', '10:00', '2095-12-20'))
    page.until('nor in its box', '#box', NAUGHTY)
    check('of another language either', not page.has('#box img'))
    desk.look('a booking')
    page.click('#box [data-box=cancel]')
    desk.look('a booking to be cancelled')
    page.click('#box [data-box=move]')
    page.there('the form of a change', '#move[open]')
    desk.look('a change')
    page.run('document.querySelector("#move").close()')


def asking(desk, day):
    """The form: what it complains of, what it asks, what comes back."""
    page = desk.page
    desk.show(f'#{day}')
    page.there('the day', slot('room-a', '11:00', day) if desk.width > 1000 else '#at-room option:nth-child(2)')
    page.wish('room-a', '11:00', OURS, day)
    page.write('#length', '1441')
    page.click('#send')
    time.sleep(0.5)
    desk.look('a length that is none')
    page.write('#length', '60')
    for title in ('Müller', '日本', 'T' * 61):
        page.write('#title', title)
        page.click('#send')
        page.waits(lambda: page.text('#title-error'))
        desk.heard |= {title, 'Mueller'}
        bad = [each for each in page.run(READ) if each not in desk.heard and foreign(each.replace('Müller', '').replace('Mueller', '').replace('TTTT', ''), desk.language, desk.names[desk.language])]
        check(f'a title in other letters, {desk.language}: all is said in the language', bad == [], bad)
    page.write('#title', OURS)
    page.write('#mail', 'nobody')
    page.click('#send')
    desk.says('mail.wrong', '#mail-error')
    desk.look('an address that is none')
    page.run('document.querySelector("#mail").value = ""')
    page.click('#send')
    page.until('it is booked', '#outcome', '1-')
    desk.look('booked')
    page.wish('room-a', '11:30', OURS, day)
    page.until('what is in the way', '#clash', OURS)
    page.run('document.querySelector("#choices").scrollIntoView({ block: "center" })')
    desk.look('a wish in the way')
    page.click('#send')
    page.there('a question', '#question[open]')
    desk.look('a question')
    page.click('#question button.main')
    page.waits(lambda: page.attribute('#outcome', 'class') == 'bad')
    page.there('what is free', '#offers button')
    desk.look('no room')
    page.run('document.querySelector("#mine").scrollIntoView({ block: "center" })')
    page.click('#clear')
    page.wish('room-a', '09:00', OURS, '1995-12-18')
    page.click('#send')
    page.there('a question about a day that is past', '#question[open]')
    desk.look('a day that is past')
    page.click('#question button:last-child')
    page.click('#clear')
    if desk.width > 1000:
        page.click(slot('room-a', '14:00', day))
        page.click(slot('room-a', '15:00', day))
        page.there('an alternative', '#choices li')
        desk.look('an alternative')
        page.click(slot('room-b', '14:00', day))
        page.there('another room asks', '#question[open]')
        desk.look('another room')
        page.click('#question button:last-child')
        page.click('#clear')


def views(desk):
    page, seen = desk.page, desk.seen
    desk.show(f'#{DAY}/week/room-a')
    if desk.width > 1000:
        page.until(f'the week: {desk.locale}', '#sheet-title', seen['week'])
        page.until(f'begins with its first day: {desk.locale}', '#grid .column:nth-child(2) h3', seen['first'])
    page.there('its days are read', '#grid .slot')
    time.sleep(1)
    desk.look('week')
    desk.show(f'#{DAY}/month/room-a')
    page.until(f'the month: {desk.locale}', '#sheet-title', seen['month'])
    page.until(f'begins with the same day: {desk.locale}', '#month th', seen['short'])
    page.there('its days are read', f'#month [data-day="{DAY}"].used')
    desk.look('month')
    desk.show(f'#{DAY}/coming/room-a')
    page.there('what comes', '#coming li')
    check('all of it is read', page.waits(lambda: not page.run('return document.querySelector("#coming > p:last-child")')))
    desk.look('coming')
    desk.show(f'#{DAY}/find/room-a')
    page.there('free rooms', '#found li button')
    page.set('#find-days', '2')
    page.until('over two days', '#found', seen['day'])
    time.sleep(1)
    desk.look('free rooms')
    if desk.width > 1000 and desk.language != 'en':
        names_and_colours(page, f'find-{desk.language}')
    page.set('#find-length', '700')
    desk.says('find.notFree', '#found')
    desk.look('free for less')
    page.set('#find-seats', '40')
    desk.says('find.none', '#found')
    page.set('#find-length', 'x')
    desk.says('find.ask', '#found')
    desk.look('nothing is asked')
    desk.show(f'#{DAY}/search/room-a')
    page.until('a search', '#sheet-title', seen['search'])
    page.write('#search-for', 'plan')
    page.until('what it finds', '#search-found', 'Planning')
    desk.look('search')
    page.write('#search-for', '<b>')
    desk.says('search.found', '#search-words')
    desk.look('nothing found')


def many(desk, day):
    page = desk.page
    desk.show(f'#{day}')
    page.there('the day', '#at-room option:nth-child(2)')
    page.click('#many-open')
    page.click('#many-parts [data-part="series"]')
    first = page.run('return document.querySelector("#series-weekdays label").innerText.trim()')
    check(f'the days of the week begin with the first: {desk.locale}', first.lower() == desk.seen['short'].lower(), first)
    page.click('#series button[type=submit]')
    page.waits(lambda: page.text('#series-error'))
    desk.look('a series without an end')
    later = (datetime.date.fromisoformat(day) + datetime.timedelta(days=20)).isoformat()
    for field, value in (('room', 'room-a'), ('start', '11:00'), ('length', '60'), ('title', OURS), ('from', day), ('until', later)):
        page.set(f'#series-{field}', value)
    page.click('#series button[type=submit]')
    page.waits(lambda: page.has('#plan-items li') and page.run('return document.querySelector("#plan-progress").hidden'))
    page.run('for (const each of document.querySelectorAll("#plan-items details:not([open]) summary")) each.click()')
    desk.look('a plan')
    page.click('#plan-buttons .main')
    time.sleep(1)
    page.waits(lambda: page.run('return document.querySelector("#plan-progress").hidden'))
    page.run('for (const each of document.querySelectorAll("#plan-items details:not([open]) summary")) each.click()')
    desk.look('what came of a plan')
    page.run('document.querySelector("#plan-buttons [data-key=away]")?.click()')
    page.click('#many-parts [data-part="groups"]')
    page.there('a group', '#groups .group')
    desk.look('groups')
    page.click('#many-parts [data-part="file"]')
    desk.look('a file')
    path = os.path.join(folder, 'list.csv')
    with open(path, 'w', encoding='utf-8') as out:
        out.write(f'room;day;start;stop;title\nroom-a;{day};16:00;17:00;{OURS}\nroom-a;{day};11:15;12:00;{OURS}\nattic;{day};9:00;10:00;{OURS}\n'
                  f'room-a;31/12/2095;9:00;10:00;{OURS}\nroom-a;1995-12-18;9:00;10:00;{OURS}\nroom-a;{day};10:00;9:00;{OURS}\nroom-a;{day};25:00;9:00;{OURS}\n')
    page.call('POST', f'/element/{page.find("#file-pick")}/value', {'text': path})
    page.waits(lambda: page.has('#plan-items li') and page.run('return document.querySelector("#plan-progress").hidden'))
    page.run('for (const each of document.querySelectorAll("#plan-items details:not([open]) summary")) each.click()')
    desk.look('a file that was read')
    page.run('document.querySelector("#plan-buttons [data-key=away]")?.click()')
    page.click('#many-close')


def no_line(desk):
    page = desk.page
    desk.show(f'#{DAY}')
    page.there('a day', booking('room-a', '09:30'))
    office.stop()
    try:
        for _ in range(2):
            page.look()
            time.sleep(0.5)
        page.waits(lambda: page.text('#alarm'))
        desk.look('a lost line')
        page.wish('room-a', '18:00', OURS)
        page.click('#send')
        page.waits(lambda: page.text('#send-error'))
        desk.look('asking without a line')
    finally:
        office.serve()
    page.look()
    page.waits(lambda: not page.text('#alarm'))


def door_fits(desk, view):
    desk.look(view)
    fits = desk.page.run('return [document.documentElement.scrollHeight - innerHeight, document.querySelector("#word").offsetHeight / parseFloat(getComputedStyle(document.querySelector("#word")).fontSize)]')
    check(f'{view}, {desk.language}, {desk.width}: all of it fits, and the word has one line', fits[0] <= 0 and fits[1] < 1.5, fits)


def a_door(desk):
    page, seen = desk.page, desk.seen
    desk.show('#room-c', 'door.html')
    page.until(f'a free room: {desk.locale}', '#word', seen['free'])
    page.until('its buttons', '#acts', '15')
    door_fits(desk, 'door free')
    page.click('#acts button')
    page.waits(lambda: page.text('#said'))
    door_fits(desk, 'door that may not book')
    desk.show('#room-b', 'door.html')
    page.until(f'a taken room: {desk.locale}', '#word', seen['taken'])
    page.until('by what', '#title', NAUGHTY)
    check('the title at the door is text', not page.has('#title img'))
    page.until('the other offices', '#met', 'north')
    door_fits(desk, 'door taken')
    check(f'the door says its language: {desk.locale}', page.attribute('html', 'lang') == desk.language)
    if desk.width > 1000:
        names_and_colours(page, f'door-{desk.language}')
    office.stop()
    try:
        for _ in range(2):
            page.look()
            time.sleep(0.5)
        page.waits(lambda: page.has('body.old'))
        door_fits(desk, 'door without a line')
    finally:
        office.serve()
    desk.show('#attic', 'door.html')
    desk.says('all.unknownRoom', '#until')
    desk.look('door of no room')
    desk.show('#', 'door.html')
    page.until('which rooms there are', '#next', 'Oak')
    desk.look('door without a room')


def figures(desk):
    page = desk.page
    desk.show('', 'figures.html')
    page.until(f'figures: {desk.locale}', '#tables', desk.seen['hours'])
    days = page.run('return [...document.querySelectorAll("#tables table")[1].querySelectorAll("tbody th")].map(each => each.textContent)')
    check(f'the days of the week in their order: {desk.locale}', days[0] == desk.seen['first'] and len(days) == 8, days)
    desk.look('figures')
    if desk.width > 1000 and desk.language != 'en':
        names_and_colours(page, f'figures-{desk.language}')


def chosen(desk):
    """By the office, and by the menu, which goes before it and is kept."""
    page = desk.page
    own, other = ('de', 'fr') if desk.language == 'en' else ('en', 'fr' if desk.language == 'de' else 'de')

    def speaks(name, language):
        check(f'{name}: {desk.locale} in {language}', page.waits(lambda: page.run('return document.readyState === "complete" && document.documentElement.lang') == language and
              page.text('#sheet-title') != ''), page.attribute('html', 'lang'))

    settings(language=own)
    desk.show(f'#{DAY}')
    speaks('the office says which language', own)
    if own == 'de':
        page.until('with the week of its own region', '#sheet-title', 'Montag, 19.12.2095')
        check('the menu says so', 'Deutsch' in page.run('return document.querySelector("#language").selectedOptions[0].textContent'))
        desk.show(f'#{DAY}/week/room-a')
        page.until('which begins with Monday', '#grid .column:nth-child(2) h3', 'Montag')
        desk.look('week', 'de')
    desk.show('#room-c', 'door.html')
    check(f'the door goes by it: {desk.locale}', page.waits(lambda: page.attribute('html', 'lang') == own))
    desk.show(f'#{DAY}')
    page.there('the menu', '#language option:nth-child(4)')
    page.run('const menu = document.querySelector("#language"); menu.value = arguments[0]; menu.dispatchEvent(new Event("change"))', other)
    speaks('the menu goes before the office', other)
    check('and shows it', page.value('#language') == other, page.value('#language'))
    desk.show(f'#{DAY}/month/room-a')
    speaks('it is kept over a load', other)
    desk.show('#room-c', 'door.html')
    check(f'at the door too: {desk.locale}', page.waits(lambda: page.attribute('html', 'lang') == other))
    desk.show(f'#{DAY}')
    page.there('the menu again', '#language option:nth-child(4)')
    page.run('const menu = document.querySelector("#language"); menu.value = ""; menu.dispatchEvent(new Event("change"))')
    speaks('without a choice it is the office’s', own)
    settings(language='tlh')
    desk.show(f'#{DAY}')
    speaks('a language that nobody knows here is none', desk.language)
    settings(door={'release': 10})


def not_started(desk):
    """The proxy of an older package: the words' files don't come, and the page says so, in each language."""
    page = desk.page
    page.devtools('Network.enable')
    page.devtools('Network.setBypassServiceWorker', bypass=True)
    page.devtools('Network.setBlockedURLs', urls=['*/words/*'])
    try:
        for path, name in (('', 'page'), ('door.html', 'door'), ('figures.html', 'figures')):
            desk.show(f'#{DAY}', path)
            check(f'the {name} says nothing at first', page.text('.unstarted') == '' or not page.run('return document.querySelector(".unstarted").checkVisibility({ visibilityProperty: true })'))
            check(f'the {name} says that it has not started', page.waits(lambda: page.run(
                'const it = document.querySelector(".unstarted"); return it && it.checkVisibility({ visibilityProperty: true }) && [...it.children].map(each => each.lang).join() === "en,de,fr"')))
            over = page.run('return document.documentElement.scrollWidth - innerWidth')
            check(f'the {name} is no wider than the window', over <= 0, over)
        page.picture_of('not-started')
    finally:
        page.devtools('Network.setBlockedURLs', urls=[])
        page.devtools('Network.setBypassServiceWorker', bypass=False)
        page.devtools('Network.disable')


def one_language(locale, number):
    desk = Desk(locale, number)
    try:
        for place, (width, height) in enumerate(WIDTHS):
            desk.width = width
            desk.page.resize(width, height)
            day = f'2096-0{1 + place}-0{2 + 2 * number}'
            a_day(desk)
            titles(desk)
            asking(desk, day)
            views(desk)
            many(desk, day)
            no_line(desk)
            a_door(desk)
            figures(desk)
        desk.page.resize(*WIDTHS[0])
        desk.width = WIDTHS[0][0]
        chosen(desk)
        noise = [line for line in desk.page.log() if 'Failed to load resource' not in line and 'ERR_CONNECTION' not in line]
        check(f'nothing in the console of the browser: {locale}', noise == [], noise)
        if number == 0:
            not_started(desk)
    except (RuntimeError, OSError) as error:
        check(f'the browser: {locale}', False, str(error))
    finally:
        desk.page.end()


def present():
    """A meeting under way in room-b, with a title that would be markup."""
    now = datetime.datetime.now(zoneinfo.ZoneInfo(ZONE))
    office.rooms('book', 'room-b', '1440', now.date().isoformat(), '00:00', NAUGHTY)
    office.rooms('book', 'room-b', '1440', (now.date() + datetime.timedelta(days=1)).isoformat(), '00:00', NAUGHTY)


office = Office(program, f'{folder}/languages.db', port)
office.rooms('book', 'room-a', '60', '2095-12-20', '10:00', NAUGHTY)
present()
settings(door={'release': 10})
write_service()
try:
    office.serve()
    for number, locale in enumerate(SEEN):
        one_language(locale, number)
finally:
    office.stop()
