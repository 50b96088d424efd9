#!/usr/bin/env python3
"""Files of bookings at the page, through nginx: CSV and calendars, good ones and bad ones, each line of which is taken or named with its reason.

    imports.py PROGRAM FOLDER URL PORT FREE PICTURES ROOMS

The words are those of desk.py. FOLDER has imports.db, a replica 1 of primary 1 with the rooms oak and elm.
"""

import codecs
import os
import sys
import time

from colours import names_and_colours
from page import DAY, Office, Page, check, write_rooms
from files_of_bookings import BAD_CSV, CALENDAR, FORMULAS, of_many_lines

program, folder, url, port, free, pictures, rooms_json = sys.argv[1:]


def file_of(name, content):
    path = os.path.join(folder, name)
    with open(path, 'wb') as out:
        out.write(content if isinstance(content, bytes) else content.encode())
    return path


def choose(name, content, patience=60):
    """Has the page read a file of this name, to its end."""
    page.run('document.querySelector("#file-pick").value = ""; document.querySelector("#file-error").textContent = ""')
    page.run('window.chosen = document.querySelector("#plan-items").innerText')
    element = page.find('#file-pick')
    page.call('POST', f'/element/{element}/value', {'text': file_of(name, content)})
    page.waits(lambda: page.run('return (document.querySelector("#plan-items").innerText !== window.chosen && document.querySelector("#plan-progress").hidden) '
                                '|| document.querySelector("#file-error").textContent !== ""'), patience)


def items():
    """What the list has: by state, its lines as they are shown."""
    page.run('for (const each of document.querySelectorAll("#plan-items details:not([open]) summary")) each.click()')
    return page.run('return Object.fromEntries([...document.querySelectorAll("#plan-items details")].map(each => '
                    '[each.dataset.state, [...each.querySelectorAll("li")].map(line => line.innerText.replaceAll("\\n", " ").replace(/ What is free.$/, "").trim())]))')


def count(name):
    return page.run('const part = document.querySelector(`#plan-items details[data-state="${arguments[0]}"] summary`);'
                    'return part ? Number(part.innerText.split(" ").at(-1)) : 0', name)


def sheet(room='oak', day=DAY):
    return [line.split(' ', 3)[3] for line in office.asked(f'/rooms/{room}/days/{day}').splitlines()[1:] if line[0].isdigit()]


def encodings():
    page.sign_in()
    page.open(f'{page.bare}/#{DAY}')
    page.until('the page', '#grid', 'Standing')
    page.click('#many-open')
    page.click('#many-parts [data-part="file"]')
    text = f'Raum;Datum;Von;Bis;Betreff\r\nOak;{DAY[8:]}.{DAY[5:7]}.{DAY[:4]};9:00;10:00;Müller & Söhne\r\n'
    for name, content in (('UTF-8', text.encode()), ('UTF-8 with a mark', codecs.BOM_UTF8 + text.encode()), ('UTF-16', codecs.BOM_UTF16_LE + text.encode('utf-16-le')),
                          ('UTF-16 of the other order', codecs.BOM_UTF16_BE + text.encode('utf-16-be')), ('UTF-16 without a mark', text.encode('utf-16-le')),
                          ('Latin letters', text.encode('latin-1'))):
        choose(f'{name}.csv', content)
        check(f'{name} is read', items() == {'free': [f'Line 2: Mon {DAY} 09:00–10:00, Oak, Mueller & Soehne']}, items())
        page.click('#plan-buttons [data-key="away"]')
    check('nothing was asked for', sheet() == ['Standing'], sheet())


def wrong_lines():
    """Each is named with its number and its reason, and the good ones are taken."""
    choose('bad.csv', '\n'.join(['room,day,start,stop,length,title,id', *(line for line, _ in BAD_CSV)]))
    seen = items()
    for number, (line, wanted) in enumerate(BAD_CSV, 2):
        found = [(state, words) for state, own in seen.items() for words in own if words.startswith(f'Line {number}: ')]
        check(f'line {number}, {line!r}', len(found) == 1 and (wanted in found[0][1] if wanted else found[0][0] == 'free'), found)
    page.picture_of('import-bad')
    page.click('#plan-buttons [data-key="away"]')
    for name, content, words in (('empty.csv', '', 'The first line has to name'), ('no-head.csv', 'a,b\n1,2\n', 'The first line has to name'), ('garbage.csv', os.urandom(5000), 'The first line has to name'),
                                 ('head.csv', 'room,day,start,stop,title\n', 'The file has no booking'), ('empty.ics', 'BEGIN:VCALENDAR\r\nEND:VCALENDAR\r\n', 'The file has no event'),
                                 ('long.csv', of_many_lines(10001), 'more than 10000 bookings')):
        choose(name, content)
        page.until(f'{name} is refused whole', '#file-error', words)
    check('and nothing is in the list', not page.text('#plan'))


def strange_titles():
    """Formulas and code stay text, on the page and at the office."""
    choose('formulas.csv', 'room,day,start,length,title\n' + ''.join(
        f'elm,{DAY},{8 + number // 2:02}:{number % 2 * 30:02},30,"{title.replace(chr(34), chr(34) * 2)}"\n' for number, title in enumerate(FORMULAS)))
    check('all are free', count('free') == len(FORMULAS), items())
    page.click('#plan-buttons .main')
    page.waits(lambda: count('booked') == len(FORMULAS))
    check('they are booked as they are', sheet('elm') == FORMULAS, sheet('elm'))
    page.click('#many-parts [data-part="groups"]')
    page.until('as a group named by the file', '#groups', 'formulas.csv')
    page.click('#groups [aria-label="formulas.csv"] button')
    page.until('with its titles', '#groups', FORMULAS[0])
    check('no title is code', page.run('return document.querySelectorAll("body script, #many img, #grid img, #many b i").length === 0 && !window.pwned'))
    page.click('#many-parts [data-part="file"]')


def asked_once():
    """A second run of the same file asks for nothing twice, also of what was cancelled, moved or without a room since."""
    text = f'room,day,start,length,title,id\noak,{DAY},11:00,60,Once,a-1\noak,{DAY},12:00,60,Once,a-2\noak,{DAY},13:30,60,Once,a-3\noak,{DAY},16:00,60,Once,\n'
    choose('once.csv', text)
    page.run('document.querySelector("#plan-items details[data-state=clash] input")?.click()')
    page.click('#plan-buttons .main')
    page.waits(lambda: count('booked') == 3 and count('none') == 1)
    check('three are booked, and one found no room', sheet().count('Once') == 3, sheet())
    second = next(line.split(' ')[2] for line in office.asked(f'/rooms/oak/days/{DAY}').splitlines() if line.startswith('12:00'))
    office.between(lambda: office.rooms('cancel', 'oak', second))
    log = office.asked('/rooms/oak/errors')
    page.open(f'{page.bare}/?twice#{DAY}')
    page.until('the page anew', '#grid', 'Once')
    page.click('#many-open')
    page.click('#many-parts [data-part="file"]')
    choose('other-name.csv', text)
    check('the second time all are known', count('there') == 4 and not page.has('#plan-buttons .main'), items())
    check('and said so', all('asked for before, as request 1-' in words for words in items()['there']), items())
    check('nothing was asked for', sheet().count('Once') == 2 and office.asked('/rooms/oak/errors') == log, sheet())
    page.click('#plan-buttons [data-key="away"]')


def a_calendar():
    """Recurrences, zones, a thousand attendees, and events that can't be taken."""
    page.run('document.querySelector("#file-pick").value = ""')
    page.set('#file-room', 'elm')
    choose('calendar.ics', CALENDAR)
    seen = {words for own in items().values() for words in own}
    for wanted in ('Mon 2096-01-02 09:00–10:00, Oak, Planning, first; with a thousand', 'Tue 2096-01-03 10:00–11:30, Elm, 2nd floor, From Greenwich',
                   'Tue 2096-01-03 14:00–15:00, Elm, 2nd floor, Weekly', 'Thu 2096-01-12 14:00–15:00, Elm, 2nd floor, Weekly', 'Tue 2096-01-10 16:00–17:00, Elm, 2nd floor, Weekly, later',
                   'Fri 2096-01-20 20:00–21:00, Elm, 2nd floor, New York', 'Fri 2096-03-16 19:00–20:00, Elm, 2nd floor, New York'):
        check(f'the calendar has {wanted}', any(wanted in words for words in seen), seen)
    check('what is left out is not there', not any('2096-01-05 14:00' in words or '2096-01-10 14:00' in words for words in seen), seen)
    for wanted in ('Holiday it is of whole days', 'Moon its zone “Moon/Sea” is not known', 'Over midnight it goes on over midnight', 'Gone it is cancelled', 'a VTODO is no meeting',
                   'Strange its rule has BYSETPOS', 'Backwards it ends before it begins', 'Half it is cut off'):
        check(f'and names {wanted}', any(wanted in words for words in seen), seen)
    page.picture_of('import-calendar')
    names_and_colours(page, 'import')
    page.click('#plan-buttons [data-key="away"]')


def many_lines():
    """Ten thousand lines are looked at, and shown in parts."""
    began = time.time()
    choose('many.csv', of_many_lines(10000), 300)
    check('ten thousand lines', sum(count(state) for state in ('free', 'clash', 'there', 'bad')) == 10000, items().keys())
    check('most of them are in one another’s way, and each is named', count('clash') > 5000, count('clash'))
    shown = page.run('return document.querySelectorAll("#plan-items li").length')
    check('few of them are drawn', shown <= 200, shown)
    print(f'ok ten thousand lines took {time.time() - began:.0f} seconds')
    page.click('#plan-buttons [data-key="away"]')


def on_a_phone():
    page.resize(375, 812)
    choose('bad.csv', '\n'.join(['room,day,start,stop,length,title,id', *(line for line, _ in BAD_CSV)]))
    wide = page.run('return document.documentElement.scrollWidth - window.innerWidth')
    check('a phone needs no scrolling sideways', wide <= 0, wide)
    page.picture_of('import-phone')


write_rooms(rooms_json, {'oak': 'Oak', 'elm': 'Elm, 2nd floor'}, zone='Europe/Berlin')
office = Office(program, f'{folder}/imports.db', port)
office.rooms('book', 'oak', '60', DAY, '14:00', 'Standing')
page = Page(int(free) + 1, os.path.join(folder, 'profile-imports'), url, pictures)
try:
    office.serve()
    for step in (encodings, wrong_lines, strange_titles, asked_once, a_calendar, many_lines, on_a_phone):
        step()
    check('nothing in the console of the browser', not [line for line in page.log() if 'Failed to load resource' not in line], page.log())
except (RuntimeError, OSError) as error:
    check('the browser', False, str(error))
finally:
    page.end()
    office.stop()
