#!/usr/bin/env python3
"""The figures in a real browser: hours booked of hours open by room, day of the week and month, requests without a room, moves by merges.

    report.py PROGRAM FOLDER URL PORT FREE PICTURES ROOMS

The words are those of desk.py. The figures of the office `west` are written already, of bookings that looked.sh makes.
"""

import os
import sys
import time

from colours import names_and_colours
from page import Page, check

program, folder, url, port, free, pictures, rooms_json = sys.argv[1:]
LABEL = '=HYPERLINK("http://x","Oak") <img src=x onerror=alert(1)>'


def line(table, head):
    """The cells of the line of a table that begins with this, but for the bar's."""
    cells = page.run('const line = [...document.querySelectorAll("#tables table")[arguments[0]].querySelectorAll("tbody tr")].find(each => each.cells[0].textContent === arguments[1]);'
                     'return line && [...line.cells].filter(cell => !cell.querySelector("svg")).map(cell => cell.textContent)', table, head)
    return cells and cells[1:]


def figures():
    page.open(f'{page.bare}/figures.html')
    page.until('figures', '#tables', 'By month')
    # March 2027 has 23 days from Monday to Friday, April 22, of ten hours each; oak has three hours on a Monday, one of them after 18:00, elm eight whole days
    check('by room', line(0, LABEL) == ['2.0 h', '450.0 h', '0 %', '2.0 h', '3', '1', '2', '0'], line(0, LABEL))
    check('another room', line(0, 'elm') == ['80.0 h', '450.0 h', '18 %', '0.0 h', '8', '0', '0', '1'], line(0, 'elm'))
    check('both', line(0, 'All') == ['82.0 h', '900.0 h', '9 %', '2.0 h', '11', '1', '2', '1'], line(0, 'All'))
    check('by day of the week', line(1, 'Monday') == ['22.0 h', '180.0 h', '12 %', '1.0 h', '4', '1', '2', '0'], line(1, 'Monday'))
    check('a day that is not open', line(1, 'Saturday') == ['0.0 h', '0.0 h', '–', '1.0 h', '1', '0', '0', '0'], line(1, 'Saturday'))
    check('by month', line(2, '2027-04')[:3] == ['80.0 h', '440.0 h', '18 %'], line(2, '2027-04'))
    check('a label is a text', LABEL in page.text('#tables'), page.text('#tables')[:200])
    bars = page.run('return [...document.querySelectorAll("#tables table:first-of-type .part")].map(each => Number(each.getAttribute("width"))).slice(0, 2)')
    check('bars are to scale', [round(each, 1) for each in bars] == [0.4, 17.8], bars)
    names_and_colours(page, 'figures')
    page.picture_of('figures')
    page.set('#from', '2027-04')
    check('from a month on', line(0, LABEL)[1] == '220.0 h' and line(2, '2027-03') is None, line(0, LABEL))
    page.set('#room', 'elm')
    check('of one room', line(0, LABEL) is None and line(0, 'All')[0] == '80.0 h', line(0, 'All'))
    page.resize(375, 812)
    time.sleep(0.3)
    wide = page.run('return document.documentElement.scrollWidth - window.innerWidth')
    check('a phone needs no scrolling of the page sideways', wide <= 0, wide)
    page.picture_of('figures-phone')
    page.resize(1280, 900)
    page.open(f'{page.bare}/figures.svg')
    check('the drawing is one', page.run('return document.documentElement.tagName + document.querySelectorAll("rect").length') .startswith('svg'))
    check('with the label as text, and nothing to run', page.run('return [...document.querySelectorAll("*")].every(each => ["svg", "rect", "text"].includes(each.tagName)) &&'
          ' [...document.querySelectorAll("text")].some(each => each.textContent.startsWith("=HYPERLINK("))'))
    page.picture_of('figures-drawing')
    page.open(f'{page.bare}/#2027-03-01')
    page.until('the desk', '#tools', 'Figures')


page = Page(int(free) + 1, os.path.join(folder, 'profile-report'), url, pictures)
try:
    page.sign_in()
    figures()
    check('nothing in the console of the browser', not [line for line in page.log() if 'Failed to load resource' not in line], page.log())
except (RuntimeError, OSError) as error:
    check('the browser', False, str(error))
finally:
    page.end()
