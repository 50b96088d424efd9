#!/usr/bin/env python3
"""What commands and served requests cost, beside the bookings that there are.

    speed.py PROGRAM FOLDER [--open OPENER] [--plot FILE] [COUNT/ROOMS ..]

makes in FOLDER databases with so many bookings in so many rooms (1,000, 10,000 and 100,000 in 5 and in 50 where nothing is given), and measures
tables, each with a column for each size, and prints them. The first has commands, run on copies nine times, or three times and more where that takes
ten seconds: the middle one of the milliseconds that the process had a processor. Below them is the floor: OPENER, where one is given, a program of the
kit's `sqlite` alone that opens the file which is its word and closes it; and stock SQLite, where `sqlite3` is there, which makes one durable transaction,
and tests all rows and keys. The last column, where `strace` is there, has the calls of fsync and fdatasync at the first size. The second table has
requests to the served database (`served.py`): the middle one and the 99th of a hundred, of the server's processor time, and once more by the clock; and
as its floor a durable transaction of Python's sqlite3, in a process that stays. FILE gets a plot of both in the greatest number of rooms.
"""

import argparse
import os
import shutil
import sqlite3
import subprocess
import sys
import time

sys.path.insert(0, os.path.dirname(os.path.abspath(__file__)))

from receiving import batch_file, write
from served import LINES, batch_of, copied, made, measured, middle_and_most, position
from plot import Panel, draw

SIZES = ['1000/5', '1000/50', '10000/5', '10000/50', '100000/5', '100000/50']
RUNS, FEW, SECONDS, REQUESTS = 9, 3, 10, 200


def run(words):
    """The milliseconds that a process had a processor."""
    process = subprocess.Popen(words, stdin=subprocess.DEVNULL, stdout=subprocess.DEVNULL, stderr=subprocess.DEVNULL)
    _, _, usage = os.wait4(process.pid, 0)
    process.returncode = 0
    return (usage.ru_utime + usage.ru_stime) * 1000


def middle(make):
    """The middle one of some runs of a command, whose words are made before each, with what they need."""
    took, began = [], time.monotonic()
    while len(took) < FEW or len(took) < RUNS and time.monotonic() - began < SECONDS:
        took.append(run(make()))
    return sorted(took)[len(took) // 2]


def peak(folder, words):
    """The most memory of a process, in MiB. A child of this one has at least what this one has, so `time` starts it."""
    told = os.path.join(folder, 'told')
    subprocess.run(['time', '-q', '-f', '%M', '-o', told, *words], stdin=subprocess.DEVNULL, stdout=subprocess.DEVNULL, check=False)
    with open(told, encoding='ascii') as lines:
        return int(lines.read()) / 1024


def syncs(folder, words):
    if not shutil.which('strace'):
        return ''
    told = os.path.join(folder, 'told')
    subprocess.run(['strace', '-f', '-o', told, '-e', 'trace=fsync,fdatasync', *words], stdin=subprocess.DEVNULL,
                   stdout=subprocess.DEVNULL, stderr=subprocess.DEVNULL, check=False)
    with open(told, encoding='ascii', errors='replace') as lines:
        return sum('sync(' in line for line in lines)


def files(folder, count, rooms):
    """Batches and positions for the cases, by their names."""
    of = {'top': batch_of(count + 1, count + LINES, rooms), 'all': batch_of(1, count, rooms), 'last': position(count - LINES), 'none': 'mp2 9 1\nK 0\nE\n'}
    for name, text in of.items():
        with open(os.path.join(folder, name), 'w', encoding='ascii') as out:
            out.write(text)
    batch_file(os.path.join(folder, 'early'), [write(4, 1, 1, 1, 0).replace('oak-', 'room-')])
    return {name: os.path.join(folder, name) for name in (*of, 'early', 'made')}


def empty_database(program, folder):
    """A database without bookings."""
    file = os.path.join(folder, 'copy.db')
    for name in (file, file + '-wal'):
        if os.path.exists(name):
            os.remove(name)
    subprocess.run([program, 'init', file, '1', '1'], stdout=subprocess.DEVNULL, check=True)
    return file


def cases(program, opener, folder, count, rooms):
    """The name of each case, and what makes its words, with a copy of the database."""
    of, file = files(folder, count, rooms), made(program, folder, count, rooms)

    def copy():
        return copied(folder, file)
    words = {
        'the program alone': lambda: [program, 'no', 'such', 'words'],
        'position': lambda: [program, 'position', copy()],
        'sheet': lambda: [program, 'sheet', copy(), 'room-1', '1995-01-01'],
        'outcome': lambda: [program, 'outcome', copy(), 'room-1', '2-1'],
        'full calendar of a room': lambda: [program, 'calendar', copy(), 'room-1', 'full'],
        'book': lambda: [program, 'book', copy(), 'room-1', '15', '2090-01-01', '09:00', 'New'],
        f'export of {LINES} lines': lambda: [program, 'export', copy(), of['last'], of['made'], str(LINES)],
        'export of all': lambda: [program, 'export', copy(), of['none'], of['made'], '100000'],
        f'import of {LINES} writes on top': lambda: [program, 'import', copy(), of['top']],
        'import of one early write': lambda: [program, 'import', copy(), of['early']],
        'import of all, in one batch': lambda: [program, 'import', empty_database(program, folder), of['all']],
        f'commit of {LINES}': lambda: [program, 'commit', copy(), str(LINES)],
        'commit of all': lambda: [program, 'commit', copy(), str(count)],
    }
    if opener:
        words['the kit alone: open and close'] = lambda: [opener, copy()]
    if shutil.which('sqlite3'):
        words['stock SQLite: one transaction'] = lambda: ['sqlite3', copy(), 'PRAGMA synchronous=2; UPDATE meta SET clock = clock + 1']
        words['stock SQLite: all rows and keys tested'] = lambda: ['sqlite3', copy(), 'PRAGMA integrity_check']
    return words


def commands(program, opener, folder, count, rooms):
    """Of each case the milliseconds; the peak memory of a booking, and the size of the file, in MiB."""
    of = cases(program, opener, folder, count, rooms)
    told = {name: middle(make) for name, make in of.items()}
    return told, peak(folder, of['book']()), os.path.getsize(made(program, folder, count, rooms)) / 2 ** 20


def transactions(folder):
    """What a durable transaction of Python's sqlite3 takes in a process that stays: processor time, and by the clock."""
    file = os.path.join(folder, 'stock.db')
    connection = sqlite3.connect(file, isolation_level=None)
    connection.executescript('PRAGMA journal_mode=WAL; PRAGMA synchronous=2; CREATE TABLE IF NOT EXISTS t (n INTEGER PRIMARY KEY, a TEXT)')
    pairs = []
    for number in range(REQUESTS):
        spent, start = time.process_time(), time.perf_counter()
        connection.execute('INSERT INTO t (a) VALUES (?)', (f'Meeting {number}',))
        pairs.append(((time.perf_counter() - start) * 1000, (time.process_time() - spent) * 1000))
    connection.close()
    os.remove(file)
    return pairs


def number(value):
    return f'{value:.2f}' if value < 10 else f'{value:.0f}' if value >= 100 else f'{value:.1f}'


def print_commands(sizes, of, calls):
    print('| Milliseconds of processor time | ' + ' | '.join(f'{count:,} in {rooms}' for count, rooms in sizes) + ' | Syncs |')
    print('|---|' + '---|' * len(sizes) + '---|')
    for name in of[sizes[0]][0]:
        print(f'| {name} | ' + ' | '.join(number(of[size][0][name]) for size in sizes) + f' | {calls[name]} |')
    for place, name in ((1, 'peak memory of `book`, MiB'), (2, 'the file, MiB')):
        print(f'| {name} | ' + ' | '.join(number(of[size][place]) for size in sizes) + ' | |')


def print_requests(sizes, of, floor, title, which):
    print(f'| {title} | ' + ' | '.join(f'{count:,} in {rooms}' for count, rooms in sizes) + ' |')
    print('|---|' + '---|' * len(sizes))

    def cell(pairs):
        return ', '.join(number(value) for value in middle_and_most([pair[which] for pair in pairs]))
    for name in of[sizes[0]][0]:
        print(f'| {name} | ' + ' | '.join(cell(of[size][0][name]) for size in sizes) + ' |')
    print('| the first request | ' + ' | '.join(number(of[size][1][which]) for size in sizes) + ' |')
    print('| stock SQLite: one transaction | ' + ' | '.join([cell(floor)] + [''] * (len(sizes) - 1)) + ' |')


def print_memory(sizes, of):
    for size in sizes:
        before, behind, *most = (round(it) for it in of[size][2])
        print(f'{size[0]:,} in {size[1]}: {before} MiB before the first request, {behind} behind it, at most {max(most)}')


def plotted(file, sizes, lines, served):
    """Both tables in the greatest number of rooms."""
    rooms = max(rooms for _, rooms in sizes)
    sizes = [size for size in sizes if size[1] == rooms]
    counts = [count for count, _ in sizes]
    draw(file, [
        Panel(f'Commands on a database of so many bookings in {rooms} rooms: milliseconds of processor time', counts,
              {name: [lines[size][0][name] for size in sizes] for name in lines[sizes[0]][0]}),
        Panel(f'Requests to a served replica of so many bookings in {rooms} rooms: milliseconds of processor time, the middle one', counts,
              {name: [middle_and_most([spent for _, spent in served[size][0][name]])[0] for size in sizes] for name in served[sizes[0]][0]})])


def main():
    words = argparse.ArgumentParser(add_help=False)
    words.add_argument('program')
    words.add_argument('folder')
    words.add_argument('sizes', nargs='*', default=SIZES)
    words.add_argument('--open')
    words.add_argument('--plot')
    words = words.parse_intermixed_args()
    os.makedirs(words.folder, exist_ok=True)
    sizes = [tuple(map(int, size.split('/'))) for size in words.sizes]
    began = os.getloadavg()
    lines = {size: commands(words.program, words.open, words.folder, *size) for size in sizes}
    calls = {name: syncs(words.folder, make()) for name, make in cases(words.program, words.open, words.folder, *sizes[0]).items()}
    print_commands(sizes, lines, calls)
    print(flush=True)
    served = {size: measured(words.program, words.folder, *size, REQUESTS) for size in sizes}
    floor = transactions(words.folder)
    print_requests(sizes, served, floor, 'Milliseconds of processor time, the middle one and the 99th of a hundred', 1)
    print()
    print_requests(sizes, served, floor, 'The same by the clock', 0)
    print()
    print_memory(sizes, served)
    print('\nprocesses that wanted a processor, in the minute before and the last one: ' + ', '.join(f'{load[0]:.1f}' for load in (began, os.getloadavg())))
    if words.plot:
        plotted(words.plot, sizes, lines, served)


if __name__ == '__main__':
    main()
