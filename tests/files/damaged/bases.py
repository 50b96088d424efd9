"""The databases that are damaged: those of the primary, 1, and of another office, 2, which has dropped some commits. Both have bookings at
alternatives, logged requests, and cancels that are done and void: of what was dropped (at 2), committed, and tentative. And the database of the
first schema that is kept."""

import os
import shutil

import stock
from calls import done, empty
from tables import KEPT

DAY, OTHER = '1995-12-18', '1995-12-19'
LONG = 'a-room-of-16-byt'
T60 = 'y' * 60

# What offices 3 and 4 do last doesn't come to 1 and 2: the commands that are tried import it. The request of 4 goes before all tentative ones.
STEPS = f"""
1 add-room oak
1 add-room {LONG}
1 add-room unused
2 add-room oak
2 add-room elm
2 add-room zoo-2
3 add-room oak
1 book oak 60 {DAY} 09:00 Alpha
1 book oak 60 {DAY} 09:30 Beta {DAY}T10:00
1 book oak 30 {DAY} 09:15 Gamma {DAY}T10:30
1 book {LONG} 1440 {OTHER} 00:00 {T60}
1 cancel oak 1-1
1 cancel oak 1-3
2 book oak 30 {DAY} 14:00 Delta {OTHER}T14:00 {OTHER}T15:00
2 book elm 45 {OTHER} 23:15 Late
2 cancel elm 2-2
2 book oak 90 {DAY} 10:30 Missed
2 cancel oak 2-4
bridge 2 1
1 commit 12
bridge 2 1
2 truncate 11
1 book oak 15 {DAY} 16:00 Epsilon
1 book oak 30 {DAY} 15:50 Zeta {DAY}T15:30
1 book oak 30 {DAY} 15:45 Eta
1 cancel oak 1-7
1 cancel oak 1-9
2 book elm 30 2099-12-31 23:30 Theta
bridge 2 1
1 commit 6
bridge 2 1
1 book oak 60 {DAY} 09:00 Iota
2 book oak 60 {DAY} 09:30 Kappa {DAY}T11:30 {DAY}T12:00
2 book oak 30 {DAY} 09:45 Lambda
2 book elm 15 {OTHER} 08:00 Mu
2 cancel elm 2-9
2 cancel oak 2-8
1 book {LONG} 30 1990-01-01 00:00 Nu
1 cancel oak 1-2
bridge 2 1
3 book oak 30 {DAY} 12:00 Xi
bridge 3 1
3 book oak 45 {DAY} 09:00 Omikron {DAY}T17:00
3 book oak 30 {DAY} 18:00 Pi
3 cancel oak 3-1
1 commit 3
bridge 3 1
3 cancel oak 2-7
3 add-room lab
3 book lab 30 {DAY} 18:00 Rho
4 add-room oak
4 book oak 60 {DAY} 09:00 Early
bridge 3 4
"""

NONE = 'mp2 9 {primary}\nK 0\nE\n'
SOME = 'mp2 9 {primary}\nK {commits}\nV {counts[0][0]} {counts[0][1]}\nV {counts[1][0]} {counts[1][1]}\nE\n'
# what is brought to the database of the first schema besides: a request that goes before others, and a cancel of one of them
EARLY = 'mr2 5 3\nW 5 1 1 oak 30 2024-02-29 10:00 0 Early\nX 5 2 2 oak 7 5\nE\n'


def step(program, folder, line):
    words = line.split(' ')
    files = {server: f'{folder}/{server}.db' for server in '1234'}
    if words[0] == 'bridge':
        return done(program, 'bridge', files[words[1]], files[words[2]])
    return done(program, words[1], files[words[0]], *words[2:])


def write(path, text):
    with open(path, 'wb') as out:
        out.write(text if isinstance(text, bytes) else text.encode('ascii'))


def finish(source, folder):
    """The folder has the database, as one file, and the same with tables that take any value."""
    stock.copy(source, f'{folder}/base.db')
    stock.run(f'{folder}/base.db', 'PRAGMA wal_checkpoint(TRUNCATE)')
    stock.copy(f'{folder}/base.db', f'{folder}/loose.db')
    stock.run(f'{folder}/loose.db', *stock.LOOSE)


def made_offices(program, folder):
    for server in (1, 2, 3, 4):
        done(program, 'init', f'{folder}/{server}.db', server, 1)
    for line in STEPS.strip().splitlines():
        step(program, folder, line)
    third = f'{folder}/3.db'
    for server in (1, 2):
        path, own = f'{folder}/{server}.db', empty(f'{folder}/{server}')
        write(f'{own}/none', NONE.format(primary=1))
        write(f'{own}/some', SOME.format(primary=1, commits=14, counts=[(1, 9), (2, 5)]))
        write(f'{own}/position', done(program, 'position', path))
        done(program, 'export', third, f'{own}/position', f'{own}/lacked', 100000)
        done(program, 'export', third, f'{own}/none', f'{own}/all', 100000)
        stock.run(path, 'PRAGMA wal_checkpoint(TRUNCATE)')
        finish(path, own)


def made_first(folder):
    own = empty(f'{folder}/first')
    write(f'{own}/none', NONE.format(primary=3))
    write(f'{own}/some', SOME.format(primary=3, commits=4, counts=[(3, 2), (7, 2)]))
    shutil.copyfile(os.path.join(os.path.dirname(KEPT), 'first.next'), f'{own}/lacked')
    write(f'{own}/all', EARLY)
    finish(KEPT, own)


def made(program, folder):
    """Makes a folder for each database, with the files of the commands: two positions, and two batches for it."""
    made_offices(program, folder)
    made_first(folder)
    return [f'{folder}/{name}' for name in ('1', '2', 'first')]
