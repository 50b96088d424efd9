#!/usr/bin/env python3
"""How the kept database was made, once.

    make.py PROGRAM FOLDER

writes first.sqlite, the database of a replica in the tables of schema 1, to the folder, and beside it what it must show, as
oracle.py computes it: first.replies, each line `$ <command> <word>..` before its reply; first.batch, its batch for the position
first.position; first.next, a batch that makes it undo and execute again; first.after, what it must show after that.
"""

import os
import sys

os.environ['ROOMS_RULES'] = 'bookings'
sys.path.insert(0, os.path.join(os.path.dirname(os.path.abspath(__file__)), '..', '..', 'oracle'))

import wire
from calls import done
from oracle import Replica

DAYS = ['1990-01-01', '2024-02-29', '2099-12-31']
# Two offices' requests in the order in which they are made: server, room, length, slots, title.
REQUESTS = [
    (3, 'oak', '60', [(DAYS[1], '09:00')], 'Alpha'),
    (7, 'oak', '60', [(DAYS[1], '09:30'), (DAYS[1], '10:00')], 'Beta'),
    (3, 'elm-2', '1440', [(DAYS[0], '00:00')], 'Closed'),
    (7, 'elm-2', '1', [(DAYS[0], '23:59')], '"quoted" ~ text'),
    (3, 'oak', '30', [(DAYS[1], '09:15'), (DAYS[1], '09:30'), (DAYS[2], '23:30')], 'y' * 60),
    (7, 'a-room-of-16-byt', '15', [(DAYS[2], '12:00')] * 9, 'Eight others'),
    (7, 'a-room-of-16-byt', '15', [(DAYS[2], '12:00')] * 9, 'Eight in vain'),
    (7, 'oak', '90', [(DAYS[1], '10:30'), (DAYS[1], '14:00')], 'Gamma'),
    (7, 'oak', '240', [(DAYS[1], '08:00'), (DAYS[1], '13:00')], 'Delta'),
]
LATER = [(3, 'oak', '60', [(DAYS[1], '14:00')], 'From the primary'), (3, 'elm-2', '30', [(DAYS[2], '00:00')], 'New')]


def book(replica, request):
    _, room, length, slots, title = request
    if room not in replica.rooms:
        replica.add_room(room)
    assert not replica.book(room, length, slots, title).startswith('refused')


def batch_for(maker, taker):
    return ''.join(line + '\n' for line in maker.batch_for(taker, 100000)).encode('ascii')


def shown(replica):
    """Each question, and its reply."""
    questions = [(['position'], replica.position())]
    for room in sorted(replica.rooms):
        questions += [(['sheet', room, day], replica.sheet(room, day)) for day in DAYS]
        questions += [(['calendar', room, part], replica.calendar(room, part)) for part in ('full', 'committed')]
        questions += [(['errors', room], replica.errors(room))]
        questions += [(['outcome', room, f'{write.server}-{write.n}'], replica.outcome_of(room, write.id()))
                      for write in sorted(replica.known.values(), key=lambda w: w.id()) if write.room == room]
    return ''.join(f'$ {" ".join(words)}\n{reply}\n' for words, reply in questions)


def main():
    program, folder = sys.argv[1:]
    database, batch = f'{folder}/first.sqlite', f'{folder}/first.given'
    primary, kept = Replica(3, 3), Replica(7, 3)
    done(program, 'init', database, 7, 3)
    done(program, 'add-room', database, 'unused')
    kept.add_room('unused')

    def give():
        text = batch_for(primary, kept)
        wire.receive(kept, text)
        with open(batch, 'wb') as out:
            out.write(text)
        done(program, 'import', database, batch)
    for number, request in enumerate(REQUESTS):
        _, room, length, (wish, *others), title = request
        if request[0] == 3:
            book(primary, request)
        else:
            if room not in kept.rooms:
                done(program, 'add-room', database, room)
            book(kept, request)
            done(program, 'book', database, room, length, *wish, title, *[f'{day}T{time}' for day, time in others])
        if number == 6:
            wire.receive(primary, batch_for(kept, primary))
            primary.commit(6)
            give()
    done(program, 'truncate', database, 4)
    kept.truncate(4)
    os.remove(batch)
    write(folder, primary, kept)


def write(folder, primary, kept):
    """The files beside the database."""
    files = {'first.replies': shown(kept).encode('ascii'), 'first.position': b'mp1 9 3\nK 4\nE\n'}
    files['first.batch'] = wire.answer_position(kept, files['first.position'], 100000).encode('ascii')
    for request in LATER:
        book(primary, request)
    primary.commit(100)
    files['first.next'] = batch_for(primary, kept)
    reply = wire.receive(kept, files['first.next'])
    files['first.after'] = f'$ import tests/files/kept/first.next\n{reply}\n'.encode('ascii') + shown(kept).encode('ascii')
    for name, text in files.items():
        with open(f'{folder}/{name}', 'wb') as out:
            out.write(text)


if __name__ == '__main__':
    main()
