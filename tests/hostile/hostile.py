#!/usr/bin/env python3
"""Turned batches and positions, by files and over HTTP.

    hostile.py PROGRAM FOLDER SECONDS [SEED]

For each seed lines with each word at each limit and just beyond it are given to a database that is served. Then four offices exchange
for a while: each is a database, and beside it a replica of oracle.py, which keeps nothing but sets of writes. Real batches and
positions are turned (turned.py: cut, bytes changed, lines doubled, dropped and swapped, numbers at and over each limit, lines forged
that do or don't follow on what is known) and given to them, by `import` and `export`, and by POST /push and /pull of one that is
served. After each the reply, the position and the sheets are those of the replica, and after some of them all that is shown. Seeds
follow until the seconds are over; what differs is printed with its seed and its bytes (seeds.py).
"""

import os
import random
import sys

sys.path.insert(0, os.path.join(os.path.dirname(os.path.abspath(__file__)), '..', 'oracle'))

import seeds
import wire
from calls import Served
from offices import DAYS, ROOMS, Difference, Office
from oracle import RULES
from turned import limit_batches, limit_positions, turned_batch, turned_position

ROUNDS, BY_FILES, OVER_HTTP = 4, 20, 80


def make_offices(program, folder, rng):
    """A primary and three others; one has dropped commits, all know committed and tentative writes. Where requests can be cancelled all
    cancel some, or the last one alone where the exchange text can't say it."""
    servers = rng.sample(range(1, 100), 4)
    offices = [Office(program, f'{folder}/{server}.db', server, servers[0]) for server in servers]
    primary, dropper = offices[0], offices[1]
    for step in range(18):
        office = rng.choice(offices)
        office.book(rng)
        if RULES.version > 1 and step % 3 == 1:
            office.cancel(rng)
        rng.choice([other for other in offices if other is not office]).receive(office)
        if step % 6 == 5:
            primary.receive(office)
            count = rng.randint(1, 5)
            primary.is_told('commit', count, primary.replica.commit(count))
    dropper.receive(primary)
    number = rng.randint(1, len(dropper.replica.commits))
    dropper.is_told('truncate', number, dropper.replica.truncate(number))
    offices[2].receive(primary, rng.choice([3, 9, 100000]))
    for _ in range(3 if RULES.has_cancels else 0):
        offices[3].cancel(rng)
    return offices


def is_exported(office, text, limit):
    """The batch for a position, through files; where it is refused no file is written."""
    position, batch = office.path + '.position', office.path + '.made'
    with open(position, 'wb') as out:
        out.write(text)
    if os.path.exists(batch):
        os.remove(batch)
    made = wire.answer_position(office.replica, text, limit)
    is_made = not made.startswith('refused ')
    office.is_told('export', position, batch, limit, f'wrote {len(made)} bytes' if is_made else made)
    if is_made != os.path.exists(batch):
        raise Difference('a batch is there, or none is')
    if is_made:
        with open(batch, 'rb') as written:
            if written.read() != made.encode('ascii'):
                raise Difference(f'the batch is not {made}')


def by_files(rng, offices, cases):
    for _ in range(cases):
        office = rng.choice(offices)
        if rng.random() < 0.7:
            text = turned_batch(rng, office.replica, offices)
            yield 'import', f'at server {office.replica.server} of {text}'
            office.import_bytes(text)
        else:
            text, limit = turned_position(rng, office.replica, offices), rng.choice([1, 3, 64, 100000])
            yield 'export', f'of {limit} lines at server {office.replica.server} for {text}'
            is_exported(office, text, limit)
        office.check_sheets()
        office.is_told('errors', ROOMS[0], office.replica.errors(ROOMS[0]))
    for office in offices:
        office.check()


def is_answered(served, method, path, body, wanted):
    head = f'{method} {path} HTTP/1.1\r\n' + (f'Content-Length: {len(body)}\r\n' if method == 'POST' else '') + '\r\n'
    reply = served.ask(head.encode('ascii') + body)
    if reply != wire.text_reply(wanted):
        raise Difference(f'{method} {path}: {reply}, wanted {wanted}')


def is_shown(served, replica, day):
    """The position, of each room the sheet of a day, and of one the error log."""
    is_answered(served, 'GET', '/position', b'', replica.position())
    is_answered(served, 'GET', f'/rooms/{ROOMS[0]}/errors', b'', replica.errors(ROOMS[0]))
    for room in ROOMS:
        is_answered(served, 'GET', f'/rooms/{room}/days/{day}', b'', replica.sheet(room, day))


def turned_bodies(rng, replica, offices, cases):
    """The path and the body of each request to a replica."""
    for _ in range(cases):
        if rng.random() < 0.7:
            yield '/push', turned_batch(rng, replica, offices)
        else:
            yield '/pull', turned_position(rng, replica, offices)


def bodies_at_limits():
    for text in limit_batches():
        yield '/push', text.encode('latin-1')
    for text in limit_positions():
        yield '/pull', text.encode('latin-1')


def over_http(rng, office, bodies):
    """At one served database, which is killed at the end: what was answered is there."""
    served, replica = Served(office.program, office.path, office.path + '.lines'), office.replica
    try:
        for path, text in bodies:
            yield path, f'at server {replica.server} of {text}'
            reply = wire.receive(replica, text) if path == '/push' else wire.answer_position(replica, text, 64)
            is_answered(served, 'POST', path, text, reply)
            is_shown(served, replica, rng.choice(DAYS))
    finally:
        served.end()
    office.check()


def at_limits(program, folder, rng):
    """Each word of each line at each of its limits, and just beyond it."""
    office = Office(program, f'{folder}/limits.db', 7, 3)
    office.import_bytes(b'mr1 3 3\nW 3 1 1 oak 30 2024-02-29 09:00 0 x\nC 1 3 1\nW 5 1 2 oak 30 2024-02-29 09:00 0 y\nE\n')
    yield from over_http(rng, office, bodies_at_limits())


def cases(program, folder, seed):
    rng = random.Random(seed)
    yield from at_limits(program, folder, rng)
    yield 'offices', 'that exchange'
    offices = make_offices(program, folder, rng)
    for _ in range(ROUNDS):
        yield from by_files(rng, offices, BY_FILES)
        office = rng.choice(offices)
        yield from over_http(rng, office, turned_bodies(rng, office.replica, offices, OVER_HTTP))


if __name__ == '__main__':
    seeds.main(cases)
