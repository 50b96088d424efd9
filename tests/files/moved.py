#!/usr/bin/env python3
"""Databases of the first schema that are moved up to the second one.

    moved.py PROGRAM FOLDER SECONDS [SEED]

A database of the first schema is the kept one (tests/files/kept), in which Python's sqlite3 put the rows that stand for a replica of oracle.py.
The program opens it: all that it shows, and its rows in the second schema, are those of the replica. First come two replicas that dropped
all of their commits, with replies worked by hand, and one of two thousand requests, whose first command is killed fifty times: each time
the rows are those of the first schema or those of the second one, and the next command goes on from there. Then, for each seed, four
offices book and exchange, and each becomes such a database: it is moved up, killed meanwhile, and finds no room for it; at last the offices
cancel, book and exchange as any others. Seeds follow until the seconds are over; what differs is printed with its seed (seeds.py).
"""

import os
import random
import resource
import signal
import sqlite3
import subprocess
import sys
import time

sys.path.insert(0, os.path.join(os.path.dirname(os.path.abspath(__file__)), '..', 'oracle'))

import oracle
import seeds
from calls import call, empty
from offices import DAYS, ROOMS, TIMES, Difference, Office, batch_text
from tables import COMMON, KEPT, OLD, copy_database, rows_for, rows_of
from wire import receive

STORE = (b'refused 25 Store\n', 1)
DAY = '1995-12-18'
KILLS = 50


class Moved(Office):
    """An office whose database is one of the first schema, until its first command."""

    def __init__(self, program, path, replica):
        self.program, self.path, self.replica = program, path, replica
        self.first, self.second = rows_for(replica, 1), rows_for(replica, 2)
        self.make_first()
        self.begin()
        if rows_of(path) != self.first:
            raise Difference('the first tables are not read back')

    def make_first(self):
        """The database of the first schema, beside the one that is moved up."""
        copy_database(KEPT, self.path + '.first')
        with sqlite3.connect(self.path + '.first') as database:
            for name, columns in (COMMON | OLD).items():
                database.execute(f'DELETE FROM {name}')
                columns = columns.split(' ')
                database.executemany(f'INSERT INTO {name} ({", ".join(columns)}) VALUES ({", ".join("?" * len(columns))})', self.first[name])
        database.close()

    def begin(self):
        """The database is of the first schema, again."""
        copy_database(self.path + '.first', self.path)

    def goes_on(self, is_moved):
        """The rows are those of the second schema, or still those of the first one where it needn't be moved up yet; the next command moves
        it up in any case. Answers whether it was moved up before."""
        rows = rows_of(self.path)
        if rows not in ([self.second] if is_moved else [self.first, self.second]):
            raise Difference(f'the rows are those of neither schema: {rows}')
        self.is_told('position', self.replica.position())
        if rows_of(self.path) != self.second:
            raise Difference('the next command does not move it up')
        return rows == self.second

    def killed(self, rng, span):
        """Its first command is killed at some moment of this span. Answers whether it was moved up by then."""
        self.begin()
        process = subprocess.Popen([self.program, 'position', self.path], stdin=subprocess.DEVNULL, stdout=subprocess.PIPE)
        time.sleep(rng.random() * span)
        process.send_signal(signal.SIGKILL)
        return self.goes_on(process.communicate()[0] != b'')

    def limited(self, limit):
        """No file may grow beyond the limit: it is refused and nothing is changed, or it is moved up."""
        def lower():
            signal.signal(signal.SIGXFSZ, signal.SIG_IGN)
            resource.setrlimit(resource.RLIMIT_FSIZE, (limit, limit))
        self.begin()
        told = call(self.program, 'position', self.path, preexec_fn=lower)
        is_done = told == ((self.replica.position() + '\n').encode('ascii'), 0)
        if not is_done and told != STORE:
            raise Difference(f'at most {limit} bytes a file: printed {told}')
        self.goes_on(is_done)


# ---- replicas that are made by hand

def taker(server, *batches):
    """A replica of primary 1 that knows nothing but these batches, of which it dropped so many commits after each."""
    replica = oracle.Replica(server, 1)
    for lines, reply, dropped in batches:
        assert receive(replica, f'mr1 1 1\n{lines}E\n'.encode('ascii')) == reply
        replica.truncate(dropped)
    return replica


def shows_all(office):
    """What each office is asked, the sheets of the day, and the outcome of every request."""
    replica = office.replica
    for room in sorted(replica.rooms):
        office.is_told('sheet', room, DAY, replica.sheet(room, DAY))
    for write in replica.known.values():
        office.is_told('outcome', write.room, oracle.id_text(write.id()), replica.outcome_of(write.room, write.id()))
    office.check()


def worked(program, folder):
    """Two replicas that dropped all of their commits; of one of them 49 of 50 requests are in an error log."""
    elm = ''.join(f'W 3 {n} {n} elm 15 {DAY} 09:00 0 Elm\nC {n} 3 {n}\n' for n in range(1, 51))
    oak = f'W 1 1 1 oak 60 {DAY} 14:00 0 Alpha\nW 2 1 1 oak 60 {DAY} 13:30 1 {DAY} 15:00 Beta\n'
    office = Moved(program, f'{folder}/lone.db', taker(9, (elm, 'took 50 writes 50 commits', 50), (oak, 'took 2 writes 0 commits', 50)))
    office.is_told('sheet', 'oak', DAY, f'oak {DAY} Monday\n14:00-15:00 T 1-1 Alpha\n15:00-16:00 T 2-1 Beta')
    office.is_told('sheet', 'elm', DAY, f'elm {DAY} Monday\n09:00-09:15 C 3-1 Elm')
    office.is_told('calendar', 'elm', 'committed', f'elm committed\n{DAY} 09:00-09:15 C 3-1 Elm')
    office.is_told('outcome', 'elm', '3-50', '3-50 C logged')
    office.is_told('outcome', 'elm', '1-1', 'refused 9 NoSuchRequest')
    office.is_told('errors', 'elm', '\n'.join(['elm errors', *[f'C 3-{n} {DAY} 09:00-09:15 Elm' for n in range(2, 51)]]))
    office.is_told('position', f'mp{oracle.RULES.version} 9 1\nK 50\nV 1 1\nV 2 1\nV 3 50\nE')
    shows_all(office)
    oak = f'W 1 1 1 oak 60 {DAY} 13:30 0 Audit\nC 1 1 1\nW 1 2 2 oak 30 {DAY} 14:30 0 Brief\nC 2 1 2\n'
    office = Moved(program, f'{folder}/other.db', taker(2, (oak, 'took 2 writes 2 commits', 2)))
    office.is_told('sheet', 'oak', DAY, f'oak {DAY} Monday\n13:30-14:30 C 1-1 Audit\n14:30-15:00 C 1-2 Brief')
    shows_all(office)
    office.is_told('truncate', '3', 'refused 12 BeyondCommitted')
    office.is_told('cancel', 'oak', '1-1', '2-1 T cancels 1-1')
    office.is_told('calendar', 'oak', 'committed', f'oak committed\n{DAY} 13:30-14:30 C 1-1 Audit\n{DAY} 14:30-15:00 C 1-2 Brief')
    office.is_told('sheet', 'oak', DAY, f'oak {DAY} Monday\n14:30-15:00 C 1-2 Brief')
    office.replica.cancel('oak', '1-1')
    shows_all(office)


def line(n):
    """Half an hour in one of five rooms; each tenth request asks for what another one has."""
    slot = (n - 5 if n % 10 == 0 else n) // 5
    return f'W 3 {n} {n} room-{n % 5} 30 2001-01-{slot // 48 + 1:02} {slot % 48 // 2:02}:{slot % 2 * 30:02} 0 Meeting {n}\n'


def killed_often(program, folder):
    """Two thousand requests, of which 800 are committed and 200 of these dropped: the first command is killed at random moments, so long
    after its start that about a third of these moves are done by then, however busy the machine."""
    lines = ''.join(line(n) for n in range(1, 2001)) + ''.join(f'C {n} 3 {n}\n' for n in range(1, 801))
    office = Moved(program, f'{folder}/killed.db', taker(2, (lines, 'took 2000 writes 800 commits', 200)))
    start, rng, moved = time.monotonic(), random.Random(1), 0
    office.is_told('position', office.replica.position())
    span = 1.5 * (time.monotonic() - start)
    for _ in range(KILLS):
        is_moved = office.killed(rng, span)
        moved += is_moved
        span *= 0.92 if is_moved else 1.04
    print(f'killed {KILLS} times while it was moved up, {moved} of them done')


# ---- replicas of seeds

def book(rng, replica):
    """A request, with at most the alternatives that there were at the time of the first schema."""
    room, length = rng.choice(ROOMS), rng.choice(['30', '60', '1440'])
    times = ['00:00'] if length == '1440' else TIMES[:4]
    slots = [(rng.choice(DAYS), rng.choice(times)) for _ in range(rng.choice([1, 1, 2, 3, 9]))]
    replica.rooms.add(room)
    assert not replica.book(room, length, slots, rng.choice(['Alpha', 'Beta', 'a"b~c'])).startswith('refused')


def history(rng):
    """Four replicas that book, exchange, commit and drop."""
    servers = rng.sample(range(1, 100), 4)
    replicas = [oracle.Replica(server, servers[0]) for server in servers]
    for _ in range(rng.choice([0, 10, 40])):
        maker, other = rng.sample(replicas, 2)
        book(rng, maker)
        text = batch_text(maker, len(other.commits), other.counts(), rng.choice([2, 100000]))
        if text is not None:
            receive(other, text)
        if rng.random() < 0.3:
            replicas[0].commit(rng.randint(1, 4))
        if rng.random() < 0.2:
            other.truncate(rng.randint(0, len(other.commits)))
    return replicas


def cases(program, folder, seed):
    rng = random.Random(seed)
    offices = []
    for replica in history(rng):
        yield 'replica', f'server {replica.server}'
        office = Moved(program, f'{folder}/{replica.server}.db', replica)
        start = time.monotonic()
        office.is_told('position', replica.position())
        span = 1.5 * (time.monotonic() - start)
        office.check()
        for _ in range(3):
            yield 'kill', f'of the first command, server {replica.server}'
            office.killed(rng, span)
        for limit in (0, 4096, rng.randint(0, 2 * os.path.getsize(office.path))):
            yield 'limit', f'of {limit} bytes, server {replica.server}'
            office.limited(limit)
        offices.append(office)
    for _ in range(12):
        yield 'exchange', 'after the move'
        maker, other = rng.sample(offices, 2)
        maker.book(rng)
        maker.cancel(rng)
        other.receive(maker)
    for office in offices:
        office.check()


def main():
    program, folder = sys.argv[1], empty(f'{sys.argv[2]}/made')
    worked(program, folder)
    killed_often(program, folder)
    seeds.main(cases)


if __name__ == '__main__':
    main()
