#!/usr/bin/env python3
"""How long a served replica takes for a request, and how much memory.

    served.py PROGRAM FOLDER COUNT [ROOMS [REQUESTS]]

makes in FOLDER the database of a replica with so many bookings, which another one made, in so many rooms (5), serves it, and asks on
loopback one request after the other, so many of each kind (200), each over a connection of its own: a sheet, the outcome of a request, the
position, a pull of 64 lines, a submission, a cancel, a push of 64 writes that come last, and of the push of one write that comes before nearly all
others of its room a tenth as many. It prints of each kind the middle and the 99th of a hundred, by the clock and
of the server's processor time, in milliseconds; what the first request took; and the memory of the process. Where a kind adds bookings, another
copy is served before there are a tenth more. `speed.py` prints the same of several sizes.
"""

import os
import shutil
import sys
import time

sys.path.insert(0, os.path.join(os.path.dirname(os.path.abspath(__file__)), '..', 'tests', 'oracle'))

from calls import Served, done

LENGTH, A_DAY, LINES = 15, 96, 64
# a batch of so many lines is below the sixteen MiB that a file may have
A_FILE = 100_000


def day_of(number):
    return f'{1995 + number // 336:04}-{number // 28 % 12 + 1:02}-{number % 28 + 1:02}'


def time_of(slot):
    return f'{slot * LENGTH // 60:02}:{slot * LENGTH % 60:02}'


def batch_of(first, last, rooms):
    """A batch of bookings. Each has its slot: a room has every slot of its days, but for the last of a day."""
    lines = ['mr2 2 1']
    for n in range(first, last + 1):
        day, slot = divmod(n // rooms, A_DAY - 1)
        lines.append(f'W 2 {n} {n + 1} room-{n % rooms} {LENGTH} {day_of(day)} {time_of(slot)} 0 Meeting {n}')
    return '\n'.join([*lines, 'E', ''])


def write_batch(file, first, last, rooms):
    with open(file, 'w', encoding='ascii') as out:
        out.write(batch_of(first, last, rooms))
    return file


def made(program, folder, count, rooms):
    """The file of the database, which is made once."""
    file = os.path.join(folder, f'{count}-{rooms}.db')
    if not os.path.exists(file):
        done(program, 'init', file + '.new', 1, 1)
        for first in range(1, count + 1, A_FILE):
            batch = write_batch(os.path.join(folder, 'batch'), first, min(first + A_FILE - 1, count), rooms)
            done(program, 'import', file + '.new', batch)
        os.rename(file + '.new', file)
    return file


def copied(folder, file):
    """A copy of the database, with nothing in its log."""
    database = os.path.join(folder, 'copy.db')
    for name in (database, database + '-wal'):
        if os.path.exists(name):
            os.remove(name)
    shutil.copyfile(file, database)
    return database


def request(path, body=None):
    if body is None:
        return f'GET {path} HTTP/1.1\r\nHost: here\r\n\r\n'.encode()
    return f'POST {path} HTTP/1.1\r\nHost: here\r\nContent-Length: {len(body)}\r\n\r\n{body}'.encode()


def position(count):
    """Of a replica that has so many of the bookings."""
    return f'mp2 9 1\nK 0\nV 2 {count}\nE\n'


def submission(number, rooms):
    """A request for the last slot of a day, which is free."""
    room, day = number % rooms, number // rooms
    return request('/submit', f'{{"room":"room-{room}","day":"{day_of(day)}","start":"{time_of(A_DAY - 1)}","length":{LENGTH},"title":"Late"}}')


def cancel(number, count, rooms):
    """A cancel of one of the bookings, each time of another one."""
    n = number * 37 % count + 1
    return request('/cancel', f'{{"id":"2-{n}","room":"room-{n % rooms}"}}')


def early(number):
    """A batch of one write of a third replica, for the first slot of a room, which is taken: it comes before nearly all others."""
    return f'mr2 3 1\nW 3 {number + 1} {number + 1} room-0 {LENGTH} {day_of(0)} {time_of(0)} 0 Early\nE\n'


def kinds(count, rooms):
    """How each kind of request is made from its number, how many bookings it adds, and how rarely it is asked."""
    days = max(1, count // rooms // (A_DAY - 1))
    return {
        'sheet': (lambda i: request(f'/rooms/room-{i % rooms}/days/{day_of(i * 7 % days)}'), 0, 1),
        'outcome': (lambda i: request(f'/rooms/room-{(i * 37 % count + 1) % rooms}/requests/2-{i * 37 % count + 1}'), 0, 1),
        'position': (lambda i: request('/position'), 0, 1),
        f'pull of {LINES} lines': (lambda i: request('/pull', position(count - LINES)), 0, 1),
        'submission': (lambda i: submission(i, rooms), 1, 1),
        'cancel': (lambda i: cancel(i, count, rooms), 1, 1),
        f'push of {LINES} writes': (lambda i: request('/push', batch_of(count + LINES * i + 1, count + LINES * (i + 1), rooms)), LINES, 1),
        'push of an early write': (lambda i: request('/push', early(i)), 1, 10),
    }


def on_processor(process):
    """The processor time of the process so far, in milliseconds."""
    with open(f'/proc/{process.pid}/schedstat', encoding='ascii') as told:
        return int(told.read().split()[0]) / 1e6


def memory(process):
    """What the process has, and the most that it had, in MiB."""
    with open(f'/proc/{process.pid}/status', encoding='ascii') as told:
        of = dict(line.split(':', 1) for line in told)
    return tuple(int(of[it].split()[0]) / 1024 for it in ('VmRSS', 'VmHWM'))


def asked(served, what):
    """What a request took: by the clock, and of the server's processor time."""
    before, start = on_processor(served.process), time.perf_counter()
    reply = served.ask(what)
    took = (time.perf_counter() - start) * 1000
    assert reply.startswith(b'HTTP/1.1 200 '), reply[:200]
    return took, on_processor(served.process) - before


class Replica:
    """A served copy of a database, which is copied and served anew before it has a tenth more bookings."""

    def __init__(self, program, folder, file, count, rooms):
        self.words, self.count, self.rooms, self.served = (program, folder, file), count, rooms, None
        self.begin()

    def begin(self):
        program, folder, file = self.words
        if self.served:
            self.served.end()
        self.served, self.added, self.next = Served(program, copied(folder, file), os.path.join(folder, 'lines')), 0, 0
        self.idle = memory(self.served.process)[0]
        self.first = asked(self.served, request(f'/rooms/room-0/days/{day_of(0)}'))

    def asked(self, make, adds):
        if self.added and self.added + adds > self.count // 10:
            self.begin()
        self.added, self.next = self.added + adds, self.next + 1
        return asked(self.served, make(self.next - 1))


def measured(program, folder, count, rooms, requests):
    """Of each kind of request what each one took; the first request; the memory before it, behind it, and after all."""
    replica = Replica(program, folder, made(program, folder, count, rooms), count, rooms)
    sizes = [replica.idle, memory(replica.served.process)[0]]
    took = {}
    for name, (make, adds, rarely) in kinds(count, rooms).items():
        replica.next = 0
        took[name] = [replica.asked(make, adds) for _ in range(max(1, requests // rarely))]
        if adds:
            sizes.append(memory(replica.served.process)[1])
            replica.begin()
    replica.served.end()
    return took, replica.first, sizes


def middle_and_most(values):
    """The middle one, and the 99th of a hundred."""
    values = sorted(values)
    return values[len(values) // 2], values[len(values) * 99 // 100]


def main(program, folder, count, rooms=5, requests=200):
    os.makedirs(folder, exist_ok=True)
    took, first, sizes = measured(program, folder, int(count), int(rooms), int(requests))
    print(f'{count} bookings in {rooms} rooms; first request {first[0]:.2f} ms, {first[1]:.2f} ms of processor time')
    for name, pairs in took.items():
        (clock, most), (spent, much) = (middle_and_most(values) for values in zip(*pairs))
        print(f'{name:22} {clock:8.2f} {most:8.2f} ms, of processor time {spent:7.2f} {much:7.2f} ms')
    print('MiB before the first request, behind it, and at most after submissions and after pushes: ' + ', '.join(f'{size:.1f}' for size in sizes))


if __name__ == '__main__':
    main(*sys.argv[1:])
