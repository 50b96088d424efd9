#!/usr/bin/env python3
"""Requests of strangers to a database that is served.

    run.py PROGRAM FOLDER SECONDS [SEED]

For each seed requests of each kind are made in turn (made.py, submissions.py) and sent in pieces; each reply is that of model.py to
the byte. At the end of a seed the lines that the program printed have the statuses of these replies, the program's memory stayed within
bounds while heads and bodies came that have no end, the program is killed, and its database shows all that was answered. Seeds follow
until the seconds are over; what differs is printed with its seed and its bytes (../seeds.py).
"""

import os
import random
import sys

sys.path.insert(0, os.path.join(os.path.dirname(os.path.abspath(__file__)), '..', '..', 'oracle'))

import made
import model
import seeds
from calls import Served
from offices import Difference, Office

ROUNDS = 5
MIB = 1 << 20
ENDLESS = [(b'GET /position HTTP/1.1\r\nX: ', b'400'), (b'POST /push HTTP/1.1\r\nContent-Length: 9999999999\r\n\r\n', b'413'),
           (b'GET /', b'400'), (b'POST /push HTTP/1.1\r\nContent-Length: 1048577\r\n\r\n', b'413')]


def peak_of(process):
    with open(f'/proc/{process}/status', encoding='ascii') as status:
        return next(int(line.split()[1]) * 1024 for line in status if line.startswith('VmHWM:'))


def check_memory(served):
    """Heads and bodies of 64 MiB are refused early: the peak memory of the process grows by less than 8 MiB."""
    before = peak_of(served.process.pid)
    for first, status in ENDLESS:
        try:
            reply = served.ask(first, *[b'y' * MIB] * 64)
        except OSError:
            reply = b''  # the connection may break where more is sent than is read
        if reply and reply.split(b' ')[1] != status:
            raise Difference(f'{first} without an end: {reply}')
    if peak_of(served.process.pid) > before + 8 * MIB:
        raise Difference(f'the peak memory went from {before} to {peak_of(served.process.pid)} bytes')


def answered(served, pieces, wanted):
    """The status of the reply, which is the wanted one."""
    try:
        reply = served.ask(*pieces)
    except OSError as fault:
        raise Difference(f'{fault}, wanted {wanted}') from fault
    if reply != wanted:
        raise Difference(f'{reply}, wanted {wanted}')
    return wanted.split(b' ')[1]


def requests(rng, served, replica, statuses):
    """Some of each kind."""
    for kind in rng.sample(made.KINDS * ROUNDS, len(made.KINDS) * ROUNDS):
        data = kind(rng)
        pieces = made.pieces(rng, data)
        yield kind.__name__, f'{data[:20000]}, of {len(data)} bytes in {len(pieces)} pieces'
        statuses.append(answered(served, pieces, model.serve(replica, data)))


def cases(program, folder, seed):
    rng = random.Random(seed)
    office = Office(program, f'{folder}/1.db', 1, 1)
    office.is_told('add-room', 'oak', office.replica.add_room('oak'))
    statuses, served = [], Served(program, office.path, office.path + '.lines')
    try:
        yield from requests(rng, served, office.replica, statuses)
        yield 'lines', 'of the connections'
        if served.statuses(len(statuses)) != statuses:
            raise Difference('the lines of the connections differ')
        yield 'memory', 'while heads and bodies come that have no end'
        check_memory(served)
    finally:
        served.end()
    office.check()


if __name__ == '__main__':
    seeds.main(cases)
