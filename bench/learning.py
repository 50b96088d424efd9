#!/usr/bin/env python3
"""How long it takes a new office to learn all that a served replica has, by `exchange`.

    learning.py PROGRAM FOLDER [COUNT ..]

makes in FOLDER databases of a primary with so many bookings in 50 rooms (8000 and 32000), all committed, serves each, and lets a new office
exchange with it. It prints the seconds by the clock, and those of processor time that the server took, without its open, and the new office.
"""
import os
import resource
import sys
import time

from served import made, on_processor

sys.path.insert(0, os.path.join(os.path.dirname(os.path.abspath(__file__)), '..', 'tests', 'oracle'))

from calls import Served, done

ROOMS = 50


def spent():
    """The processor time of the processes that have ended, in seconds."""
    used = resource.getrusage(resource.RUSAGE_CHILDREN)
    return used.ru_utime + used.ru_stime


def main(program, folder, *counts):
    os.makedirs(folder, exist_ok=True)
    for count in map(int, counts or (8000, 32000)):
        file = made(program, folder, count, ROOMS)
        done(program, 'commit', file, count)
        new = os.path.join(folder, f'new-{count}.db')
        for left in (new, new + '-wal'):
            if os.path.exists(left):
                os.remove(left)
        done(program, 'init', new, 3, 1)
        served = Served(program, file, os.path.join(folder, 'lines'))
        try:
            before, others, began = on_processor(served.process), spent(), time.monotonic()
            done(program, 'exchange', new, f'http://127.0.0.1:{served.port}')
            took, server = time.monotonic() - began, (on_processor(served.process) - before) / 1000
            print(f'{count} bookings: {took:.1f} s, of the server {server:.2f} s, of the new office {spent() - others:.1f} s')
        finally:
            served.end()


if __name__ == '__main__':
    main(*sys.argv[1:])
