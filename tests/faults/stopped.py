#!/usr/bin/env python3
"""The kept database of the first schema is stopped at each call of the disk while it is moved up.

    stopped.py PROGRAM FOLDER

The program's first command on a copy of it is stopped at its first call that writes, cuts or syncs a file, at the second, and so on, until
a run isn't stopped (stop_nth.c); and once more with half of the write that it is stopped at. Each time the rows are those of the first
schema or those of the second one, and the next command goes on from there, with the reply that it always has.
"""

import os
import subprocess
import sys
import tempfile

sys.path.insert(0, os.path.join(os.path.dirname(os.path.abspath(__file__)), '..', 'oracle'))

from calls import call, empty
from shim import built
from tables import KEPT, copy_database, rows_of

STOPPED = 99


def stopped(program, path, library, nth, is_half):
    """The status of the first command on a copy of the kept database, which is stopped at its call of this number."""
    copy_database(KEPT, path)
    environment = {**os.environ, 'LD_PRELOAD': library, 'STOP_AT': str(nth), 'STOP_HALF': str(int(is_half))}
    ran = subprocess.run([program, 'position', path], env=environment, stdin=subprocess.DEVNULL, stdout=subprocess.PIPE, timeout=300, check=False)
    return ran.returncode


def main():
    program, folder = sys.argv[1], empty(sys.argv[2])
    path = f'{folder}/kept.db'
    copy_database(KEPT, path)
    first = rows_of(path)
    reply = call(program, 'position', path)
    second = rows_of(path)
    assert reply[1] == 0 and first != second, reply
    wrong = stops = moved = 0
    with tempfile.TemporaryDirectory(prefix='rooms-shim-') as room:
        library = built('stop_nth.c', room)
        for is_half in (False, True):
            nth, status = 1, STOPPED
            while status == STOPPED:
                status = stopped(program, path, library, nth, is_half)
                rows = rows_of(path)
                after = call(program, 'position', path)
                if rows not in (first, second) or after != reply or rows_of(path) != second:
                    print(f'call {nth}, half: {is_half}: status {status}, then {after}: the rows are {rows}')
                    wrong += 1
                stops += status == STOPPED
                moved += status == STOPPED and rows == second
                nth += 1
            if status != 0:
                print(f'a run that is not stopped ends with status {status}')
                wrong += 1
    print(f'{stops} stops, {moved} of them behind the move, {wrong} wrong')
    return 1 if wrong or not 0 < moved < stops else 0


if __name__ == '__main__':
    sys.exit(main())
