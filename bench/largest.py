#!/usr/bin/env python3
"""How long the largest batches take, and how much memory.

    largest.py PROGRAM FOLDER BYTES SECONDS [SHAPE..]

imports batches of at most so many bytes (16777216 is the most that a file may have), each of the worst lines of a shape, into a
replica that knows nothing and isn't the primary, and prints the lines, what was printed, the seconds and the peak memory of the process.
An import that takes longer than SECONDS is killed, and named so.
"""

import os
import signal
import subprocess
import sys
import threading
import time

sys.path.insert(0, os.path.join(os.path.dirname(os.path.abspath(__file__)), '..', 'tests', 'oracle'))

from calls import done, empty

DAYS = [f'{year}-{month:02}-{day:02}' for year in range(1990, 2100) for month in range(1, 13) for day in range(1, 29)]


def short(n):
    """As many lines as fit: one room, one minute each, no two at once."""
    slot = n % 1440
    return f'W 2 {n} {n} a 1 {DAYS[n // 1440 % len(DAYS)]} {slot // 60:02}:{slot % 60:02} 0 x'


def rooms(n):
    """A room for each line."""
    return f'W 2 {n} {n} r{n} 1 1990-01-01 00:00 0 x'


def day(n):
    """One room on one day: most lines find their minute taken."""
    slot = n % 1440
    return f'W 2 {n} {n} a 1 1990-01-01 {slot // 60:02}:{slot % 60:02} 0 x'


def slot(n):
    """All at one slot, with eight alternatives that are the same."""
    return f'W 2 {n} {n} a 1440 1990-01-01 00:00 8 ' + '1990-01-01 00:00 ' * 8 + 'x'


def commits(n):
    """A write and its commit, in turn."""
    return short((n + 1) // 2) if n % 2 else f'C {n // 2} 2 {n // 2}'


def bad(n):
    """Commits that are good, and at the end a line that is none."""
    return f'C {n} 2 {n}'


SHAPES = {shape.__name__: shape for shape in (bad, slot, day, rooms, short, commits)}


def write_batch(file, size, shape):
    """How many lines fit."""
    last = 'x\n' if shape is bad else 'E\n'
    with open(file, 'w', encoding='ascii') as out:
        left, n = size - out.write('mr1 2 1\n') - 2, 1
        while len(line := shape(n) + '\n') <= left:
            left -= out.write(line)
            n += 1
        out.write(last)
    return n - 1


def measure(limit, program, *words):
    """What a command prints first, its seconds, and its peak memory in MiB; it is killed after so many seconds."""
    start = time.monotonic()
    process = subprocess.Popen([program, *words], stdin=subprocess.DEVNULL, stdout=subprocess.PIPE)
    watch = threading.Timer(limit, process.kill)
    watch.start()
    printed = process.stdout.read()
    _, status, usage = os.wait4(process.pid, 0)
    watch.cancel()
    is_killed = os.WIFSIGNALED(status) and os.WTERMSIG(status) == signal.SIGKILL
    told = f'not done after {limit:g} s' if is_killed else printed.split(b'\n')[0].decode()
    return told, time.monotonic() - start, usage.ru_maxrss / 1024


def main():
    program, folder, size, limit, *names = sys.argv[1:]
    for name in names or SHAPES:
        empty(folder)
        lines = write_batch(f'{folder}/batch', int(size), SHAPES[name])
        done(program, 'init', f'{folder}/a.db', 3, 1)
        told, seconds, peak = measure(float(limit), program, 'import', f'{folder}/a.db', f'{folder}/batch')
        print(f'{name:8} {lines:8} lines  {seconds:8.1f} s  {peak:7.0f} MiB  {told}', flush=True)


if __name__ == '__main__':
    main()
