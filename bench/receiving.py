#!/usr/bin/env python3
"""What a batch costs that comes to a replica with many kept writes.

    receiving.py PROGRAM FOLDER [WRITES]

makes databases with so many kept writes (10,000 where no number is given), in five rooms or in one, tentative or committed, and imports
batches into copies of them, three times each: one without a line, 64 writes that come on top, the same with their commits, one early
write that belongs before all others of its room, known commits again, and writes of as many new rooms. Prints the middle one of the
seconds that the process had a processor, and the greatest peak memory.
"""

import os
import shutil
import subprocess
import sys

sys.path.insert(0, os.path.join(os.path.dirname(os.path.abspath(__file__)), '..', 'tests', 'oracle'))

from calls import done, empty

LINES, MANY, RUNS = 64, 1000, 3


def write(server, n, time, room, slot):
    """A meeting of a quarter of an hour; a day has 96 slots."""
    day, slot = divmod(slot, 96)
    date = f'{1995 + day // 336}-{day // 28 % 12 + 1:02}-{day % 28 + 1:02}'
    return f'W {server} {n} {time} oak-{room} 15 {date} {slot // 4:02}:{slot % 4 * 15:02} 0 Meeting {n}'


def commits(first, count):
    return [f'C {n} 2 {n}' for n in range(first, first + count)]


def batch_file(file, lines):
    with open(file, 'w', encoding='ascii') as out:
        out.write('\n'.join(['mr1 2 1', *lines, 'E', '']))
    return file


def database(program, folder, count, rooms, is_committed):
    """A replica that knows so many writes of another server, the first of them with the time 2."""
    name = f'{folder}/{rooms}-{is_committed}'
    lines = [write(2, n, n + 1, n % rooms, n - 1) for n in range(1, count + 1)] + (commits(1, count) if is_committed else [])
    done(program, 'init', f'{name}.db', 3, 1)
    done(program, 'import', f'{name}.db', batch_file(f'{name}.batch', lines))
    return f'{name}.db'


def imported(program, source, file):
    """The seconds and the peak memory in MiB of an import into a copy, and what it prints."""
    aside = source + '.aside'
    for end in ('', '-wal'):
        if os.path.exists(aside + end):
            os.remove(aside + end)
        if os.path.exists(source + end):
            shutil.copyfile(source + end, aside + end)
    process = subprocess.Popen([program, 'import', aside, file], stdin=subprocess.DEVNULL, stdout=subprocess.PIPE)
    printed = process.stdout.read().decode().strip()
    _, _, usage = os.wait4(process.pid, 0)
    return usage.ru_utime + usage.ru_stime, usage.ru_maxrss / 1024, printed


def cases(count):
    """Which writes are kept (how many rooms, whether they are committed), what comes, and its lines."""
    def top(rooms):
        return [write(2, count + k, count + k + 1, k % rooms, count + k - 1) for k in range(1, LINES + 1)]
    early = [write(4, 1, 1, 0, 0)]
    new_rooms = [f'W 4 {k} {count + k + 1} new-{k} 15 1995-01-01 09:00 0 Meeting {k}' for k in range(1, MANY + 1)]
    return [(5, False, 'no line', []), (5, False, f'{LINES} writes on top', top(5)), (5, False, 'an early write', early),
            (5, False, f'{MANY:,} writes of new rooms', new_rooms),
            (1, False, f'{LINES} writes on top', top(1)), (1, False, 'an early write', early),
            (5, True, 'no line', []), (5, True, f'{LINES} writes on top', top(5)),
            (5, True, f'{LINES} writes on top, and their commits', top(5) + commits(count + 1, LINES)),
            (5, True, f'{MANY:,} known commits', commits(1, MANY))]


def main():
    program, folder, *more = sys.argv[1:]
    count = int(more[0]) if more else 10000
    empty(folder)
    kinds = sorted({case[:2] for case in cases(count)})
    databases = {kind: database(program, folder, count, *kind) for kind in kinds}
    print('| Kept writes | Batch | Seconds | Peak memory | Printed |')
    print('|---|---|---|---|---|')
    for rooms, is_committed, name, lines in cases(count):
        file = batch_file(f'{folder}/tried', lines)
        runs = sorted(imported(program, databases[rooms, is_committed], file) for _ in range(RUNS))
        kept = f'{count:,} {"committed" if is_committed else "tentative"}, in {"five rooms" if rooms == 5 else "one room"}'
        print(f'| {kept} | {name} | {runs[RUNS // 2][0]:.2f} s | {max(run[1] for run in runs):.0f} MiB | {runs[0][2]} |', flush=True)


if __name__ == '__main__':
    main()
