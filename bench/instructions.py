#!/usr/bin/env python3
"""How many instructions commands on a database take, which other load doesn't change.

    instructions.py PROGRAM FOLDER [--open OPENER] [--only WORD] [COUNT/ROOMS ..]

makes in FOLDER databases with so many bookings in so many rooms (10,000 in 5 and in 50 where nothing is given), and runs each command of `speed.py`,
and some that change a little, once on a copy under `valgrind --tool=callgrind`. It prints millions of instructions, and behind them how often
that is what OPENER takes, a program of the kit's `sqlite` alone that opens the file which is its word and closes it. With WORD those cases alone
whose names have it.
"""

import argparse
import os
import re
import subprocess
import sys

sys.path.insert(0, os.path.dirname(os.path.abspath(__file__)))

from served import copied, made
from speed import cases

SIZES = ['10000/5', '10000/50']
# what takes long under valgrind, and loads all rows in any case
LEFT_OUT = ('import of all, in one batch', 'commit of all')


def counted(words):
    """Millions of instructions, and the status."""
    ran = subprocess.run(['valgrind', '--tool=callgrind', '--callgrind-out-file=/dev/null', *words], stdin=subprocess.DEVNULL, capture_output=True, check=False)
    return int(re.search(rb'Collected : (\d+)', ran.stderr)[1]) / 1e6, ran.returncode


def all_cases(program, opener, folder, count, rooms):
    file = made(program, folder, count, rooms)
    words = {name: make for name, make in cases(program, opener, folder, count, rooms).items() if name not in LEFT_OUT and 'SQLite' not in name}
    return words | {
        'add-room': lambda: [program, 'add-room', copied(folder, file), 'new'],
        'cancel': lambda: [program, 'cancel', copied(folder, file), 'room-1', '2-1'],
    }


def main():
    words = argparse.ArgumentParser(add_help=False)
    words.add_argument('program')
    words.add_argument('folder')
    words.add_argument('sizes', nargs='*', default=SIZES)
    words.add_argument('--open')
    words.add_argument('--only', default='')
    words = words.parse_intermixed_args()
    os.makedirs(words.folder, exist_ok=True)
    for size in words.sizes:
        count, rooms = map(int, size.split('/'))
        of = all_cases(words.program, words.open, words.folder, count, rooms)
        floor = counted(of['the kit alone: open and close']())[0] if words.open else None
        print(f'| Millions of instructions, {count:,} in {rooms} | | of the open |\n|---|---|---|')
        for name, make in of.items():
            if words.only in name:
                number, status = counted(make())
                told = f'{number / floor:.2f}' if floor else ''
                print(f'| {name} | {number:.1f}{"" if status == 0 else f" (status {status})"} | {told} |', flush=True)


if __name__ == '__main__':
    main()
