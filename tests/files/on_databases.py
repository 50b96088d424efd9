#!/usr/bin/env python3
"""A script, each line of it a command on a database.

    on_databases.py PROGRAM SCRIPT FOLDER PRINTED

runs the script's lines in turn, each as one call of the program: the replica with server 7 is the database 7.db of the folder, a
batch is a file of it. To PRINTED go the replies, in the words that `rehearse` has for them; so the two can be compared.
"""

import os
import subprocess
import sys

# The words of a script for a command whose database and other words are the line's own.
SAME = {'room': 'add-room', 'cancel': 'cancel', 'sheet': 'sheet', 'calendar': 'calendar', 'outcome': 'outcome', 'errors': 'errors',
        'commit': 'commit', 'truncate': 'truncate', 'position': 'position'}


class Offices:
    def __init__(self, program, folder):
        self.program, self.folder = program, folder
        self.primary, self.servers, self.batches = None, set(), []

    def call(self, *words):
        """What the program prints, and whether it did what it was told."""
        ran = subprocess.run([self.program, *words], stdin=subprocess.DEVNULL, stdout=subprocess.PIPE, timeout=60)
        assert ran.returncode in (0, 1), (words, ran.returncode, ran.stdout)
        return ran.stdout, ran.returncode == 0

    def database(self, server):
        return f'{self.folder}/{server}.db'

    def add(self, server):
        if server in self.servers:
            return b'there\n'
        self.primary = self.primary or server
        self.servers.add(server)
        return self.call('init', self.database(server), server, self.primary)[0]

    def book(self, server, words):
        room, length, day, time, extra, rest = words.split(' ', 5)
        *slots, title = rest.split(' ', 2 * int(extra))
        others = [f'{slots[at]}T{slots[at + 1]}' for at in range(0, len(slots), 2)]
        return self.call('book', self.database(server), room, length, day, time, title, *others)[0]

    def make(self, maker, taker, lines):
        if maker not in self.servers or taker not in self.servers:
            return b'no replica\n'
        position, batch = f'{self.folder}/position', f'{self.folder}/batch{len(self.batches) + 1}'
        with open(position, 'wb') as file:
            file.write(self.call('position', self.database(taker))[0])
        told, is_done = self.call('export', self.database(maker), position, batch, lines)
        if not is_done:
            return told
        self.batches.append(batch)
        size = os.path.getsize(batch)
        assert told == b'wrote %d bytes\n' % size, told
        return b'batch %d %d bytes\n' % (len(self.batches), size)

    def deliver(self, batch, taker, size):
        if taker not in self.servers:
            return b'no replica\n'
        if not 1 <= int(batch) <= len(self.batches):
            return b'no batch\n'
        with open(self.batches[int(batch) - 1], 'rb') as file:
            text = file.read()
        front = f'{self.folder}/front'
        with open(front, 'wb') as file:
            file.write(text if size == 'all' else text[:int(size)])
        return self.call('import', self.database(taker), front)[0]

    def take(self, line):
        kind, first, *rest = line.split(' ', 2)
        if kind == 'replica':
            return self.add(first)
        if kind in ('batch', 'deliver'):
            return (self.make if kind == 'batch' else self.deliver)(first, *rest[0].split(' '))
        if first not in self.servers:
            return b'no replica\n'
        if kind == 'book':
            return self.book(first, rest[0])
        return self.call(SAME[kind], self.database(first), *(rest[0].split(' ') if rest else []))[0]


def main():
    program, script, folder, printed = sys.argv[1:]
    offices = Offices(program, folder)
    with open(script) as lines, open(printed, 'wb') as out:
        for line in lines.read().split('\n'):
            if line and not line.startswith('#'):
                out.write(offices.take(line))


if __name__ == '__main__':
    main()
