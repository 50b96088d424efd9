#!/usr/bin/env python3
"""Requests to served databases, each with its whole reply, byte for byte.

    replies.py PROGRAM FOLDER     sends those of tests/http; makes its databases in FOLDER, and removes nothing there

A file of tests/http without an ending has lines of these forms, and comments, which begin with `#`:

    serves ROOM ..      from here on a new database of replica 1, the primary, is served, which has these rooms
    runs WORD ..        nobody serves it meanwhile: the command, with its words behind the database, prints the lines `| TEXT` that follow
    > TEXT              a connection sends this, and nothing behind it
    < TEXT              its whole reply

In a text `\\r`, `\\n`, `\\\\` and `\\xff` stand for bytes, and `\\(9 a)` for nine of the letter. For each connection the program prints the status of its reply.
The last line that is printed counts what passed and failed.
"""
import os
import re
import sys

FOLDER = os.path.dirname(os.path.realpath(__file__))
sys.path.insert(0, os.path.join(FOLDER, '..', 'oracle'))

from calls import Served, call, done

ESCAPE = re.compile(r'\\(?:\((\d+) (.)\)|x([0-9a-f]{2})|(.))')
LETTERS = {'r': b'\r', 'n': b'\n', '\\': b'\\'}


def bytes_of(text):
    """The bytes that a text stands for."""
    made, at = b'', 0
    for found in ESCAPE.finditer(text):
        made += text[at:found.start()].encode()
        count, letter, byte, other = found.groups()
        made += letter.encode() * int(count) if count else bytes.fromhex(byte) if byte else LETTERS[other]
        at = found.end()
    return made + text[at:].encode()


class Tests:
    """The program, the database that it serves, and how many of its replies were as they have to be."""

    def __init__(self, program, folder):
        self.program, self.folder, self.passed, self.failed = os.path.realpath(program), os.path.realpath(folder), 0, 0
        self.served, self.database, self.databases, self.statuses = None, None, 0, []

    def same(self, name, found, wanted):
        self.passed, self.failed = self.passed + (found == wanted), self.failed + (found != wanted)
        if found != wanted:
            print(f'FAILED: {name}: {found}, wanted {wanted}')

    def serve(self):
        self.served, self.statuses = Served(self.program, self.database, self.database + '.lines'), []

    def end(self, name):
        """Nobody serves any more; a line was printed for each connection."""
        if self.served:
            self.same(f'{name}: the lines of {len(self.statuses)} connections', self.served.statuses(len(self.statuses)), self.statuses)
            self.served.end()
            self.served = None

    def begin(self, name, rooms):
        self.end(name)
        self.databases += 1
        self.database = f'{self.folder}/{self.databases}.db'
        done(self.program, 'init', self.database, 1, 1)
        for room in rooms:
            done(self.program, 'add-room', self.database, room)
        self.serve()

    def run(self, name, words, wanted):
        self.end(name)
        self.same(f'{name}: {" ".join(words)}', call(self.program, words[0], self.database, *words[1:]), (wanted.encode(), 0))
        self.serve()

    def send(self, name, request, reply):
        request, reply = bytes_of(request), bytes_of(reply)
        self.same(f'{name}: {request[:100]}', self.served.ask(request), reply)
        self.statuses.append(reply.split(b' ')[1])

    def block(self, name, head, texts):
        """A line of a file, with those that follow it."""
        word, _, rest = head.partition(' ')
        if word == '>':
            self.send(name, rest, *texts)
        elif word == 'runs':
            self.run(name, rest.split(' '), ''.join(text + '\n' for text in texts))
        else:
            assert word == 'serves' and not texts, head
            self.begin(name, rest.split())

    def file(self, name):
        blocks = []
        with open(os.path.join(FOLDER, name), encoding='utf-8') as it:
            for line in it.read().splitlines():
                if line.startswith(('< ', '| ')):
                    blocks[-1][1].append(line[2:])
                elif line and not line.startswith('#'):
                    blocks.append((line, []))
        for head, texts in blocks:
            self.block(name, head, texts)
        self.end(name)


def main(words):
    if len(words) != 2:
        print(__doc__, file=sys.stderr)
        return 2
    tests = Tests(*words)
    for name in sorted(it for it in os.listdir(FOLDER) if '.' not in it and not it.startswith('_')):
        tests.file(name)
    print(f'{tests.passed} passed, {tests.failed} failed')
    return 1 if tests.failed else 0


if __name__ == '__main__':
    sys.exit(main(sys.argv[1:]))
