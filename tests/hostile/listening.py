#!/usr/bin/env python3
"""Where `serve` and `bridge` listen, and who is served there.

    listening.py PROGRAM FOLDER

A served database is reached at 127.0.0.1 alone, by no other address of this machine. `bridge` listens there alone too, and serves nobody but
itself: a library that is preloaded under it (call_first.c) has a stranger call before each of its own connections. Without a C compiler only
`serve` is tried. The last line counts.
"""

import os
import socket
import subprocess
import sys

HERE = os.path.dirname(os.path.abspath(__file__))
sys.path[:0] = [os.path.join(HERE, '..', 'oracle'), os.path.join(HERE, '..', 'faults')]

from calls import Served, done, empty
from shim import built, compiler

# how long a bridge of two small databases may take, in seconds: it waits for nobody
SOON = 30
QUESTION = b'GET /position HTTP/1.1\r\n\r\n'
# how Linux writes 127.0.0.1, in its tables of sockets; and a socket that is listened at
THIS_MACHINE, LISTENS = '0100007F', '0A'


class Tried:
    def __init__(self, program, folder):
        self.program, self.folder, self.passed, self.failed = os.path.abspath(program), empty(folder), 0, 0

    def told(self, name, is_right):
        self.passed += bool(is_right)
        self.failed += not is_right
        if not is_right:
            print(f'FAILED: {name}', flush=True)

    def office(self, name, server):
        """A database of this server with one booking."""
        path = f'{self.folder}/{name}'
        done(self.program, 'init', path, server, 1)
        done(self.program, 'add-room', path, 'oak')
        done(self.program, 'book', path, 'oak', 60, '1995-12-18', f'{8 + server:02}:00', 'Alpha')
        return path

    def serving(self):
        served = Served(self.program, self.office('served.db', 1), f'{self.folder}/lines')
        for address in others():
            self.told(f'a served database is reached at {address}', not is_reached(address, served.port))
        where = listened(served.port)
        self.told(f'a served database is listened at {where}', where is None or where == [THIS_MACHINE])
        self.told('it is served at 127.0.0.1', served.ask(QUESTION).startswith(b'HTTP/1.1 200 OK'))
        served.end()

    def bridging(self):
        client, server, calls = self.office('client.db', 2), self.office('server.db', 1), f'{self.folder}/calls'
        library = built('../hostile/call_first.c', self.folder)
        environment = {**os.environ, 'LD_PRELOAD': library, 'CALLS_FILE': calls}
        try:
            ran = subprocess.run([self.program, 'bridge', client, server], stdin=subprocess.DEVNULL, stdout=subprocess.PIPE,
                                 stderr=subprocess.DEVNULL, timeout=SOON, env=environment, check=False)
            printed = ran.stdout, ran.returncode
        except subprocess.TimeoutExpired:
            printed = None
        self.told(f'a bridge that strangers call: {printed}', printed == (b'pulled 1 writes 0 commits\npushed 1 writes 0 commits\n', 0))
        with open(calls, 'rb') as it:
            told = it.read()
        self.told(f'a stranger called before each of three connections: {told}', told.count(b'c') == 3)
        self.told('the listener of a bridge is reached at 127.0.0.2', b'r' not in told)


def others():
    """Other addresses of this machine: one more of version 4 for itself, that of version 6, and the one by which it would call others."""
    yield '127.0.0.2'
    yield '::1'
    with socket.socket(socket.AF_INET, socket.SOCK_DGRAM) as it:
        try:
            # no datagram is sent
            it.connect(('192.0.2.1', 9))
            yield it.getsockname()[0]
        except OSError:
            pass


def is_reached(address, port):
    try:
        with socket.create_connection((address, port), 5):
            return True
    except OSError:
        return False


def listened(port):
    """The addresses at which this port is listened at, as Linux writes them; None where it doesn't say."""
    found = []
    for table in '/proc/net/tcp', '/proc/net/tcp6':
        if os.path.exists(table):
            with open(table, encoding='ascii') as it:
                rows = [line.split() for line in it][1:]
            found += [row[1].split(':')[0] for row in rows if row[3] == LISTENS and row[1].endswith(f':{port:04X}')]
    return found if os.path.exists('/proc/net/tcp') else None


def main():
    tried = Tried(*sys.argv[1:])
    tried.serving()
    if compiler():
        tried.bridging()
    else:
        print('skipped: strangers who call a bridge (no C compiler)')
    print(f'{tried.passed} passed, {tried.failed} failed')
    sys.exit(1 if tried.failed else 0)


if __name__ == '__main__':
    main()
