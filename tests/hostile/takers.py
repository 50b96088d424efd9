#!/usr/bin/env python3
"""Callers of a served database who take no reply, or take it slowly, whoever waits behind them, and where a reply ends.

    takers.py PROGRAM FOLDER

A caller has ten seconds in all to take a reply: who takes nothing of a long one, or a little each second, is given up then, and the next one is
answered. A reply ends for its caller as soon as it is written, also if the request didn't come whole and the connection is left open. Each
caller has a server of its own, at the same time. The last line counts.
"""

import os
import shutil
import socket
import sys
import threading
import time

sys.path.insert(0, os.path.join(os.path.dirname(os.path.abspath(__file__)), '..', 'oracle'))

from calls import Served, done, empty

# how long one who calls may keep the next one waiting, in seconds: its ten, and what a busy machine takes
PATIENCE, LATE = 10, 6
QUESTION = b'GET /position HTTP/1.1\r\n\r\n'
GREAT = b'POST /push HTTP/1.1\r\nContent-Length: 1048577\r\n\r\n' + 1000 * b'x'
# what asks for a long reply: the error log of a room with so many requests, each of some 90 bytes
ERRORS, LOGGED = b'GET /rooms/oak/errors HTTP/1.1\r\n\r\n', 6000
# how many bytes of it each takes, once a second
TAKERS = {'takes nothing': 0, 'takes a little each second': 1000}
# what a caller sends who leaves the connection open and reads to the end of the reply, and what is answered
READERS = {'a whole request': (QUESTION, b'HTTP/1.1 200 OK'), 'a body that is too large, and not all of it': (GREAT, b'HTTP/1.1 413 Content Too Large')}


class Tried:
    def __init__(self, program, folder):
        self.program, self.folder, self.passed, self.failed = os.path.abspath(program), empty(folder), 0, 0
        self.lock = threading.Lock()

    def told(self, name, is_right):
        with self.lock:
            self.passed += bool(is_right)
            self.failed += not is_right
            if not is_right:
                print(f'FAILED: {name}', flush=True)

    def make(self):
        """The database that is served: all requests but the first one want what that one has."""
        database, batch = f'{self.folder}/logged.db', f'{self.folder}/batch'
        done(self.program, 'init', database, 1, 1)
        with open(batch, 'w', encoding='ascii') as it:
            it.write('mr2 2 1\n')
            for n in range(1, LOGGED + 1):
                it.write(f'W 2 {n} {n} oak 60 1995-12-18 14:00 0 {60 * "x"}\n')
            it.write('E\n')
        done(self.program, 'import', database, batch)

    def serve(self, name):
        database = f'{self.folder}/{name}.db'
        shutil.copyfile(f'{self.folder}/logged.db', database)
        return Served(self.program, database, f'{self.folder}/{name}.lines')

    def takes(self, number, name, count):
        """Whoever asks behind one who takes so many bytes a second is answered once this one's time is over."""
        served = self.serve(f'taker-{number}')
        start = time.monotonic()
        caller = slow_caller(served.port)
        caller.sendall(ERRORS)
        ends = threading.Event()
        threading.Thread(target=take, args=(caller, count, ends), daemon=True).start()
        try:
            reply = served.ask(QUESTION)
        except OSError:
            reply = b''
        waited = time.monotonic() - start
        self.told(f'one who {name}: the next one is answered {reply[:20]}', reply.startswith(b'HTTP/1.1 200 OK'))
        self.told(f'one who {name}: the next one waits {waited:.1f} seconds', PATIENCE - 1 < waited < PATIENCE + LATE)
        ends.set()
        caller.close()
        lines = served.statuses(2) if reply else []
        self.told(f'one who {name}: the lines {lines}', lines == [b'fault', b'200'])
        served.end()

    def ends(self, number, name, request, head):
        """A reply ends as soon as it is written, for one who leaves the connection open."""
        served = self.serve(f'reader-{number}')
        start = time.monotonic()
        reply = b''
        with socket.create_connection(('127.0.0.1', served.port), 60) as caller:
            caller.sendall(request)
            while piece := caller.recv(65536):
                reply += piece
        waited = time.monotonic() - start
        self.told(f'{name}, left open: answered {reply[:30]}', reply.startswith(head + b'\r\n'))
        self.told(f'{name}, left open: the reply ends after {waited:.1f} seconds', waited < LATE)
        served.end()


def slow_caller(port):
    """A connection with little room for what comes, and small segments: so the other end has little room too."""
    caller = socket.socket()
    caller.settimeout(60)
    caller.setsockopt(socket.SOL_SOCKET, socket.SO_RCVBUF, 4096)
    caller.setsockopt(socket.IPPROTO_TCP, socket.TCP_MAXSEG, 536)
    caller.connect(('127.0.0.1', port))
    return caller


def take(caller, count, ends):
    while count and not ends.wait(1):
        try:
            caller.recv(count)
        except OSError:
            return


def main():
    tried = Tried(*sys.argv[1:])
    tried.make()
    threads = [threading.Thread(target=tried.takes, args=(number, *it)) for number, it in enumerate(TAKERS.items())]
    threads += [threading.Thread(target=tried.ends, args=(number, name, *it)) for number, (name, it) in enumerate(READERS.items())]
    for thread in threads:
        thread.start()
    for thread in threads:
        thread.join()
    print(f'{tried.passed} passed, {tried.failed} failed')
    sys.exit(1 if tried.failed or tried.passed != 3 * len(TAKERS) + 2 * len(READERS) else 0)


if __name__ == '__main__':
    main()
