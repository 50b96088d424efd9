#!/usr/bin/env python3
"""Callers of a served database who are silent or slow, and one who waits behind them.

    patience.py PROGRAM FOLDER

A caller has ten seconds in all to send a request, with what follows it, and ten to take the reply. So whoever waits behind one who sends
nothing, a byte now and then, half a request, or bytes behind a whole one is answered soon after that, and behind a whole request with nothing
behind it at once, though its connection is left open. Each of them has a server of its own, at the same time. The last line counts.
"""

import os
import socket
import sys
import threading
import time

sys.path.insert(0, os.path.join(os.path.dirname(os.path.abspath(__file__)), '..', 'oracle'))

from calls import Served, done, empty

# how long one who calls may keep the next one waiting, in seconds: its ten, and what a busy machine takes
PATIENCE, LATE = 10, 6
QUESTION = b'GET /position HTTP/1.1\r\n\r\n'
LONG = b'POST /push HTTP/1.1\r\nContent-Length: 1000\r\n\r\n' + 1000 * b'x'
NOWHERE = b'GET /nowhere HTTP/1.1\r\n\r\n'


class Caller:
    """A connection that sends such bytes, one after a pause, and then nothing; it is left open, or half of it."""

    def __init__(self, port, at_once=b'', drips=b'', pause=0.0, is_half_closed=False):
        self.peer = socket.create_connection(('127.0.0.1', port), 60)
        self.at_once, self.drips, self.pause, self.is_half_closed = at_once, drips, pause, is_half_closed
        self.reply, self.thread = b'', threading.Thread(target=self.run, daemon=True)
        self.peer.sendall(at_once)
        self.thread.start()

    def run(self):
        try:
            if self.is_half_closed:
                self.peer.shutdown(socket.SHUT_WR)
            for byte in self.drips:
                self.peer.sendall(bytes([byte]))
                time.sleep(self.pause)
        except OSError:
            pass

    def answered(self):
        """What was answered before the connection ended."""
        self.peer.settimeout(60)
        try:
            while piece := self.peer.recv(65536):
                self.reply += piece
        except OSError:
            pass
        return self.reply.split(b'\r\n')[0]


# what a caller does, what is answered to it, the line of its connection, and whether the next one has to wait for it
CALLERS = {
    'silent': ({}, b'', b'fault', True),
    'half a head, and then silent': ({'at_once': b'GET /posi'}, b'', b'fault', True),
    'half a body, and then silent': ({'at_once': LONG[:-500]}, b'', b'fault', True),
    'a byte a quarter of a second': ({'drips': LONG, 'pause': 0.25}, b'', b'fault', True),
    'a byte each two seconds': ({'drips': LONG, 'pause': 2}, b'', b'fault', True),
    'half a head, and then half closed': ({'at_once': b'GET /posi', 'is_half_closed': True}, b'HTTP/1.1 400 Bad Request', b'400', False),
    'half a body, and then half closed': ({'at_once': LONG[:-500], 'is_half_closed': True}, b'HTTP/1.1 400 Bad Request', b'400', False),
    'a whole request, and half closed': ({'at_once': QUESTION, 'is_half_closed': True}, b'HTTP/1.1 200 OK', b'200', False),
    'a whole request, and left open': ({'at_once': QUESTION}, b'HTTP/1.1 200 OK', b'200', False),
    'a request that nobody was asked, and left open': ({'at_once': NOWHERE}, b'HTTP/1.1 404 Not Found', b'404', True),
    'the same, sent in eight seconds': ({'drips': NOWHERE, 'pause': 8 / len(NOWHERE)}, b'HTTP/1.1 404 Not Found', b'404', True),
    'a whole request, and bytes behind it': ({'at_once': QUESTION + b'x', 'drips': 200 * b'x', 'pause': 0.25}, b'HTTP/1.1 200 OK', b'200', True),
}


class Tried:
    def __init__(self, program, folder):
        self.program, self.folder, self.passed, self.failed, self.longest = program, empty(folder), 0, 0, 0
        self.lock = threading.Lock()

    def told(self, name, is_right):
        with self.lock:
            self.passed += bool(is_right)
            self.failed += not is_right
            if not is_right:
                print(f'FAILED: {name}', flush=True)

    def waits(self, number, name, does, head, line, has_to_wait):
        """One who asks behind this caller is answered, in time."""
        database = f'{self.folder}/{number}.db'
        done(self.program, 'init', database, 1, 1)
        served = Served(self.program, database, f'{self.folder}/lines-{number}')
        start = time.monotonic()
        caller = Caller(served.port, **does)
        reply = served.ask(QUESTION)
        waited = time.monotonic() - start
        self.longest = max(self.longest, waited)
        self.told(f'{name}: the next one is answered {reply[:20]}', reply.startswith(b'HTTP/1.1 200 OK'))
        self.told(f'{name}: the next one waits {waited:.1f} seconds', waited < PATIENCE + LATE if has_to_wait else waited < LATE)
        told = caller.answered()
        self.told(f'{name}: answered {told}', told == head)
        lines = served.statuses(2)
        self.told(f'{name}: the lines {lines}', lines == [line, b'200'])
        served.end()


def main():
    tried = Tried(os.path.abspath(sys.argv[1]), sys.argv[2])
    threads = [threading.Thread(target=tried.waits, args=(number, name, *rest)) for number, (name, rest) in enumerate(CALLERS.items())]
    for thread in threads:
        thread.start()
    for thread in threads:
        thread.join()
    print(f'{tried.passed} passed, {tried.failed} failed; whoever waited was answered after {tried.longest:.1f} seconds at most')
    sys.exit(1 if tried.failed or tried.passed != 4 * len(CALLERS) else 0)


if __name__ == '__main__':
    main()
