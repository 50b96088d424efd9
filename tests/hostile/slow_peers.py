#!/usr/bin/env python3
"""Peers who are silent or slow, and how long `exchange` waits for them.

    slow_peers.py PROGRAM FOLDER

A peer has five minutes in all to take a request, and five to send its reply. So one that sends nothing, or a byte now and then, is given up
after that, and one whose replies come in that time isn't, though all three take longer together. The program's minutes are seconds
(faults/fast_clock.c), so a C compiler is needed. All are tried at the same time. The last line counts.
"""

import os
import sys
import tempfile
import threading
import time

sys.path[:0] = [os.path.join(os.path.dirname(os.path.abspath(__file__)), '..', folder) for folder in ('oracle', 'faults')]

from calls import call, done, empty
from peers import BATCH, Peer, head, read_request
from shim import built, compiler

# how long a peer is waited for, in seconds of the test, and what a busy machine takes
PATIENCE, LATE = 5, 4
FAULT = (b'fault network\n', 3)
TAKEN = (b'pulled 2 writes 0 commits\npushed 0 writes 0 commits\n', 0)


class Slow(Peer):
    """A peer that sends so many bytes of each reply, some at a time, each time after a pause; and how long each of its connections was there."""

    def __init__(self, pause=0.0, most=999, at_once=1):
        self.pause, self.most, self.at_once, self.waits = pause, most, at_once, []
        super().__init__(pull=head(len(BATCH)) + BATCH)

    def serve(self):
        while True:
            try:
                peer, _ = self.listener.accept()
            except OSError:
                return
            with peer:
                start = time.monotonic()
                try:
                    self.answer(peer)
                except (OSError, IndexError):
                    pass
                self.waits.append(time.monotonic() - start)

    def answer(self, peer):
        reply = self.replies[read_request(peer).split(b' ')[1]][:self.most]
        for at in range(0, len(reply), self.at_once):
            time.sleep(self.pause)
            peer.sendall(reply[at:at + self.at_once])
        # until the other end is gone
        peer.recv(1)


# what a peer does, what is printed, and whether it is waited for as long as anybody is
PEERS = {
    'silent': ({'most': 0}, {}, FAULT, True),
    'half a head, and then silent': ({'most': 20}, {}, FAULT, True),
    'half a body, and then silent': ({'most': len(head(len(BATCH))) + 60}, {}, FAULT, True),
    'a byte each ten seconds': ({'pause': 10 / 60}, {}, FAULT, True),
    'fifteen bytes each eighteen seconds': ({'pause': 18 / 60, 'at_once': 15}, {}, TAKEN, False),
    'takes a byte each six seconds': ({}, {'SLOW_LINE': '1'}, FAULT, True),
}


class Tried:
    def __init__(self, program, folder, library):
        self.program, self.folder, self.library = os.path.abspath(program), empty(folder), library
        self.passed, self.failed, self.lock = 0, 0, threading.Lock()

    def told(self, name, is_right):
        with self.lock:
            self.passed += is_right
            self.failed += not is_right
            if not is_right:
                print(f'FAILED: {name}', flush=True)

    def exchange(self, name, does, more, wanted, is_given_up):
        database = f'{self.folder}/{name.replace(" ", "_")}.db'
        done(self.program, 'init', database, 9, 1)
        peer = Slow(**does)
        printed = call(self.program, 'exchange', database, f'http://127.0.0.1:{peer.port}/', env={**os.environ, 'LD_PRELOAD': self.library, **more})
        peer.end()
        self.told(f'{name}: {printed}', printed == wanted)
        if is_given_up:
            self.told(f'{name}: given up after {peer.waits} seconds', len(peer.waits) == 1 and PATIENCE - 0.5 < peer.waits[0] < PATIENCE + LATE)
        else:
            self.told(f'{name}: three replies, each in time, and longer in all: {peer.waits}', len(peer.waits) == 3 and sum(peer.waits) > PATIENCE)


def main():
    if not compiler():
        print('skipped: peers who are silent or slow (no C compiler)')
        print('0 passed, 0 failed')
        return
    with tempfile.TemporaryDirectory(prefix='rooms-shim-') as folder:
        tried = Tried(*sys.argv[1:], built('fast_clock.c', folder))
        threads = [threading.Thread(target=tried.exchange, args=(name, *rest)) for name, rest in PEERS.items()]
        for thread in threads:
            thread.start()
        for thread in threads:
            thread.join()
    print(f'{tried.passed} passed, {tried.failed} failed')
    sys.exit(1 if tried.failed or tried.passed != 2 * len(PEERS) else 0)


if __name__ == '__main__':
    main()
