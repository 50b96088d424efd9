#!/usr/bin/env python3
"""Peers whose replies break off, and clients that do.

    peers.py PROGRAM FOLDER

`exchange` with a peer whose reply to a pull ends after each of its bytes, with one that breaks the connection after each byte of each
of its replies, with one whose reply is none, with one that knows the first exchange text alone, and with one for whose position there is no batch; a
submission to a served database by clients that go away at once. What was taken stays; what was answered is there. And the three requests of an exchange
are those of the formats, byte by byte, at addresses of each kind. The last line counts.
"""

import os
import socket
import struct
import sys
import threading

sys.path.insert(0, os.path.join(os.path.dirname(os.path.abspath(__file__)), '..', 'oracle'))

from calls import Served, call, done, empty

BATCH = (b'mr2 1 1\nW 1 1 1 oak 60 1995-12-18 14:00 0 Alpha\n'
         b'W 2 1 1 oak 60 1995-12-18 13:30 1 1995-12-18 15:00 Beta\nE\n')
POSITION = b'mp2 1 1\nK 0\nV 1 1\nV 2 1\nE\n'
NONE = b'took 0 writes 0 commits\n'


def head(length, status=b'200 OK'):
    return b'HTTP/1.1 %s\r\nContent-Length: %d\r\n\r\n' % (status, length)


class Peer:
    """Answers each connection by the path that is asked for, until nobody comes any more."""

    def __init__(self, pull, position=head(len(POSITION)) + POSITION, push=head(len(NONE)) + NONE, reset=None, at=('127.0.0.1', 0)):
        self.replies = {b'/pull': pull, b'/position': position, b'/push': push}
        family = socket.AF_INET6 if ':' in at[0] else socket.AF_INET
        self.asked, self.reset, self.listener = [], reset, socket.create_server(at, family=family)
        self.port = self.listener.getsockname()[1]
        self.thread = threading.Thread(target=self.serve, daemon=True)
        self.thread.start()

    def end(self):
        """Nobody is answered any more. A thread that waits for the next one would take a connection of another peer, whose listener has the number of this one."""
        self.listener.shutdown(socket.SHUT_RDWR)
        self.thread.join()
        self.listener.close()

    def serve(self):
        while True:
            try:
                peer, _ = self.listener.accept()
            except OSError:
                return
            with peer:
                asked = read_request(peer)
                self.asked.append(asked)
                path = asked.split(b' ')[1] if b' ' in asked else b''
                peer.sendall(self.replies.get(path, b''))
                if path == self.reset:
                    peer.setsockopt(socket.SOL_SOCKET, socket.SO_LINGER, struct.pack('ii', 1, 0))


def read_request(peer):
    data = b''
    while b'\r\n\r\n' not in data or len(data.split(b'\r\n\r\n', 1)[1]) < length_in(data):
        piece = peer.recv(65536)
        if not piece:
            break
        data += piece
    return data


def length_in(data):
    fields = [line for line in data.split(b'\r\n\r\n')[0].split(b'\r\n') if line.lower().startswith(b'content-length:')]
    return int(fields[0].split(b':')[1]) if fields else 0


class Tried:
    def __init__(self, program, folder):
        self.program, self.folder, self.passed, self.failed = program, empty(folder), 0, 0
        self.file = f'{folder}/9.db'

    def told(self, name, is_right):
        self.passed += is_right
        self.failed += not is_right
        if not is_right:
            print(f'FAILED: {name}', flush=True)

    def exchange(self, name, wanted, status, writes, **replies):
        """A replica that knows nothing exchanges with such a peer; then it knows so many writes."""
        empty(self.folder)
        done(self.program, 'init', self.file, 9, 1)
        peer = Peer(**replies)
        printed = call(self.program, 'exchange', self.file, f'http://127.0.0.1:{peer.port}/')
        peer.end()
        self.told(f'{name}: {printed}', printed == (wanted, status))
        counts = b''.join(b'V %d 1\n' % server for server in range(1, writes + 1))
        self.told(f'{name}: the position', done(self.program, 'position', self.file) == b'mp2 9 1\nK 0\n' + counts + b'E\n')

    def cut_pulls(self):
        """The reply's body ends after each of its bytes: whole lines are taken, and the exchange goes on."""
        for size in range(len(BATCH) + 1):
            writes = (size >= 48) + (size >= 104)
            lines = b'pulled %d writes 0 commits\npushed 0 writes 0 commits\n' % writes
            self.exchange(f'a pull cut after {size} bytes', lines, 0, writes, pull=head(len(BATCH)) + BATCH[:size])

    def broken_connections(self):
        """The peer breaks the connection after each byte of each of its replies: what was taken before stays, and nothing of this reply."""
        pulled, fault = b'pulled 2 writes 0 commits\n', b'fault network\n'
        pull, position, push = (head(len(body)) + body for body in (BATCH, POSITION, NONE))
        for size in range(len(pull)):
            self.exchange(f'a pull reset after {size} bytes', fault, 3, 0, pull=pull[:size], reset=b'/pull')
        for size in range(len(position)):
            self.exchange(f'a position reset after {size} bytes', pulled + fault, 3, 2, pull=pull, position=position[:size], reset=b'/position')
        # whoever has all of what it knows is handed nothing, and still by a push
        for size in range(len(push)):
            self.exchange(f'a push reset after {size} bytes', pulled + fault, 3, 2, pull=pull, push=push[:size], reset=b'/push')

    def bad_peers(self):
        fault = b'fault network\n'
        whole = head(len(BATCH)) + BATCH
        for size in range(len(head(len(BATCH)))):
            self.exchange(f'a head cut after {size} bytes', fault, 3, 0, pull=head(len(BATCH))[:size])
        for name, reply in (('chunked', b'HTTP/1.1 200 OK\r\nTransfer-Encoding: chunked\r\n\r\n0\r\n\r\n'),
                            ('no length', b'HTTP/1.1 200 OK\r\n\r\n' + BATCH),
                            ('version 1.0', whole.replace(b'1.1', b'1.0', 1)),
                            ('two lengths', whole.replace(b'\r\n', b'\r\nContent-Length: 106\r\n', 1)),
                            ('a length of eleven digits', head(0).replace(b': 0', b': 00000000000')), ('a great length', head(1048577)),
                            ('a refusal that is cut', head(3, b'409 Conflict') + b'{}'), ('a request', b'GET / HTTP/1.1\r\n\r\n'),
                            ('a great head', b'HTTP/1.1 200 OK\r\nX: ' + b'y' * 9000 + b'\r\n\r\n'), ('another text', b'220 ready\r\n')):
            self.exchange(f'a peer that sends {name}', fault, 3, 0, pull=reply)
        self.exchange('a peer that refuses', b'peer answered 503\n', 1, 0, pull=head(0, b'503 Service Unavailable'))
        self.exchange('a peer that refuses in a body', b'peer answered 409\n', 1, 0, pull=head(2, b'409 Conflict') + b'{}')
        self.exchange('a peer that refuses without words', b'peer answered 404\n', 1, 0, pull=b'HTTP/1.1 404\r\nContent-Length: 0\r\n\r\n')
        self.exchange('a peer with a bad line', b'refused 15 BadLine 1\n', 1, 0, pull=head(2) + b'x\n')
        self.exchange('a peer with half a header', b'refused 15 BadLine 1\n', 1, 0, pull=head(5) + b'mr1 \n')
        self.exchange('a peer of another primary', b'refused 16 WrongPrimary\n', 1, 0, pull=head(10) + b'mr1 1 2\nE\n')

    def bad_positions(self):
        whole, pulled, fault = head(len(BATCH)) + BATCH, b'pulled 2 writes 0 commits\n', b'fault network\n'
        for name, position in (('none', head(2) + b'x\n'), ('cut', head(len(POSITION)) + POSITION[:-1]),
                               ('with two bytes behind it', head(len(POSITION) + 2) + POSITION + b'..'),
                               ('chunked', b'HTTP/1.1 200 OK\r\nTransfer-Encoding: chunked\r\nContent-Length: 14\r\n\r\nmp2 2 1\nK 0\nE\n'),
                               ('of version 1.0', b'HTTP/1.0 200 OK\r\nContent-Length: 14\r\n\r\nmp1 2 1\nK 0\nE\n'),
                               ('of a third version', head(14) + b'mp3 2 1\nK 0\nE\n')):
            self.exchange(f'a position {name}', pulled + fault, 3, 2, pull=whole, position=position)
        self.exchange('no position', pulled + b'peer answered 404\n', 1, 2, pull=whole, position=head(14, b'404 Not Found') + b'mp1 2 1\nK 0\nE\n')

    def bad_counts(self):
        whole, pulled, fault = head(len(BATCH)) + BATCH, b'pulled 2 writes 0 commits\n', b'fault network\n'
        for name, push in (('another text', head(3) + b'ok\n'), ('a great number', head(43) + b'took 18446744073709551616 writes 0 commits\n'),
                           ('a line without its end', head(24) + b'took 64 writes 0 commits\n'), ('a line that is cut', head(26) + b'took 64 writes 0 commits\n'),
                           ('a zero before a number', head(25) + b'took 064 writes 0 commit\n')):
            self.exchange(f'a push answered with {name}', pulled + fault, 3, 2, pull=whole, push=push)
        self.exchange('a push answered with the greatest number', pulled + b'pushed 18446744073709551615 writes 1 commits\n', 0, 2, pull=whole,
                      push=head(43) + b'took 18446744073709551615 writes 1 commits\n')
        self.exchange('a push that is refused', pulled + b'peer answered 503\n', 1, 2, pull=whole, push=head(0, b'503 Service Unavailable'))

    def refused_pushes(self):
        """A replica that dropped the one commit that it knows has no batch for a peer without it, nor for one of another primary: none is sent."""
        empty(self.folder)
        done(self.program, 'init', self.file, 9, 1)
        committed = b'mr1 1 1\nW 1 1 1 oak 60 1995-12-18 14:00 0 Alpha\nC 1 1 1\nE\n'
        with open(f'{self.folder}/batch', 'wb') as out:
            out.write(committed)
        done(self.program, 'import', self.file, f'{self.folder}/batch')
        done(self.program, 'truncate', self.file, 1)
        for position, refusal in ((b'mp2 2 1\nK 0\nE\n', b'refused 22 Truncated\n'), (b'mp2 2 3\nK 0\nE\n', b'refused 16 WrongPrimary\n')):
            peer = Peer(pull=head(len(committed)) + committed, position=head(len(position)) + position)
            printed = call(self.program, 'exchange', self.file, f'http://127.0.0.1:{peer.port}/')
            peer.end()
            self.told(f'a push for {position}: {printed}', printed == (b'pulled 0 writes 0 commits\n' + refusal, 1))
            self.told(f'what was asked then: {peer.asked}', [it.split(b' ')[1] for it in peer.asked] == [b'/pull', b'/position'])

    def first_peers(self):
        """A peer whose batch and position are of the first version is pulled from, and handed what that version can say."""
        empty(self.folder)
        done(self.program, 'init', self.file, 9, 1)
        first, position = BATCH.replace(b'mr2', b'mr1'), b'mp1 1 1\nK 0\nV 1 1\nV 2 1\nE\n'
        peer = Peer(pull=head(len(first)) + first, position=head(len(position)) + position)
        words = ['exchange', self.file, f'http://127.0.0.1:{peer.port}/']
        printed = call(self.program, *words)
        self.told(f'a peer of the first version: {printed}', printed == (b'pulled 2 writes 0 commits\npushed 0 writes 0 commits\n', 0))
        done(self.program, 'cancel', self.file, 'oak', '1-1')
        printed = call(self.program, *words)
        self.told(f'a cancel for it: {printed}', printed == (b'pulled 0 writes 0 commits\nrefused 27 NeedsVersion2\n', 1))
        peer.end()
        self.told('a batch with a cancel is not sent', [it.split(b' ')[1] for it in peer.asked] == [b'/pull', b'/position', b'/push', b'/pull', b'/position'])
        body = b'{"name":"BadPosition","refusal":23}'
        old = Peer(pull=head(len(body), b'400 Bad Request') + body)
        printed = call(self.program, 'exchange', self.file, f'http://127.0.0.1:{old.port}/')
        self.told(f'a peer that reads no position of the second version: {printed}', printed == (b'peer answered 400\n', 1))
        old.end()

    def requests(self):
        """What is sent, at an address of each kind: its host is named as the address writes it, in small letters, with a port that isn't 80."""
        for at, address, host in ((('127.0.0.1', 0), 'http://127.0.0.1:{}/', '127.0.0.1:{}'), (('127.0.0.1', 0), 'HTTP://LocalHost:{}', 'localhost:{}'),
                                  (('127.0.0.1', 0), 'http://127.1:{}/', '127.0.0.1:{}'), (('127.7.8.9', 80), 'http://127.7.8.9', '127.7.8.9'),
                                  (('127.7.8.9', 80), 'http://127.7.8.9:80/', '127.7.8.9'), (('::1', 0), 'http://[::1]:{}/', '[::1]:{}')):
            empty(self.folder)
            done(self.program, 'init', self.file, 9, 1)
            batch, position, own = b'mr2 1 1\nE\n', b'mp2 1 1\nK 0\nE\n', b'mp2 9 1\nK 0\nE\n'
            try:
                peer = Peer(head(len(batch)) + batch, head(len(position)) + position, at=at)
            except OSError as error:
                print(f'skipped: requests to {address.format("PORT")} ({error.strerror})')
                continue
            url, named = address.format(peer.port), host.format(peer.port).encode()
            printed = call(self.program, 'exchange', self.file, url)
            peer.end()
            self.told(f'an exchange with {url}: {printed}', printed == (b'pulled 0 writes 0 commits\npushed 0 writes 0 commits\n', 0))
            handed = b'mr2 9 1\nE\n'
            self.told(f'what it sent to {url}: {peer.asked}', peer.asked == [
                b'POST /pull HTTP/1.1\r\nHost: %s\r\nContent-Length: %d\r\nConnection: close\r\n\r\n' % (named, len(own)) + own,
                b'GET /position HTTP/1.1\r\nHost: %s\r\nConnection: close\r\n\r\n' % named,
                b'POST /push HTTP/1.1\r\nHost: %s\r\nContent-Length: %d\r\nConnection: close\r\n\r\n' % (named, len(handed)) + handed])

    def leaving_clients(self):
        """A whole submission whose client goes away at once is booked; half of one isn't."""
        body = b'{"day":"1995-12-18","length":60,"room":"oak","start":"13:30","title":"Budget Meeting"}'
        request = b'POST /submit HTTP/1.1\r\nContent-Length: %d\r\n\r\n' % len(body) + body
        empty(self.folder)
        done(self.program, 'init', self.file, 1, 1)
        done(self.program, 'add-room', self.file, 'oak')
        served = Served(self.program, self.file, f'{self.folder}/lines')
        for size in [0, 1, 30, len(request) - 1]:
            with socket.create_connection(('127.0.0.1', served.port), 30) as peer:
                peer.sendall(request[:size])
                peer.setsockopt(socket.SOL_SOCKET, socket.SO_LINGER, struct.pack('ii', 1, 0))
        position = served.ask(b'GET /position HTTP/1.1\r\n\r\n')
        self.told('nothing is booked by half a request', position.endswith(b'\r\n\r\nmp2 1 1\nK 0\nE\n'))
        with socket.create_connection(('127.0.0.1', served.port), 30) as peer:
            peer.sendall(request)
        position = served.ask(b'GET /position HTTP/1.1\r\n\r\n')
        self.told('a whole request is booked', position.endswith(b'\r\n\r\nmp2 1 1\nK 0\nV 1 1\nE\n'))
        told = served.statuses(7)
        is_right = len(told) == 7 and set(told[:4]) <= {b'fault', b'400'} and told[4] == told[6] == b'200'
        self.told(f'one line for each of them: {told}', is_right)
        served.end()


def main():
    tried = Tried(*sys.argv[1:])
    tried.cut_pulls()
    tried.broken_connections()
    tried.bad_peers()
    tried.bad_positions()
    tried.bad_counts()
    tried.refused_pushes()
    tried.first_peers()
    tried.requests()
    tried.leaving_clients()
    print(f'{tried.passed} passed, {tried.failed} failed')
    sys.exit(1 if tried.failed else 0)


if __name__ == '__main__':
    main()
