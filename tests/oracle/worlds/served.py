"""Worlds over HTTP: replicas that are served on loopback, and between that commands on their databases, by which they commit, truncate and
exchange."""

import collections
import itertools
import json
import os
import sys

sys.path.append(os.path.join(os.path.dirname(os.path.abspath(__file__)), '..', '..', 'hostile', 'strangers'))

import model
from commands import Call, Commands, exchanged, printed_as, run_call
from program import Server, expect
from submissions import written
from world import Bytes, World

# Requests that are none, or not of their route.
BAD_REQUESTS = [b'GET /submit HTTP/1.1\r\n\r\n', b'POST /position HTTP/1.1\r\nContent-Length: 0\r\n\r\n', b'GET /rooms/oak HTTP/1.1\r\n\r\n',
                b'GET /rooms//errors HTTP/1.1\r\n\r\n', b'POST /push HTTP/1.1\r\n\r\n', b'GET /position HTTP/1.0\r\n\r\n', b'GET /position HTTP/1.1\r\n',
                b'POST /push HTTP/1.1\r\nContent-Length: 1048577\r\n\r\n', b'POST /push HTTP/1.1\r\nContent-Length: 9\r\n\r\nmr2 2 1\n', b'', b'\r\n',
                b'POST /cancel HTTP/1.1\r\nContent-Length: 12\r\n\r\n{"id":"1-1"}', b'POST /submit HTTP/1.1\r\nContent-Length: 2\r\n\r\n{}',
                b'POST /cancel HTTP/1.1\r\nContent-Length: 24\r\n\r\n{"id":"1-1","room":null}', b'PUT /cancel HTTP/1.1\r\nContent-Length: 0\r\n\r\n',
                b'POST /pull HTTP/1.1\r\nContent-Length: 3\r\nTransfer-Encoding: chunked\r\n\r\n0\r\n', b'GET /position HTTP/1.1\r\nContent-Length: 1\r\n\r\nx']
ROUTES = {'sheet': '/rooms/{}/days/{}', 'outcome': '/rooms/{}/requests/{}', 'errors': '/rooms/{}/errors', 'position': '/position'}

# What no request asks.
COMMANDS_ALONE = ('calendar', 'commit', 'truncate')

# The bytes of a request to a server, and those of its reply.
Request = collections.namedtuple('Request', 'server data wanted')
# An exchange of a database with a server of that many connections: what is printed, and the status.
Exchange = collections.namedtuple('Exchange', 'mine peer connections printed status')


def get(path):
    return f'GET {path} HTTP/1.1\r\n\r\n'.encode('ascii')


def post(path, body):
    return f'POST {path} HTTP/1.1\r\nHost: 127.0.0.1\r\nContent-Length: {len(body)}\r\n\r\n'.encode('ascii') + body


def words_of(wanted):
    """A reply over HTTP in words."""
    head, body = wanted.decode('ascii').split('\r\n\r\n', 1)
    if 'text/plain' in head:
        return body.rstrip('\n')
    said = json.loads(body)
    if 'error' in said:
        return f'refused {head.split(" ")[1]}'
    if 'refusal' in said:
        return f'refused {said["refusal"]} {said["name"]}'
    slot = f'{said["day"]} {said["start"]}-{said["stop"]}' if said['state'] == 'booked' else said['state']
    return f'{said["id"]} {said["mark"]} {slot}'


class Served(Commands):
    """Each step is a request, while the replicas are served, or a call of the program, while none is."""

    WANTED = Bytes.WANTED + [f'refusal {status}' for status in (400, 404, 405, 413)] + \
        [f'exchange: {lines} lines, status {status}' for lines, status in ((2, 0), (1, 1), (2, 1))]
    UP = {'book': 30, 'cancel': 13, 'outcome': 12, 'sheet': 6, 'errors': 4, 'position': 3, 'batch': 10, 'claim': 5, 'deliver': 7, 'meet': 2, 'forged': 4,
          'bad': 2}
    DOWN = {'commit': 8, 'truncate': 4, 'calendar': 4, 'room': 1, 'bridge': 3, 'book': 1}
    ABSENT = 0

    def begin(self):
        self.is_up, self.left = False, 0
        super().begin()

    def turn(self):
        """Times of being served, which are long, and others in turn."""
        if self.left == 0:
            self.is_up = not self.is_up
            self.left = self.rng.randint(25, 50) if self.is_up else self.rng.randint(3, 7)
        self.left -= 1
        super().turn()

    def kinds(self):
        if self.is_up:
            return self.UP | {'book': 90} if self.has_many else self.UP
        return self.DOWN | {'commit': 1} if self.has_many else self.DOWN

    def take(self, call):
        """Requests alone are counted."""
        self.steps.append(call)

    def request(self, server, kind, data):
        """The words of the reply."""
        wanted = model.serve(self.replicas[server], data)
        self.steps.append(Request(server, data, wanted))
        self.replies += 1
        reply = words_of(wanted)
        self.note_reply(kind, reply)
        return reply

    def at(self, server, kind, *words):
        if not self.is_up or kind in COMMANDS_ALONE:
            return super().at(server, kind, *words)
        if kind in ROUTES:
            return self.request(server, kind, get(ROUTES[kind].format(*words)))
        if kind == 'cancel':
            room, request = words
            members = [('room', json.dumps(room)), ('id', json.dumps(request))]
        else:
            room, length, slots, title = words
            others = json.dumps([{'day': day, 'start': time} for day, time in slots[1:]])
            members = [('room', json.dumps(room)), ('day', json.dumps(slots[0][0])), ('start', json.dumps(slots[0][1])), ('length', length),
                       ('title', json.dumps(title))] + [('alternatives', others)] * (len(slots) > 1 or self.rng.random() < 0.3)
        self.rng.shuffle(members)
        body = written(members, self.rng.choice(['', '', ' ']))
        return self.request(server, kind, post('/submit' if kind == 'book' else '/cancel', body.encode('ascii')))

    def pull(self, maker, position, limit):
        if not self.is_up:
            super().pull(maker, position, limit)
            return
        reply = self.request(maker, 'pull', post('/pull', position))
        if not reply.startswith('refused '):
            self.keep(reply + '\n')

    def push(self, taker, text):
        if self.is_up:
            self.received(text, self.request(taker, 'push', post('/push', text)))
        else:
            super().push(taker, text)

    def ask_bad(self):
        self.request(self.server(), 'bad', self.rng.choice(BAD_REQUESTS))

    def meet(self, office, primary):
        """By requests, or while none is served."""
        self.is_up = self.rng.random() < 0.3
        if self.is_up:
            World.meet(self, office, primary)
        else:
            super().meet(office, primary)

    def exchange_all(self, mine, peer):
        """An exchange, in place of a bridge."""
        lines, status, connections = exchanged(self.replicas[mine], self.replicas[peer])
        self.take(Exchange(mine, peer, connections, printed_as('\n'.join(lines)), status))
        self.note(f'exchange: {len(lines)} lines, status {status}')
        return status


def run_requests(program, number, requests):
    """Each server is asked its requests, and then has ended and printed their statuses."""
    counts = collections.Counter(request.server for request in requests)
    servers = {each: Server(program, f'@{each}.db', count) for each, count in sorted(counts.items())}
    for at, request in enumerate(requests, number):
        expect(f'line {at}, at server {request.server}, {request.data!r}', servers[request.server].ask(request.data), request.wanted)
    for each, server in servers.items():
        lines = [f'serving 127.0.0.1:{server.port}'] + [request.wanted.split(b' ')[1].decode('ascii') for request in requests if request.server == each]
        expect(f'the lines of server {each} up to line {number + len(requests)}', server.end(), (''.join(line + '\n' for line in lines).encode('ascii'), 0))


def run_exchange(program, number, exchange):
    server = Server(program, f'@{exchange.peer}.db', exchange.connections)
    printed = program.call('exchange', f'@{exchange.mine}.db', f'http://127.0.0.1:{server.port}/')
    expect(f'line {number}, server {exchange.mine} exchanges with {exchange.peer}', printed, (exchange.printed, exchange.status))
    expect(f'line {number}, the status of server {exchange.peer}', server.end()[1], 0)


def run(program, world):
    number = 1
    for kind, steps in itertools.groupby(world.steps, type):
        steps = list(steps)
        if kind is Request:
            run_requests(program, number, steps)
        else:
            run_others(program, number, steps)
        number += len(steps)


def run_others(program, number, steps):
    for at, step in enumerate(steps, number):
        (run_call if isinstance(step, Call) else run_exchange)(program, at, step)
