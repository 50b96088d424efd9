"""Worlds: some replicas, what is asked of them, and what a plain form of them replies.

A world is made from its seed alone, before anything of it is asked of the program: its replicas are those of ../oracle.py, which keep
nothing but sets of writes, and a batch or a position is read as ../wire.py reads it. Here is what is asked; how it is asked is told in
scripts.py, commands.py and served.py, for each way by a class of its own.
"""

import collections
import random
import re
import types

import oracle
import settling
import wire
from oracle import Booking, id_text
from turned import turned_batch, turned_position

ROOMS = ['oak', 'elm', 'a-room-of-16-byt']
SERVERS = [1, 2, 3, 9, 10, 50, 98, 99]
NOBODY, OTHER = 97, 77
DAYS = ['1990-01-01', '2024-02-29', '2024-03-01', '2099-12-31']
TIMES = ['08:00', '08:30', '09:00', '09:15', '10:00', '11:30', '14:00', '20:00'] * 4 + ['00:00', '23:30', '23:59']
LENGTHS = ['1', '15', '30', '60'] * 4 + ['90', '240', '1440']
TITLES = ['x', 'Planning', 'Audit of 12', 'a"b~c\\', '1995-12-18 10:00 x', 'y' * 60]
# How many alternatives a request has: each number that code distinguishes, and the few ones most.
COUNTS = [0] * 12 + [1] * 10 + [2, 2, 3, 3, 4, 5, 6, 7, 8, 8, 9, 9, 12, 15, 16, 16, 17]
GREATEST = 999999999999

# What is refused, or is at a limit.
STRANGE = {
    'room': ['ash', 'Oak', 'o_k', 'x' * 16, 'x' * 17],
    'day': ['2023-02-29', '2100-01-01', '1989-12-31', '1990-1-1', '2024-02-30'],
    'time': ['24:00', '9:00', '12:60'],
    'length': ['0', '060', '1441', 'x', '18446744073709551616'],
    'title': ['', ' lead', 'trail ', 'y' * 61],
    'id': ['1-0', '01-1', '1', '100-1', '1-1000000000', '99-999999999', f'{NOBODY}-1'],
}


def size_of(seed):
    """How many replies the world of a seed has, or two more, before it settles: from 40 to 200."""
    return 40 + seed * 37 % 161


def told(replica, kind, words):
    """The reply of a replica, which is changed as by the command."""
    if kind in ('commit', 'truncate'):
        return getattr(replica, kind)(int(words[0]))
    return getattr(replica, {'room': 'add_room'}.get(kind, kind))(*words)


class World:
    """What is asked of some replicas. A class of each way says how: `add`, `at`, `make` and `hand`."""

    # What has to be tried.
    WANTED = [*[f'{count} alternatives' for count in (*range(10), 16, 17)], *[f'place {place}' for place in (*range(10), 16)],
              *[f'logged with {count} alternatives' for count in (*range(10), 16)],
              *[f'{way} mr2 with {count} alternatives' for way in ('given in', 'received in') for count in (*range(10), 16)],
              *[f'refusal {number}' for number in (*range(1, 13), 17, 22)],
              *[f'book: T {state}' for state in ('booked', 'logged')], *[f'cancel: T {state}' for state in ('cancels', 'void')],
              *[f'outcome: {mark} {state}' for mark in 'CT' for state in ('booked', 'logged', 'cancelled', 'cancels', 'void')],
              *[f'a batch of {lines} lines' for lines in (0, 1, 63, 64)], 'ends in E', 'ends in M', 'mr2', 'a cut batch',
              *[f'asked for {lines} lines' for lines in (1, 63, 64, 65)],
              *[f'{lines} there are' for lines in ('one line less than', 'as many lines as', 'one line more than')],
              *[f'took {writes} writes, {commits} commits' for writes in ('some', 'no') for commits in ('some', 'no')],
              'all is dropped', 'one too many is dropped', 'dropped again', 'a target of its own', 'a target of another', 'a committed target',
              'a tentative target', 'a target in another room', 'a cancel as a target', *settling.WANTED]
    # What is asked how often.
    KINDS = {'book': 30, 'cancel': 12, 'outcome': 10, 'sheet': 4, 'calendar': 5, 'errors': 4, 'position': 2, 'room': 1,
             'commit': 7, 'truncate': 5, 'batch': 13, 'deliver': 9, 'meet': 2, 'more': 2}
    MANY = {'book': 150, 'commit': 1}
    # How often a large world is one of many tentative writes, and a replica is asked that isn't there.
    HAVE_MANY, ABSENT = 0.3, 0.01
    # Of so many seeds one has a world that goes on until all settle (settling.py).
    SETTLES = 10

    def __init__(self, seed):
        self.rng = random.Random(f'{type(self).__name__} {seed}')
        self.size = size_of(seed)
        self.replicas, self.pool, self.steps, self.replies, self.tried = {}, [], [], 0, collections.Counter()
        self.others = {}  # replicas that no program stands for, whose batches come nevertheless
        self.rooms = ROOMS[:self.rng.choice([1, 2, 2, 3])]
        self.days = self.rng.sample(DAYS, self.rng.choice([1, 1, 2, 3]))
        self.is_hostile, self.has_many = False, self.size > 120 and self.rng.random() < self.HAVE_MANY
        self.begin()
        while self.replies < self.size:
            self.turn()
        if not self.is_hostile:
            if seed % self.SETTLES == 0:
                settling.settle(self)
            oracle.World.check(types.SimpleNamespace(replicas=self.replicas | self.others))

    def begin(self):
        """The replicas, with their rooms or with none yet. One may come to know the others' writes late."""
        rng, self.first = self.rng, []
        servers = rng.sample(SERVERS, rng.choice([2, 3, 3, 4]))
        self.late = rng.choice([None, servers[-1]])
        for server in servers:
            self.add(server)
            for room in self.rooms:
                if rng.random() < 0.95:
                    self.at(server, 'room', room)

    def new_replica(self, server):
        return oracle.Replica(server, next(iter(self.replicas), server))

    def receive(self, replica, text):
        """The reply to a batch's bytes."""
        return self.received(text, wire.receive(replica, text))

    def received(self, text, reply):
        """The same reply, where it says that the batch was taken with a note of its requests."""
        if reply.startswith('took '):
            self.note_requests('received in', text.decode('latin-1'))
        return reply

    def note_requests(self, way, text):
        """In which version a batch has requests, and with how many alternatives."""
        header, *lines = text.split('\n')[:-1] or ['']
        self.note(*[f'{way} {header[:3]} with {line.split(" ")[8]} alternatives' for line in lines if line.startswith('W ')])

    def kinds(self):
        """What is asked how often: in some worlds mostly for rooms, of one replica, so that much of it is tentative."""
        return self.KINDS | self.MANY if self.has_many else self.KINDS

    def turn(self):
        kinds = self.kinds()
        getattr(self, 'ask_' + self.rng.choices(list(kinds), list(kinds.values()))[0])()

    def note(self, *kinds):
        """What was tried, by names."""
        self.tried.update(kinds)

    def note_reply(self, kind, reply):
        """What a reply in words says."""
        if reply.startswith('refused '):
            self.note(f'refusal {reply.split(" ")[1]}')
        elif kind in ('book', 'cancel', 'outcome'):
            _, mark, state, *_ = reply.split(' ')
            self.note(f'{kind}: {mark} {state if state.isalpha() else "booked"}')
        elif kind == 'push':
            _, writes, _, commits, _ = reply.split(' ')
            self.note(f'took {"some" if writes != "0" else "no"} writes, {"some" if commits != "0" else "no"} commits')
        else:
            self.note(kind)

    # who is asked, and for what

    def server(self, is_taker=False):
        """A server, perhaps one that isn't there; one that is late takes nothing at first."""
        if self.rng.random() < self.ABSENT:
            return NOBODY
        if self.has_many and not is_taker and self.rng.random() < 0.6:
            return next(iter(self.replicas))
        return self.rng.choice([server for server in self.replicas
                                if not is_taker or server != self.late or self.replies > 0.6 * self.size])

    def word(self, kind, usual, chance=0.03):
        return self.rng.choice(STRANGE[kind] if self.rng.random() < chance else usual)

    def a_room(self):
        return self.word('room', self.rooms)

    def a_day(self):
        return self.word('day', self.days)

    def a_write(self, server):
        """A write that the server knows, often one of the latest, or None."""
        replica = self.replicas.get(server)
        writes = sorted(replica.known.values(), key=oracle.Write.stamp) if replica else []
        return self.rng.choice(self.rng.choice([writes, writes[-8:]])) if writes else None

    def slots(self):
        """The wish and the alternatives; where there are many, all but the last may be one slot, so that the last is looked at."""
        rng, count = self.rng, self.rng.choice(COUNTS)
        self.note(f'{count} alternatives')
        slots = [(rng.choice(self.days), rng.choice(TIMES)) for _ in range(count + 1)]
        if count > 3 and rng.random() < 0.5:
            slots[1:-1] = [slots[0]] * (count - 1)
        if rng.random() < 0.04:
            day, time = slots.pop(at := rng.randrange(count + 1))
            slots.insert(at, rng.choice([(rng.choice(STRANGE['day']), time), (day, rng.choice(STRANGE['time']))]))
        return slots

    def ask_book(self):
        slots, title = self.slots(), self.word('title', TITLES, 0.02)
        reply = self.at(self.server(), 'book', self.a_room(), self.word('length', LENGTHS), slots, title)
        if reply and ':' in reply:
            _, _, day, times = reply.split(' ')
            self.note(f'place {slots.index((day, times[:5]))}')
        elif reply and reply.endswith(' logged'):
            self.note(f'logged with {len(slots) - 1} alternatives')

    def ask_cancel(self):
        server = self.server()
        write, room = self.a_write(server), self.a_room()
        request = self.word('id', [f'{server}-1', '1-2', '2-1'])
        if write and self.rng.random() < 0.9:
            request = id_text(write.id())
            room = write.room if self.rng.random() < 0.93 else room
            self.note(*self.names_of_target(server, write, room))
        self.at(server, 'cancel', room, request)

    def names_of_target(self, server, write, room):
        """What a cancel names."""
        if room != write.room:
            return ['a target in another room']
        if not isinstance(write, Booking):
            return ['a cancel as a target']
        is_committed = write.id() in self.replicas[server].commits
        return [f'a {"committed" if is_committed else "tentative"} target', f'a target of {"its own" if write.server == server else "another"}']

    def ask_outcome(self):
        server = self.server()
        write, room, request = self.a_write(server), self.a_room(), self.rng.choice(STRANGE['id'])
        if write and self.rng.random() < 0.9:
            room, request = (write.room if self.rng.random() < 0.95 else room), id_text(write.id())
        self.at(server, 'outcome', room, request)

    def ask_sheet(self):
        self.at(self.server(), 'sheet', self.a_room(), self.a_day())

    def ask_calendar(self):
        self.at(self.server(), 'calendar', self.a_room(), self.rng.choice(['full', 'committed']))

    def ask_errors(self):
        self.at(self.server(), 'errors', self.a_room())

    def ask_position(self):
        self.at(self.server(), 'position')

    def ask_room(self):
        self.at(self.server(), 'room', self.rng.choice(ROOMS + STRANGE['room'][:-1]))

    def ask_commit(self):
        """Mostly at the primary; nothing, some, all, or more than there is."""
        primary = next(iter(self.replicas))
        server = primary if self.rng.random() < 0.85 else self.server()
        size = len(self.replicas[primary].tentative())
        self.at(server, 'commit', str(self.rng.choice([0, 1, 2, 3, 5, max(0, size - 1), size, size + 1, GREATEST])))

    def ask_truncate(self):
        """Around what was dropped, and what is committed."""
        server = self.server()
        replica = self.replicas.get(server)
        dropped, known = (replica.dropped, len(replica.commits)) if replica else (0, 0)
        number = self.rng.choice([0, dropped - 1, dropped, dropped + 1, known // 2, known // 2, known - 1, known, known + 1, GREATEST])
        self.note(*[name for name, edge in (('all is dropped', known), ('one too many is dropped', known + 1), ('dropped again', dropped)) if number == edge > 0])
        self.at(server, 'truncate', str(max(0, number)))

    # batches

    def limit(self, maker, taker):
        """How many lines a batch may have: each number that code distinguishes, and those around what there is."""
        size = self.lines_for(maker, taker)
        limit = max(1, self.rng.choice(([1, 2, 5, 100000, 100000] if size < 63 else []) + [63, 64, 65, size - 1, size, size + 1]))
        self.note(*[f'asked for {limit} lines'] if limit in (1, 63, 64, 65) else [])
        self.note(*[f'{name} there are' for name, edge in (('one line less than', size - 1), ('as many lines as', size), ('one line more than', size + 1)) if limit == edge])
        return limit

    def lines_for(self, maker, taker):
        """How many lines the one replica has for the other."""
        if maker not in self.replicas or taker not in self.replicas:
            return 0
        lines = self.replicas[maker].batch_for(self.replicas[taker], 1000000)
        return 0 if isinstance(lines, str) else len(lines) - 2

    def keep(self, text):
        """A batch that was made, to be handed to anybody at any time."""
        self.pool.append(text)
        self.note_requests('given in', text)
        lines = text.count('\n') - 2
        self.note(text[:3], 'ends in ' + text[-2], *[f'a batch of {lines} lines', f'{lines} lines and {text[-2]}'] if lines in (0, 1, 63, 64, 65) else [])

    def ask_batch(self):
        """A batch, mostly for another replica, and mostly handed to it soon."""
        maker, taker, size = self.server(), self.server(is_taker=True), len(self.pool)
        if maker == taker:
            taker = self.server(is_taker=True)
        self.make(maker, taker, self.limit(maker, taker))
        if len(self.pool) > size and self.rng.random() < 0.7:
            self.hand(len(self.pool), taker, self.front(self.pool[-1]))

    def front(self, text):
        """How many bytes of a text come: all, or some, with the edges of lines; perhaps more than there are."""
        rng = self.rng
        if rng.random() < 0.6:
            return None
        ends = [match.end() for match in re.finditer('\n', text)] or [0]
        edge = rng.choice(ends) + rng.choice([-1, 0, 1])
        self.note('a cut batch')
        return max(0, rng.choice([0, 1, ends[0] - 1, ends[0], edge, edge, edge, len(text) - 1, len(text) + 3, rng.randint(0, len(text))]))

    def ask_deliver(self):
        """Mostly one of the latest batches."""
        if self.pool:
            number = self.rng.randint(max(1, len(self.pool) - 5), len(self.pool)) if self.rng.random() < 0.85 else self.rng.randint(1, len(self.pool))
            self.hand(number, self.server(is_taker=True), self.front(self.pool[number - 1]))

    def exchange(self, one, other):
        """All that each has for the other."""
        for maker, taker in ((one, other), (other, one)):
            size = len(self.pool)
            self.make(maker, taker, 100000)
            if len(self.pool) > size:
                self.hand(len(self.pool), taker, None)

    def bring(self, maker, taker, limit):
        """All that the one has for the other, in batches of at most so many lines. What the first text can't say is asked for in the second; else no
        batch may be refused."""
        is_whole = False
        while not is_whole:
            size = len(self.pool)
            self.make(maker, taker, limit)
            if len(self.pool) > size:
                self.hand(len(self.pool), taker, None)
                is_whole = self.pool[-1].endswith('E\n')
            else:
                self.first.remove(taker)

    def meet(self, office, primary):
        """An office exchanges with the primary, in both directions."""
        lines = max(self.lines_for(office, primary), self.lines_for(primary, office))
        limit = self.rng.choice([64, 100000] if lines > 12 else [1, 2, 5, 64])
        for maker, taker in ((office, primary), (primary, office)):
            self.bring(maker, taker, limit)
        self.note(*['settled in batches of one line'] * (limit == 1 and lines > 1))

    def ask_meet(self):
        """Two exchange, and answer alike."""
        one, other = self.rng.sample(sorted(self.replicas), 2)
        self.exchange(one, other)
        room = self.rng.choice(self.rooms)
        for server in (one, other):
            self.at(server, 'errors', room)
            self.at(server, 'sheet', room, self.rng.choice(self.days))


class Bytes(World):
    """A world in which batches and positions are bytes, and may come from anybody."""

    WANTED = World.WANTED + ['mr1', '64 lines and E', '64 lines and M', *[f'refusal {number}' for number in (13, 15, 16, *range(18, 24), 27)],
                             *[f'{way} mr1 with {count} alternatives' for way in ('given in', 'received in') for count in range(9)]]
    KINDS = World.KINDS | {'batch': 10, 'claim': 4, 'deliver': 7, 'forged': 4}
    SETTLES = 25

    def begin(self):
        """Some ask in the first version. In some worlds lines come that nobody wrote."""
        self.is_hostile = self.rng.random() < 0.25
        super().begin()
        self.first = [server for server in self.replicas if self.rng.random() < 0.25]
        if self.has_many:
            self.bring_many()

    def bring_many(self):
        """One knows some sixty writes from the beginning, of an office that isn't asked anything."""
        taker = self.rng.choice(list(self.replicas))
        other = self.others[OTHER] = oracle.Replica(OTHER, self.replicas[taker].primary)
        for room in self.rooms:
            other.add_room(room)
        for number in range(self.rng.randint(58, 70)):
            room, slots = self.rng.choice(self.rooms), [(self.rng.choice(self.days), self.rng.choice(TIMES)) for _ in range(self.rng.choice([1, 1, 2]))]
            reply = other.book(room, self.rng.choice(LENGTHS[:12]), slots, self.rng.choice(TITLES))
            if number % 9 == 8:
                other.cancel(room, reply.split(' ')[0])
        self.pool.append(''.join(line + '\n' for line in other.batch_for(self.replicas[taker], 1000)))
        self.hand(1, taker, None)

    def offices(self):
        """The replicas, as turned.py wants them."""
        Office = collections.namedtuple('Office', 'replica')
        return [Office(replica) for replica in self.replicas.values()]

    def position_of(self, server):
        """The bytes in which this replica asks."""
        text = self.replicas[server].position() + '\n'
        return (text.replace('mp2', 'mp1', 1) if server in self.first else text).encode('ascii')

    def make(self, maker, taker, limit):
        reply = self.at(taker, 'position')
        if reply and taker in self.replicas:
            self.pull(maker, self.position_of(taker), limit)

    def hand(self, number, taker, size):
        text = self.pool[number - 1]
        self.push(taker, (text if size is None else text[:size]).encode('ascii'))

    def ask_claim(self):
        """A position that claims what nobody has, or so that as many lines lack as code distinguishes; or a turned one."""
        maker = self.rng.choice(sorted(self.replicas))
        replica, kind = self.replicas[maker], self.rng.random()
        if kind < 0.3:
            text = turned_position(self.rng, replica, self.offices())
        elif kind < 0.5:
            text = f'mp{self.rng.choice([1, 2])} 9 {replica.primary}\nK {max(0, self.rng.choice([0, replica.dropped - 1, replica.dropped]))}\nE\n'.encode('ascii')
        else:
            text = self.claim(replica, self.rng.choice([63, 64, 64, 65] if len(replica.tentative()) > 62 else [0, 1, 2, 5]))
        self.pull(maker, text, self.rng.choice([1, 2, 63, 64, 65, 100000]))

    def claim(self, replica, lines):
        """A position that lacks so many tentative writes of the replica, or all of them."""
        counts = replica.counts()
        committed = {server: sum(1 for each, _ in replica.commits if each == server) for server in counts}
        while lines > 0 and any(counts[server] > committed[server] for server in counts):
            server = self.rng.choice([server for server in counts if counts[server] > committed[server]])
            counts[server] -= 1
            lines -= 1
        rows = ''.join(f'V {server} {count}\n' for server, count in counts.items() if count)
        return f'mp{self.rng.choice([1, 2, 2])} 9 {replica.primary}\nK {len(replica.commits)}\n{rows}E\n'.encode('ascii')

    def ask_forged(self):
        """A batch that was turned, or that nobody made; near the end one of the greatest time. Honest worlds have texts alone that are refused."""
        taker = self.rng.choice(sorted(self.replicas))
        replica = self.replicas[taker]
        if not self.is_hostile:
            other = self.rng.choice([f'mr2 9 {replica.primary % 99 + 1}\nE\n', f'mr1 9 {replica.primary}\nX 9 1 1 oak 1 1\nE\n', f'mr2 9 {replica.primary}\nE\nM\n', '\n'])
            self.push(taker, other.encode('ascii'))
        elif self.replies > 0.8 * self.size and self.rng.random() < 0.3:
            self.push(taker, f'mr2 {OTHER} {replica.primary}\nW {OTHER} {replica.count(OTHER) + 1} {GREATEST} oak 30 2024-03-01 09:00 0 Last\nE\n'.encode('ascii'))
        else:
            self.push(taker, turned_batch(self.rng, replica, self.offices()))
