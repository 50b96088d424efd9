#!/usr/bin/env python3
"""An oracle: a plain form of the scheduler, and scripts that are generated from a seed.

    oracle.py SEED LINES REPLICAS SCRIPT EXPECTED

writes a script of about that many lines to the file SCRIPT, and to EXPECTED what the program has to print for it. Here a replica
is the set of the writes that it knows and the list of commits; each answer replays a room's whole list from an empty calendar.
Nothing is kept beside, and nothing is ever undone. What holds of every world is checked of the replicas after each exchange.

The variable ROOMS_RULES of the environment chooses the rules of all tests in Python: `second` for cancels and the second exchange
text, if it isn't set; `bookings` and `cancels` are those of earlier programs.
"""

import collections
import datetime
import os
import random
import re
import sys

# How many alternatives a request may have, whether requests can be cancelled, and the exchange text that a replica asks for.
Rules = collections.namedtuple('Rules', 'alternatives has_cancels version')
RULES = {'bookings': Rules(8, False, 1), 'cancels': Rules(16, True, 1),
         'second': Rules(16, True, 2)}[os.environ.get('ROOMS_RULES', 'second')]
# How many alternatives each version of the exchange text can say.
MOST_TOLD = {1: 8, 2: 16}

WEEKDAYS = ['Monday', 'Tuesday', 'Wednesday', 'Thursday', 'Friday', 'Saturday', 'Sunday']


def refused(number, name, line=None):
    return f'refused {number} {name}' + ('' if line is None else f' {line}')


def day_of(text):
    if not re.fullmatch(r'[0-9]{4}-[0-9]{2}-[0-9]{2}', text):
        return None
    try:
        day = datetime.date.fromisoformat(text)
    except ValueError:
        return None
    return day if 1990 <= day.year <= 2099 else None


def minute_of(text):
    if not re.fullmatch(r'[0-9]{2}:[0-9]{2}', text):
        return None
    hour, minute = int(text[:2]), int(text[3:])
    return 60 * hour + minute if hour < 24 and minute < 60 else None


def time_text(minute):
    return f'{minute // 60:02}:{minute % 60:02}'


def span(start, length):
    return f'{time_text(start)}-{time_text(start + length)}'


def is_number(text):
    return re.fullmatch(r'0|[1-9][0-9]*', text) is not None


def is_room(text):
    return re.fullmatch(r'[a-z0-9-]{1,16}', text) is not None


def is_title(text):
    return re.fullmatch(r'[ -~]{1,60}', text) is not None and text[0] != ' ' and text[-1] != ' '


def read_id(text):
    match = re.fullmatch(r'([1-9][0-9]?)-([1-9][0-9]{0,8})', text)
    return (int(match[1]), int(match[2])) if match else None


def id_text(request):
    return f'{request[0]}-{request[1]}'


class Write:
    """What bookings and cancels share: a stamp and a room."""

    def __init__(self, server, n, time, room):
        self.server, self.n, self.time, self.room = server, n, time, room

    def id(self):
        return (self.server, self.n)

    def stamp(self):
        return (self.time, self.server)


class Booking(Write):
    """A request for a room: the slots that it may take, the wish first. Times are minutes."""

    def __init__(self, server, n, time, room, length, choices, title):
        super().__init__(server, n, time, room)
        self.length, self.choices, self.title = length, choices, title

    def slot_text(self, choice):
        day, start = self.choices[choice]
        return f'{day} {span(start, self.length)}'

    def line(self):
        slots = [f'{day} {time_text(start)}' for day, start in self.choices]
        others = ''.join(' ' + slot for slot in slots[1:])
        return (f'W {self.server} {self.n} {self.time} {self.room} {self.length} {slots[0]} '
                f'{len(slots) - 1}{others} {self.title}')

    def is_told(self, version):
        """The exchange text of this version can say it."""
        return len(self.choices) - 1 <= MOST_TOLD[version]


class Cancel(Write):
    """A request that the booking with the id `target` be taken back."""

    def __init__(self, server, n, time, room, target):
        super().__init__(server, n, time, room)
        self.target = target

    def line(self):
        return f'X {self.server} {self.n} {self.time} {self.room} {self.target[0]} {self.target[1]}'

    def is_told(self, version):
        return version > 1


# A write, its mark, its place (the number of the choice that a booking takes, 'logged', 'done' or 'void'), and of a booking that was
# taken back the entry of the cancel that did it.
Entry = collections.namedtuple('Entry', 'write mark place cancel')


def replay(writes):
    """The place of each write of one room, executed one after the other from an empty calendar, and the index of the cancel that took
    it back, or None."""
    places, cancels = [], [None] * len(writes)
    for index, write in enumerate(writes):
        standing = [at for at in range(index) if isinstance(places[at], int) and cancels[at] is None]
        if isinstance(write, Cancel):
            targets = [at for at in standing if writes[at].id() == write.target]
            for at in targets:
                cancels[at] = index
            places.append('done' if targets else 'void')
        else:
            taken = [(writes[at].choices[places[at]], writes[at].length) for at in standing]
            places.append(next((number for number, choice in enumerate(write.choices) if is_free(choice, write.length, taken)), 'logged'))
    return list(zip(places, cancels))


def is_free(choice, length, taken):
    """None of the slots that are taken has a minute of this choice."""
    day, start = choice
    return all(day != d or start + length <= s or s + size <= start for (d, s), size in taken)


class Replica:
    def __init__(self, server, primary):
        self.server, self.primary = server, primary
        self.known, self.commits, self.dropped, self.rooms = {}, [], 0, set()
        self.version = RULES.version

    def count(self, server):
        return max((n for s, n in self.known if s == server), default=0)

    def clock(self):
        return max((write.time for write in self.known.values()), default=0)

    def last_time(self, server):
        return max((write.time for (s, _), write in self.known.items() if s == server), default=0)

    def tentative(self):
        committed = set(self.commits)
        return sorted((w for i, w in self.known.items() if i not in committed), key=Write.stamp)

    def told(self, room, committed_alone=False):
        """The entries of a room's writes in the order of execution, of all or of the committed ones alone."""
        committed = [self.known[i] for i in self.commits if self.known[i].room == room]
        others = [] if committed_alone else [w for w in self.tentative() if w.room == room]
        writes, marks = committed + others, ['C'] * len(committed) + ['T'] * len(others)
        return [Entry(write, mark, place, None if cancel is None else Entry(writes[cancel], marks[cancel], 'done', None))
                for write, mark, (place, cancel) in zip(writes, marks, replay(writes))]

    def standing(self, told):
        """The bookings that stand at the end: day, start, write and mark, by day and start."""
        rows = [(*entry.write.choices[entry.place], entry.write, entry.mark) for entry in told
                if isinstance(entry.place, int) and entry.cancel is None]
        return sorted(rows, key=lambda row: (row[0], row[1]))

    def room_fault(self, room):
        if not is_room(room):
            return refused(4, 'BadRoomName')
        return None if room in self.rooms else refused(7, 'UnknownRoom')

    def add_room(self, room):
        if not is_room(room):
            return refused(4, 'BadRoomName')
        if room in self.rooms:
            return refused(8, 'RoomThere')
        self.rooms.add(room)
        return 'ok'

    def book(self, room, length, slots, title):
        if any(day_of(day) is None for day, _ in slots):
            return refused(1, 'BadDay')
        if any(minute_of(time) is None for _, time in slots):
            return refused(2, 'BadTime')
        starts = [minute_of(time) for _, time in slots]
        fits = is_number(length) and 1 <= int(length) <= 1440 and all(s + int(length) <= 1440 for s in starts)
        if not fits:
            return refused(3, 'BadLength')
        if not is_room(room):
            return refused(4, 'BadRoomName')
        if not is_title(title):
            return refused(5, 'BadTitle')
        if len(slots) > RULES.alternatives + 1:
            return refused(6, 'TooManyAlternatives')
        if room not in self.rooms:
            return refused(7, 'UnknownRoom')
        choices = [(day, start) for (day, _), start in zip(slots, starts)]
        return self.number_fault() or self.accept(Booking(*self.next_stamp(), room, int(length), choices, title))

    def cancel(self, room, text):
        target = self.known.get(read_id(text))
        if self.room_fault(room):
            return self.room_fault(room)
        if not isinstance(target, Booking) or target.room != room:
            return refused(9, 'NoSuchRequest')
        return self.number_fault() or self.accept(Cancel(*self.next_stamp(), room, target.id()))

    def number_fault(self):
        """Of a new write: no time or no count is left for it."""
        if self.clock() == 999999999999:
            return refused(13, 'ClockExhausted')
        return refused(14, 'CountExhausted') if self.count(self.server) == 999999999 else None

    def next_stamp(self):
        return self.server, self.count(self.server) + 1, self.clock() + 1

    def accept(self, write):
        """A new write of its own; its outcome."""
        self.known[write.id()] = write
        return self.outcome_of(write.room, write.id())

    def outcome_of(self, room, request):
        for entry in self.told(room):
            if entry.write.id() == request:
                return f'{id_text(request)} {entry.mark} {self.fate(entry)}'
        return refused(9, 'NoSuchRequest')

    def fate(self, entry):
        """What became of a write, in words."""
        if entry.place in ('done', 'void'):
            return f'{"cancels" if entry.place == "done" else "void"} {id_text(entry.write.target)}'
        if entry.place == 'logged':
            return 'logged'
        if entry.cancel:
            return f'cancelled {entry.cancel.mark} {id_text(entry.cancel.write.id())}'
        return entry.write.slot_text(entry.place)

    def outcome(self, room, text):
        return self.room_fault(room) or self.outcome_of(room, read_id(text))

    def sheet(self, room, day):
        if day_of(day) is None:
            return refused(1, 'BadDay')
        fault = self.room_fault(room)
        if fault:
            return fault
        rows = [f'{span(start, w.length)} {mark} {w.server}-{w.n} {w.title}'
                for d, start, w, mark in self.standing(self.told(room)) if d == day]
        return '\n'.join([f'{room} {day} {WEEKDAYS[day_of(day).weekday()]}'] + (rows or ['(no bookings)']))

    def calendar(self, room, part):
        fault = self.room_fault(room)
        if fault:
            return fault
        rows = [f'{day} {span(start, w.length)} {mark} {w.server}-{w.n} {w.title}'
                for day, start, w, mark in self.standing(self.told(room, part == 'committed'))]
        return '\n'.join([f'{room} {part}'] + (rows or ['(no bookings)']))

    def errors(self, room):
        fault = self.room_fault(room)
        if fault:
            return fault
        rows = [f'{entry.mark} {id_text(entry.write.id())} ' + (f'cancel {id_text(entry.write.target)}' if entry.place == 'void'
                else f'{entry.write.slot_text(0)} {entry.write.title}')
                for entry in self.told(room) if entry.place in ('logged', 'void')]
        return '\n'.join([f'{room} errors'] + (rows or ['(no errors)']))

    def commit(self, k):
        if self.server != self.primary:
            return refused(10, 'NotPrimary')
        first = [write.id() for write in self.tentative()[:k]]
        self.commits += first
        return f'committed {len(first)}'

    def truncate(self, number):
        if self.server == self.primary:
            return refused(11, 'PrimaryKeepsAll')
        if number > len(self.commits):
            return refused(12, 'BeyondCommitted')
        self.dropped = max(self.dropped, number)
        return f'dropped {self.dropped}'

    def counts(self):
        return {server: self.count(server) for server in sorted({s for s, _ in self.known})}

    def position(self):
        counts = [f'V {server} {count}' for server, count in self.counts().items()]
        return '\n'.join([f'mp{self.version} {self.server} {self.primary}', f'K {len(self.commits)}'] + counts + ['E'])

    def batch_for(self, other, limit):
        """The lines of the batch for what the other replica has, in the version in which it says so, or the refusal."""
        if len(other.commits) < self.dropped:
            return refused(22, 'Truncated')
        counts, items = other.counts(), []
        for number, request in enumerate(self.commits[len(other.commits):], len(other.commits) + 1):
            write = self.known[request]
            items += [write] if write.n > counts.get(write.server, 0) else []
            items.append(f'C {number} {write.server} {write.n}')
        items += [write for write in self.tentative() if write.n > counts.get(write.server, 0)]
        given = items[:limit]
        if not all(isinstance(item, str) or item.is_told(other.version) for item in given):
            return refused(27, 'NeedsVersion2')
        lines = [item if isinstance(item, str) else item.line() for item in given]
        return [f'mr{other.version} {self.server} {self.primary}'] + lines + ['M' if len(items) > limit else 'E']

    def receive(self, text):
        lines = text.split('\n')[:-1]
        if not lines:
            return 'took 0 writes 0 commits'
        new = Replica(self.server, self.primary)
        new.known, new.commits, new.dropped, new.rooms = dict(self.known), list(self.commits), self.dropped, set(self.rooms)
        writes = commits = 0
        for number, line in enumerate(lines[1:], 2):
            if line in ('E', 'M'):
                continue
            verdict = new.take(number, line)
            if isinstance(verdict, str):
                return verdict
            writes, commits = writes + verdict[0], commits + verdict[1]
        self.known, self.commits, self.rooms = new.known, new.commits, new.rooms
        return f'took {writes} writes {commits} commits'

    def take(self, number, line):
        words = line.split(' ')
        if words[0] == 'C':
            return self.take_commit(number, int(words[1]), (int(words[2]), int(words[3])))
        if words[0] == 'X':
            server, n, time, room, *target = words[1:]
            return self.take_write(number, Cancel(int(server), int(n), int(time), room, tuple(map(int, target))))
        extra = int(words[8])
        slots = [words[6:8]] + [words[9 + 2 * i:11 + 2 * i] for i in range(extra)]
        choices = [(day, minute_of(time)) for day, time in slots]
        write = Booking(int(words[1]), int(words[2]), int(words[3]), words[4], int(words[5]), choices,
                        ' '.join(words[9 + 2 * extra:]))
        return self.take_write(number, write)

    def take_write(self, number, write):
        if write.n <= self.count(write.server):
            dropped = write.id() in self.commits[:self.dropped]
            same = self.known[write.id()].line() == write.line()
            return (0, 0) if dropped or same else refused(19, 'Forged', number)
        if write.server == self.server:
            return refused(20, 'OwnWrite', number)
        if write.n > self.count(write.server) + 1:
            return refused(17, 'Gap', number)
        if write.time <= self.last_time(write.server):
            return refused(18, 'OutOfOrder', number)
        self.known[write.id()] = write
        self.rooms.add(write.room)
        return (1, 0)

    def take_commit(self, number, seq, request):
        if seq <= self.dropped:
            return (0, 0)
        if seq <= len(self.commits):
            return (0, 0) if self.commits[seq - 1] == request else refused(19, 'Forged', number)
        if self.server == self.primary:
            return refused(21, 'PrimaryOnly', number)
        if seq > len(self.commits) + 1 or request[1] > self.count(request[0]):
            return refused(17, 'Gap', number)
        if request[1] != sum(1 for server, _ in self.commits if server == request[0]) + 1:
            return refused(18, 'OutOfOrder', number)
        self.commits.append(request)
        return (0, 1)


class World:
    def __init__(self, rng):
        self.rng, self.replicas, self.pool, self.script, self.replies = rng, {}, [], [], []
        self.cancelling = []

    def say(self, line, reply):
        self.script.append(line)
        self.replies.append(reply)

    def add(self, server):
        if server in self.replicas:
            return self.say(f'replica {server}', 'there')
        first = next(iter(self.replicas), server)
        self.replicas[server] = Replica(server, first)
        return self.say(f'replica {server}', 'ok')

    def at(self, server, line, answer):
        replica = self.replicas.get(server)
        self.say(line, answer(replica) if replica else 'no replica')

    def make(self, maker, taker, limit):
        line = f'batch {maker} {taker} {limit}'
        if maker not in self.replicas or taker not in self.replicas:
            return self.say(line, 'no replica')
        lines = self.replicas[maker].batch_for(self.replicas[taker], limit)
        if isinstance(lines, str):
            return self.say(line, lines)
        text = ''.join(each + '\n' for each in lines)
        self.pool.append(text)
        return self.say(line, f'batch {len(self.pool)} {len(text)} bytes')

    def deliver(self, batch, taker, count):
        line = f'deliver {batch} {taker} {"all" if count is None else count}'
        if taker not in self.replicas:
            return self.say(line, 'no replica')
        if not 1 <= batch <= len(self.pool):
            return self.say(line, 'no batch')
        text = self.pool[batch - 1]
        reply = self.replicas[taker].receive(text if count is None else text[:count])
        assert reply.startswith('took ') or ' Gap ' in reply, reply
        self.check()
        return self.say(line, reply)

    def check(self):
        """What holds of every world."""
        primary = next(iter(self.replicas.values()))
        assert primary.dropped == 0
        places = {}
        for replica in self.replicas.values():
            assert replica.commits == primary.commits[:len(replica.commits)]
            for (server, n), write in replica.known.items():
                own = self.replicas[server].known[(server, n)]
                assert own.line() == write.line()
            for room in {write.room for write in replica.known.values()}:
                for entry in replica.told(room):
                    if entry.mark == 'C':
                        assert places.setdefault(entry.write.id(), entry.place) == entry.place

    def exchange(self, one, other):
        """Both ways, whole, with no other step between: both then answer alike."""
        made = []
        for maker, taker in ((one, other), (other, one)):
            size = len(self.pool)
            self.make(maker, taker, 100000)
            if len(self.pool) == size:
                return
            self.deliver(len(self.pool), taker, None)
            made.append(maker)
        a, b = self.replicas[one], self.replicas[other]
        assert a.commits == b.commits and a.counts() == b.counts()
        for room in sorted(a.rooms & b.rooms):
            for server in (one, other):
                self.at(server, f'calendar {server} {room} full', lambda r: r.calendar(room, 'full'))
            assert self.replies[-1] == self.replies[-2]
            assert a.errors(room) == b.errors(room) and a.calendar(room, 'committed') == b.calendar(room, 'committed')

    def begin_cancels(self):
        """Which servers cancel, and ask for more alternatives than the first exchange text can say: all where the second one is used,
        else some, since they can't hand on what they have then."""
        servers = list(self.replicas)
        if RULES.has_cancels:
            number = len(servers) if RULES.version > 1 else self.rng.randint(1, max(1, len(servers) - 1))
            self.cancelling = sorted(self.rng.sample(servers, number))

    def turn(self):
        if self.cancelling and self.rng.random() < 0.12:
            self.cancel(self.rng.choice(self.cancelling))
        else:
            self.step()

    def cancel(self, server):
        """A cancel, mostly of a write that is known, and perhaps what became of another one."""
        rng, replica = self.rng, self.replicas[server]
        writes = sorted(replica.known.values(), key=Write.stamp)
        some = rng.choice([writes, writes[-10:]])
        room, request = rng.choice(['oak', 'elm', 'ash', 'Oak']), rng.choice([f'{server}-{rng.randint(1, 40)}', '1-0', '01-1', '1'])
        if some and rng.random() < 0.92:
            write = rng.choice(some)
            room, request = write.room if rng.random() < 0.95 else room, id_text(write.id())
        self.at(server, f'cancel {server} {room} {request}', lambda r: r.cancel(room, request))
        if some and rng.random() < 0.4:
            other = rng.choice(some)
            request = id_text(other.id())
            self.at(server, f'outcome {server} {other.room} {request}', lambda r: r.outcome(other.room, request))

    def too_many(self, server):
        """A number of alternatives that is refused, or that not every replica can hand on."""
        if not RULES.has_cancels:
            return 9
        return self.rng.choice([9, 16, 17]) if server in self.cancelling else 17

    def step(self):
        rng = self.rng
        servers = list(self.replicas)
        server = rng.choice(servers) if rng.random() < 0.98 else 99
        room = rng.choice(['oak', 'elm', 'ash', 'yew-2']) if rng.random() < 0.97 else rng.choice(['Oak', 'no-such', 'x' * 17])
        day = rng.choice(['2024-02-29', '2024-03-01', '2099-12-31']) if rng.random() < 0.97 else rng.choice(['2023-02-29', '2100-01-01', '1990-1-1'])
        kind = rng.random()
        if kind < 0.05:
            self.at(server, f'room {server} {room}', lambda r: r.add_room(room))
        elif kind < 0.40:
            self.book(server, room, day)
        elif kind < 0.46:
            self.at(server, f'sheet {server} {room} {day}', lambda r: r.sheet(room, day))
        elif kind < 0.49:
            part = rng.choice(['full', 'committed'])
            self.at(server, f'calendar {server} {room} {part}', lambda r: r.calendar(room, part))
        elif kind < 0.52:
            self.at(server, f'errors {server} {room}', lambda r: r.errors(room))
        elif kind < 0.56:
            request = rng.choice([f'{rng.choice(servers)}-{rng.randint(1, 40)}', '1-0', '01-1', '1'])
            self.at(server, f'outcome {server} {room} {request}', lambda r: r.outcome(room, request))
        elif kind < 0.58:
            self.at(server, f'position {server}', lambda r: r.position())
        elif kind < 0.63:
            server, k = (servers[0] if rng.random() < 0.8 else server), rng.randint(0, 6)
            self.at(server, f'commit {server} {k}', lambda r: r.commit(k))
        elif kind < 0.66:
            number = rng.randint(0, 12)
            self.at(server, f'truncate {server} {number}', lambda r: r.truncate(number))
        elif kind < 0.80:
            self.make(server, rng.choice(servers), rng.choice([1, 2, 5, 64, 100000]))
        elif kind < 0.97:
            self.send(rng.choice(servers))
        else:
            pair = rng.sample(servers, 2) if len(servers) > 1 else None
            if pair:
                self.exchange(*pair)

    def book(self, server, room, day):
        rng = self.rng
        length = rng.choice(['30', '60', '90', '15', '240']) if rng.random() < 0.97 else rng.choice(['0', '060', '1441', 'x'])
        times = ['08:00', '08:30', '09:00', '09:15', '10:00', '11:30', '14:00', '23:30']
        time = rng.choice(times) if rng.random() < 0.97 else rng.choice(['24:00', '9:00'])
        others = [(day, rng.choice(times)) for _ in range(rng.choice([0, 0, 1, 2, 3, self.too_many(server) if rng.random() < 0.1 else 1]))]
        title = rng.choice(['Planning', 'Audit of 12', 'Interview', 'a"b~c']) if rng.random() < 0.98 else rng.choice(['', ' lead', 'y' * 61])
        words = ' '.join([f'book {server} {room} {length} {day} {time} {len(others)}'] + [f'{d} {t}' for d, t in others])
        self.at(server, f'{words} {title}', lambda r: r.book(room, length, [(day, time)] + others, title))

    def send(self, taker):
        rng = self.rng
        batch = rng.randint(max(1, len(self.pool) - 6), len(self.pool)) if self.pool and rng.random() < 0.9 else rng.randint(0, len(self.pool) + 1)
        size = len(self.pool[batch - 1]) if 1 <= batch <= len(self.pool) else 9
        self.deliver(batch, taker, None if rng.random() < 0.6 else rng.randint(0, size + 3))


def main():
    seed, lines, replicas, script, expected = sys.argv[1:]
    world = World(random.Random(int(seed)))
    for server in random.Random(int(seed)).sample(range(1, 20), int(replicas)):
        world.add(server)
        for room in ('oak', 'elm'):
            world.at(server, f'room {server} {room}', lambda r: r.add_room(room))
    world.begin_cancels()
    while len(world.script) < int(lines):
        world.turn()
    with open(script, 'w', encoding='ascii') as out:
        out.write(''.join(line + '\n' for line in world.script))
    with open(expected, 'w', encoding='ascii') as out:
        out.write(''.join(reply + '\n' for reply in world.replies))


if __name__ == '__main__':
    main()
